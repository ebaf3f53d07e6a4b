// What players call tiles, yaku and the rest, in the chosen language.

import { isRed, kindOf } from "./tiles.js";
import { isPhrase, isPlainEnglish, language, phrase } from "./words.js";

// Of each yaku: romanised, and in script. The first is the word of the answers.
const YAKU = {
  "riichi": ["riichi", "立直"],
  "double-riichi": ["double riichi", "両立直"],
  "ippatsu": ["ippatsu", "一発"],
  "fully-concealed": ["menzen tsumo", "門前清自摸和"],
  "pinfu": ["pinfu", "平和"],
  "pure-double-chow": ["iipeiko", "一盃口"],
  "all-simples": ["tanyao", "断幺九"],
  "white-dragon": ["yakuhai haku", "役牌 白"],
  "green-dragon": ["yakuhai hatsu", "役牌 發"],
  "red-dragon": ["yakuhai chun", "役牌 中"],
  "seat-wind": ["yakuhai jikaze", "役牌 自風"],
  "prevalent-wind": ["yakuhai bakaze", "役牌 場風"],
  "after-a-kong": ["rinshan kaiho", "嶺上開花"],
  "robbing-the-kong": ["chankan", "槍槓"],
  "last-tile": ["haitei / houtei", "海底摸月 / 河底撈魚"],
  "mixed-triple-chow": ["sanshoku doujun", "三色同順"],
  "pure-straight": ["ittsu", "一気通貫"],
  "outside-hand": ["chanta", "混全帯幺九"],
  "seven-pairs": ["chiitoitsu", "七対子"],
  "triple-pung": ["sanshoku doukou", "三色同刻"],
  "three-kongs": ["sankantsu", "三槓子"],
  "all-pungs": ["toitoi", "対々和"],
  "three-concealed-pungs": ["sanankou", "三暗刻"],
  "little-three-dragons": ["shousangen", "小三元"],
  "all-terminals-and-honours": ["honroutou", "混老頭"],
  "half-flush": ["honitsu", "混一色"],
  "terminals-in-all-sets": ["junchan", "純全帯幺九"],
  "twice-pure-double-chow": ["ryanpeikou", "二盃口"],
  "full-flush": ["chinitsu", "清一色"],
  "thirteen-orphans": ["kokushi musou", "国士無双"],
  "nine-gates": ["chuuren poutou", "九蓮宝燈"],
  "four-concealed-pungs": ["suuankou", "四暗刻"],
  "big-three-dragons": ["daisangen", "大三元"],
  "little-four-winds": ["shousuushii", "小四喜"],
  "big-four-winds": ["daisuushii", "大四喜"],
  "all-honours": ["tsuuiisou", "字一色"],
  "all-terminals": ["chinroutou", "清老頭"],
  "all-green": ["ryuuiisou", "緑一色"],
  "four-kongs": ["suukantsu", "四槓子"],
  "blessing-of-heaven": ["tenhou", "天和"],
  "blessing-of-earth": ["chiihou", "地和"],
  "blessing-of-man": ["renhou", "人和"],
};
// The yaku that has a name for each way of winning.
const LAST_TILE = { tsumo: ["haitei", "海底摸月"], ron: ["houtei", "河底撈魚"] };

const HONOUR_WORDS = ["E", "S", "W", "N", "haku", "hatsu", "chun"];

// A word of the page; one that has no name is itself.
export function named(word) {
  return isPhrase(`@${word}`) ? phrase(`@${word}`) : word;
}

// The number of a tile as it is read aloud.
export function digitName(tile) {
  const [digit] = kindOf(tile);
  return isRed(tile) ? phrase("red digit", { digit }) : digit;
}

// The name of a tile as it is read aloud.
export function tileName(tile) {
  const [digit, suit] = kindOf(tile);
  return suit === "z" ? named(HONOUR_WORDS[digit - 1]) : phrase(`tile ${suit}`, { digit: digitName(tile) });
}

// The word of a yaku, as a person writes it; `by` is how the hand was won.
export function yakuName(word, by) {
  const english = word.replaceAll("-", " ");
  const [romanised, script] = (word === "last-tile" && LAST_TILE[by]) || YAKU[word] || [english, english];
  const name = isPlainEnglish() ? english : language() === "ja" ? script : romanised;
  return name[0].toUpperCase() + name.slice(1);
}

export function shantenWords(shanten) {
  if (shanten < 0) return phrase("complete");
  if (shanten === 0) return named("ready");
  return phrase(shanten === 1 ? "shanten 1" : "shanten", { number: shanten });
}
