// Why a hand is worth what it is, in each language: English, Japanese, German, French, Polish.

export const REASON_WORDS = {
  // Forms and readings
  "form seven pairs": ["seven pairs", "七対子", "sieben Paare", "sept paires", "siedem par"],
  "form thirteen orphans": ["thirteen orphans", "国士無双", "dreizehn Waisen", "treize orphelins", "trzynaście sierot"],
  "form standard": ["sets and a pair", "一般形", "Sätze und ein Paar", "groupes et une paire", "grupy i para"],
  "completed": ["completes", "完成", "ergänzt", "complète", "uzupełnia"],

  // Fu
  "fu base": ["base", "副底", "Grundwert", "base", "podstawa"],
  "fu concealed ron": ["concealed ron", "門前加符", "geschlossenes Ron", "ron fermé", "zamknięty ron"],
  "fu self-draw": ["self-draw", "ツモ", "Tsumo", "tsumo", "tsumo"],
  "fu concealed triplet": ["concealed triplet", "暗刻", "verdeckter Drilling", "brelan caché", "zakryta trójka"],
  "fu open triplet": ["open triplet", "明刻", "offener Drilling", "brelan exposé", "odkryta trójka"],
  "fu concealed kong": ["concealed kong", "暗槓", "verdecktes Kan", "kan caché", "zakryty kan"],
  "fu open kong": ["open kong", "明槓", "offenes Kan", "kan exposé", "odkryty kan"],
  "fu pair of dragons": ["pair of dragons", "雀頭（三元牌）", "Paar Drachen", "paire de dragons", "para smoków"],
  "fu pair of the seat wind": ["pair of the seat wind", "雀頭（自風）", "Paar Platzwind", "paire du vent du joueur", "para wiatru gracza"],
  "fu pair of the prevalent wind": ["pair of the prevalent wind", "雀頭（場風）", "Paar Rundenwind", "paire du vent du tour", "para wiatru rundy"],
  "fu closed wait": ["closed wait", "嵌張", "Kanchan", "kanchan", "kanchan"],
  "fu edge wait": ["edge wait", "辺張", "Penchan", "penchan", "penchan"],
  "fu pair wait": ["pair wait", "単騎", "Tanki", "tanki", "tanki"],
  "fu open ron of 20": ["open ron of 20", "喰い平和形", "offenes Ron mit 20", "ron ouvert de 20", "otwarty ron za 20"],
  "fu seven pairs": ["seven pairs", "七対子", "sieben Paare", "sept paires", "siedem par"],

  // Dora and payments
  "dora indicated": ["indicated", "表ドラ", "angezeigt", "indiquées", "wskazane"],
  "dora below": ["below", "裏ドラ", "Ura", "ura", "ura"],
  "dora red fives": ["red fives", "赤ドラ", "rote Fünfen", "cinq rouges", "czerwone piątki"],
  "payer discarder": ["discarder", "放銃者", "Abwerfer", "défausseur", "odrzucający"],
  "payer dealer": ["dealer", "親", "Geber", "donneur", "rozdający"],
  "payer two others": ["two others, each", "子", "die zwei anderen, je", "les deux autres, chacun", "dwaj inni, każdy"],
  "payer three others": ["three others, each", "子三人", "die drei anderen, je", "les trois autres, chacun", "trzej inni, każdy"],

  // Waits
  "wait two-sided": ["two-sided", "両面", "Ryanmen", "ryanmen", "ryanmen"],
  "wait closed": ["closed", "嵌張", "Kanchan", "kanchan", "kanchan"],
  "wait edge": ["edge", "辺張", "Penchan", "penchan", "penchan"],
  "wait pair": ["pair", "単騎", "Tanki", "tanki", "tanki"],
  "wait two pairs": ["two pairs", "双碰", "Shanpon", "shanpon", "shanpon"],
  "wait thirteen orphans": ["thirteen orphans", "国士無双", "dreizehn Waisen", "treize orphelins", "trzynaście sierot"],
  "left of kind": ["{number} left", "残り{number}枚", "noch {number}", "encore {number}", "zostało {number}"],
  "none left": [
    "no tile that is left completes the hand",
    "和了できる牌が残っていません",
    "kein Stein, der noch da ist, ergänzt die Hand",
    "aucune tuile restante ne complète la main",
    "żaden z pozostałych kamieni nie uzupełnia ręki",
  ],

  // The words of rows
  "row fu": ["fu", "符", "Fu", "fu", "fu"],
  "row han": ["han", "翻", "Han", "han", "han"],
  "row yakuman": ["yakuman", "役満", "Yakuman", "yakuman", "yakuman"],
  "row dora": ["dora", "ドラ", "Dora", "dora", "dora"],
  "row base": ["base", "基本点", "Basis", "base", "baza"],
  "row pays": ["pays", "支払い", "zahlt", "paie", "płaci"],
  "row reading": ["reading", "面子", "Lesart", "lecture", "odczyt"],
  "row other": ["other", "ほかの読み", "andere", "autre", "inny"],
  "row waits": ["waits", "待ち", "wartet", "attend", "czeka"],
  "row shanten": ["shanten", "向聴数", "Shanten", "shanten", "shanten"],
};
