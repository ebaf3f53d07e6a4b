//! Random lines that begin a game.
use super::{chosen, one_in};
use crate::house::SWITCHES;
use crate::input::Dice;

/// Names, of which some begin others, some are words of lines, and some aren't plain ASCII.
const NAMES: [&str; 30] = [
    "Anna", "Bo", "Cyd", "Dee", "An", "Ann", "Annabel", "B", "Bob", "Bobby", "Zoë", "Žofie", "東家", "and", "from", "riichi", "ready",
    "liable", "nagashi", "mangan", "1.30", "1", "2", "12", "end", "game", "O'Neil", "J.R.", "a#b", "x-y_z",
];

/// Names that can't be.
const NO_NAMES: [&str; 4] = ["An:na", "A,B", "abcdefghijklmnopqrstuvwxyzabcdefg", "Bo:1"];

/// Each word with values that can be, and after `|` some that can't.
const WORDS: [(&str, &str); 18] = [
    ("start", "30000 25000 35000 27000 100 1000000|0 50 1000100 25050 -100 x 12345678"),
    ("return", "30000 35000 40000 1000000|99 30050 1000100 low"),
    ("uma", "15,5,-5,-15 30,10,-10,-30 20,10,-10,-20 0,0,0,0 10,0,0,-10 7,3,-1,-9 40,-10,-10,-20 1000,0,0,-1000|15,5,-5 5,15,-5,-15 15,5,-5,-14 1,2,3,4,5 a,b,c,d 2000,0,0,-2000"),
    ("ties", "share seat|shared"),
    ("ron", "all nearest two|three"),
    ("counters", "nearest each|none"),
    ("sticks", "nearest own|all"),
    ("liable", "on off|yes"),
    ("nagashi", "on off|no"),
    ("renchan", "ready win|tenpai"),
    ("length", "south east|west"),
    ("extra", "off 30000 25000 32000 40000 0|on -1 30001"),
    ("bust", "on off|1"),
    ("stop", "on off|maybe"),
    ("left", "first lost|last"),
    ("chombo", "20000 mangan mangan 8000 0|haneman 150 -8000"),
    ("session", "1 2 12|0 x"),
    ("at", "1 3 40|0 first"),
];

/// Words for a table of which each value follows the start that the line has.
fn house(dice: &mut Dice) -> String {
    let mut words = ["1", "2"][dice.below(2)].to_string();
    if one_in(dice, 3) {
        words += ["+add-yakuman", "+double-yakuman", "+add-yakuman+double-yakuman"][dice.below(3)];
    }
    for (word, _) in SWITCHES {
        if one_in(dice, 7) {
            words += if one_in(dice, 2) { "+" } else { "-" };
            words += word;
        }
    }
    if one_in(dice, 40) {
        words += ["+", "+red", "-ippatsu+", "3"][dice.below(4)];
    }
    words
}

fn value(dice: &mut Dice, values: &str) -> String {
    let (good, bad) = values.split_once('|').expect("each word has values that can't be");
    let values = if one_in(dice, 150) { bad } else { good };
    chosen(dice, &values.split(' ').collect::<Vec<_>>()).into()
}

/// The words of the rules; a start over 30000 has its own return, in most lines.
fn rules(dice: &mut Dice) -> Vec<String> {
    let mut words = Vec::new();
    if one_in(dice, 2) {
        words.push(format!("table={}", ["club", "league", "online", "online", "online"][dice.below(5)]));
    }
    if one_in(dice, 150) {
        words.push("table=ema".into());
    }
    let often = [3, 5, 9][dice.below(3)];
    for (key, values) in WORDS {
        if one_in(dice, often) && key != "return" {
            words.push(format!("{key}={}", value(dice, values)));
        }
    }
    if one_in(dice, 2) {
        words.push(format!("rules={}", house(dice)));
    }
    let start = words.iter().find_map(|word| word.strip_prefix("start=")?.parse::<i64>().ok()).unwrap_or(0);
    if start > 30000 && !one_in(dice, 15) {
        words.push(format!("return={}", start + 5000 * i64::from(start < 900_000) * dice.below(2) as i64));
    } else if start <= 30000 && one_in(dice, 6) {
        words.push(format!("return={}", value(dice, WORDS[1].1)));
    }
    if one_in(dice, 100) {
        words.push(["bust=on", "table=club", "sort=1", "=", "stop"][dice.below(5)].into());
        words.push("bust=on".into());
    }
    words
}

fn names(dice: &mut Dice) -> Vec<String> {
    let count = if one_in(dice, 5) {
        0
    } else if one_in(dice, 60) {
        1 + dice.below(5)
    } else {
        4
    };
    let mut names: Vec<String> = Vec::new();
    let ordinary = one_in(dice, 2);
    while names.len() < count {
        let name = if ordinary { NAMES[names.len() % 4] } else { chosen(dice, &NAMES) };
        if ordinary || !names.iter().any(|other| other == name) {
            names.push(name.into());
        }
    }
    if one_in(dice, 80) && count > 0 {
        let at = dice.below(names.len());
        names[at] = if one_in(dice, 2) { chosen(dice, &NO_NAMES).into() } else { names[0].clone() };
    }
    names
}

/// A line `game`.
pub fn game(dice: &mut Dice) -> String {
    let mut words = names(dice);
    words.extend(rules(dice));
    if one_in(dice, 30) && words.len() > 1 {
        let at = dice.below(words.len());
        let word = words.remove(at);
        words.push(word);
    }
    format!("game {}", words.join(" ")).trim_end().into()
}
