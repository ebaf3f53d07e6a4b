//! Random hands in the words of a line, most of them won.
use super::one_in;
use crate::input::Dice;
use crate::tiles::{write_counts, write_kind, Counts};

/// A set of a hand: a run by its lowest kind, or a triplet.
#[derive(Clone, Copy)]
enum Set {
    Run(usize),
    Triplet(usize),
}

/// Hands that are yakuman, or nearly so, with their melds; each is won on the tile `on`.
const GREAT: [&str; 14] = [
    "23m99p open=pon:555z,pon:666z,pon:777z on=4m",
    "777z23m99p open=pon:555z,pon:666z on=4m",
    "234m9p open=pon:555z,pon:666z,kan:7777z on=9p",
    "3z99m open=pon:111z,pon:222z,pon:444z on=3z",
    "33z99m open=pon:111z,pon:222z,pon:444z on=3z",
    "5z open=pon:111z,pon:222z,pon:333z,pon:444z on=5z",
    "9m open=kan:1111z,pon:222z,pon:333z,pon:444z on=9m",
    "9s open=kan:1111p,kan:2222z,kan:5555s,kan:6666m on=9s",
    "9s open=ankan:1111p,ankan:2222z,ankan:5555s,ankan:6666m on=9s",
    "1z open=pon:222z,pon:555z,pon:666z,pon:777z on=1z",
    "19m19p19s1234567z on=1m",
    "1112345678999m on=5m",
    "222m444p666s33m88s on=8s",
    "222m444p666s888s3m on=3m",
];

/// Words that a hand can't have, or that contradict each other.
const WRONG: [&str; 20] = [
    "by=ron", "seat=E", "round=S", "counters=1", "sticks=0", "flags=ippatsu", "flags=rinshan", "flags=chankan", "flags=first",
    "flags=last,chankan", "riichi=3", "riichi=", "ura=1m", "dora=123456m", "dora=1m2", "dora=9z", "dora=11111m", "open=pon:112z",
    "on=5s", "colour=red",
];

fn add(counts: &mut Counts, set: Set) {
    match set {
        Set::Run(low) => (low..low + 3).for_each(|kind| counts[kind] += 1),
        Set::Triplet(kind) => counts[kind] += 3,
    }
}

fn random_set(dice: &mut Dice) -> Set {
    let kind = dice.below(34);
    if kind < 27 && kind % 9 < 7 && dice.below(4) > 0 { Set::Run(kind) } else { Set::Triplet(kind) }
}

/// Four sets and a pair that hold this kind, where one is named.
fn sets(dice: &mut Dice, wanted: Option<usize>) -> (Vec<Set>, usize) {
    loop {
        let sets: Vec<Set> = (0..4).map(|_| random_set(dice)).collect();
        let pair = match wanted {
            Some(kind) if dice.below(3) == 0 => kind,
            _ => dice.below(34),
        };
        let mut counts = [0u8; 34];
        sets.iter().for_each(|set| add(&mut counts, *set));
        counts[pair] += 2;
        let has = wanted.is_none_or(|kind| counts[kind] > 0);
        if has && counts.iter().all(|&held| held <= 4) {
            return (sets, pair);
        }
    }
}

fn meld(dice: &mut Dice, set: Set) -> String {
    let mut counts = [0u8; 34];
    add(&mut counts, set);
    let mut text = Vec::new();
    let word = match set {
        Set::Run(_) => "chi",
        Set::Triplet(kind) if dice.below(4) == 0 => {
            counts[kind] += 1;
            if dice.below(2) == 0 { "kan" } else { "ankan" }
        }
        Set::Triplet(_) => "pon",
    };
    write_counts(&mut text, &counts);
    format!("{word}:{}", String::from_utf8(text).expect("tiles are plain"))
}

fn kinds_text(kinds: &[usize]) -> String {
    let mut text = Vec::new();
    kinds.iter().for_each(|kind| write_kind(&mut text, *kind));
    String::from_utf8(text).expect("tiles are plain")
}

/// Words on riichi and dora, most of which a hand may have.
fn luck(dice: &mut Dice, is_concealed: bool) -> Vec<String> {
    let mut words = Vec::new();
    if one_in(dice, if is_concealed { 2 } else { 30 }) {
        words.push(format!("riichi={}", 1 + dice.below(2)));
        if one_in(dice, 3) {
            words.push(["flags=ippatsu", "flags=last", "flags=ippatsu,last", "ura=3p"][dice.below(4)].into());
        }
    } else if one_in(dice, 8) {
        words.push("riichi=0".into());
    }
    if one_in(dice, 2) {
        let kinds: Vec<usize> = (0..1 + dice.below(2)).map(|_| dice.below(34)).collect();
        words.push(format!("dora={}", kinds_text(&kinds)));
    }
    words
}

/// A hand won on this kind, or on any.
fn built(dice: &mut Dice, wanted: Option<usize>) -> String {
    let (sets, pair) = sets(dice, wanted);
    let opened = if one_in(dice, 3) { 1 + dice.below(3) } else { 0 };
    let (melded, held) = sets.split_at(opened);
    let mut counts = [0u8; 34];
    held.iter().for_each(|set| add(&mut counts, *set));
    counts[pair] += 2;
    let on = match wanted {
        Some(kind) if counts[kind] > 0 => kind,
        _ => (0..).map(|_| dice.below(34)).find(|&kind| counts[kind] > 0).expect("some tile is held"),
    };
    counts[on] -= 1;
    let mut text = Vec::new();
    write_counts(&mut text, &counts);
    let mut hand = String::from_utf8(text).expect("tiles are plain");
    if one_in(dice, 6) {
        hand = hand.replacen("5", "0", 1);
    }
    let mut words = vec![format!("on={}", kinds_text(&[on]))];
    if opened > 0 {
        let melds: Vec<String> = melded.iter().map(|set| meld(dice, *set)).collect();
        words.push(format!("open={}", melds.join(",")));
    }
    words.extend(luck(dice, opened == 0));
    format!("{hand} {}", words.join(" "))
}

/// The kind of the tile `on` of a hand.
pub fn kind_of(hand: &str) -> Option<usize> {
    let tile = hand.split(' ').find_map(|word| word.strip_prefix("on="))?;
    let kinds = crate::tiles::read_tiles(tile.as_bytes()).ok()?;
    kinds.counts.iter().position(|&count| count > 0)
}

/// A hand that is a yakuman, or nearly so.
pub fn great(dice: &mut Dice) -> String {
    GREAT[dice.below(GREAT.len())].into()
}

/// A hand, now and then with a fault, won on this kind where one is named.
pub fn hand(dice: &mut Dice, wanted: Option<usize>) -> String {
    let mut hand = if wanted.is_none() && one_in(dice, 6) { great(dice) } else { built(dice, wanted) };
    if one_in(dice, 6) {
        hand = format!("{hand} {}", WRONG[dice.below(WRONG.len())]);
    }
    if one_in(dice, 12) {
        hand = hand.replacen(["m", "p", "s", "on=", "on"][dice.below(5)], ["", "x", "5", "="][dice.below(4)], 1);
    }
    hand
}
