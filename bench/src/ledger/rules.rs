//! The rules of a table, and the line that begins a game.
use crate::house::House;

/// So many points at most has a number of the rules.
const MOST: i64 = 1_000_000;

#[derive(Clone, Copy, PartialEq, Eq, Debug)]
pub enum Ties {
    Share,
    Seat,
}

/// Who wins on one discard.
#[derive(Clone, Copy, PartialEq, Eq, Debug)]
pub enum Ron {
    All,
    Nearest,
    Two,
}

/// To which of several winners the counters are paid.
#[derive(Clone, Copy, PartialEq, Eq, Debug)]
pub enum Counters {
    Nearest,
    Each,
}

/// To which of several winners the sticks go.
#[derive(Clone, Copy, PartialEq, Eq, Debug)]
pub enum Sticks {
    Nearest,
    Own,
}

/// When the dealer stays at a draw.
#[derive(Clone, Copy, PartialEq, Eq, Debug)]
pub enum Renchan {
    Ready,
    Win,
}

#[derive(Clone, Copy, PartialEq, Eq, Debug)]
pub enum Left {
    First,
    Lost,
}

#[derive(Clone, Copy, PartialEq, Eq, Debug)]
pub enum Chombo {
    Points(i64),
    Mangan,
}

#[derive(Clone, Copy, PartialEq, Eq, Debug)]
pub struct Rules {
    pub house: House,
    pub start: i64,
    pub back: i64,
    /// In points.
    pub uma: [i64; 4],
    pub ties: Ties,
    pub ron: Ron,
    pub counters: Counters,
    pub sticks: Sticks,
    pub liable: bool,
    pub nagashi: bool,
    pub renchan: Renchan,
    /// The last round, from 0.
    pub last: usize,
    pub extra: Option<i64>,
    pub bust: bool,
    pub stop: bool,
    pub left: Left,
    pub chombo: Chombo,
}

impl Rules {
    pub const CLUB: Rules = Rules {
        house: House::ONE,
        start: 30000,
        back: 30000,
        uma: [15000, 5000, -5000, -15000],
        ties: Ties::Share,
        ron: Ron::All,
        counters: Counters::Nearest,
        sticks: Sticks::Nearest,
        liable: true,
        nagashi: false,
        renchan: Renchan::Ready,
        last: 1,
        extra: None,
        bust: false,
        stop: false,
        left: Left::First,
        chombo: Chombo::Points(20000),
    };

    pub const LEAGUE: Rules = Rules { start: 25000, uma: [30000, 10000, -10000, -30000], ron: Ron::Nearest, ..Rules::CLUB };

    pub const ONLINE: Rules = Rules {
        start: 25000,
        uma: [20000, 10000, -10000, -20000],
        ties: Ties::Seat,
        ron: Ron::Two,
        nagashi: true,
        extra: Some(30000),
        bust: true,
        stop: true,
        ..Rules::CLUB
    };

    /// The rules of some words, each a word, `=` and a value; none where one of them can't be.
    pub fn of(words: &[&str]) -> Option<Rules> {
        let words: Vec<(&str, &str)> = words.iter().map(|word| word.split_once('=')).collect::<Option<_>>()?;
        let is_twice = |at: usize| words[..at].iter().any(|(key, _)| *key == words[at].0);
        if (0..words.len()).any(is_twice) {
            return None;
        }
        let mut rules = match words.iter().find(|(key, _)| *key == "table") {
            None | Some((_, "club")) => Rules::CLUB,
            Some((_, "league")) => Rules::LEAGUE,
            Some((_, "online")) => Rules::ONLINE,
            Some(_) => return None,
        };
        for (key, value) in words {
            rules.change(key, value)?;
        }
        (rules.start >= 100 && rules.back >= rules.start).then_some(rules)
    }

    fn change(&mut self, key: &str, value: &str) -> Option<()> {
        match key {
            "table" => {}
            "rules" => self.house = House::named(value)?,
            "start" => self.start = points(value)?,
            "return" => self.back = points(value)?,
            "uma" => self.uma = uma(value)?,
            "ties" => self.ties = one_of(value, &[("share", Ties::Share), ("seat", Ties::Seat)])?,
            "ron" => self.ron = one_of(value, &[("all", Ron::All), ("nearest", Ron::Nearest), ("two", Ron::Two)])?,
            "counters" => self.counters = one_of(value, &[("nearest", Counters::Nearest), ("each", Counters::Each)])?,
            "sticks" => self.sticks = one_of(value, &[("nearest", Sticks::Nearest), ("own", Sticks::Own)])?,
            "liable" => self.liable = is_on(value)?,
            "nagashi" => self.nagashi = is_on(value)?,
            "renchan" => self.renchan = one_of(value, &[("ready", Renchan::Ready), ("win", Renchan::Win)])?,
            "length" => self.last = one_of(value, &[("south", 1), ("east", 0)])?,
            "extra" => self.extra = if value == "off" { None } else { Some(points(value)?) },
            "bust" => self.bust = is_on(value)?,
            "stop" => self.stop = is_on(value)?,
            "left" => self.left = one_of(value, &[("first", Left::First), ("lost", Left::Lost)])?,
            "chombo" => self.chombo = if value == "mangan" { Chombo::Mangan } else { Chombo::Points(points(value)?) },
            "session" | "at" => return number(value).filter(|&number| number > 0).map(|_| ()),
            _ => return None,
        }
        Some(())
    }

    /// How many points all have, and the sticks.
    pub fn whole(&self) -> i64 {
        4 * self.start
    }

    pub fn has_round(&self, round: usize) -> bool {
        round <= self.last + usize::from(self.extra.is_some())
    }
}

fn one_of<T: Copy>(value: &str, all: &[(&str, T)]) -> Option<T> {
    all.iter().find(|(word, _)| *word == value).map(|(_, one)| *one)
}

fn is_on(value: &str) -> Option<bool> {
    one_of(value, &[("on", true), ("off", false)])
}

/// A number of one to seven digits.
pub fn number(text: &str) -> Option<i64> {
    let is_number = (1..=7).contains(&text.len()) && text.bytes().all(|byte| byte.is_ascii_digit());
    if is_number { text.parse().ok() } else { None }
}

/// Points of the rules, or of a penalty: whole hundreds up to a million.
pub fn points(text: &str) -> Option<i64> {
    number(text).filter(|points| points % 100 == 0 && *points <= MOST)
}

/// Whole thousands for the four places: they add up to nothing, and none is greater than the one before.
fn uma(value: &str) -> Option<[i64; 4]> {
    let places: Vec<i64> = value.split(',').map(thousands).collect::<Option<_>>()?;
    let uma: [i64; 4] = places.try_into().ok()?;
    let is_uma = uma.iter().sum::<i64>() == 0 && uma.windows(2).all(|two| two[1] <= two[0]);
    is_uma.then_some(uma)
}

fn thousands(text: &str) -> Option<i64> {
    let (sign, digits) = text.strip_prefix('-').map_or((1, text), |digits| (-1, digits));
    number(digits).map(|number| sign * 1000 * number).filter(|points| points.abs() <= MOST)
}

/// Whether a text can be a player's name.
pub fn is_name(text: &str) -> bool {
    let is_plain = |byte: u8| byte > b' ' && byte != 0x7f && !b",=:".contains(&byte);
    (1..=32).contains(&text.len()) && !text.starts_with('#') && text.bytes().all(is_plain)
}

/// The names and the rules of a line `game`, without its first word; none where something of it can't be.
pub fn read_game(words: &[&str]) -> Option<([String; 4], Rules)> {
    let (rules, names): (Vec<&str>, Vec<&str>) = words.iter().partition(|word| word.contains('='));
    let names = if names.is_empty() { vec!["1", "2", "3", "4"] } else { names };
    let differ = (0..names.len()).all(|at| is_name(names[at]) && !names[..at].contains(&names[at]));
    let names: [&str; 4] = names.try_into().ok().filter(|_| differ)?;
    Some((names.map(String::from), Rules::of(&rules)?))
}
