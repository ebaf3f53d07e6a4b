//! The lines of a text as words: what stands where, before any name or value is looked at.
use super::rules::{number, points};
use super::state::ROUNDS;

/// A value as it is written.
#[derive(Clone, PartialEq, Eq, Debug)]
pub enum Value<'a> {
    Han { han: i64, fu: i64 },
    Limit { base: i64, limits: i64 },
    Hand { hand: &'a str, words: Vec<&'a str> },
}

/// Who is liable, and for how many limits where that is said.
#[derive(Clone, PartialEq, Eq, Debug)]
pub struct Fed<'a> {
    pub name: &'a str,
    pub limits: Option<i64>,
}

#[derive(Clone, PartialEq, Eq, Debug)]
pub struct Winner<'a> {
    pub name: &'a str,
    pub value: Value<'a>,
    pub liable: Option<Fed<'a>>,
}

type Names<'a> = Vec<&'a str>;

#[derive(Clone, PartialEq, Eq, Debug)]
pub enum Line<'a> {
    Ron { winners: Vec<Winner<'a>>, discarder: &'a str, riichi: Names<'a> },
    Tsumo { winner: Winner<'a>, riichi: Names<'a> },
    Draw { ready: Names<'a>, nagashi: Option<Names<'a>>, riichi: Names<'a> },
    Abort { riichi: Names<'a> },
    Chombo { name: &'a str },
    Penalty { name: &'a str, points: i64 },
    Stands { round: usize, dealer: usize, counters: i64, sticks: i64, points: [i64; 4] },
    End,
}

/// The first words of lines within a game.
pub const FIRST: [&str; 8] = ["ron", "tsumo", "draw", "abort", "chombo", "penalty", "stands", "end"];

const LIMITS: [(&str, i64, i64); 5] =
    [("mangan", 2000, 0), ("haneman", 3000, 0), ("baiman", 4000, 0), ("sanbaiman", 6000, 0), ("yakuman", 8000, 1)];

/// Words that no value is.
const PARTS: [&str; 6] = ["from", "and", "liable", "ready", "nagashi", "riichi"];

/// So many players win on one discard at most.
const MOST_WINNERS: usize = 3;

/// The words of a line that are left.
struct Words<'a, 'b>(&'b [&'a str]);

impl<'a> Words<'a, '_> {
    fn next(&mut self) -> Option<&'a str> {
        let (first, rest) = self.0.split_first()?;
        self.0 = rest;
        Some(first)
    }

    /// Takes this word, where it is the next.
    fn take(&mut self, word: &str) -> bool {
        let is_next = self.0.first() == Some(&word);
        self.0 = &self.0[usize::from(is_next)..];
        is_next
    }

    fn want(&mut self, word: &str) -> Option<()> {
        self.take(word).then_some(())
    }

    fn names(&mut self) -> Option<Names<'a>> {
        Some(self.next()?.split(',').collect())
    }

    /// The names behind a word; none where the word isn't there, and a fault where it has no names.
    fn part(&mut self, word: &str) -> Option<Option<Names<'a>>> {
        if self.take(word) { self.names().map(Some) } else { Some(None) }
    }

    fn riichi(&mut self) -> Option<Names<'a>> {
        let names = self.part("riichi")?;
        Some(names.unwrap_or_default())
    }

    fn value(&mut self) -> Option<Value<'a>> {
        let word = self.next().filter(|word| !PARTS.contains(word))?;
        if let Some((_, base, limits)) = LIMITS.iter().find(|(name, ..)| *name == word) {
            return Some(Value::Limit { base: *base, limits: *limits });
        }
        if let Some(limits) = word.strip_prefix("yakuman:") {
            let limits = number(limits)?;
            return Some(Value::Limit { base: 8000 * limits, limits });
        }
        if let Some((han, fu)) = word.split_once('.') {
            return Some(Value::Han { han: number(han)?, fu: number(fu)? });
        }
        let size = self.0.iter().position(|word| !word.contains('=')).unwrap_or(self.0.len());
        let (words, rest) = self.0.split_at(size);
        self.0 = rest;
        Some(Value::Hand { hand: word, words: words.to_vec() })
    }

    fn liable(&mut self) -> Option<Option<Fed<'a>>> {
        if !self.take("liable") {
            return Some(None);
        }
        let word = self.next()?;
        Some(Some(match word.split_once(':') {
            Some((name, limits)) => Fed { name, limits: Some(number(limits)?) },
            None => Fed { name: word, limits: None },
        }))
    }

    fn winner(&mut self, name: &'a str) -> Option<Winner<'a>> {
        Some(Winner { name, value: self.value()?, liable: self.liable()? })
    }

    fn ron(&mut self) -> Option<Line<'a>> {
        let first = self.next()?;
        self.want("from")?;
        let discarder = self.next()?;
        let mut winners = vec![self.winner(first)?];
        while winners.len() < MOST_WINNERS && self.take("and") {
            let name = self.next()?;
            winners.push(self.winner(name)?);
        }
        Some(Line::Ron { winners, discarder, riichi: self.riichi()? })
    }

    fn tsumo(&mut self) -> Option<Line<'a>> {
        let name = self.next()?;
        Some(Line::Tsumo { winner: self.winner(name)?, riichi: self.riichi()? })
    }

    fn draw(&mut self) -> Option<Line<'a>> {
        let ready = self.part("ready")?.unwrap_or_default();
        Some(Line::Draw { ready, nagashi: self.part("nagashi")?, riichi: self.riichi()? })
    }

    fn stands(&mut self) -> Option<Line<'a>> {
        let word = self.next()?;
        let round = ROUNDS.iter().position(|round| *round == word)?;
        let dealer = number(self.next()?).filter(|number| (1..=4).contains(number))? as usize - 1;
        self.want("counters")?;
        let counters = number(self.next()?)?;
        self.want("sticks")?;
        let sticks = number(self.next()?)?;
        self.want("points")?;
        let mut points = [0; 4];
        for held in &mut points {
            *held = held_points(self.next()?)?;
        }
        Some(Line::Stands { round, dealer, counters, sticks, points })
    }

    fn line(&mut self, first: &str) -> Option<Line<'a>> {
        let line = match first {
            "ron" => self.ron()?,
            "tsumo" => self.tsumo()?,
            "draw" => self.draw()?,
            "abort" => Line::Abort { riichi: self.riichi()? },
            "chombo" => Line::Chombo { name: self.next()? },
            "penalty" => Line::Penalty { name: self.next()?, points: points(self.next()?)? },
            "stands" => self.stands()?,
            _ => Line::End,
        };
        self.0.is_empty().then_some(line)
    }
}

/// Points that a player may have: whole hundreds of at most nine digits, with a `-` before those below nothing.
fn held_points(text: &str) -> Option<i64> {
    let (sign, digits) = text.strip_prefix('-').map_or((1, text), |digits| (-1, digits));
    let is_number = (1..=9).contains(&digits.len()) && digits.bytes().all(|byte| byte.is_ascii_digit());
    let points = if is_number { digits.parse::<i64>().ok()? } else { return None };
    (points % 100 == 0).then_some(sign * points)
}

/// What stands in a line behind a first word that is one of `FIRST`; none where words are missing, too many or out of order, or
/// a number can't be.
pub fn read_words<'a>(first: &str, rest: &[&'a str]) -> Option<Line<'a>> {
    Words(rest).line(first)
}

/// The words of a line without its note.
pub fn words_of(line: &str) -> Vec<&str> {
    line.split(' ').filter(|word| !word.is_empty()).take_while(|word| !word.starts_with('#')).collect()
}
