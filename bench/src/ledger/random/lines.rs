//! Random lines within a game, most of them good.
use super::hands::{great, hand, kind_of};
use super::{chosen, one_in};
use crate::input::Dice;
use crate::ledger::game::Game;
use crate::ledger::judge::most_limits;
use crate::ledger::state::ROUNDS;

/// A line of a game, made by chance.
pub struct Maker<'a> {
    pub dice: &'a mut Dice,
    pub game: &'a Game,
}

/// Values that are seldom said, or that no hand has.
const RARE: [&str; 24] = [
    "1.20", "1.25", "2.25", "3.25", "1.110", "1.100", "2.20", "4.20", "1.120", "4.140", "4.150", "5.30", "13.30", "14.25", "99.140",
    "100.30", "0.30", "1.35", "01.030", "3.60", "4.30", "x.30", "1.30.5", "mangan:2",
];

const LIMITS: [&str; 6] = ["mangan", "haneman", "baiman", "sanbaiman", "yakuman", "yakuman"];

fn pay(points: &mut [i64; 4], payer: usize, payee: usize, sum: i64) {
    points[payer] -= sum;
    points[payee] += sum;
}

impl Maker<'_> {
    fn below(&mut self, number: usize) -> usize {
        self.dice.below(number)
    }

    fn one_in(&mut self, number: usize) -> bool {
        one_in(self.dice, number)
    }

    /// A player's name, now and then cut, and seldom one of nobody.
    fn name(&mut self, player: usize) -> String {
        let name = self.game.names[player].clone();
        if self.one_in(400) {
            return ["Nobody", "", "An", "and"][self.below(4)].into();
        }
        if !self.one_in(6) {
            return name;
        }
        let cuts: Vec<String> = name.char_indices().skip(1).map(|(at, _)| name[..at].to_string()).collect();
        let good: Vec<String> = cuts.into_iter().filter(|cut| self.game.player(cut) == Some(player)).collect();
        if good.is_empty() { name } else { good[self.below(good.len())].clone() }
    }

    fn names(&mut self, players: &[usize]) -> String {
        let mut names: Vec<String> = players.iter().map(|&player| self.name(player)).collect();
        if self.one_in(300) {
            names.push(self.game.names[players[0]].clone());
        }
        names.join(",")
    }

    /// Some players, each one with a chance of one in so many.
    fn some(&mut self, number: usize) -> Vec<usize> {
        (0..4).filter(|_| self.one_in(number)).collect()
    }

    /// Those of some players who may bet, and seldom the others too.
    fn bettors(&mut self, number: usize) -> Vec<usize> {
        let some = self.some(number);
        let is_strict = self.game.rules.bust && !self.one_in(3);
        some.into_iter().filter(|&player| !is_strict || self.game.state.points[player] >= 1000).collect()
    }

    fn part(&mut self, word: &str, players: &[usize]) -> String {
        if players.is_empty() { String::new() } else { format!(" {word} {}", self.names(players)) }
    }

    fn han_and_fu(&mut self, is_tsumo: bool) -> String {
        let han = 1 + self.below(4);
        let fu = match self.below(8) {
            0 if is_tsumo && han > 1 => 20,
            1 if han > 1 + usize::from(is_tsumo) => 25,
            2 => 10 * (5 + self.below(6)),
            _ => 10 * (3 + self.below(2)),
        };
        let is_missing = fu == 110 && han == 1;
        format!("{han}.{}", if is_missing { 30 } else { fu })
    }

    /// A value, and whether it is a yakuman by its word or its hand.
    fn value(&mut self, is_tsumo: bool, wanted: Option<usize>) -> (String, bool) {
        if wanted.is_some() && self.one_in(2) {
            return (hand(self.dice, wanted), false);
        }
        let most = most_limits(self.game.rules.house) as usize;
        match self.below(20) {
            0 if self.one_in(3) => (chosen(self.dice, &RARE).into(), false),
            1 | 2 => {
                let word = chosen(self.dice, &LIMITS);
                (word.into(), word == "yakuman")
            }
            3 | 4 if most > 1 || self.one_in(8) => {
                let most = if self.one_in(9) { 7 } else { most };
                (format!("yakuman:{}", 1 + self.below(most)), true)
            }
            3 | 4 => ("yakuman".into(), true),
            5 | 6 => (hand(self.dice, wanted), self.one_in(40)),
            7 if wanted.is_none() => (great(self.dice), true),
            _ => (self.han_and_fu(is_tsumo), self.one_in(200)),
        }
    }

    /// A value with who is liable for it, where somebody is.
    fn fed_value(&mut self, winner: usize, discarder: Option<usize>, wanted: Option<usize>) -> String {
        let (value, is_great) = self.value(discarder.is_none(), wanted);
        let may = self.game.rules.liable || self.one_in(3);
        if !is_great || !may || self.one_in(3) {
            return value;
        }
        let others: Vec<usize> = (0..4).filter(|&player| player != winner || self.one_in(30)).collect();
        let name = others[self.below(others.len())];
        let name = self.name(name);
        if !self.one_in(3) && !value.starts_with('9') {
            return format!("{value} liable {name}");
        }
        let least = if self.one_in(9) { 0 } else { 1 };
        format!("{value} liable {name}:{}", least + self.below(3))
    }

    fn ron(&mut self) -> String {
        let discarder = self.below(4);
        let is_wrong = self.one_in(250);
        let mut others: Vec<usize> = (0..4).filter(|&player| player != discarder || is_wrong).collect();
        let count = [1, 1, 1, 1, 2, 2, 3][self.below(7)];
        let mut parts = Vec::new();
        let (mut wanted, mut first) = (None, String::new());
        for place in 0..count {
            let winner = others.remove(self.dice.below(others.len()));
            let value = self.fed_value(winner, Some(discarder), wanted);
            wanted = wanted.or_else(|| kind_of(&value)).filter(|_| !one_in(self.dice, 40));
            let name = self.name(winner);
            if place == 0 {
                first = format!("ron {name} from {} {value}", self.name(discarder));
            } else {
                parts.push(format!(" and {name} {value}"));
            }
        }
        let bettors = self.bettors(5);
        format!("{first}{}{}", parts.concat(), self.part("riichi", &bettors))
    }

    fn tsumo(&mut self) -> String {
        let winner = if self.one_in(2) { self.game.state.dealer } else { self.below(4) };
        let value = self.fed_value(winner, None, None);
        let (name, bettors) = (self.name(winner), self.bettors(5));
        format!("tsumo {name} {value}{}", self.part("riichi", &bettors))
    }

    fn draw(&mut self) -> String {
        let ready = self.some(2);
        let is_wrong = self.one_in(60);
        let bettors: Vec<usize> = self.bettors(2).into_iter().filter(|player| is_wrong || ready.contains(player)).collect();
        let may = self.game.rules.nagashi || self.one_in(25);
        let nagashi = if may { self.some(5) } else { Vec::new() };
        let (ready, nagashi) = (self.part("ready", &ready), self.part("nagashi", &nagashi));
        format!("draw{ready}{nagashi}{}", self.part("riichi", &bettors))
    }

    fn abort(&mut self) -> String {
        let bettors = if self.one_in(3) { self.bettors(1) } else { self.bettors(3) };
        format!("abort{}", self.part("riichi", &bettors))
    }

    fn penalty(&mut self) -> String {
        let player = self.below(4);
        let name = self.name(player);
        let points = ["8000", "1000", "20000", "100", "0", "1000000", "1000100", "150", "-100"];
        let good = if self.one_in(12) { points.len() } else { 6 };
        format!("penalty {name} {}", points[self.below(good)])
    }

    /// Points for four that add up with so many sticks; they differ by some steps of so many hundreds at most.
    fn points(&mut self, sticks: i64, most: i64) -> [i64; 4] {
        let start = self.game.rules.start;
        let mut points = [start; 4];
        points[0] -= 1000 * sticks;
        for _ in 0..self.below(6) {
            let sum = 100 * self.below((start / 100).clamp(1, most) as usize) as i64;
            pay(&mut points, self.below(4), self.below(4), sum);
        }
        let (one, two) = (self.below(4), self.below(4));
        if self.one_in(4) {
            let poor = 100 * self.below(12) as i64;
            let sum = points[one] - poor;
            pay(&mut points, one, two, sum);
        } else if self.one_in(3) {
            let sum = (points[one] - points[two]) / 200 * 100;
            pay(&mut points, one, two, sum);
        }
        points
    }

    /// The state of a game that goes on elsewhere, often near its end.
    pub fn stands(&mut self) -> String {
        let rules = &self.game.rules;
        let (last, extra) = (rules.last, rules.extra.is_some());
        let round = match self.below(6) {
            0 => self.dice.below(last + 1),
            1 | 2 if extra => last + 1,
            3 if one_in(self.dice, 20) => self.dice.below(4),
            _ => last,
        };
        let dealer = if self.one_in(2) { 4 } else { 1 + self.below(4) };
        let counters = if self.one_in(9) { 97 + self.below(3) } else { self.below(4) };
        let sticks = if self.one_in(9) { 95 + self.below(5) } else { self.below(4) } as i64;
        let sticks = sticks.min(4 * self.game.rules.start / 1000);
        let mut points = self.points(sticks, if round > last { 20 } else { 300 });
        if self.one_in(40) {
            points[1] += 100;
        }
        let counters = if self.one_in(60) { 100 } else { counters };
        let [one, two, three, four] = points;
        format!("stands {} {dealer} counters {counters} sticks {sticks} points {one} {two} {three} {four}", ROUNDS[round])
    }

    /// A line, of which few are refused.
    pub fn line(&mut self) -> String {
        match self.below(40) {
            0..=12 => self.ron(),
            13..=21 => self.tsumo(),
            22..=31 => self.draw(),
            32 => self.abort(),
            33 | 34 => {
                let player = self.below(4);
                format!("chombo {}", self.name(player))
            }
            35 | 36 => self.penalty(),
            37 => self.stands(),
            38 if self.one_in(4) => "end".into(),
            39 if self.one_in(3) => "undo".into(),
            _ => self.draw(),
        }
    }

    /// The words of a line with one left out, put in twice, moved or added.
    pub fn spoilt(&mut self, line: &str) -> String {
        let mut words: Vec<&str> = line.split(' ').collect();
        let at = self.below(words.len());
        match self.below(4) {
            0 => drop(words.remove(at)),
            1 => words.insert(at, words[at]),
            2 => words.swap(0, at),
            _ => words.push(["riichi", "and", "liable", "7", "Anna", "ready", "on=5s"][self.below(7)]),
        }
        words.join(" ")
    }
}
