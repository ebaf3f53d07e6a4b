//! The least win that brings a player to a place.
use super::ends::ahead;
use super::game::{lines_of, Desk, Game};
use super::judge::has_hand;
use super::rules::Ties;
use super::settle::{paid, up};
use super::state::{Deal, Four, Outcome, Some4, Win, Worth};
use crate::score::base_points;
use std::fmt::Write;

/// A row of the table of payments: base points, and each value that pays so.
struct Row {
    pay: String,
    base: i64,
    values: Vec<String>,
}

const LIMITS: [(&str, i64); 5] = [("mangan", 2000), ("haneman", 3000), ("baiman", 4000), ("sanbaiman", 6000), ("yakuman", 8000)];

/// What is paid for so many base points, as answers to wins say it.
fn pay(base: i64, is_dealer: bool, is_tsumo: bool) -> String {
    match (is_dealer, is_tsumo) {
        (false, false) => up(4 * base).to_string(),
        (true, false) => up(6 * base).to_string(),
        (true, true) => format!("{} all", up(2 * base)),
        (false, true) => format!("{}/{}", up(base), up(2 * base)),
    }
}

/// The table of payments, the least first: up to four han by their fu, and the limit hands.
fn table(game: &Game, player: usize, is_tsumo: bool) -> Vec<Row> {
    let house = game.rules.house;
    let mut values: Vec<(i64, String)> = LIMITS.iter().map(|(word, base)| (*base, word.to_string())).collect();
    for han in 1..=4 {
        let fus = (20..=140).filter(|&fu| has_hand(house, han, fu, is_tsumo));
        values.extend(fus.map(|fu| (base_points(house, han as u8, fu as u8).into(), format!("{han}.{fu}"))));
    }
    values.sort_by_key(|(base, _)| *base);
    let mut rows: Vec<Row> = Vec::new();
    for (base, value) in values {
        let pay = pay(base, game.state.dealer == player, is_tsumo);
        match rows.last_mut().filter(|row| row.pay == pay) {
            Some(row) => row.values.push(value),
            None => rows.push(Row { pay, base, values: vec![value] }),
        }
    }
    rows
}

/// Whether a player has a place: alone, or by the rules of ties.
fn has_place(ties: Ties, points: &Four, player: usize, place: usize, is_strict: bool) -> bool {
    let alike = (0..4).filter(|&other| other != player && points[other] >= points[player]).count();
    if is_strict { alike < place } else { ahead(ties, points, player) < place }
}

/// The question: who, to which place, with whose bets; the player's own changes nothing, and isn't among them.
pub struct Need<'a> {
    pub game: &'a Game,
    pub player: usize,
    pub place: usize,
    pub bets: Some4,
}

impl Need<'_> {
    fn points_after(&self, row: &Row, discarder: Option<usize>) -> Four {
        let win = Win { winner: self.player, worth: Worth { base: row.base, limits: 0 }, liable: None };
        let outcome = match discarder {
            Some(discarder) => Outcome::Ron { discarder, wins: vec![win] },
            None => Outcome::Tsumo(win),
        };
        paid(&self.game.rules, &self.game.state, &Deal { outcome, bets: self.bets }).points
    }

    /// The least row that brings the player there.
    fn least_row(&self, discarder: Option<usize>, is_strict: bool) -> Option<Row> {
        let mut rows = table(self.game, self.player, discarder.is_none());
        let ties = self.game.rules.ties;
        let reaches = |row: &Row| has_place(ties, &self.points_after(row, discarder), self.player, self.place, is_strict);
        let at = rows.iter().position(reaches)?;
        assert!(rows[at..].iter().all(reaches), "a greater win is no worse");
        Some(rows.swap_remove(at))
    }

    /// Its base points. (The comparison with the library asks them.)
    #[allow(dead_code)]
    pub fn least_base(&self, discarder: Option<usize>, is_strict: bool) -> Option<i64> {
        self.least_row(discarder, is_strict).map(|row| row.base)
    }

    /// Its words, or `none`.
    fn least(&self, discarder: Option<usize>, is_strict: bool) -> String {
        self.least_row(discarder, is_strict).map_or("none".into(), |row| format!("{} {}", row.pay, row.values.join(" ")))
    }
}

/// What a player needs for a place in the last game of a text, by each discarder and by self-draw, with these bets of others;
/// none where there is no such game or player.
pub fn needs(text: &[u8], name: &str, place: usize, riichi: &[&str]) -> Option<String> {
    let mut desk = Desk::new();
    lines_of(text).for_each(|line| desk.line(line));
    let game = desk.game().filter(|game| !game.is_over && (1..=4).contains(&place))?;
    let player = game.player(name)?;
    let mut bets = [false; 4];
    for name in riichi {
        bets[game.player(name)?] = true;
    }
    bets[player] = false;
    let need = Need { game, player, place, bets };
    let mut out = format!("need {} place {place}\n", game.names[player]);
    for discarder in (0..4).filter(|&other| other != player).map(Some).chain([None]) {
        let how = discarder.map_or("tsumo".into(), |discarder| format!("from {}", game.names[discarder]));
        let (strict, tie) = (need.least(discarder, true), need.least(discarder, false));
        writeln!(out, "{how} strictly {strict} tie {tie}").expect("texts grow");
    }
    Some(out)
}
