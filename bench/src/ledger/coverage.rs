//! How often each rule and each fault was met.
use super::ends::Finals;
use super::game::Game;
use super::judge::{Fault, Step};
use super::rules::{Chombo, Counters, Ron, Sticks};
use super::settle::winners;
use super::state::{End, Outcome, Win};
use super::words::{Line, Value};
use std::collections::BTreeMap;

/// So often each thing was met, by its name.
#[derive(Clone, Default, PartialEq, Eq, Debug)]
pub struct Tally(pub BTreeMap<String, u64>);

impl Tally {
    pub fn add(&mut self, name: impl Into<String>) {
        *self.0.entry(name.into()).or_default() += 1;
    }

    pub fn fault(&mut self, fault: &Fault) {
        self.add(format!("refused G{:02}", fault.code));
        if let Some(hand) = &fault.hand {
            let words: Vec<&str> = hand.split(' ').take(2).collect();
            self.add(format!("refused G07 {}", words.join(" ")));
        }
    }

    /// The rules of a game, as its line says them.
    pub fn rules(&mut self, words: &[&str]) {
        self.add("game");
        let is_number = |value: &str| value.starts_with(|first: char| first.is_ascii_digit());
        for (key, value) in words.iter().filter_map(|word| word.split_once('=')) {
            let value = if is_number(value) { "number" } else { value };
            self.add(if key == "rules" { "rule rules".into() } else { format!("rule {key}={value}") });
        }
    }

    /// The hands of a line that is no longer refused.
    pub fn hands(&mut self, line: &Line) {
        let winners = match line {
            Line::Ron { winners, .. } => &winners[..],
            Line::Tsumo { winner, .. } => std::slice::from_ref(winner),
            _ => &[],
        };
        for winner in winners.iter().filter(|winner| matches!(winner.value, Value::Hand { .. })) {
            self.add(if winner.liable.is_some() { "hand by its tiles, liable" } else { "hand by its tiles" });
        }
        if winners.iter().filter(|winner| matches!(winner.value, Value::Hand { .. })).count() > 1 {
            self.add("several hands by their tiles");
        }
    }

    pub fn step(&mut self, game: &Game, step: &Step) {
        let end = match step {
            Step::Deal { deal, end, .. } => {
                self.outcome(game, &deal.outcome, &deal.bets);
                *end
            }
            Step::DeadHand { player, end, .. } => {
                let whose = if *player == game.state.dealer { "dealer" } else { "other" };
                let how = if game.rules.chombo == Chombo::Mangan { "mangan" } else { "points" };
                self.add(format!("chombo {whose} {how}"));
                *end
            }
            Step::Penalty { .. } => {
                self.add(if game.is_over { "penalty behind the end" } else { "penalty" });
                None
            }
            Step::Stands(_) => {
                self.add("stands");
                None
            }
            Step::End => Some(End::Said),
        };
        if game.state.round > game.rules.last {
            self.add("in the round more");
        }
        if let Some(end) = end {
            let more = if game.state.round > game.rules.last { " in the round more" } else { "" };
            self.add(format!("end {end:?}{more}"));
        }
    }

    fn outcome(&mut self, game: &Game, outcome: &Outcome, bets: &[bool; 4]) {
        if bets.contains(&true) {
            self.add("bets");
        }
        if (0..4).any(|player| bets[player] && game.state.points[player] < 1000) {
            self.add("bets of who has fewer than 1000");
        }
        match outcome {
            Outcome::Abort => self.add("abort"),
            Outcome::Tsumo(win) => {
                self.add(if win.winner == game.state.dealer { "tsumo dealer" } else { "tsumo other" });
                self.liable("tsumo", win, None, game.state.dealer);
            }
            Outcome::Ron { discarder, wins } => {
                self.ron(game, *discarder, wins);
                wins.iter().for_each(|win| self.liable("ron", win, Some(*discarder), game.state.dealer));
            }
            Outcome::Draw { ready, nagashi } => {
                let count = ready.iter().filter(|&&is_ready| is_ready).count();
                self.add(format!("draw ready {count}{}", if nagashi.is_some() { " nagashi" } else { "" }));
            }
        }
    }

    fn ron(&mut self, game: &Game, discarder: usize, wins: &[Win]) {
        let rules = &game.rules;
        let who = winners(rules, discarder, wins);
        if who.is_empty() {
            return self.add("ron of three is an abort");
        }
        self.add(format!("ron said {} won {}", wins.len(), who.len()));
        let has_dealer = |wins: &[Win]| wins.iter().any(|win| win.winner == game.state.dealer);
        if rules.ron == Ron::Nearest && has_dealer(wins) && !has_dealer(&who) {
            self.add("ron nearest, not the dealer who said it too");
        }
        if who.len() > 1 && rules.counters == Counters::Each && game.state.counters > 0 {
            self.add("counters paid to each");
        }
        if who.len() > 1 && rules.sticks == Sticks::Own {
            self.add("sticks by their owners");
        }
    }

    fn liable(&mut self, how: &str, win: &Win, discarder: Option<usize>, dealer: usize) {
        if let Some(liable) = win.liable {
            let part = if liable.limits < win.worth.limits { " a part" } else { "" };
            let same = if discarder == Some(liable.player) { " discarder" } else { "" };
            let whose = if win.winner == dealer { " dealer" } else { "" };
            self.add(format!("liable {how}{whose}{part}{same}"));
        }
    }

    pub fn finals(&mut self, game: &Game, finals: &Finals) {
        let rules = &game.rules;
        if game.state.sticks > 0 {
            self.add(format!("final sticks {:?}", rules.left));
        }
        let alike = (0..4).map(|player| finals.points.iter().filter(|&&points| points == finals.points[player]).count()).max();
        if let Some(count @ 2..) = alike {
            self.add(format!("final {count} equal {:?}", rules.ties));
        }
        if finals.bonuses.iter().any(|bonus| bonus % 500 != 0) {
            self.add("final hundreds that can't be shared");
        }
        if game.penalties.iter().any(|&penalty| penalty > 0) {
            self.add("final penalty");
        }
    }
}
