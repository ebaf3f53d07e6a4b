//! A game, and the answers of a text of games.
use super::coverage::Tally;
use super::ends::{finals, Finals};
use super::judge::{changes, judge, Fault, Step};
use super::rules::{read_game, Rules};
use super::state::{Four, State, ROUNDS};
use super::words::{read_words, words_of, FIRST};
use std::fmt::Write;

/// A line of so many bytes is read, a longer one refused.
const LONGEST: usize = 4096;

#[derive(Clone, PartialEq, Eq, Debug)]
pub struct Game {
    pub names: [String; 4],
    pub rules: Rules,
    pub state: State,
    pub penalties: Four,
    pub is_over: bool,
    /// A line was refused, so all behind it are.
    pub is_refused: bool,
    /// The state, the penalties and whether it was over before the last accepted line, where that can be taken back.
    former: Option<(State, Four, bool)>,
}

impl Game {
    pub fn new(names: [String; 4], rules: Rules) -> Game {
        Game { names, rules, state: State::first(&rules), penalties: [0; 4], is_over: false, is_refused: false, former: None }
    }

    /// The player of this name, or of the only name that begins so.
    pub fn player(&self, text: &str) -> Option<usize> {
        if let Some(player) = self.names.iter().position(|name| name == text) {
            return Some(player);
        }
        let mut begun = (0..4).filter(|&player| self.names[player].starts_with(text));
        begun.next().filter(|_| begun.next().is_none())
    }

    /// Takes the refused lines back, or the last accepted one: whether there was one.
    fn undo(&mut self) -> bool {
        if !self.is_refused {
            let Some((state, penalties, is_over)) = self.former.take() else {
                return false;
            };
            (self.state, self.penalties, self.is_over) = (state, penalties, is_over);
        }
        self.is_refused = false;
        true
    }

    pub fn apply(&mut self, step: &Step) {
        self.former = Some((self.state, self.penalties, self.is_over));
        match step {
            Step::Deal { after, end, .. } => {
                self.state = *after;
                self.is_over = end.is_some();
            }
            Step::DeadHand { player, after, penalty, end } => {
                self.state = *after;
                self.penalties[*player] += penalty;
                self.is_over = end.is_some();
            }
            Step::Penalty { player, points } => self.penalties[*player] += points,
            Step::Stands(state) => self.state = *state,
            Step::End => self.is_over = true,
        }
        assert!(self.state.adds_up(&self.rules), "no points come or go");
    }
}

/// What came of the last line `game`.
enum Current {
    /// There was none yet.
    Nothing,
    /// It was refused.
    Refused,
    Game(Box<Game>),
}

/// Answers lines, one after the other.
pub struct Desk {
    out: String,
    current: Current,
    pub tally: Tally,
}

impl Desk {
    pub fn new() -> Desk {
        Desk { out: String::new(), current: Current::Nothing, tally: Tally::default() }
    }

    /// The game that goes on or is over, where no line of it was refused.
    pub fn game(&self) -> Option<&Game> {
        match &self.current {
            Current::Game(game) if !game.is_refused => Some(game),
            _ => None,
        }
    }

    /// Answers a line, without its end.
    pub fn line(&mut self, line: &[u8]) {
        let read = std::str::from_utf8(line).ok();
        let text = read.filter(|text| line.len() <= LONGEST && !text.bytes().any(|byte| byte < b' ' || byte == 0x7f));
        let words = text.map(words_of);
        let is_refused = match &self.current {
            Current::Nothing => false,
            Current::Refused => true,
            Current::Game(game) => game.is_refused,
        };
        match words.as_deref() {
            Some([]) => {}
            Some(["game", rest @ ..]) => self.begin(rest),
            Some(["undo"]) => self.undo(),
            _ if is_refused => self.refuse(14.into()),
            None => self.refuse(1.into()),
            Some([first, rest @ ..]) => self.go_on(first, rest),
        }
    }

    fn begin(&mut self, rest: &[&str]) {
        self.end();
        let Some((names, rules)) = read_game(rest) else {
            self.current = Current::Refused;
            return self.refuse(3.into());
        };
        self.tally.rules(rest);
        writeln!(self.out, "game {} start {}", names.join(" "), rules.start).expect("texts grow");
        self.current = Current::Game(Box::new(Game::new(names, rules)));
    }

    fn undo(&mut self) {
        match &mut self.current {
            Current::Nothing => self.refuse(2.into()),
            Current::Refused => self.refuse(14.into()),
            Current::Game(game) => {
                if game.undo() {
                    write_stands(&mut self.out, &game.state);
                } else {
                    self.refuse(4.into());
                }
            }
        }
    }

    fn go_on(&mut self, first: &str, rest: &[&str]) {
        let Current::Game(game) = &mut self.current else {
            return self.refuse(2.into());
        };
        if !FIRST.contains(&first) {
            return self.refuse(2.into());
        }
        let Some(line) = read_words(first, rest) else {
            return self.refuse(4.into());
        };
        match judge(game, &line) {
            Err(fault) => self.refuse(fault),
            Ok(step) => {
                self.tally.hands(&line);
                self.tally.step(game, &step);
                let before = game.state;
                game.apply(&step);
                write_step(&mut self.out, game, &before, &step);
            }
        }
    }

    /// Refuses a line, and with it all lines behind it of the same game.
    fn refuse(&mut self, fault: Fault) {
        self.tally.fault(&fault);
        write!(self.out, "refused G{}", fault.code).expect("texts grow");
        if let Some(hand) = fault.hand {
            write!(self.out, " {hand}").expect("texts grow");
        }
        self.out.push('\n');
        if let Current::Game(game) = &mut self.current {
            game.is_refused = true;
        }
    }

    /// Writes what stands behind the last line of a game.
    fn end(&mut self) {
        let Current::Game(game) = &self.current else {
            return;
        };
        if game.is_over && !game.is_refused {
            let finals = finals(&game.rules, &game.state, &game.penalties);
            self.tally.finals(game, &finals);
            write_finals(&mut self.out, game, &finals);
        } else {
            write_stands(&mut self.out, &game.state);
        }
    }

    /// All answers, behind the last line.
    pub fn finish(mut self) -> (String, Tally) {
        self.end();
        (self.out, self.tally)
    }
}

fn write_place(out: &mut String, state: &State) {
    let State { round, dealer, counters, sticks, .. } = state;
    write!(out, "{} {} counters {counters} sticks {sticks}", ROUNDS[*round], dealer + 1).expect("texts grow");
}

fn write_points(out: &mut String, points: &Four) {
    out.push_str(" points");
    points.iter().for_each(|points| write!(out, " {points}").expect("texts grow"));
}

fn write_stands(out: &mut String, state: &State) {
    out.push_str("stands ");
    write_place(out, state);
    write_points(out, &state.points);
    out.push('\n');
}

fn write_step(out: &mut String, game: &Game, before: &State, step: &Step) {
    match step {
        Step::End => {}
        Step::Penalty { player, points } => {
            writeln!(out, "penalty {} {points}", game.names[*player]).expect("texts grow");
        }
        _ => {
            write_place(out, before);
            out.push_str(" changes");
            for change in changes(&before.points, &game.state.points) {
                out.push_str(if change > 0 { " +" } else { " " });
                write!(out, "{change}").expect("texts grow");
            }
            write_points(out, &game.state.points);
            out.push('\n');
        }
    }
}

/// Points as thousands with one decimal, and a sign but for nothing.
pub fn thousands(points: i64) -> String {
    let sign = match points.signum() {
        1 => "+",
        -1 => "-",
        _ => "",
    };
    format!("{sign}{}.{}", points.abs() / 1000, points.abs() % 1000 / 100)
}

fn write_finals(out: &mut String, game: &Game, finals: &Finals) {
    out.push_str("over\n");
    if game.state.sticks > 0 {
        writeln!(out, "left {}", game.state.sticks).expect("texts grow");
    }
    let mut players = [0, 1, 2, 3];
    players.sort_by_key(|&player| finals.places[player]);
    for player in players {
        let (place, name, points) = (finals.places[player], &game.names[player], finals.points[player]);
        let (bonus, total) = (thousands(finals.bonuses[player]), thousands(finals.totals[player]));
        let penalty = game.penalties[player];
        writeln!(out, "final {place} {name} points {points} bonus {bonus} penalty {penalty} total {total}").expect("texts grow");
    }
}

/// The lines of a text, each without the line feed that ends it and one return before that.
pub fn lines_of(text: &[u8]) -> impl Iterator<Item = &[u8]> {
    let whole = text.strip_suffix(b"\n").unwrap_or(text);
    let lines = whole.split(|&byte| byte == b'\n').map(|line| line.strip_suffix(b"\r").unwrap_or(line));
    lines.filter(|_| !text.is_empty())
}

/// The answers of a text.
pub fn answers(text: &[u8]) -> (String, Tally) {
    let mut desk = Desk::new();
    lines_of(text).for_each(|line| desk.line(line));
    desk.finish()
}
