//! What a line says of a game: a step, or the first fault that holds.
use super::game::Game;
use super::rules::Rules;
use super::settle::LIMIT;
use super::state::{after, dead_hand, Deal, End, Four, Liable, Outcome, Some4, State, Win, Worth, MOST};
use super::words::{Fed, Line, Value, Winner};
use crate::answer::write_fault;
use crate::house::{House, Switch};
use crate::line::{read_hand, Known};
use crate::score::{base_points, best, Answer, Score};

/// A fault: its code, and the answer of a hand that is at fault.
#[derive(Clone, PartialEq, Eq, Debug)]
pub struct Fault {
    pub code: u8,
    pub hand: Option<String>,
}

impl From<u8> for Fault {
    fn from(code: u8) -> Fault {
        Fault { code, hand: None }
    }
}

/// What a line says, before it is asked whether the game and its rules allow it.
#[derive(Clone, PartialEq, Eq, Debug)]
pub enum Entry {
    Deal(Deal),
    DeadHand(usize),
    Penalty { player: usize, points: i64 },
    Stands(State),
    End,
}

/// What a line does to a game.
#[derive(Clone, PartialEq, Eq, Debug)]
pub enum Step {
    Deal { deal: Deal, after: State, end: Option<End> },
    DeadHand { player: usize, after: State, penalty: i64, end: Option<End> },
    Penalty { player: usize, points: i64 },
    Stands(State),
    End,
}

/// The step of a line, or its first fault from the names on.
pub fn judge(game: &Game, line: &Line) -> Result<Step, Fault> {
    step_of(game, &entry_of(game, line)?)
}

/// What a line says, or the first fault of its names, values and hands.
pub fn entry_of(game: &Game, line: &Line) -> Result<Entry, Fault> {
    Ok(match line {
        Line::Ron { winners, discarder, riichi } => Entry::Deal(won(game, winners, Some(discarder), riichi)?),
        Line::Tsumo { winner, riichi } => Entry::Deal(won(game, std::slice::from_ref(winner), None, riichi)?),
        Line::Draw { ready, nagashi, riichi } => {
            let ready = players(game, ready)?;
            let nagashi = nagashi.as_ref().map(|names| players(game, names)).transpose()?;
            Entry::Deal(Deal { outcome: Outcome::Draw { ready, nagashi }, bets: players(game, riichi)? })
        }
        Line::Abort { riichi } => Entry::Deal(Deal { outcome: Outcome::Abort, bets: players(game, riichi)? }),
        Line::Chombo { name } => Entry::DeadHand(player(game, name)?),
        Line::Penalty { name, points } => Entry::Penalty { player: player(game, name)?, points: *points },
        Line::Stands { round, dealer, counters, sticks, points } => {
            Entry::Stands(State { points: *points, round: *round, dealer: *dealer, counters: *counters, sticks: *sticks })
        }
        Line::End => Entry::End,
    })
}

/// What an entry does to a game, or the first fault of what the game and its rules don't allow.
pub fn step_of(game: &Game, entry: &Entry) -> Result<Step, Fault> {
    let step = match entry {
        Entry::Deal(deal) => deal_step(game, deal)?,
        Entry::DeadHand(player) => {
            let (after, penalty, end) = dead_hand(&game.rules, &game.state, *player);
            Step::DeadHand { player: *player, after, penalty, end }
        }
        Entry::Penalty { player, points } => Step::Penalty { player: *player, points: *points },
        Entry::Stands(state) => {
            if !state.adds_up(&game.rules) || !game.rules.has_round(state.round) {
                return Err(11.into());
            }
            if state.counters > MOST || state.sticks > MOST {
                return Err(12.into());
            }
            Step::Stands(*state)
        }
        Entry::End => Step::End,
    };
    if !fits(game, &step) {
        return Err(12.into());
    }
    if game.is_over && !matches!(step, Step::Penalty { .. }) { Err(13.into()) } else { Ok(step) }
}

/// So many points a player has at most, up or down, and so many penalties.
const MOST_POINTS: i64 = 1_000_000_000;

/// Whether no player has more points or penalties after a step than a ledger keeps.
fn fits(game: &Game, step: &Step) -> bool {
    let penalty = |player: usize, points: i64| game.penalties[player] + points <= MOST_POINTS;
    let are_few = |state: &State| state.points.iter().all(|points| points.abs() <= MOST_POINTS);
    match step {
        Step::Deal { after, .. } | Step::Stands(after) => are_few(after),
        Step::DeadHand { player, after, penalty: points, .. } => are_few(after) && penalty(*player, *points),
        Step::Penalty { player, points } => penalty(*player, *points),
        Step::End => true,
    }
}

fn player(game: &Game, name: &str) -> Result<usize, Fault> {
    game.player(name).ok_or(5.into())
}

/// The players of a list, none of them twice.
fn players(game: &Game, names: &[&str]) -> Result<Some4, Fault> {
    let mut all = [false; 4];
    for name in names {
        let player = player(game, name)?;
        if all[player] {
            return Err(5.into());
        }
        all[player] = true;
    }
    Ok(all)
}

fn deal_step(game: &Game, deal: &Deal) -> Result<Step, Fault> {
    if !is_allowed(&game.rules, &deal.outcome) {
        return Err(8.into());
    }
    if game.rules.bust && (0..4).any(|player| deal.bets[player] && game.state.points[player] < 1000) {
        return Err(9.into());
    }
    if let Outcome::Draw { ready, .. } = deal.outcome {
        if (0..4).any(|player| deal.bets[player] && !ready[player]) {
            return Err(10.into());
        }
    }
    let (after, end) = after(&game.rules, &game.state, deal).ok_or(12)?;
    Ok(Step::Deal { deal: deal.clone(), after, end })
}

/// Whether the rules know what an outcome names.
fn is_allowed(rules: &Rules, outcome: &Outcome) -> bool {
    match outcome {
        Outcome::Ron { wins, .. } => rules.liable || wins.iter().all(|win| win.liable.is_none()),
        Outcome::Tsumo(win) => rules.liable || win.liable.is_none(),
        Outcome::Draw { nagashi, .. } => rules.nagashi || nagashi.is_none(),
        Outcome::Abort => true,
    }
}

/// The players that a win names.
struct Named {
    winners: Vec<usize>,
    discarder: Option<usize>,
    liable: Vec<Option<usize>>,
    riichi: Some4,
}

/// What the word `riichi=` of a hand says, where there is one.
fn said_riichi<'a>(value: &Value<'a>) -> Option<&'a str> {
    match value {
        Value::Hand { words, .. } => words.iter().find_map(|word| word.strip_prefix("riichi=")),
        _ => None,
    }
}

fn named(game: &Game, winners: &[Winner], discarder: Option<&str>, riichi: &[&str]) -> Result<Named, Fault> {
    let fed = |winner: &Winner| winner.liable.as_ref().map(|fed| player(game, fed.name)).transpose();
    let named = Named {
        winners: winners.iter().map(|winner| player(game, winner.name)).collect::<Result<_, _>>()?,
        discarder: discarder.map(|name| player(game, name)).transpose()?,
        liable: winners.iter().map(fed).collect::<Result<_, _>>()?,
        riichi: players(game, riichi)?,
    };
    let is_twice = (0..winners.len()).any(|at| named.winners[..at].contains(&named.winners[at]));
    let pays = named.winners.iter().any(|winner| named.discarder == Some(*winner) || named.liable.contains(&Some(*winner)));
    let denies = |at: usize| said_riichi(&winners[at].value) == Some("0") && named.riichi[named.winners[at]];
    if is_twice || pays || (0..winners.len()).any(denies) { Err(5.into()) } else { Ok(named) }
}

fn won(game: &Game, winners: &[Winner], discarder: Option<&&str>, riichi: &[&str]) -> Result<Deal, Fault> {
    let Named { winners: players, discarder, liable, riichi } = named(game, winners, discarder.copied(), riichi)?;
    let mut faults: Vec<Fault> = Vec::new();
    let mut bets = riichi;
    let mut wins = Vec::new();
    if !have_same_tile(winners) {
        faults.push(6.into());
    }
    for (at, winner) in winners.iter().enumerate() {
        let player = players[at];
        let worth = worth(game, player, &winner.value, discarder.is_none(), riichi[player]);
        let told = worth.and_then(|(worth, named)| {
            let fed = winner.liable.as_ref().zip(liable[at]);
            let liable = fed.map(|(fed, player)| liable_of(fed, player, worth, named)).transpose()?;
            Ok(Win { winner: player, worth, liable })
        });
        match told {
            Ok(win) => wins.push(win),
            Err(fault) => faults.push(fault),
        }
        bets[player] |= matches!(said_riichi(&winner.value), Some("1" | "2"));
    }
    if let Some(fault) = faults.into_iter().min_by_key(|fault| fault.code) {
        return Err(fault);
    }
    let outcome = match discarder {
        Some(discarder) => Outcome::Ron { discarder, wins },
        None => Outcome::Tsumo(wins[0]),
    };
    Ok(Deal { outcome, bets })
}

/// Whether the hands of a line are won on the same tile.
fn have_same_tile(winners: &[Winner]) -> bool {
    let tile = |winner: &Winner| match &winner.value {
        Value::Hand { words, .. } => words.iter().find(|word| word.starts_with("on=")).map(|word| word.to_string()),
        _ => None,
    };
    let tiles: Vec<String> = winners.iter().filter_map(tile).collect();
    tiles.windows(2).all(|two| two[0] == two[1])
}

fn liable_of(fed: &Fed, player: usize, worth: Worth, named: Option<i64>) -> Result<Liable, Fault> {
    let limits = fed.limits.or(named).ok_or(6)?;
    if (1..=worth.limits).contains(&limits) { Ok(Liable { player, limits }) } else { Err(6.into()) }
}

/// What a value is worth, and for how many limits somebody is liable where that isn't said.
fn worth(game: &Game, player: usize, value: &Value, is_tsumo: bool, has_bet: bool) -> Result<(Worth, Option<i64>), Fault> {
    let house = game.rules.house;
    match value {
        Value::Limit { base, limits } => {
            let is_one = *base != LIMIT * *limits || (1..=most_limits(house)).contains(limits);
            if is_one { Ok((Worth { base: *base, limits: *limits }, Some(1))) } else { Err(6.into()) }
        }
        Value::Han { han, fu } if has_hand(house, *han, *fu, is_tsumo) => {
            let base = base_points(house, *han as u8, *fu as u8).into();
            Ok((Worth { base, limits: 0 }, Some(1)))
        }
        Value::Han { .. } => Err(6.into()),
        Value::Hand { hand, words } => {
            let (seat, round) = (27 + game.state.seat(player) as u8, 27 + game.state.round as u8);
            hand_worth(house, hand, words, &Known { is_tsumo, seat, round, has_bet })
        }
    }
}

/// So many limits a yakuman has at most.
pub fn most_limits(house: House) -> i64 {
    match (house.has(Switch::DoubleYakuman), house.has(Switch::AddYakuman)) {
        (false, false) => 1,
        (true, false) => 2,
        (false, true) => 4,
        (true, true) => 6,
    }
}

/// Whether some hand has so many han and fu.
pub fn has_hand(house: House, han: i64, fu: i64, is_tsumo: bool) -> bool {
    let most = if han >= 4 { 140 } else { 110 };
    let is_fu = fu == 20 || fu == 25 || (30..=most).contains(&fu) && fu % 10 == 0;
    let is_missing = match fu {
        20 if is_tsumo => han == 1,
        20 => house.has(Switch::OpenPinfuFu),
        25 => han == 1 || is_tsumo && han == 2,
        110 => han == 1 && (is_tsumo || !house.has(Switch::DoubleWindPair)),
        _ => false,
    };
    (1..100).contains(&han) && is_fu && !is_missing
}

fn hand_fault(hand: String) -> Fault {
    Fault { code: 7, hand: Some(hand) }
}

fn hand_worth(house: House, hand: &str, words: &[&str], known: &Known) -> Result<(Worth, Option<i64>), Fault> {
    let win = read_hand(house, hand, words, known).map_err(|fault| {
        let mut text = Vec::new();
        write_fault(&mut text, fault);
        hand_fault(String::from_utf8(text).expect("a refusal is plain"))
    })?;
    match best(&win) {
        Answer::NoWin => Err(hand_fault("no win".into())),
        Answer::NoYaku => Err(hand_fault("no yaku".into())),
        Answer::Won(score) => {
            let limits = if score.is_yakuman { i64::from(score.base) / LIMIT } else { 0 };
            Ok((Worth { base: score.base.into(), limits }, named_limits(house, &score)))
        }
    }
}

/// The limits that a hand names itself: of three dragons and of four winds.
fn named_limits(house: House, score: &Score) -> Option<i64> {
    let has = |yaku: u32| score.is_yakuman && score.yaku >> yaku & 1 == 1;
    if has(34) && house.has(Switch::DoubleYakuman) {
        Some(2)
    } else {
        (has(32) || has(34)).then_some(1)
    }
}

/// The changes from one state to the next.
pub fn changes(before: &Four, after: &Four) -> Four {
    [0, 1, 2, 3].map(|player| after[player] - before[player])
}
