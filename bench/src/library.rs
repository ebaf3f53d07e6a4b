//! The proved ledger by the calls of `riichi_desk.h`, in the types of the plain one.
use crate::house::{Switch, SWITCHES};
use crate::ledger::game::Game;
use crate::ledger::judge::Entry;
use crate::ledger::rules::{Chombo, Counters, Left, Renchan, Ron, Rules, Sticks, Ties};
use crate::ledger::state::{Deal, Four, Outcome, Some4, State, Win};

#[repr(C)]
#[derive(Clone, Copy, Default, PartialEq, Debug)]
struct Table {
    rules: u32,
    start: u32,
    returns: u32,
    extra: u32,
    chombo: u32,
    uma: [i32; 4],
    ties: u8,
    ron: u8,
    counters: u8,
    sticks: u8,
    liable: u8,
    nagashi: u8,
    renchan: u8,
    length: u8,
    bust: u8,
    stop: u8,
    left: u8,
    zero: u8,
}

#[repr(C)]
#[derive(Clone, Copy, Default, Debug)]
struct StateRow {
    points: [i32; 4],
    round: u8,
    dealer: u8,
    counters: u8,
    sticks: u8,
}

#[repr(C)]
#[derive(Clone, Copy, Default, Debug)]
struct Progress {
    state: StateRow,
    penalties: [u32; 4],
    over: u32,
}

#[repr(C)]
#[derive(Clone, Copy, Default, Debug)]
struct WorthRow {
    base: u16,
    limits: u8,
    kind: u8,
    liable: u8,
    liable_limits: u8,
}

#[repr(C)]
#[derive(Clone, Copy, Default, Debug)]
struct OutcomeRow {
    kind: u16,
    player: u16,
    riichi: [u8; 4],
    ready: [u8; 4],
    nagashi: [u8; 4],
    wins: [WorthRow; 4],
    points: u32,
    state: StateRow,
}

#[repr(C)]
#[derive(Clone, Copy, Default)]
struct Move {
    points: u32,
    sticks: u32,
    from: u8,
    to: u8,
    why: u16,
}

#[repr(C)]
#[derive(Clone, Copy, Default)]
struct Changes {
    points: [i64; 4],
    sticks: u32,
    moves: u32,
}

#[repr(C)]
#[derive(Clone, Copy, Default)]
struct Final {
    points: i64,
    bonus: i64,
    total: i64,
    penalty: u32,
    place: u32,
}

#[repr(C)]
#[derive(Clone, Copy, Default)]
struct Question {
    player: u8,
    place: u8,
    riichi: [u8; 4],
}

#[repr(C)]
#[derive(Clone, Copy, Default)]
struct PaidRow {
    base: u32,
    discarder: u32,
    dealer: u32,
    other: u32,
}

#[repr(C)]
#[derive(Clone, Copy, Default)]
struct Need {
    strictly: PaidRow,
    with_tie: PaidRow,
}

#[repr(C)]
#[derive(Clone, Copy, Default)]
struct Needs {
    off: [Need; 4],
    by_tsumo: Need,
}

extern "C" {
    fn riichi_game_table(name: u32, table: *mut Table) -> u32;
    fn riichi_game_table_fault(table: *const Table) -> u32;
    fn riichi_game_first(table: *const Table, progress: *mut Progress) -> u32;
    fn riichi_game_after(table: *const Table, progress: *mut Progress, rows: *const OutcomeRow, rows_len: usize, fault: *mut u32) -> usize;
    fn riichi_game_moves(
        table: *const Table,
        progress: *const Progress,
        row: *const OutcomeRow,
        moves: *mut Move,
        moves_len: usize,
        changes: *mut Changes,
    ) -> u32;
    fn riichi_game_finals(table: *const Table, progress: *const Progress, finals: *mut [Final; 4]) -> u32;
    fn riichi_game_needs(table: *const Table, progress: *const Progress, question: *const Question, needs: *mut Needs) -> u32;
}

/// The number that stands for no points at all.
const NONE: u32 = u32::MAX;

fn table_of(rules: &Rules) -> Table {
    let bit = |place: usize, switch: Switch| u32::from(rules.house.has(switch)) << place;
    Table {
        rules: SWITCHES.iter().enumerate().fold(0x10000, |number, (place, (_, switch))| number | bit(place, *switch)),
        start: rules.start as u32,
        returns: rules.back as u32,
        extra: rules.extra.map_or(NONE, |points| points as u32),
        chombo: match rules.chombo {
            Chombo::Points(points) => points as u32,
            Chombo::Mangan => NONE,
        },
        uma: rules.uma.map(|points| points as i32),
        ties: u8::from(rules.ties == Ties::Seat),
        ron: match rules.ron {
            Ron::All => 0,
            Ron::Nearest => 1,
            Ron::Two => 2,
        },
        counters: u8::from(rules.counters == Counters::Each),
        sticks: u8::from(rules.sticks == Sticks::Own),
        liable: rules.liable.into(),
        nagashi: rules.nagashi.into(),
        renchan: u8::from(rules.renchan == Renchan::Win),
        length: u8::from(rules.last == 0),
        bust: rules.bust.into(),
        stop: rules.stop.into(),
        left: u8::from(rules.left == Left::Lost),
        zero: 0,
    }
}

fn state_of(state: &State) -> StateRow {
    StateRow {
        points: state.points.map(|points| points as i32),
        round: state.round as u8,
        dealer: state.dealer as u8,
        counters: state.counters as u8,
        sticks: state.sticks as u8,
    }
}

fn worth_of(win: &Win) -> WorthRow {
    let (base, limits, kind) = if win.worth.limits > 0 { (0, win.worth.limits, 2) } else { (win.worth.base, 0, 1) };
    let (liable, liable_limits) = win.liable.map_or((0, 0), |liable| (1 + liable.player as u8, liable.limits as u8));
    WorthRow { base: base as u16, limits: limits as u8, kind, liable, liable_limits }
}

fn flags(some: &Some4) -> [u8; 4] {
    some.map(u8::from)
}

fn deal_of(deal: &Deal) -> OutcomeRow {
    let row = OutcomeRow { riichi: flags(&deal.bets), ..OutcomeRow::default() };
    let mut worths = [WorthRow::default(); 4];
    match &deal.outcome {
        Outcome::Ron { discarder, wins } => {
            wins.iter().for_each(|win| worths[win.winner] = worth_of(win));
            OutcomeRow { kind: 0, player: *discarder as u16, wins: worths, ..row }
        }
        Outcome::Tsumo(win) => {
            worths[win.winner] = worth_of(win);
            OutcomeRow { kind: 1, player: win.winner as u16, wins: worths, ..row }
        }
        Outcome::Draw { ready, nagashi } => {
            OutcomeRow { kind: 2, ready: flags(ready), nagashi: flags(&nagashi.unwrap_or_default()), ..row }
        }
        Outcome::Abort => OutcomeRow { kind: 3, ..row },
    }
}

fn outcome_of(entry: &Entry) -> OutcomeRow {
    let row = OutcomeRow::default();
    match entry {
        Entry::Deal(deal) => deal_of(deal),
        Entry::DeadHand(player) => OutcomeRow { kind: 4, player: *player as u16, ..row },
        Entry::Penalty { player, points } => OutcomeRow { kind: 5, player: *player as u16, points: *points as u32, ..row },
        Entry::Stands(state) => OutcomeRow { kind: 6, state: state_of(state), ..row },
        Entry::End => OutcomeRow { kind: 7, ..row },
    }
}

/// The code of a line that is refused for a fault of this number; 0 where reading a line doesn't let it come that far.
fn code_of(fault: u32) -> u8 {
    match fault {
        6 | 7 => 8,
        8 => 9,
        9 => 10,
        10 | 11 => 11,
        12..=14 => 12,
        15 => 13,
        _ => 0,
    }
}

/// The tables that have names are those of plain Rust, and a game begins alike.
pub fn same_tables(all: &[Rules]) {
    for (name, rules) in (1..).zip(all) {
        let mut table = Table::default();
        // SAFETY: here and below each pointer is that of a value of the struct that the call takes.
        assert_eq!(unsafe { riichi_game_table(name, &mut table) }, 0);
        let plain = Table { rules: 1, ..table_of(rules) };
        assert_eq!(Table { rules: 1, ..table }, plain);
        let mut first = Progress::default();
        assert_eq!(unsafe { riichi_game_first(&plain, &mut first) }, 0);
        assert_eq!(format!("{:?}", first.state), format!("{:?}", state_of(&State::first(rules))));
    }
}

/// A game as the library sees it.
#[derive(Clone, Copy)]
pub struct Library {
    table: Table,
    progress: Progress,
}

impl Library {
    pub fn new(game: &Game) -> Library {
        let table = table_of(&game.rules);
        assert_eq!(unsafe { riichi_game_table_fault(&table) }, 0, "rules that plain Rust takes");
        let penalties = game.penalties.map(|points| points as u32);
        Library { table, progress: Progress { state: state_of(&game.state), penalties, over: game.is_over.into() } }
    }

    /// The game after an entry, or the code for which a line with it is refused.
    pub fn after(&self, entry: &Entry) -> Result<Library, u8> {
        let (mut after, mut fault) = (*self, 0);
        let accepted = unsafe { riichi_game_after(&self.table, &mut after.progress, &outcome_of(entry), 1, &mut fault) };
        if accepted == 1 { Ok(after) } else { Err(code_of(fault)) }
    }

    pub fn progress(&self) -> (State, Four, bool) {
        let StateRow { points, round, dealer, counters, sticks } = self.progress.state;
        let state = State {
            points: points.map(i64::from),
            round: round.into(),
            dealer: dealer.into(),
            counters: counters.into(),
            sticks: sticks.into(),
        };
        (state, self.progress.penalties.map(i64::from), self.progress.over != 0)
    }

    /// What an entry changes, which is the sum of what it moves. (A written state moves nothing, whatever it says.)
    pub fn changes(&self, entry: &Entry) -> Four {
        if let Entry::Stands(state) = entry {
            return [0, 1, 2, 3].map(|player| state.points[player] - i64::from(self.progress.state.points[player]));
        }
        let (mut moves, mut changes) = ([Move::default(); 40], Changes::default());
        let row = outcome_of(entry);
        let fault = unsafe { riichi_game_moves(&self.table, &self.progress, &row, moves.as_mut_ptr(), 40, &mut changes) };
        assert_eq!(fault, 0);
        let mut sums = [0; 5];
        for told in &moves[..changes.moves as usize] {
            sums[usize::from(told.from)] -= i64::from(told.points);
            sums[usize::from(told.to)] += i64::from(told.points);
        }
        assert_eq!(sums[..4], changes.points);
        assert_eq!(sums[4], 1000 * (i64::from(changes.sticks) - i64::from(self.progress.state.sticks)));
        changes.points
    }

    /// Points, places, bonuses and totals where the game ends here.
    pub fn finals(&self) -> (Four, [usize; 4], Four, Four) {
        let mut told = [Final::default(); 4];
        assert_eq!(unsafe { riichi_game_finals(&self.table, &self.progress, &mut told) }, 0);
        assert_eq!(told.map(|each| each.penalty), self.progress.penalties);
        (
            told.map(|each| each.points),
            told.map(|each| each.place as usize),
            told.map(|each| each.bonus),
            told.map(|each| each.total),
        )
    }

    /// The least base points that bring a player to a place, off each player and by self-draw: strictly, and with a tie.
    pub fn needs(&self, player: usize, place: usize, bets: Some4) -> ([[Option<i64>; 2]; 4], [Option<i64>; 2]) {
        let question = Question { player: player as u8, place: place as u8, riichi: flags(&bets) };
        let mut needs = Needs::default();
        assert_eq!(unsafe { riichi_game_needs(&self.table, &self.progress, &question, &mut needs) }, 0);
        let base = |row: &PaidRow| Some(i64::from(row.base)).filter(|&base| base > 0);
        let both = |need: &Need| [base(&need.strictly), base(&need.with_tie)];
        (needs.off.map(|need| both(&need)), both(&needs.by_tsumo))
    }
}

