//! The values of a game.
use std::error::Error;
use std::fmt;

use crate::arrays::Win;
use crate::Rules;

/// A player, by the first seat.
#[derive(Clone, Copy, Debug, PartialEq, Eq, Hash, PartialOrd, Ord)]
pub enum Player {
    First,
    Second,
    Third,
    Fourth,
}

impl Player {
    /// The four, by their first seats.
    pub const ALL: [Player; 4] = [Player::First, Player::Second, Player::Third, Player::Fourth];
}

/// Something for each player, by the first seats.
pub type ByPlayer<T> = [T; 4];

/// What players with equal points have.
#[derive(Clone, Copy, Debug, PartialEq, Eq, Hash)]
pub enum Ties {
    /// The same place, and they share its bonuses.
    Share,
    /// A place each: the earlier first seat is ahead.
    Seat,
}

/// Who wins, where several win on one discard.
#[derive(Clone, Copy, Debug, PartialEq, Eq, Hash)]
pub enum SeveralWinners {
    All,
    /// The first of them in turn behind the discarder.
    Nearest,
    /// Both of two, while three make the deal an abort.
    Two,
}

/// Whom the counters are paid to, where several win.
#[derive(Clone, Copy, Debug, PartialEq, Eq, Hash)]
pub enum CountersTo {
    Nearest,
    Each,
}

/// Who takes the riichi sticks, where several win.
#[derive(Clone, Copy, Debug, PartialEq, Eq, Hash)]
pub enum SticksTo {
    Nearest,
    /// Each takes the own bet of the deal back, and the nearest the rest.
    Own,
}

/// When the dealer stays at a draw.
#[derive(Clone, Copy, Debug, PartialEq, Eq, Hash)]
pub enum Renchan {
    Ready,
    /// By a win alone.
    Win,
}

/// The last round.
#[derive(Clone, Copy, Debug, PartialEq, Eq, Hash)]
pub enum Length {
    South,
    East,
}

/// Who has the sticks that lie at the end.
#[derive(Clone, Copy, Debug, PartialEq, Eq, Hash)]
pub enum LeftSticks {
    First,
    Lost,
}

/// What a dead hand costs.
#[derive(Clone, Copy, Debug, PartialEq, Eq, Hash)]
pub enum ChomboCost {
    /// So many of the final points.
    Points(u32),
    /// A mangan that is paid to the others at once.
    Mangan,
}

/// The rules of a table. All points are points, not thousands. GAME.md of the repository says what each means.
#[derive(Clone, Copy, Debug, PartialEq, Eq, Hash)]
pub struct TableRules {
    /// How hands are valued.
    pub rules: Rules,
    pub start: u32,
    pub returns: u32,
    /// The bonus of each place.
    pub uma: [i32; 4],
    pub ties: Ties,
    pub ron: SeveralWinners,
    pub counters: CountersTo,
    pub sticks: SticksTo,
    pub liable: bool,
    pub nagashi: bool,
    pub renchan: Renchan,
    pub length: Length,
    /// The points for which no round more is played; none is played anyway where there are none.
    pub extra: Option<u32>,
    pub bust: bool,
    pub stop: bool,
    pub left: LeftSticks,
    pub chombo: ChomboCost,
}

impl Default for TableRules {
    /// The rules of a club.
    fn default() -> Self {
        TableRules::club()
    }
}

/// Why no table may choose some rules.
#[derive(Clone, Copy, Debug, PartialEq, Eq, Hash)]
pub enum RulesFault {
    /// Points are above 1000000 or no whole hundreds.
    Points,
    /// The start is below 100.
    Start,
    /// The return is below the start.
    Return,
    /// A bonus is no whole thousands, or above 1000000 either way.
    UmaStep,
    /// A bonus is greater than the one before it.
    UmaOrder,
    /// The bonuses don't add up to 0.
    UmaSum,
}

/// The prevalent wind.
#[derive(Clone, Copy, Debug, PartialEq, Eq, Hash)]
pub enum Round {
    East,
    South,
    West,
    North,
}

/// What the table shows between two deals.
#[derive(Clone, Copy, Debug, PartialEq, Eq, Hash)]
pub struct State {
    pub points: ByPlayer<i32>,
    pub round: Round,
    pub dealer: Player,
    pub counters: u8,
    pub sticks: u8,
}

/// What a player wins.
#[derive(Clone, Debug, PartialEq, Eq)]
pub enum Value {
    HanFu { han: u8, fu: u8 },
    Mangan,
    Haneman,
    Baiman,
    Sanbaiman,
    /// Of so many limits.
    Yakuman { limits: u8 },
    /// A yakuman, as such or as a hand, that a player is liable for, for so many of its limits.
    Liable { value: Box<Value>, player: Player, limits: u8 },
    /// A hand, whose seat, round, counters and sticks are those of the game.
    Hand(Win),
}

/// How a deal ended, or another entry of the ledger. `riichi` says who has bet in the deal.
#[derive(Clone, Debug, PartialEq, Eq)]
pub enum Outcome {
    /// Wins on a discard: what each wins who said ron.
    Ron { from: Player, wins: Vec<(Player, Value)>, riichi: Vec<Player> },
    Tsumo { winner: Player, value: Value, riichi: Vec<Player> },
    Draw { ready: Vec<Player>, nagashi: Vec<Player>, riichi: Vec<Player> },
    Abort { riichi: Vec<Player> },
    /// A dead hand.
    Chombo(Player),
    /// Points off the final points.
    Penalty(Player, u32),
    /// The state as it is written.
    Stands(State),
    End,
}

/// Why an outcome is refused; of several reasons the first in this order.
#[derive(Clone, Copy, Debug, PartialEq, Eq, Hash)]
pub enum Fault {
    NobodyWins,
    DiscarderWins,
    WinnerLiable,
    NoSuchWorth,
    LiableLimits,
    LiableOff,
    NagashiOff,
    BetOfTooFew,
    NotReady,
    StandsSum,
    StandsRound,
    OverCounters,
    OverSticks,
    OverPoints,
    GameOver,
}

impl Fault {
    pub(crate) const ALL: [Fault; 15] = [
        Fault::NobodyWins,
        Fault::DiscarderWins,
        Fault::WinnerLiable,
        Fault::NoSuchWorth,
        Fault::LiableLimits,
        Fault::LiableOff,
        Fault::NagashiOff,
        Fault::BetOfTooFew,
        Fault::NotReady,
        Fault::StandsSum,
        Fault::StandsRound,
        Fault::OverCounters,
        Fault::OverSticks,
        Fault::OverPoints,
        Fault::GameOver,
    ];
}

impl fmt::Display for Fault {
    fn fmt(&self, to: &mut fmt::Formatter<'_>) -> fmt::Result {
        to.write_str(match self {
            Fault::NobodyWins => "nobody wins",
            Fault::DiscarderWins => "discarder wins",
            Fault::WinnerLiable => "winner liable",
            Fault::NoSuchWorth => "no such worth",
            Fault::LiableLimits => "liable limits",
            Fault::LiableOff => "liable off",
            Fault::NagashiOff => "nagashi off",
            Fault::BetOfTooFew => "bet of too few",
            Fault::NotReady => "not ready",
            Fault::StandsSum => "stands sum",
            Fault::StandsRound => "stands round",
            Fault::OverCounters => "over counters",
            Fault::OverSticks => "over sticks",
            Fault::OverPoints => "over points",
            Fault::GameOver => "game over",
        })
    }
}

/// Why a game refuses something; it is as it was.
#[derive(Clone, Copy, Debug, PartialEq, Eq, Hash)]
pub enum Refused {
    Outcome(Fault),
    /// A player is written twice among the winners.
    Twice(Player),
    /// A hand has no yaku.
    NoYaku,
    /// A hand is no win.
    NoWin,
    /// A hand is the record of none, by the number of its fault: 8 for H8.
    Hand(u8),
    /// A place isn't 1 to 4.
    Place,
}

impl fmt::Display for Refused {
    fn fmt(&self, to: &mut fmt::Formatter<'_>) -> fmt::Result {
        match self {
            Refused::Outcome(fault) => write!(to, "refused: {fault}"),
            Refused::Twice(player) => write!(to, "{player:?} wins twice"),
            Refused::NoYaku => write!(to, "the hand has no yaku"),
            Refused::NoWin => write!(to, "the hand is no win"),
            Refused::Hand(number) => write!(to, "the hand is refused: H{number}"),
            Refused::Place => write!(to, "a place is 1 to 4"),
        }
    }
}

impl Error for Refused {}

impl fmt::Display for RulesFault {
    fn fmt(&self, to: &mut fmt::Formatter<'_>) -> fmt::Result {
        to.write_str(match self {
            RulesFault::Points => "points are whole hundreds up to 1000000",
            RulesFault::Start => "a start is 100 points at least",
            RulesFault::Return => "the return is not fewer than the start",
            RulesFault::UmaStep => "a bonus is whole thousands, up to 1000000 either way",
            RulesFault::UmaOrder => "no bonus is greater than the one before it",
            RulesFault::UmaSum => "the bonuses add up to 0",
        })
    }
}

impl Error for RulesFault {}

/// Why something is moved.
#[derive(Clone, Copy, Debug, PartialEq, Eq, Hash)]
pub enum Reason {
    Ron,
    Tsumo,
    /// The limits of a yakuman that the payer is liable for.
    Liable,
    /// The discarder's half of what another is liable for.
    OtherHalf,
    Counters,
    Ready,
    Nagashi,
    Chombo,
    /// A player puts a stick on the table.
    Bet,
    /// A winner takes the sticks that lie.
    Sticks,
    /// One of several winners takes the own bet back.
    OwnBet,
}

impl Reason {
    pub(crate) const ALL: [Reason; 11] = [
        Reason::Ron,
        Reason::Tsumo,
        Reason::Liable,
        Reason::OtherHalf,
        Reason::Counters,
        Reason::Ready,
        Reason::Nagashi,
        Reason::Chombo,
        Reason::Bet,
        Reason::Sticks,
        Reason::OwnBet,
    ];
}

/// Something that an outcome moves; who gives or gets nothing named is the table.
#[derive(Clone, Copy, Debug, PartialEq, Eq, Hash)]
pub struct Move {
    pub from: Option<Player>,
    pub to: Option<Player>,
    /// Of sticks 1000 each.
    pub points: u32,
    pub sticks: u32,
    pub why: Reason,
}

/// What a player has at the end, in points.
#[derive(Clone, Copy, Debug, PartialEq, Eq, Hash)]
pub struct Final {
    pub place: u8,
    /// With the sticks that the rules give.
    pub points: i64,
    pub bonus: i64,
    pub penalty: u32,
    /// The final points.
    pub total: i64,
}

/// A row of the table of payments: what each pays, with the counters.
#[derive(Clone, Copy, Debug, PartialEq, Eq, Hash)]
pub struct Paid {
    pub base: u32,
    pub discarder: u32,
    pub dealer: u32,
    pub other: u32,
}

/// The least row that brings a player to a place, if any up to one yakuman does.
#[derive(Clone, Copy, Debug, PartialEq, Eq, Hash)]
pub struct Need {
    /// With fewer others than the place who have as many points or more.
    pub strictly: Option<Paid>,
    /// With fewer others than the place who are ahead.
    pub with_tie: Option<Paid>,
}

/// What a player needs.
#[derive(Clone, Copy, Debug, PartialEq, Eq, Hash)]
pub struct Needs {
    /// By ron off each player; none for the own discard.
    pub off: ByPlayer<Option<Need>>,
    pub by_tsumo: Need,
}
