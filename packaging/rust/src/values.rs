//! The answers to lines as values, read from their JSON.
use crate::json::Json;
use std::{error, fmt, ops::Range, str::FromStr};

/// A kind of tile. Kinds are in the order of their numbers.
#[derive(Clone, Copy, PartialEq, Eq, PartialOrd, Ord, Hash)]
pub struct Kind(u8);

impl Kind {
    /// The kind with a number, 0 to 33, as the calls of [`crate::arrays`] have it.
    pub fn of_number(number: u8) -> Option<Kind> {
        Some(Kind(number)).filter(|_| number < 34)
    }

    pub fn number(self) -> u8 {
        self.0
    }
}

/// A digit and the letter of its suit.
impl fmt::Display for Kind {
    fn fmt(&self, to: &mut fmt::Formatter<'_>) -> fmt::Result {
        let suit = ["m", "p", "s", "z"][usize::from(self.0 / 9)];
        write!(to, "{}{suit}", self.0 % 9 + 1)
    }
}

impl fmt::Debug for Kind {
    fn fmt(&self, to: &mut fmt::Formatter<'_>) -> fmt::Result {
        fmt::Display::fmt(self, to)
    }
}

/// A text that is no kind.
#[derive(Clone, Copy, Debug, PartialEq, Eq)]
pub struct NoKind;

impl fmt::Display for NoKind {
    fn fmt(&self, to: &mut fmt::Formatter<'_>) -> fmt::Result {
        write!(to, "a kind is a digit and its letter, as 5p or 7z")
    }
}

impl error::Error for NoKind {}

/// ```
/// use riichi_desk::Kind;
/// let kind: Kind = "5p".parse().unwrap();
/// assert_eq!((kind.number(), kind.to_string().as_str()), (13, "5p"));
/// assert!("8z".parse::<Kind>().is_err());
/// ```
impl FromStr for Kind {
    type Err = NoKind;

    fn from_str(text: &str) -> Result<Kind, NoKind> {
        let number = match text.as_bytes() {
            [digit @ b'1'..=b'9', suit] => (0..4).find(|at| b"mpsz"[usize::from(*at)] == *suit).map(|at| 9 * at + digit - b'1'),
            _ => None,
        };
        number.and_then(Kind::of_number).ok_or(NoKind)
    }
}

/// What is answered to a line that isn't refused.
#[derive(Clone, Debug, PartialEq, Eq, Hash)]
pub enum Answer {
    Won(Won),
    /// The tiles are a win, and have no yaku under these rules.
    NoYaku,
    /// The tiles are no win.
    NoWin,
    /// The kinds that complete a hand.
    Waits(Vec<Kind>),
    /// How far a hand of thirteen tiles is from winning.
    Accepts { shanten: i8, accepted: Accepted },
    /// How far a hand of fourteen tiles is from winning: the kinds to discard, the best first, with what it then accepts.
    Discards { shanten: i8, discards: Vec<(Kind, Accepted)> },
}

/// The kinds that bring a hand nearer, each with its live copies, and how many these are in all.
#[derive(Clone, Debug, PartialEq, Eq, Hash)]
pub struct Accepted {
    pub kinds: Vec<(Kind, u8)>,
    pub live: u8,
}

/// What a win is worth. Of a yakuman `han`, `fu` and `dora` are 0.
#[derive(Clone, Debug, PartialEq, Eq, Hash)]
pub struct Won {
    pub yakuman: bool,
    pub han: u8,
    pub fu: u8,
    pub dora: u8,
    pub base: u32,
    pub limit: Option<Limit>,
    pub payment: Payment,
    /// All that the winner gains, with counters and sticks.
    pub gain: u32,
    pub yaku: Vec<Yaku>,
}

/// A limit hand.
#[derive(Clone, Copy, Debug, PartialEq, Eq, PartialOrd, Ord, Hash)]
pub enum Limit {
    Mangan,
    Haneman,
    Baiman,
    Sanbaiman,
    Yakuman,
}

/// Who pays what, in points.
#[derive(Clone, Copy, Debug, PartialEq, Eq, Hash)]
pub enum Payment {
    /// For a win by ron.
    Discarder(u32),
    /// For a self-draw of one who isn't the dealer: the dealer, and each of the two others.
    Others { dealer: u32, each_other: u32 },
    /// For a self-draw of the dealer.
    Each(u32),
}

/// A yaku by its number, its word, and the Japanese name by which players know it.
#[derive(Clone, Debug, PartialEq, Eq, Hash)]
pub struct Yaku {
    pub number: u8,
    pub word: String,
    pub japanese: String,
}

/// The code of a refusal, as NOTATION.md of the release has it.
#[derive(Clone, Copy, Debug, PartialEq, Eq, Hash)]
pub enum Code {
    /// Of a line: 4 for H4.
    H(u8),
    /// Of a text of tiles: 2 for N2.
    N(u8),
}

impl fmt::Display for Code {
    fn fmt(&self, to: &mut fmt::Formatter<'_>) -> fmt::Result {
        match self {
            Code::H(number) => write!(to, "H{number}"),
            Code::N(number) => write!(to, "N{number}"),
        }
    }
}

/// A key of a line, or its hand.
#[derive(Clone, Copy, Debug, PartialEq, Eq, Hash)]
pub enum Key {
    Hand,
    On,
    By,
    Seat,
    Round,
    Open,
    Riichi,
    Flags,
    Dora,
    Ura,
    Counters,
    Sticks,
    Seen,
}

const KEYS: [(Key, &str); 13] = [
    (Key::Hand, "hand"),
    (Key::On, "on"),
    (Key::By, "by"),
    (Key::Seat, "seat"),
    (Key::Round, "round"),
    (Key::Open, "open"),
    (Key::Riichi, "riichi"),
    (Key::Flags, "flags"),
    (Key::Dora, "dora"),
    (Key::Ura, "ura"),
    (Key::Counters, "counters"),
    (Key::Sticks, "sticks"),
    (Key::Seen, "seen"),
];

const LIMITS: [(Limit, &str); 5] = [
    (Limit::Mangan, "mangan"),
    (Limit::Haneman, "haneman"),
    (Limit::Baiman, "baiman"),
    (Limit::Sanbaiman, "sanbaiman"),
    (Limit::Yakuman, "yakuman"),
];

/// The key as a line has it.
impl fmt::Display for Key {
    fn fmt(&self, to: &mut fmt::Formatter<'_>) -> fmt::Result {
        to.write_str(KEYS.iter().find(|(key, _)| key == self).map_or("", |(_, word)| word))
    }
}

/// Why a line is refused.
#[derive(Clone, Debug, PartialEq, Eq, Hash)]
pub struct Refused {
    pub code: Code,
    /// The place of the fault in the text of tiles that [`Refused::key`] names, in bytes.
    pub place: Option<usize>,
    /// The key at fault.
    pub key: Option<Key>,
    /// The bytes of the line where the word at fault stands.
    pub word: Option<Range<usize>>,
    /// What may stand there.
    pub words: String,
}

impl fmt::Display for Refused {
    fn fmt(&self, to: &mut fmt::Formatter<'_>) -> fmt::Result {
        match self.key {
            Some(key) => write!(to, "refused {}: {key}: {}", self.code, self.words),
            None => write!(to, "refused {}: {}", self.code, self.words),
        }
    }
}

impl error::Error for Refused {}

/// The answer that an object tells.
pub(crate) fn read(object: &str) -> Result<Answer, Refused> {
    let told = Json::read(object);
    told.as_ref().and_then(result_of).expect("objects are those of the schema")
}

fn result_of(told: &Json) -> Option<Result<Answer, Refused>> {
    let answer = match told.text("answer")? {
        "refused" => return refused_of(told).map(Err),
        "won" => Answer::Won(won_of(told)?),
        "no yaku" => Answer::NoYaku,
        "no win" => Answer::NoWin,
        "waits" => Answer::Waits(told.list("kinds")?.iter().map(|it| kind_of(it.as_text()?)).collect::<Option<_>>()?),
        _ => shape_of(told)?,
    };
    Some(Ok(answer))
}

fn won_of(told: &Json) -> Option<Won> {
    let yaku = |it: &Json| {
        Some(Yaku { number: it.number("number")?, word: it.text("word")?.into(), japanese: it.text("japanese")?.into() })
    };
    Some(Won {
        yakuman: told.flag("yakuman")?,
        han: told.number("han")?,
        fu: told.number("fu")?,
        dora: told.number("dora")?,
        base: told.number("base")?,
        limit: told.text("limit").and_then(|word| named(&LIMITS, word)),
        payment: payment_of(told.member("payment")?)?,
        gain: told.number("gain")?,
        yaku: told.list("yaku")?.iter().map(yaku).collect::<Option<_>>()?,
    })
}

fn payment_of(told: &Json) -> Option<Payment> {
    let others = || Some(Payment::Others { dealer: told.number("dealer")?, each_other: told.number("each_other")? });
    told.number("discarder").map(Payment::Discarder).or_else(|| told.number("each").map(Payment::Each)).or_else(others)
}

fn shape_of(told: &Json) -> Option<Answer> {
    let shanten = told.number("shanten")?;
    let discard = |it: &Json| Some((kind_of(it.text("discard")?)?, accepted_of(it)?));
    Some(match told.list("discards") {
        Some(discards) => Answer::Discards { shanten, discards: discards.iter().map(discard).collect::<Option<_>>()? },
        None => Answer::Accepts { shanten, accepted: accepted_of(told)? },
    })
}

fn accepted_of(told: &Json) -> Option<Accepted> {
    let kind = |it: &Json| Some((kind_of(it.text("kind")?)?, it.number("live")?));
    Some(Accepted { kinds: told.list("accepts")?.iter().map(kind).collect::<Option<_>>()?, live: told.number("live")? })
}

fn refused_of(told: &Json) -> Option<Refused> {
    let (letter, number) = told.text("code")?.split_at(1);
    let sort = [(Code::H as fn(u8) -> Code, "H"), (Code::N, "N")];
    let end = |at: usize| Some(at..at + told.number::<usize>("length")?);
    Some(Refused {
        code: named(&sort, letter)?(number.parse().ok()?),
        place: told.number("place"),
        key: told.text("text").or_else(|| told.text("key")).and_then(|word| named(&KEYS, word)),
        word: told.number("at").and_then(end),
        words: told.text("words")?.into(),
    })
}

fn kind_of(text: &str) -> Option<Kind> {
    text.parse().ok()
}

/// The value that has a word.
fn named<T: Copy>(values: &[(T, &str)], word: &str) -> Option<T> {
    values.iter().find(|(_, name)| *name == word).map(|(value, _)| *value)
}
