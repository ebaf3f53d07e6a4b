//! What a hand of riichi mahjong is worth and why, its waits, and how far it is from a win. The answers are proved to be those of the
//! rules, for every hand.
//!
//! ```
//! use riichi_desk::{answer, explain, Rules};
//! assert_eq!(answer("waits 1112345678999m", Rules::One).as_deref(), Some("waits 123456789m"));
//! assert_eq!(answer("# a comment", Rules::One), None);
//! for why in explain("win 99978m444p567s22s on=9m by=ron seat=S round=E riichi=1", Rules::One).lines() {
//!     println!("{why}"); // the reading, and its rows of han, fu and payments
//! }
//! ```
//!
//! As values, whose words are enums; what is refused is an [`Error`]:
//!
//! ```
//! use riichi_desk::{value, Answer, Error, Key, Payment, Rules};
//! # fn main() -> Result<(), Error> {
//! match value("win 99978m444p567s22s on=9m by=ron seat=S round=E riichi=1", Rules::One)? {
//!     Some(Answer::Won(won)) => assert_eq!((won.han, won.fu, won.payment), (1, 50, Payment::Discarder(1600))),
//!     other => println!("{other:?}"),
//! }
//! let refused = value("win 234m567m345p67s99s on=5s by=ron seat=s round=E", Rules::One).unwrap_err();
//! assert_eq!(refused.key, Some(Key::Seat));
//! assert_eq!(Error::from(refused).to_string(), "refused H4: seat: a seat is E, S, W or N");
//! # Ok(())
//! # }
//! ```
//!
//! A question of a player, as how likely a hand is to win, is answered by [`study()`]. Many hands without text are answered by [`arrays`]. The module [`mod@game`] keeps the ledger of a game of four, and the function
//! [`game()`] answers a text of games.
//!
//! A line is a `&str` or bytes, without its line feed and a carriage return before that. Every call may be made by any thread.
use std::str;

pub mod arrays;
mod calls;
mod error;
pub mod game;
mod game_rows;
mod game_values;
mod json;
mod rules;
mod study;
mod values;

pub use error::Error;
pub use rules::{House, Rules, RulesFault};
pub use study::{study, Study};
pub use values::{Accepted, Answer, Code, Key, Kind, Limit, NoKind, Payment, Refused, Won, Yaku};

type Call = unsafe extern "C" fn(u32, *const u8, usize, *mut u8, usize) -> usize;
type CallOfLines = unsafe extern "C" fn(u32, *const u8, usize, *mut u8, usize, *mut usize) -> usize;

/// A place for answers, to be used for one call after another, so that none takes memory. No answer is longer.
pub struct Room(Box<[u8; calls::MOST_JSON]>);

impl Room {
    pub fn new() -> Self {
        Room(Box::new([0; calls::MOST_JSON]))
    }

    fn told(&mut self, call: Call, line: &[u8], rules: Rules) -> &str {
        // SAFETY: the pointers are those of slices, so they are valid for their lengths and not null, and a `&mut` overlaps nothing.
        let needed = unsafe { call(rules.number(), line.as_ptr(), line.len(), self.0.as_mut_ptr(), self.0.len()) };
        str::from_utf8(&self.0[..needed]).expect("answers are UTF-8")
    }

    /// The answer to one line in the words of the command `line`; `None` where the line is a comment or blank.
    pub fn answer(&mut self, line: impl AsRef<[u8]>, rules: Rules) -> Option<&str> {
        Some(self.told(calls::riichi_answer, line.as_ref(), rules)).filter(|it| !it.is_empty())
    }

    /// The same answer as one object of JSON.
    pub fn json(&mut self, line: impl AsRef<[u8]>, rules: Rules) -> Option<&str> {
        Some(self.told(calls::riichi_json, line.as_ref(), rules)).filter(|it| !it.is_empty())
    }

    /// The same answer as a value.
    pub fn value(&mut self, line: impl AsRef<[u8]>, rules: Rules) -> Result<Option<Answer>, Refused> {
        self.json(line, rules).map(values::read).transpose()
    }

    /// The same object, of a win with the member `why` at its end: why it is answered so.
    pub fn explain_json(&mut self, line: impl AsRef<[u8]>, rules: Rules) -> Option<&str> {
        Some(self.told(calls::riichi_explain_json, line.as_ref(), rules)).filter(|it| !it.is_empty())
    }

    /// Why the line is answered as it is: lines, each with its line feed; none of a comment or a blank line.
    pub fn explain(&mut self, line: impl AsRef<[u8]>, rules: Rules) -> &str {
        self.told(calls::riichi_explain, line.as_ref(), rules)
    }
}

impl Default for Room {
    fn default() -> Self {
        Self::new()
    }
}

/// The answer to one line, in a string of its own; `None` where it is a comment or blank.
pub fn answer(line: impl AsRef<[u8]>, rules: Rules) -> Option<String> {
    Room::new().answer(line, rules).map(str::to_owned)
}

/// The same answer as one object of JSON.
pub fn json(line: impl AsRef<[u8]>, rules: Rules) -> Option<String> {
    Room::new().json(line, rules).map(str::to_owned)
}

/// The same answer as a value; `None` where the line is a comment or blank.
///
/// ```
/// use riichi_desk::{value, Answer, Kind, Rules};
/// let ready = value("waits 123456789m1134p", Rules::One).unwrap();
/// assert_eq!(ready, Some(Answer::Waits(vec!["2p".parse().unwrap(), "5p".parse().unwrap()])));
/// ```
pub fn value(line: impl AsRef<[u8]>, rules: Rules) -> Result<Option<Answer>, Refused> {
    Room::new().value(line, rules)
}

/// The same object, of a win with the member `why` at its end: why it is answered so.
pub fn explain_json(line: impl AsRef<[u8]>, rules: Rules) -> Option<String> {
    Room::new().explain_json(line, rules).map(str::to_owned)
}

/// Why the line is answered as it is: lines, each with its line feed.
pub fn explain(line: impl AsRef<[u8]>, rules: Rules) -> String {
    Room::new().explain(line, rules).to_owned()
}

/// Answers a text of lines by `call`; each piece of the answers had a room of its own.
fn answered(call: CallOfLines, most: usize, text: &[u8], rules: Rules) -> String {
    let (mut told, mut start) = (Vec::new(), 0);
    while start < text.len() {
        let (rest, filled) = (&text[start..], told.len());
        told.resize(filled + rest.len() + most + 1, 0);
        let (room, mut taken) = (&mut told[filled..], 0);
        // SAFETY: as in `Room::told`; and `taken` is a place of its own.
        let more = unsafe { call(rules.number(), rest.as_ptr(), rest.len(), room.as_mut_ptr(), room.len(), &mut taken) };
        told.truncate(filled + more);
        start += taken;
    }
    String::from_utf8(told).expect("answers are UTF-8")
}

/// The answers to a whole text of lines, as the command `line` writes them: each with a line feed, and nothing for a comment or a
/// blank line. A line `rules 2` is a line like any other here, and refused.
///
/// ```
/// use riichi_desk::{answer_lines, Rules};
/// assert_eq!(answer_lines("waits 123456789m1134p\n# a comment\nwaits 8z\n", Rules::One), "waits 25p\nrefused N5 hand at 0\n");
/// ```
pub fn answer_lines(text: impl AsRef<[u8]>, rules: Rules) -> String {
    answered(calls::riichi_answer_lines, calls::MOST_ANSWER, text.as_ref(), rules)
}

/// The same, each answer as one object of JSON.
pub fn json_lines(text: impl AsRef<[u8]>, rules: Rules) -> String {
    answered(calls::riichi_json_lines, calls::MOST_JSON, text.as_ref(), rules)
}

/// The answers to a whole text of games, as the command `game` writes them: a line for each deal, and behind the last line of
/// each game its places and final points, or how it stands. GAME.md of the repository has the lines. The rules are those for the
/// hands of a game that names none.
///
/// ```
/// use riichi_desk::{game, Rules};
/// let told = game("game Anna Bo Cyd Dee\nron Bo from Cyd 1.30\n", Rules::One);
/// assert_eq!(told.lines().last(), Some("stands east 2 counters 0 sticks 0 points 30000 31000 29000 30000"));
/// ```
pub fn game(text: impl AsRef<[u8]>, rules: Rules) -> String {
    let (text, mut told, mut from) = (text.as_ref(), Vec::new(), 0);
    while from <= text.len() {
        let filled = told.len();
        told.resize(filled + text.len() + calls::MOST_ANSWER + 1, 0);
        let (room, mut taken) = (&mut told[filled..], from);
        // SAFETY: as in `answered`.
        let more = unsafe {
            let (text_len, room_len) = (text.len(), room.len());
            calls::riichi_game_lines(rules.number(), text.as_ptr(), text_len, from, room.as_mut_ptr(), room_len, &mut taken)
        };
        assert!(taken > from, "this library takes no text of games of so many bytes");
        told.truncate(filled + more);
        from = taken;
    }
    String::from_utf8(told).expect("answers are UTF-8")
}

/// The name and version of the library.
pub fn version() -> String {
    let mut room = [0; 64];
    // SAFETY: as in `Room::told`.
    let needed = unsafe { calls::riichi_version(room.as_mut_ptr(), room.len()) };
    String::from_utf8_lossy(&room[..needed]).into_owned()
}
