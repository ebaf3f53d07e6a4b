//! One error for all calls.
use crate::{game, values::NoKind, Refused, RulesFault};
use std::{error, fmt};

/// Why a call fails.
#[derive(Clone, Debug, PartialEq, Eq)]
pub enum Error {
    /// A line is refused.
    Line(Refused),
    /// A text names no rules.
    Rules(RulesFault),
    /// A text is no kind.
    Kind(NoKind),
    /// No table may have some rules.
    Table(game::RulesFault),
    /// A game refuses something.
    Game(game::Refused),
}

impl Error {
    fn cause(&self) -> &(dyn error::Error + 'static) {
        match self {
            Error::Line(cause) => cause,
            Error::Rules(cause) => cause,
            Error::Kind(cause) => cause,
            Error::Table(cause) => cause,
            Error::Game(cause) => cause,
        }
    }
}

impl fmt::Display for Error {
    fn fmt(&self, to: &mut fmt::Formatter<'_>) -> fmt::Result {
        fmt::Display::fmt(self.cause(), to)
    }
}

impl error::Error for Error {
    fn source(&self) -> Option<&(dyn error::Error + 'static)> {
        self.cause().source()
    }
}

impl From<Refused> for Error {
    fn from(cause: Refused) -> Error {
        Error::Line(cause)
    }
}

impl From<RulesFault> for Error {
    fn from(cause: RulesFault) -> Error {
        Error::Rules(cause)
    }
}

impl From<NoKind> for Error {
    fn from(cause: NoKind) -> Error {
        Error::Kind(cause)
    }
}

impl From<game::RulesFault> for Error {
    fn from(cause: game::RulesFault) -> Error {
        Error::Table(cause)
    }
}

impl From<game::Refused> for Error {
    fn from(cause: game::Refused) -> Error {
        Error::Game(cause)
    }
}
