//! What calls answer.

use std::error;
use std::fmt::{self, Display, Formatter};

pub use sulderko_sys::{Conflicts, Sizes};

/// The arrays of a parser in C; the library's documents say how they are read.
#[derive(Clone, Copy, Debug, PartialEq, Eq)]
#[repr(u32)]
pub enum Array {
    /// `yyrow`
    Row,
    /// `yycheck`
    Check,
    /// `yyvalue`
    Value,
    /// `yyusual`
    Usual,
    /// `yyset`
    Set,
    /// `yybits`
    Bits,
    /// `yygrow`
    Grow,
    /// `yygcheck`
    Gcheck,
    /// `yygvalue`
    Gvalue,
    /// `yytarget`
    Target,
    /// The symbol that leads to each state, as the table numbers it.
    Stos,
    /// `yylen`
    Len,
    /// `yylhs`
    Lhs,
    /// `yytranslate`
    Translate,
}

/// What a verdict says of tokens.
#[derive(Clone, Copy, Debug, PartialEq, Eq)]
pub enum Outcome {
    /// They are accepted, so they are a sentence.
    Accepted {
        /// How many steps the parse takes.
        steps: usize,
    },
    /// An error is detected.
    Rejected {
        /// At which token, counted from 1; the end comes after the last one.
        token: usize,
    },
    /// Neither within 1,000,000 steps.
    Limit,
}

/// The verdict on tokens.
#[derive(Clone, Copy, Debug, PartialEq, Eq)]
pub struct Verdict {
    /// What is said of them.
    pub outcome: Outcome,
    /// Whether no cell of the tables has a choice. Then no sentence is rejected, and no sentence
    /// begins with the tokens up to the rejected one.
    pub exact: bool,
}

/// A fault of a grammar or of tokens, and where it is.
#[derive(Clone, Copy, Debug, PartialEq, Eq)]
pub enum Fault {
    /// One of a grammar.
    Grammar {
        /// The number of its code: 1 to 13, for G1 to G13.
        code: u32,
        /// The line, counted from 1; `None` for a grammar that is too long.
        line: Option<usize>,
        /// How many bytes stand before what is at fault.
        offset: usize,
    },
    /// One of tokens.
    Tokens {
        /// The number of its code: 1, 2, 3 or 5, for K1, K2, K3 or K5.
        code: u32,
        /// Which token it is, counted from 1; `None` where there are too many.
        place: Option<usize>,
    },
}

/// Why there is no answer.
#[derive(Clone, Copy, Debug, PartialEq, Eq)]
pub enum Error {
    /// The grammar or the tokens have a fault.
    Fault(Fault),
    /// Memory ran out.
    NoMemory,
    /// The grammar has more than 16,384 item sets.
    TooManySets,
}

impl Display for Fault {
    fn fmt(&self, f: &mut Formatter<'_>) -> fmt::Result {
        match self {
            Fault::Grammar { code, line: Some(line), .. } => {
                write!(f, "line {line} of the grammar has fault G{code}")
            }
            Fault::Grammar { code, line: None, .. } => write!(f, "the grammar has fault G{code}"),
            Fault::Tokens { code, place: Some(place) } => {
                write!(f, "token {place} has fault K{code}")
            }
            Fault::Tokens { code, place: None } => write!(f, "the tokens have fault K{code}"),
        }
    }
}

impl Display for Error {
    fn fmt(&self, f: &mut Formatter<'_>) -> fmt::Result {
        match self {
            Error::Fault(fault) => fault.fmt(f),
            Error::NoMemory => f.write_str("memory ran out"),
            Error::TooManySets => f.write_str("the grammar has more than 16,384 item sets"),
        }
    }
}

impl error::Error for Error {}
