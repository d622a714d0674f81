//! The calls of a store with their arguments, and what they answer.

use crate::moves::Move;
use crate::record::FIELD;
use std::fmt;

/// One call. The lengths of the lent slices and lists are arguments too: a plan is asked for with a list
/// of so many entries; a commit is given a list and how many of its entries count.
#[derive(Clone, Debug, PartialEq, Eq)]
pub enum Call {
    LayOut { b: u32 },
    Teach { key: u32, field: Vec<u8> },
    Correct { key: u32, field: Vec<u8> },
    Erase { key: u32 },
    Read { key: u32, out: usize },
    ReadInPlace { key: u32 },
    List { out: usize },
    Out { unit: u32 },
    Repair { group: u32 },
    Grow,
    Shrink,
    Raise,
    Plan { entries: usize },
    Commit { moves: Vec<Move>, count: usize },
}

/// What a call hands back.
#[derive(Clone, Debug, PartialEq, Eq)]
pub enum Answer {
    /// The number alone.
    Number(u8),
    /// The number of a read, and the field where it is granted.
    Read(u8, Option<[u8; FIELD]>),
    /// The part of read in place: a field or nothing.
    Part(Vec<u8>),
    /// Number and count of a list, and the bytes written.
    List(u8, u32, Vec<u8>),
    /// Number and count of asking for a plan, and the entries written.
    Plan(u8, usize, Vec<Move>),
}

impl Answer {
    /// The number, where one is returned.
    pub fn number(&self) -> Option<u8> {
        match self {
            Answer::Number(n) | Answer::Read(n, _) => Some(*n),
            Answer::List(n, _, _) | Answer::Plan(n, _, _) => Some(*n),
            Answer::Part(_) => None,
        }
    }
}

/// The kinds of call, in the order of document 01; behind them those of document 02.
#[derive(Clone, Copy, Debug, PartialEq, Eq, PartialOrd, Ord, Hash)]
pub enum Kind {
    LayOut,
    Teach,
    Correct,
    Erase,
    Read,
    ReadInPlace,
    List,
    Out,
    Repair,
    Grow,
    Shrink,
    Raise,
    Plan,
    Commit,
}

pub const KINDS: [Kind; 14] = [
    Kind::LayOut,
    Kind::Teach,
    Kind::Correct,
    Kind::Erase,
    Kind::Read,
    Kind::ReadInPlace,
    Kind::List,
    Kind::Out,
    Kind::Repair,
    Kind::Grow,
    Kind::Shrink,
    Kind::Raise,
    Kind::Plan,
    Kind::Commit,
];

impl Call {
    pub fn kind(&self) -> Kind {
        match self {
            Call::LayOut { .. } => Kind::LayOut,
            Call::Teach { .. } => Kind::Teach,
            Call::Correct { .. } => Kind::Correct,
            Call::Erase { .. } => Kind::Erase,
            Call::Read { .. } => Kind::Read,
            Call::ReadInPlace { .. } => Kind::ReadInPlace,
            Call::List { .. } => Kind::List,
            Call::Out { .. } => Kind::Out,
            Call::Repair { .. } => Kind::Repair,
            Call::Grow => Kind::Grow,
            Call::Shrink => Kind::Shrink,
            Call::Raise => Kind::Raise,
            Call::Plan { .. } => Kind::Plan,
            Call::Commit { .. } => Kind::Commit,
        }
    }

    /// Whether a line of hallrun can say it.
    pub fn has_line(&self) -> bool {
        match self {
            Call::Teach { field, .. } | Call::Correct { field, .. } => field.len() == FIELD,
            Call::LayOut { b: n } | Call::Out { unit: n } | Call::Repair { group: n } => *n <= 255,
            Call::Read { out, .. } => *out == FIELD,
            Call::ReadInPlace { .. } | Call::Plan { .. } | Call::Commit { .. } => false,
            _ => true,
        }
    }
}

/// Bytes as capital hexadecimal digits.
pub fn hex(bytes: &[u8]) -> String {
    bytes.iter().map(|byte| format!("{byte:02X}")).collect()
}

/// The line of hallrun; what no line can say is told in words behind it.
impl fmt::Display for Call {
    fn fmt(&self, f: &mut fmt::Formatter) -> fmt::Result {
        match self {
            Call::LayOut { b } => write!(f, "L {b:02X}"),
            Call::Teach { key, field } => write!(f, "T {key:08X} {}", hex(field)),
            Call::Correct { key, field } => write!(f, "C {key:08X} {}", hex(field)),
            Call::Erase { key } => write!(f, "E {key:08X}"),
            Call::Read { key, out: FIELD } => write!(f, "R {key:08X}"),
            Call::Read { key, out } => write!(f, "R {key:08X} (output of {out} bytes)"),
            Call::ReadInPlace { key } => write!(f, "read in place {key:08X}"),
            Call::List { out } => write!(f, "P (output of {out} bytes)"),
            Call::Out { unit } => write!(f, "O {unit:02X}"),
            Call::Repair { group } => write!(f, "F {group:02X}"),
            Call::Grow => write!(f, "G"),
            Call::Shrink => write!(f, "S"),
            Call::Raise => write!(f, "K"),
            Call::Plan { entries } => write!(f, "plan (list of {entries} entries)"),
            Call::Commit { moves, count } => {
                write!(f, "commit {count} of {} entries:", moves.len())?;
                moves.iter().try_for_each(|entry| write!(f, " [{entry}]"))
            }
        }
    }
}
