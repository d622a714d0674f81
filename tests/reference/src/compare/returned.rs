//! What a call returns, beside the bytes that it leaves in the store and in its output.

use crate::call::{Kind, KINDS};
use std::collections::BTreeMap;
use std::fmt;

#[derive(Clone, Copy, Debug, PartialEq, Eq)]
pub enum Returned {
    Number(u8),
    /// The number of a list or of asking for a plan, and its count.
    Counted(u8, usize),
    /// The length of the part that read in place hands back.
    Part(usize),
}

impl Returned {
    /// The number, or for a part what it is.
    fn word(self) -> String {
        match self {
            Returned::Number(number) | Returned::Counted(number, _) => number.to_string(),
            Returned::Part(0) => "empty".into(),
            Returned::Part(_) => "a field".into(),
        }
    }
}

impl fmt::Display for Returned {
    fn fmt(&self, f: &mut fmt::Formatter) -> fmt::Result {
        match self {
            Returned::Number(number) => write!(f, "number {number}"),
            Returned::Counted(number, count) => write!(f, "number {number}, count {count}"),
            Returned::Part(length) => write!(f, "a part of {length} bytes"),
        }
    }
}

/// How often each kind of call returned each number.
#[derive(Default)]
pub struct Tally(BTreeMap<(Kind, String), usize>);

impl Tally {
    pub fn add(&mut self, kind: Kind, returned: Returned) {
        *self.0.entry((kind, returned.word())).or_default() += 1;
    }

    pub fn join(&mut self, other: Tally) {
        for (entry, count) in other.0 {
            *self.0.entry(entry).or_default() += count;
        }
    }

    pub fn calls(&self) -> usize {
        self.0.values().sum()
    }
}

/// A line for each kind.
impl fmt::Display for Tally {
    fn fmt(&self, f: &mut fmt::Formatter) -> fmt::Result {
        for kind in KINDS {
            let of_kind = self.0.iter().filter(|((k, _), _)| *k == kind);
            let words: Vec<_> = of_kind.map(|((_, word), n)| format!("{word}: {n}")).collect();
            if !words.is_empty() {
                writeln!(f, "{:12} {}", format!("{kind:?}"), words.join(", "))?;
            }
        }
        Ok(())
    }
}
