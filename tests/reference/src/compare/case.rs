//! A case: what is done with one lent slice.

use crate::call::{hex, Call};
use std::fmt;

#[derive(Clone, Debug)]
pub enum Step {
    /// From here on so many bytes are lent, from the same start.
    Lend(usize),
    /// Bytes are written past the store's calls.
    Write {
        at: usize,
        bytes: Vec<u8>,
    },
    Call(Call),
}

#[derive(Clone, Debug)]
pub struct Case {
    /// Guard bytes before the slice; it varies, so that slices start at any alignment.
    pub front: usize,
    pub steps: Vec<Step>,
}

impl Case {
    /// The longest slice that is lent.
    pub fn capacity(&self) -> usize {
        let lengths = self.steps.iter().map(|step| match step {
            Step::Lend(length) => *length,
            _ => 0,
        });
        lengths.max().unwrap_or(0)
    }
}

impl fmt::Display for Step {
    fn fmt(&self, f: &mut fmt::Formatter) -> fmt::Result {
        match self {
            Step::Lend(length) => write!(f, "a slice of {length} bytes is lent"),
            Step::Write { at, bytes } => write!(f, "byte {at} on becomes {}", hex(bytes)),
            Step::Call(call) => write!(f, "{call}"),
        }
    }
}

impl fmt::Display for Case {
    fn fmt(&self, f: &mut fmt::Formatter) -> fmt::Result {
        self.steps.iter().try_for_each(|step| writeln!(f, "    {step}"))
    }
}
