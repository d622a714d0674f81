//! The function that gives a key's unit against the reference, at every number of units.

use super::subject;
use crate::random::Random;
use crate::store::layout::{unit_of, MOST_UNITS};

/// What the comparison gave.
pub struct UnitsOutcome {
    /// Keys compared, each at every number of units.
    pub keys: usize,
    /// A wrong unit.
    pub difference: Option<String>,
}

/// Compares the units of a key of every digit sum and of `more` random keys.
pub fn compare_units(more: usize) -> UnitsOutcome {
    let mut random = Random::new(0x554E_4954_0000);
    let mut keys: Vec<u32> = (0..=8 * 15).map(key_of_sum).collect();
    keys.extend((0..more).map(|_| random.next_u64() as u32));
    let difference = keys.iter().find_map(|&key| wrong_unit(key));
    UnitsOutcome { keys: keys.len(), difference }
}

/// A key with this sum of its digits: as many digits F as fit, and one that makes up for the rest.
fn key_of_sum(sum: u32) -> u32 {
    (0..8).map(|place| sum.saturating_sub(15 * place).min(15) << (4 * place)).sum()
}

fn wrong_unit(key: u32) -> Option<String> {
    (1..=MOST_UNITS).find_map(|units| {
        let (got, due) = (subject::unit_of(units, key), unit_of(units, key));
        let words = || format!("of {units} units key {key:08X} is in unit {got}, expected {due}");
        (got != due).then(words)
    })
}
