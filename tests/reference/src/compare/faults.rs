//! Faults that the comparison has to catch, chosen by the environment variable LHRS_FAULT.

use super::misplaced::{
    decimal_digits, digits_as_symbols, grow_by_the_key, key_itself, placed_by_the_key_accepted,
    seven_digits, teach_by, teach_compares_sums, UNIT_FAULTS,
};
use super::plan_faults::{plan_fault_names, COMMIT_FAULTS};
use super::rank_faults::{RANK_FAULTS, RULE_FAULTS};
use super::segment_faults::SEGMENT_FAULTS;
use super::stamp_faults::STAMP_FAULTS;
use crate::call::Kind;
use crate::record::FIELD;
use crate::store;
use crate::store::layout::{check_at, length, parity_at, state_at, unit_range, View};
use crate::store::layout::{CHECK_RECORD, HEADER, OUT, VERSION};
use std::env;
use std::sync::OnceLock;

/// A fault: the kind of call it spoils, and how. It is given the bytes before the call, the slice
/// after it and the number, and returns the number to hand back.
pub type Fault = (&'static str, Kind, fn(&[u8], &mut [u8], u8) -> u8);

const FAULTS: [Fault; 26] = [
    ("teach-does-nothing", Kind::Teach, |before, after, number| {
        after.copy_from_slice(before);
        number
    }),
    ("parity-at-the-first-teach-only", Kind::Teach, parity_at_the_first_teach_only),
    ("correct-forgets-parity", Kind::Correct, |before, after, number| {
        restore_checks(before, after, number);
        number
    }),
    ("erase-forgets-the-rank-left", Kind::Erase, erase_forgets_the_rank_left),
    ("repair-marks-only", Kind::Repair, |before, after, number| {
        if number == 0 {
            after[HEADER..].copy_from_slice(&before[HEADER..]);
        }
        number
    }),
    ("repair-says-8-first", Kind::Repair, |before, after, number| {
        if number == 0 && before != after {
            after.copy_from_slice(before);
            return 8;
        }
        number
    }),
    ("grow-refuses", Kind::Grow, |before, after, number| {
        after.copy_from_slice(before);
        number.max(4)
    }),
    ("out-touches-when-refused", Kind::Out, |_, after, number| {
        if let (3, Some(last)) = (number, after.last_mut()) {
            *last ^= 1;
        }
        number
    }),
    ("lay-out-writes-behind", Kind::LayOut, lay_out_writes_behind),
    ("grow-gives-a-new-group-one-check-unit", Kind::Grow, |before, after, number| {
        if number == 0 && before[6].is_multiple_of(4) {
            let first = 16 + 3 * (before[6] as usize / 4);
            (1..before[7] as usize).for_each(|j| remove_unit(after, first + j));
        }
        number
    }),
    ("raise-tests-the-header-only", Kind::Raise, |_, after, number| {
        if number == 1 && View::new(after).is_some() {
            after[7] += 1;
            return 0;
        }
        number
    }),
    ("raise-passes-over-a-group", Kind::Raise, |before, after, number| {
        if number == 0 && before[6] > 4 {
            let last = (before[6] as usize - 1) / 4;
            remove_unit(after, 16 + 3 * last + before[7] as usize);
        }
        number
    }),
    ("raise-marks-only", Kind::Raise, |before, after, number| {
        restore_checks(before, after, number);
        number
    }),
    ("raise-makes-all-check-units-anew", Kind::Raise, raise_makes_all_check_units_anew),
    ("raise-with-a-check-unit-out", Kind::Raise, |before, after, number| {
        if number == 4 && !before[state_at(0)..state_at(16)].contains(&OUT) {
            after[7] += 1;
            return 0;
        }
        number
    }),
    ("raise-refused-where-n-is-not-0-and-at-16-units", Kind::Raise, |before, after, number| {
        if number == 0 && (!before[6].is_power_of_two() || before[6] == 16) {
            after.copy_from_slice(before);
            return 9;
        }
        number
    }),
    ("version-2-accepted", Kind::Grow, |before, after, number| {
        version_accepted(2, before, after, number)
    }),
    ("version-3-accepted", Kind::Grow, |before, after, number| {
        version_accepted(3, before, after, number)
    }),
    ("fewer-check-units-accepted", Kind::Repair, fewer_check_units_accepted),
    ("teach-by-the-key-itself", Kind::Teach, |before, after, number| {
        teach_by(key_itself, before, after, number)
    }),
    ("teach-by-seven-digits", Kind::Teach, |before, after, number| {
        teach_by(seven_digits, before, after, number)
    }),
    ("teach-by-decimal-digits", Kind::Teach, |before, after, number| {
        teach_by(decimal_digits, before, after, number)
    }),
    ("teach-adds-digits-as-symbols", Kind::Teach, |before, after, number| {
        teach_by(digits_as_symbols, before, after, number)
    }),
    ("teach-compares-sums", Kind::Teach, teach_compares_sums),
    ("grow-deals-by-the-key-itself", Kind::Grow, grow_by_the_key),
    ("keys-placed-by-themselves-accepted", Kind::Repair, placed_by_the_key_accepted),
];

/// Faults by an argument, or of what is handed back beside a number: `exports` asks for them by name.
const SEEDED: [&str; 19] = [
    "read-by-the-key-itself",
    "read-of-a-key-not-listed-says-8",
    "read-of-a-unit-out-yields-stamp-0",
    "list-refused-without-check-units",
    "list-invents-its-count",
    "list-leaves-the-count-when-refused",
    "list-writes-behind",
    "list-without-stamps",
    "list-of-a-unit-out-yields-stamp-0",
    "read-in-place-of-a-unit-out",
    "read-in-place-of-the-body-alone",
    "plan-leaves-the-count-when-refused",
    "plan-writes-behind-the-list",
    "plan-grows",
    "commit-reads-behind-the-list",
    "rebuild-leaves-data-when-refused",
    "rebuild-without-column-16",
    "a-wrong-coefficient",
    "zero-with-logarithm-0",
];

pub fn fault_names() -> impl Iterator<Item = &'static str> {
    let of_calls = of_calls().map(|(name, _, _)| *name);
    let of_rules = RULE_FAULTS.iter().map(|(name, _, _)| *name);
    let of_units = UNIT_FAULTS.iter().map(|(name, _)| *name);
    let of_segments = SEGMENT_FAULTS.iter().map(|(name, _)| *name);
    let of_store = of_calls.chain(of_rules).chain(plan_fault_names()).chain(SEEDED);
    of_store.chain(of_units).chain(of_segments)
}

fn of_calls() -> impl Iterator<Item = &'static Fault> {
    FAULTS.iter().chain(&STAMP_FAULTS).chain(&RANK_FAULTS).chain(&COMMIT_FAULTS)
}

/// Whether the fault of this name is chosen.
pub fn seeded(name: &str) -> bool {
    assert!(SEEDED.contains(&name), "{name}: no such fault");
    name_chosen() == Some(name)
}

pub fn name_chosen() -> Option<&'static str> {
    static CHOSEN: OnceLock<Option<String>> = OnceLock::new();
    let chosen = CHOSEN.get_or_init(|| {
        let name = env::var("LHRS_FAULT").ok()?;
        assert!(fault_names().any(|fault| fault == name), "LHRS_FAULT={name}: no such fault");
        Some(name)
    });
    chosen.as_deref()
}

/// Makes a call, with the chosen fault where it is of the fault's kind.
pub fn spoil(kind: Kind, store: &mut [u8], call: impl FnOnce(&mut [u8]) -> u8) -> u8 {
    match chosen() {
        Some((_, spoilt, fault)) if *spoilt == kind => {
            let before = store.to_vec();
            let number = call(store);
            fault(&before, store, number)
        }
        _ => call(store),
    }
}

fn chosen() -> Option<&'static Fault> {
    of_calls().find(|fault| Some(fault.0) == name_chosen())
}

/// Puts the check units back as they were, where the call was granted.
fn restore_checks(before: &[u8], after: &mut [u8], number: u8) {
    if number == 0 {
        let start = check_at(before[5] as usize, 0, 0);
        after[start..].copy_from_slice(&before[start..]);
    }
}

/// Takes a unit out of its place.
fn remove_unit(bytes: &mut [u8], unit: usize) {
    let range = unit_range(bytes[5] as usize, unit);
    bytes[range].fill(0);
    bytes[state_at(unit)] = 0;
}

fn parity_at_the_first_teach_only(before: &[u8], after: &mut [u8], number: u8) -> u8 {
    if before.len() > HEADER && before[HEADER..].iter().any(|&byte| byte != 0) {
        restore_checks(before, after, number);
    }
    number
}

/// The parity stays as it was at the highest rank that the erase touched in each check unit.
fn erase_forgets_the_rank_left(before: &[u8], after: &mut [u8], number: u8) -> u8 {
    if number != 0 {
        return number;
    }
    let b = before[5] as usize;
    for check in 0..12 {
        let record = |rank| check_at(b, check, rank)..check_at(b, check, rank) + CHECK_RECORD;
        let changed: Vec<usize> =
            (0..b).filter(|&rank| before[record(rank)] != after[record(rank)]).collect();
        if let [_, last] = changed[..] {
            let parity = parity_at(b, check, last)..parity_at(b, check, last) + FIELD;
            after[parity.clone()].copy_from_slice(&before[parity]);
        }
    }
    number
}

/// The check units that stood before the raise are made anew too, by a loss and a repair.
fn raise_makes_all_check_units_anew(before: &[u8], after: &mut [u8], number: u8) -> u8 {
    if number == 0 {
        for unit in (16..28).filter(|&unit| before[state_at(unit)] != 0) {
            store::unit_out(after, unit as u32);
            store::repair(after, (unit as u32 - 16) / 3);
        }
    }
    number
}

/// Grows a store that says another version and would be sound by its other bytes.
fn version_accepted(version: u8, before: &[u8], after: &mut [u8], number: u8) -> u8 {
    if number != 1 || before.first() != Some(&version) {
        return number;
    }
    after[0] = VERSION;
    let number = store::grow(after);
    after[0] = version;
    number
}

/// Takes a store for sound whose groups have 1 to K check units, and has nothing to repair where no
/// unit is out.
fn fewer_check_units_accepted(_: &[u8], after: &mut [u8], number: u8) -> u8 {
    let accepted = number == 1
        && View::new(after).is_some_and(|view| {
            let counts = (0..view.units().div_ceil(4)).map(|group| view.checks_in_place(group));
            counts.into_iter().all(|count| (1..=view.level()).contains(&count))
                && (0..28).all(|unit| view.state(unit) != OUT)
        });
    if accepted && store::broken_clauses(after) == Some(vec!["check units in place"]) {
        return 0;
    }
    number
}

/// Touches the byte behind the store where the slice is longer.
fn lay_out_writes_behind(_: &[u8], after: &mut [u8], number: u8) -> u8 {
    if number == 0 {
        if let Some(behind) = after.get_mut(length(after[5] as usize)) {
            *behind = !*behind;
        }
    }
    number
}
