//! Soundness, clause by clause.

use super::layout::{unit_of, unit_range, View, IN_SERVICE, OUT};
use crate::record::FIELD;

/// A clause by name.
type Clause = (&'static str, fn(View) -> bool);

/// What has to hold beside the header's ranges and the slice's length.
const CLAUSES: [Clause; 7] = [
    ("data units in place", data_units_in_place),
    ("check units in place", check_units_in_place),
    ("zero where nothing is", zero_where_nothing_is),
    ("keys dense", |view| every_unit(view, dense)),
    ("keys different", |view| every_unit(view, |_, _, slots| different(slots))),
    ("keys in their own unit", |view| every_unit(view, own)),
    ("lists agree", lists_agree),
];

pub fn sound(bytes: &[u8]) -> bool {
    View::new(bytes).is_some_and(|view| CLAUSES.iter().all(|(_, holds)| holds(view)))
}

/// The clauses that a store whose header is in order breaks, by name.
pub fn broken_clauses(bytes: &[u8]) -> Option<Vec<&'static str>> {
    let view = View::new(bytes)?;
    Some(CLAUSES.iter().filter(|(_, holds)| !holds(view)).map(|(name, _)| *name).collect())
}

pub fn clause_names() -> impl Iterator<Item = &'static str> {
    CLAUSES.iter().map(|(name, _)| *name)
}

/// Data units 0 to M-1 are in place and no others.
fn data_units_in_place(view: View) -> bool {
    (0..16).all(|unit| match view.state(unit) {
        IN_SERVICE | OUT => unit < view.units(),
        0 => unit >= view.units(),
        _ => false,
    })
}

/// Each group in place has K check units, at its lowest places; there are no others.
fn check_units_in_place(view: View) -> bool {
    (0..12).all(|check| {
        let due = 4 * (check / 3) < view.units() && check % 3 < view.level();
        match view.state(16 + check) {
            IN_SERVICE | OUT => due,
            0 => !due,
            _ => false,
        }
    })
}

/// Units out or not in place and data slots without a record are zero.
fn zero_where_nothing_is(view: View) -> bool {
    let empty_unit = |unit: usize| view.bytes[unit_range(view.b, unit)].iter().all(|&x| x == 0);
    let empty_slots = |unit: usize| {
        (0..view.b).all(|rank| view.key(unit, rank) != 0 || view.field(unit, rank) == [0; FIELD])
    };
    (0..28).all(|unit| match view.state(unit) {
        IN_SERVICE => unit >= 16 || empty_slots(unit),
        _ => empty_unit(unit),
    })
}

/// A rule holds of the keys of every data unit; of an out unit's keys too, where listed.
fn every_unit(view: View, rule: fn(View, usize, &[u32]) -> bool) -> bool {
    (0..view.units()).all(|unit| view.keys(unit).is_none_or(|slots| rule(view, unit, &slots)))
}

/// No key stands behind an empty slot.
fn dense(_: View, _: usize, slots: &[u32]) -> bool {
    slots.windows(2).all(|pair| pair[0] != 0 || pair[1] == 0)
}

fn different(slots: &[u32]) -> bool {
    let mut keys: Vec<u32> = slots.iter().copied().filter(|&key| key != 0).collect();
    keys.sort_unstable();
    keys.windows(2).all(|pair| pair[0] != pair[1])
}

fn own(view: View, unit: usize, slots: &[u32]) -> bool {
    slots.iter().all(|&key| key == 0 || unit_of(view.units(), key) == unit)
}

/// The key lists of check units in service agree with each other and with data units in service;
/// a unit that is not in place counts as in service, all zero.
fn lists_agree(view: View) -> bool {
    (0..16).all(|unit| {
        let checks = view.checks_in(unit / 4, IN_SERVICE);
        checks.iter().all(|&check| view.keys(unit) == Some(view.listed_keys(check, unit % 4)))
    })
}
