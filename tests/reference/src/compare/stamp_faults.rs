//! Faults of stamps: a stamp is lost, kept or compared with another, stands in the other byte order
//! or is no part of parity; and stores of version 3, which had none, are accepted.

use super::faults::Fault;
use super::rank_faults::lies_in_a_unit_out;
use crate::call::Kind;
use crate::record::{body_of, field_of, stamp_of, BODY, FIELD, KEY, RECORD, STAMP};
use crate::store;
use crate::store::layout::{field_at, length, parity_at, View, HEADER, IN_SERVICE, OUT};
use crate::store::write::change_slot;

pub const STAMP_FAULTS: [Fault; 13] = [
    ("teach-leaves-stamps-out-of-parity", Kind::Teach, stamps_out_of_parity),
    ("correct-leaves-stamps-out-of-parity", Kind::Correct, stamps_out_of_parity),
    ("erase-leaves-stamps-out-of-parity", Kind::Erase, stamps_out_of_parity),
    ("repair-leaves-stamps-out-of-parity", Kind::Repair, stamps_out_of_parity),
    ("grow-leaves-stamps-out-of-parity", Kind::Grow, stamps_out_of_parity),
    ("shrink-leaves-stamps-out-of-parity", Kind::Shrink, stamps_out_of_parity),
    ("raise-leaves-stamps-out-of-parity", Kind::Raise, stamps_out_of_parity),
    ("teach-stores-the-stamp-little-endian", Kind::Teach, |before, after, number| {
        write_other(before, after, number, |_, given| {
            field_of(body_of(&given), stamp_of(&given).swap_bytes())
        })
    }),
    ("correct-keeps-the-old-stamp", Kind::Correct, |before, after, number| {
        write_other(before, after, number, |old, given| field_of(body_of(&given), stamp_of(&old)))
    }),
    ("correct-refuses-an-earlier-stamp", Kind::Correct, correct_refuses_an_earlier_stamp),
    ("repair-rebuilds-bodies-alone", Kind::Repair, repair_rebuilds_bodies_alone),
    ("a-stamp-in-an-empty-slot-accepted", Kind::Repair, lone_stamps_accepted),
    ("records-without-stamps-accepted", Kind::Repair, records_without_stamps_accepted),
];

/// A store that was sound before a call that was granted.
fn view(bytes: &[u8]) -> View<'_> {
    View::new(bytes).expect("a sound store")
}

fn clear_stamp(bytes: &mut [u8], b: usize, unit: usize, rank: usize) {
    let at = field_at(b, unit, rank) + BODY;
    bytes[at..at + STAMP].fill(0);
}

/// In the check units that are in service after a granted call the parity of the stamps stays as it
/// was.
fn stamps_out_of_parity(before: &[u8], after: &mut [u8], number: u8) -> u8 {
    if number != 0 {
        return number;
    }
    let b = view(after).b;
    let checks = (0..4).flat_map(|group| view(after).checks_in(group, IN_SERVICE));
    for check in checks.collect::<Vec<usize>>() {
        for rank in 0..b {
            let at = parity_at(b, check, rank) + BODY;
            after[at..at + STAMP].copy_from_slice(&before[at..at + STAMP]);
        }
    }
    0
}

/// The unit and the rank of the record that a granted teach or correct changed; None where a correct
/// gave the field that was there.
fn changed_slot(before: View, after: View) -> Option<(usize, usize)> {
    let differs = |&(unit, rank): &(usize, usize)| {
        before.key(unit, rank) != after.key(unit, rank)
            || before.field(unit, rank) != after.field(unit, rank)
    };
    let slots = (0..after.units()).flat_map(|unit| (0..after.b).map(move |rank| (unit, rank)));
    slots.into_iter().find(differs)
}

/// A granted teach or correct writes another field: the one that `other` makes of the field before
/// and of the one given.
fn write_other(
    before: &[u8],
    after: &mut [u8],
    number: u8,
    other: fn([u8; FIELD], [u8; FIELD]) -> [u8; FIELD],
) -> u8 {
    if number != 0 {
        return number;
    }
    let Some((unit, rank)) = changed_slot(view(before), view(after)) else { return 0 };
    let (key, given) = (view(after).key(unit, rank), view(after).field(unit, rank));
    after.copy_from_slice(before);
    change_slot(after, unit, rank, (key, other(view(before).field(unit, rank), given)));
    0
}

fn correct_refuses_an_earlier_stamp(before: &[u8], after: &mut [u8], number: u8) -> u8 {
    if number != 0 {
        return number;
    }
    let Some((unit, rank)) = changed_slot(view(before), view(after)) else { return 0 };
    let [old, given] = [view(before), view(after)].map(|view| stamp_of(&view.field(unit, rank)));
    if given >= old {
        return 0;
    }
    after.copy_from_slice(before);
    2
}

/// A rebuilt data unit gets stamps of 0.
fn repair_rebuilds_bodies_alone(before: &[u8], after: &mut [u8], number: u8) -> u8 {
    if number != 0 {
        return number;
    }
    let b = view(after).b;
    let repaired = |unit: &usize| view(before).state(*unit) != view(after).state(*unit);
    for unit in (0..16).filter(repaired).collect::<Vec<usize>>() {
        (0..b).for_each(|rank| clear_stamp(after, b, unit, rank));
    }
    0
}

/// Takes a store for sound that has stamps in slots without a record, and has nothing to repair where
/// no unit is out.
fn lone_stamps_accepted(_: &[u8], after: &mut [u8], number: u8) -> u8 {
    let Some(view) = View::new(after).filter(|_| number == 1) else { return number };
    let mut cleared = after.to_vec();
    for unit in (0..view.units()).filter(|&unit| view.state(unit) == IN_SERVICE) {
        let empty = (0..view.b).filter(|&rank| view.key(unit, rank) == 0);
        empty.for_each(|rank| clear_stamp(&mut cleared, view.b, unit, rank));
    }
    let nothing_out = (0..28).all(|unit| view.state(unit) != OUT);
    if nothing_out && store::sound(&cleared) {
        return 0;
    }
    number
}

/// Takes a store for sound whose header is that of version 3, with the length of records without
/// stamps, and has nothing to repair there.
fn records_without_stamps_accepted(_: &[u8], after: &mut [u8], number: u8) -> u8 {
    if number != 1 || after.len() < HEADER || after[0] != 3 {
        return number;
    }
    let b = after[5] as usize;
    let due = length(b) - 28 * b * STAMP;
    if after[1..5] != (due as u32).to_be_bytes() || after.len() < due {
        return number;
    }
    0
}

/// A list whose entries are key and body: its number and its count.
pub fn list_without_stamps(bytes: &[u8], out: &mut [u8]) -> (u8, u32) {
    const ENTRY: usize = KEY + BODY;
    let mut records = vec![0; 1024 * RECORD];
    let (number, count) = store::list(bytes, &mut records);
    if out.len() < count as usize * ENTRY {
        return (7, 0);
    }
    let records = records.chunks_exact(RECORD).take(count as usize);
    for (entry, record) in out.chunks_exact_mut(ENTRY).zip(records) {
        entry.copy_from_slice(&record[..ENTRY]);
    }
    (number, count)
}

/// A granted list gives stamps of 0 to the records of units that are out.
pub fn clear_listed_stamps_of_units_out(bytes: &[u8], listed: &mut [u8]) {
    for record in listed.chunks_exact_mut(RECORD) {
        let (key, field) = record.split_at_mut(KEY);
        if lies_in_a_unit_out(bytes, u32::from_be_bytes(key.try_into().unwrap())) {
            field[BODY..].fill(0);
        }
    }
}
