//! Writing records, and making check units.

use super::field::{scaled, sum};
use super::layout::{
    field_at, listed_key_at, parity_at, slot_at, state_at, unit_range, View, IN_SERVICE,
};
use super::matrix::entry;
use crate::record::FIELD;

/// A record as it stands in a slot: key and field.
pub type Record = (u32, [u8; FIELD]);

/// What stands in a slot without a record.
pub const EMPTY: Record = (0, [0; FIELD]);

fn view(bytes: &[u8]) -> View<'_> {
    View::new(bytes).expect("a sound store")
}

fn put(bytes: &mut [u8], at: usize, content: &[u8]) {
    bytes[at..at + content.len()].copy_from_slice(content);
}

pub fn set_state(bytes: &mut [u8], unit: usize, state: u8) {
    bytes[state_at(unit)] = state;
}

/// Writes a slot, and nothing else.
pub fn set_slot(bytes: &mut [u8], unit: usize, rank: usize, record: Record) {
    let b = view(bytes).b;
    put(bytes, slot_at(b, unit, rank), &record.0.to_be_bytes());
    put(bytes, field_at(b, unit, rank), &record.1);
}

/// Writes a slot of a group without losses, with its keys in the check units, and adds the change
/// of field times the coefficient to their parity.
pub fn change_slot(bytes: &mut [u8], unit: usize, rank: usize, record: Record) {
    let b = view(bytes).b;
    let before = view(bytes).field(unit, rank);
    let change = sum(before, record.1);
    set_slot(bytes, unit, rank, record);
    let (group, place) = (unit / 4, unit % 4);
    for check in view(bytes).checks_in(group, IN_SERVICE) {
        let coefficient = entry(place, 4 + check % 3);
        let parity = sum(view(bytes).parity(check, rank), scaled(coefficient, change));
        put(bytes, listed_key_at(b, check, rank, place), &record.0.to_be_bytes());
        put(bytes, parity_at(b, check, rank), &parity);
    }
}

/// Fills a data unit with records by rank, the rest of its slots with zeros.
pub fn set_unit(bytes: &mut [u8], unit: usize, records: &[Record]) {
    clear_unit(bytes, unit);
    for (rank, record) in records.iter().enumerate() {
        set_slot(bytes, unit, rank, *record);
    }
}

pub fn clear_unit(bytes: &mut [u8], unit: usize) {
    let range = unit_range(view(bytes).b, unit);
    bytes[range].fill(0);
}

/// Makes a check unit anew from its group's data, all in service, and puts it in service.
pub fn make_check(bytes: &mut [u8], check: usize) {
    let b = view(bytes).b;
    set_state(bytes, 16 + check, IN_SERVICE);
    for rank in 0..b {
        let mut parity = [0; FIELD];
        for place in 0..4 {
            let unit = 4 * (check / 3) + place;
            let key = view(bytes).key(unit, rank);
            let field = view(bytes).field(unit, rank);
            parity = sum(parity, scaled(entry(place, 4 + check % 3), field));
            put(bytes, listed_key_at(b, check, rank, place), &key.to_be_bytes());
        }
        put(bytes, parity_at(b, check, rank), &parity);
    }
}
