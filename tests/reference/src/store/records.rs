//! The calls on records: teach, correct, erase, read, read in place, list.

use super::layout::{field_at, View, OUT};
use super::recover;
use super::sound::sound;
use super::write::{change_slot, Record, EMPTY};
use crate::record::{FIELD, KEY, RECORD};

/// The view of a store that has passed the test of soundness.
fn tested(bytes: &[u8]) -> Option<View<'_>> {
    View::new(bytes).filter(|_| sound(bytes))
}

pub fn teach(bytes: &mut [u8], key: u32, field: &[u8]) -> u8 {
    let Ok(field) = field.try_into() else { return 2 };
    if key == 0 {
        return 2;
    }
    let Some(view) = tested(bytes) else { return 1 };
    let unit = view.unit_of(key);
    if view.lost(unit / 4) > 0 {
        return 4;
    }
    if view.rank_of(key).is_some() {
        return 5;
    }
    let rank = view.count(unit);
    if rank == view.b {
        return 7;
    }
    change_slot(bytes, unit, rank, (key, field));
    0
}

pub fn correct(bytes: &mut [u8], key: u32, field: &[u8]) -> u8 {
    let Ok(field) = field.try_into() else { return 2 };
    if key == 0 {
        return 2;
    }
    let Some(view) = tested(bytes) else { return 1 };
    let unit = view.unit_of(key);
    if view.lost(unit / 4) > 0 {
        return 4;
    }
    let Some(rank) = view.rank_of(key) else { return 6 };
    change_slot(bytes, unit, rank, (key, field));
    0
}

pub fn erase(bytes: &mut [u8], key: u32) -> u8 {
    if key == 0 {
        return 2;
    }
    let Some(view) = tested(bytes) else { return 1 };
    let unit = view.unit_of(key);
    if view.lost(unit / 4) > 0 {
        return 4;
    }
    let Some(rank) = view.rank_of(key) else { return 6 };
    let last = view.count(unit) - 1;
    let moved = (view.key(unit, last), view.field(unit, last));
    change_slot(bytes, unit, rank, moved);
    change_slot(bytes, unit, last, EMPTY);
    0
}

pub fn read(bytes: &[u8], key: u32, out: &mut [u8]) -> u8 {
    if key == 0 || out.len() != FIELD {
        return 2;
    }
    let Some(view) = tested(bytes) else { return 1 };
    let unit = view.unit_of(key);
    let Some(keys) = view.keys(unit) else { return 8 };
    let Some(rank) = keys.iter().position(|&k| k == key) else { return 6 };
    let Some(field) = recover::record_field(view, unit, rank) else { return 8 };
    out.copy_from_slice(&field);
    0
}

pub fn read_in_place(bytes: &[u8], key: u32) -> &[u8] {
    let found = tested(bytes).filter(|_| key != 0).and_then(|view| {
        let unit = view.unit_of(key);
        let rank = view.rank_of(key).filter(|_| view.state(unit) != OUT)?;
        Some(field_at(view.b, unit, rank))
    });
    found.map_or(&[], |at| &bytes[at..at + FIELD])
}

/// Number and count.
pub fn list(bytes: &[u8], out: &mut [u8]) -> (u8, u32) {
    let Some(view) = tested(bytes) else { return (1, 0) };
    let units = (0..view.units()).map(|unit| recover::records(view, unit));
    let Some(units) = units.collect::<Option<Vec<_>>>() else { return (8, 0) };
    write_list(&units.concat(), out)
}

/// Writes the entries of a list, where they fit: number and count.
pub fn write_list(records: &[Record], out: &mut [u8]) -> (u8, u32) {
    if out.len() < RECORD * records.len() {
        return (7, 0);
    }
    for (entry, (key, field)) in out.chunks_exact_mut(RECORD).zip(records) {
        entry[..KEY].copy_from_slice(&key.to_be_bytes());
        entry[KEY..].copy_from_slice(field);
    }
    (0, records.len() as u32)
}
