//! Stamps: where they stand in a store and in its parity, that no call compares them, and that they
//! come back as they were given, whatever happens to the units.

use reference::ledger;
use reference::record::{field_of, stamp_of, BODY, FIELD, KEY, RECORD, STAMP};
use reference::store::layout::{
    check_at, field_at, length, parity_at, slot_at, View, CHECK_RECORD, HEADER, OUT, SLOT, VERSION,
};
use reference::store::{
    broken_clauses, correct, erase, grow, lay_out, list, raise, read, read_in_place, repair,
    shrink, sound, teach, unit_out,
};
use std::collections::BTreeMap;

const SLOTS: usize = 12;

/// Stamps from the least to the largest, around the bounds of their bytes.
const STAMPS: [u32; 10] =
    [0, 1, 255, 256, 0x01020304, 0x10000, 0x7FFF_FFFF, 0x8000_0000, u32::MAX - 1, u32::MAX];

fn laid_out(units: usize, level: usize) -> Vec<u8> {
    let mut bytes = vec![0; length(SLOTS)];
    assert_eq!(lay_out(&mut bytes, SLOTS as u32), 0);
    (1..units).for_each(|_| assert_eq!(grow(&mut bytes), 0));
    (1..level).for_each(|_| assert_eq!(raise(&mut bytes), 0));
    bytes
}

/// A body that tells a key from the others.
fn body(key: u32) -> [u8; BODY] {
    std::array::from_fn(|i| (key as usize * 53 * (i + 1)) as u8)
}

/// What was taught and corrected last, by key.
type Taught = BTreeMap<u32, [u8; FIELD]>;

/// Teaches a key, or corrects it where it is there.
fn give(bytes: &mut [u8], taught: &mut Taught, key: u32, field: [u8; FIELD]) {
    let call = if taught.contains_key(&key) { correct } else { teach };
    assert_eq!(call(bytes, key, &field), 0, "{key}");
    taught.insert(key, field);
}

/// The records that a list writes, by key.
fn listed(bytes: &[u8]) -> Taught {
    let mut out = vec![0; 16 * SLOTS * RECORD];
    let (number, count) = list(bytes, &mut out);
    assert_eq!(number, 0);
    let entries = out.chunks_exact(RECORD).take(count as usize).map(|entry| entry.split_at(KEY));
    let records = entries.map(|(key, field)| {
        (u32::from_be_bytes(key.try_into().unwrap()), field.try_into().unwrap())
    });
    records.collect()
}

/// Every key reads as taught last, body and stamp: by read, by list, and by read in place where its
/// unit is in service.
fn assert_as_taught(bytes: &[u8], taught: &Taught) {
    assert_eq!(listed(bytes), *taught);
    let view = View::new(bytes).unwrap();
    for (key, field) in taught {
        let mut out = [0xA5; FIELD];
        assert_eq!(read(bytes, *key, &mut out), 0);
        assert_eq!(out, *field, "key {key}");
        let out = view.state(view.unit_of(*key)) == OUT;
        let due = if out { &[][..] } else { &field[..] };
        assert_eq!(read_in_place(bytes, *key), due, "key {key}");
    }
}

#[test]
fn widths() {
    assert_eq!([KEY, BODY, STAMP, FIELD, RECORD], [4, 16, 4, 20, 24]);
    assert_eq!([SLOT, CHECK_RECORD], [24, 36]);
    assert_eq!([1, 64].map(length), [852, 52_260]);
    (1..=64).for_each(|b| assert_eq!(length(b), ledger::length(b)));
}

/// The body's bytes are 1 to 16 and the stamp's 17 to 20, in a store of one slot, whose check unit 0
/// takes unit 0 times 8. 8 times 1 is 8, 2 gives 3, 3 gives B and 4 gives 6.
#[test]
fn the_stamp_stands_behind_the_body_and_parity_covers_it() {
    let mut bytes = vec![0; length(1)];
    assert_eq!(lay_out(&mut bytes, 1), 0);
    let field = field_of(std::array::from_fn(|i| i as u8 + 1), 0x11121314);
    assert_eq!(teach(&mut bytes, 0xABCD_EF01, &field), 0);
    let slot = &bytes[slot_at(1, 0, 0)..][..SLOT];
    assert_eq!(slot[..KEY], [0xAB, 0xCD, 0xEF, 0x01]);
    assert!(slot[KEY..].iter().copied().eq(1..=20));
    let record = &bytes[check_at(1, 0, 0)..][..CHECK_RECORD];
    assert_eq!(record[..KEY], [0xAB, 0xCD, 0xEF, 0x01]);
    assert_eq!(record[KEY..4 * KEY], [0; 3 * KEY]);
    assert_eq!(record[4 * KEY..][..4], [0x08, 0x03, 0x0B, 0x06]);
    assert_eq!(record[CHECK_RECORD - STAMP..], [0x88, 0x83, 0x8B, 0x86]);
}

/// A correct to another stamp with the same body changes the stamp's bytes in the slot and in the
/// parity of each check unit, and no other byte.
#[test]
fn a_stamp_alone_is_corrected() {
    let mut bytes = laid_out(4, 3);
    let mut taught = Taught::new();
    (1..=8).for_each(|key| give(&mut bytes, &mut taught, key, field_of(body(key), 1000 + key)));
    let before = bytes.clone();
    give(&mut bytes, &mut taught, 6, field_of(body(6), 0x5A5A_5A5A));
    let rank = View::new(&bytes).unwrap().rank_of(6).unwrap();
    let parities = [0, 1, 2].map(|check| parity_at(SLOTS, check, rank));
    let fields = [field_at(SLOTS, 2, rank)].into_iter().chain(parities);
    let changed = (0..bytes.len()).filter(|&at| bytes[at] != before[at]);
    assert!(changed.eq(fields.flat_map(|at| at + BODY..at + FIELD)));
    assert_as_taught(&bytes, &taught);
}

/// Any stamp takes the place of any other, and any is taught.
#[test]
fn no_call_compares_stamps() {
    let mut bytes = laid_out(1, 1);
    for old in STAMPS {
        for new in STAMPS {
            let mut taught = Taught::new();
            give(&mut bytes, &mut taught, 7, field_of(body(7), old));
            assert_as_taught(&bytes, &taught);
            give(&mut bytes, &mut taught, 7, field_of(body(7), new));
            assert_as_taught(&bytes, &taught);
            assert_eq!(erase(&mut bytes, 7), 0);
        }
    }
}

/// A field of zeros, and a body of zeros with a stamp, are records like any other.
#[test]
fn zeros_are_a_record() {
    let mut bytes = laid_out(2, 1);
    let mut taught = Taught::new();
    give(&mut bytes, &mut taught, 1, [0; FIELD]);
    give(&mut bytes, &mut taught, 3, field_of([0; BODY], 9));
    give(&mut bytes, &mut taught, 5, [0; FIELD]);
    assert_eq!(teach(&mut bytes, 1, &[0; FIELD]), 5);
    assert_as_taught(&bytes, &taught);
    assert_eq!(unit_out(&mut bytes, 1), 0);
    assert_as_taught(&bytes, &taught);
    assert_eq!(repair(&mut bytes, 0), 0);
    assert_as_taught(&bytes, &taught);
    assert_eq!(View::new(&bytes).unwrap().count(1), 3);
}

#[test]
fn fields_and_outputs_of_other_lengths_are_refused() {
    let mut bytes = laid_out(1, 1);
    assert_eq!(teach(&mut bytes, 1, &[7; FIELD]), 0);
    let before = bytes.clone();
    for length in (0..60).filter(|&length| length != 20) {
        assert_eq!(teach(&mut bytes, 2, &vec![7; length]), 2);
        assert_eq!(correct(&mut bytes, 1, &vec![7; length]), 2);
        assert_eq!(read(&bytes, 1, &mut vec![0; length]), 2);
    }
    assert_eq!(bytes, before);
    assert_eq!(list(&bytes, &mut [0; 23]), (7, 0));
    assert_eq!(list(&bytes, &mut [0; 24]), (0, 1));
}

/// Twenty keys, some of them corrected to an earlier stamp with another body, and then to one that is
/// earlier still with the same body.
fn taught_and_corrected(bytes: &mut [u8]) -> Taught {
    let mut taught = Taught::new();
    for (key, stamp) in (1..=20).zip(STAMPS.into_iter().cycle()) {
        give(bytes, &mut taught, key, field_of(body(key), stamp ^ key));
    }
    for key in [5, 6, 8, 10, 17] {
        let stamp = stamp_of(&taught[&key]);
        give(bytes, &mut taught, key, field_of(body(key + 100), stamp - 77));
        give(bytes, &mut taught, key, field_of(body(key + 100), stamp - 78));
    }
    taught
}

#[test]
fn stamps_come_back_after_grows_and_shrinks() {
    let mut bytes = laid_out(2, 1);
    let taught = taught_and_corrected(&mut bytes);
    assert_as_taught(&bytes, &taught);
    for call in [grow, shrink] {
        for _ in 2..16 {
            assert_eq!(call(&mut bytes), 0);
            assert_as_taught(&bytes, &taught);
        }
    }
}

/// With any two units of a group out, of six, every stamp comes back: while they are out, after a
/// repair, which leaves the store as it was, and after grows and shrinks behind it.
#[test]
fn stamps_come_back_after_losses_and_repairs() {
    let mut whole = laid_out(4, 2);
    let taught = taught_and_corrected(&mut whole);
    let members = [0, 1, 2, 3, 16, 17];
    for (at, first) in members.into_iter().enumerate() {
        for second in members[at + 1..].iter().copied() {
            let mut bytes = whole.clone();
            assert_eq!([first, second].map(|unit| unit_out(&mut bytes, unit)), [0, 0]);
            assert_as_taught(&bytes, &taught);
            assert_eq!(repair(&mut bytes, 0), 0);
            assert!(bytes == whole, "units {first} and {second}");
            for call in [grow, shrink, shrink] {
                assert_eq!(call(&mut bytes), 0);
                assert_as_taught(&bytes, &taught);
            }
        }
    }
}

/// A stamp in a slot without a record is not sound; in a record any is.
#[test]
fn empty_slots_have_no_stamp() {
    let mut bytes = laid_out(2, 1);
    assert_eq!(teach(&mut bytes, 1, &[7; FIELD]), 0);
    for at in 0..STAMP {
        let mut of_record = bytes.clone();
        of_record[field_at(SLOTS, 1, 0) + BODY + at] ^= 1;
        assert!(sound(&of_record));
        let mut of_none = bytes.clone();
        of_none[field_at(SLOTS, 1, 1) + BODY + at] ^= 1;
        assert_eq!(broken_clauses(&of_none).unwrap(), ["zero where nothing is"]);
        assert_eq!(grow(&mut of_none), 1);
    }
}

/// A store of one slot as version 3 laid it out, 740 bytes, in slices as long and longer.
#[test]
fn a_store_as_version_3_laid_it_out_is_not_sound() {
    let mut header = [0; HEADER];
    header[..9].copy_from_slice(&[3, 0, 0, 0x02, 0xE4, 1, 1, 1, 1]);
    header[24] = 1;
    for slice in [740, length(1), 2000] {
        for version in [3, VERSION] {
            let mut bytes = vec![0; slice];
            bytes[..HEADER].copy_from_slice(&header);
            bytes[0] = version;
            let before = bytes.clone();
            assert!(!sound(&bytes));
            assert_eq!(teach(&mut bytes, 1, &[7; FIELD]), 1);
            assert_eq!(read(&bytes, 1, &mut [0; FIELD]), 1);
            assert_eq!([grow(&mut bytes), raise(&mut bytes), repair(&mut bytes, 0)], [1, 1, 1]);
            assert_eq!(bytes, before);
        }
    }
}
