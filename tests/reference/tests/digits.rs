//! The unit of a key, from the sum of its eight hexadecimal digits: at every number of units, what
//! follows for grow and shrink, and what soundness says of it and of the versions before.

use reference::ledger;
use reference::record::FIELD;
use reference::store::layout::{self, length, listed_key_at, slot_at, View, VERSION};
use reference::store::{
    broken_clauses, correct, erase, grow, lay_out, read, shrink, sound, teach, unit_out,
};

/// Keys by hand: the key, its digit sum, and its unit at 3, 5, 12, 13 and 16 units.
const BY_HAND: [(u32, usize, [usize; 5]); 12] = [
    (0x0000_0001, 1, [1, 1, 1, 1, 1]),
    (0x0000_0008, 8, [0, 0, 8, 8, 8]),
    (0x0000_0010, 1, [1, 1, 1, 1, 1]),
    (0x0000_0014, 5, [1, 1, 5, 5, 5]),
    (0x0000_001F, 16, [0, 0, 0, 0, 0]),
    (0x0000_0100, 1, [1, 1, 1, 1, 1]),
    (0x0123_4567, 28, [0, 4, 4, 12, 12]),
    (0x1000_0000, 1, [1, 1, 1, 1, 1]),
    (0x8000_000A, 18, [2, 2, 2, 2, 2]),
    (0x89AB_CDEF, 92, [0, 4, 4, 12, 12]),
    (0xF000_0000, 15, [1, 3, 7, 7, 15]),
    (4_294_967_295, 120, [0, 0, 8, 8, 8]),
];

fn laid_out(b: u32, units: usize) -> Vec<u8> {
    let mut bytes = vec![0; length(b as usize)];
    assert_eq!(lay_out(&mut bytes, b), 0);
    (1..units).for_each(|_| assert_eq!(grow(&mut bytes), 0));
    bytes
}

/// A field that tells a key from the others.
fn field(key: u32) -> [u8; FIELD] {
    std::array::from_fn(|i| key.to_be_bytes()[i % 4] ^ i as u8)
}

fn teach_all(bytes: &mut [u8], keys: &[u32]) {
    keys.iter().for_each(|&key| assert_eq!(teach(bytes, key, &field(key)), 0, "{key:08X}"));
}

/// The keys of each unit in place, in the order of their ranks.
fn keys_by_unit(bytes: &[u8]) -> Vec<Vec<u32>> {
    let view = View::new(bytes).unwrap();
    let keys = |unit| (0..view.count(unit)).map(|rank| view.key(unit, rank)).collect();
    (0..view.units()).map(keys).collect()
}

#[test]
fn digit_sums_by_hand() {
    for digit_sum in [layout::digit_sum, ledger::digit_sum] {
        assert_eq!(digit_sum(0), 0);
        BY_HAND.iter().for_each(|&(key, sum, _)| assert_eq!(digit_sum(key), sum, "{key:08X}"));
    }
}

#[test]
fn units_by_hand() {
    for unit_of in [layout::unit_of, ledger::unit_of] {
        for (key, _, due) in BY_HAND {
            assert_eq!([3, 5, 12, 13, 16].map(|units| unit_of(units, key)), due, "{key:08X}");
            assert_eq!(unit_of(1, key), 0);
        }
    }
}

#[test]
fn a_digit_counts_the_same_at_each_of_the_eight_places() {
    for digit_sum in [layout::digit_sum, ledger::digit_sum] {
        for place in 0..8 {
            for digit in 0..16 {
                assert_eq!(digit_sum(digit << (4 * place)), digit as usize);
                assert_eq!(
                    digit_sum(0x1111_1111 ^ (digit << (4 * place))),
                    7 + (digit ^ 1) as usize
                );
            }
        }
    }
}

/// A unit's own number lies in it, but for unit 0, whose number is no key: there 1F does.
#[test]
fn every_unit_has_a_key() {
    for unit_of in [layout::unit_of, ledger::unit_of] {
        for units in 1..=16 {
            assert_eq!(unit_of(units, 0x1F), 0);
            (1..units).for_each(|unit| assert_eq!(unit_of(units, unit as u32), unit));
        }
    }
}

/// Sixteen posts, 16 to 240 and 496 (hexadecimal 1F0), fill sixteen units of one slot.
#[test]
fn posts_in_sixteens_lie_in_all_units() {
    let mut bytes = laid_out(1, 16);
    let posts: Vec<u32> = (1..16).chain([31]).map(|number| 16 * number).collect();
    teach_all(&mut bytes, &posts);
    let mut due: Vec<Vec<u32>> = (1..16).map(|unit| vec![16 * unit]).collect();
    due.insert(0, vec![496]);
    assert_eq!(keys_by_unit(&bytes), due);
    assert_eq!(teach(&mut bytes, 256, &field(256)), 7);
}

/// Sums of the keys: 1, 16, 4, 3, 15, 8, 18 and 120.
const TAUGHT: [u32; 8] = [0x10, 0x1F, 0x22, 0x30, 0x0F, 0x44, 0x8000_000A, 0xFFFF_FFFF];

#[test]
fn grow_deals_by_the_sum() {
    let mut bytes = laid_out(8, 1);
    teach_all(&mut bytes, &TAUGHT);
    let (largest, high) = (0xFFFF_FFFF, 0x8000_000A);
    let by_units: [&[&[u32]]; 8] = [
        &[&[0x1F, 0x22, 0x44, high, largest], &[0x10, 0x30, 0x0F]],
        &[&[0x1F, 0x22, 0x44, largest], &[0x10, 0x30, 0x0F], &[high]],
        &[&[0x1F, 0x22, 0x44, largest], &[0x10], &[high], &[0x30, 0x0F]],
        &[&[0x1F, 0x44, largest], &[0x10], &[high], &[0x30, 0x0F], &[0x22]],
        &[&[0x1F, 0x44, largest], &[0x10], &[high], &[0x30, 0x0F], &[0x22], &[]],
        &[&[0x1F, 0x44, largest], &[0x10], &[high], &[0x30, 0x0F], &[0x22], &[], &[]],
        &[&[0x1F, 0x44, largest], &[0x10], &[high], &[0x30], &[0x22], &[], &[], &[0x0F]],
        &[&[0x1F], &[0x10], &[high], &[0x30], &[0x22], &[], &[], &[0x0F], &[0x44, largest]],
    ];
    for due in by_units {
        assert_eq!(grow(&mut bytes), 0);
        assert_eq!(keys_by_unit(&bytes), due);
    }
}

#[test]
fn shrink_puts_the_records_of_a_split_back() {
    let mut bytes = laid_out(8, 1);
    teach_all(&mut bytes, &TAUGHT);
    (1..9).for_each(|_| assert_eq!(grow(&mut bytes), 0));
    (1..6).for_each(|_| assert_eq!(shrink(&mut bytes), 0));
    let (largest, high) = (0xFFFF_FFFF, 0x8000_000A);
    let four: [&[u32]; 4] = [&[0x1F, 0x44, largest, 0x22], &[0x10], &[high], &[0x30, 0x0F]];
    assert_eq!(keys_by_unit(&bytes), four);
    (1..4).for_each(|_| assert_eq!(shrink(&mut bytes), 0));
    let one = [[0x1F, 0x44, largest, 0x22, high, 0x10, 0x30, 0x0F]];
    assert_eq!(keys_by_unit(&bytes), one);
}

/// Each key by hand reads as taught, and the same digits one place further to the left are another
/// key, which is not there.
fn assert_found(bytes: &[u8]) {
    for (key, _, _) in BY_HAND {
        let mut out = [0; FIELD];
        assert_eq!(read(bytes, key, &mut out), 0, "{key:08X}");
        assert_eq!(out, field(key));
        let other = key.rotate_left(4);
        if BY_HAND.iter().all(|known| known.0 != other) {
            assert_eq!(read(bytes, other, &mut out), 6, "{other:08X}");
        }
    }
}

#[test]
fn keys_are_found_at_every_number_of_units() {
    let mut bytes = laid_out(BY_HAND.len() as u32, 1);
    teach_all(&mut bytes, &BY_HAND.map(|(key, _, _)| key));
    for call in [grow, shrink] {
        for _ in 1..16 {
            assert_found(&bytes);
            assert_eq!(call(&mut bytes), 0);
        }
    }
    assert_found(&bytes);
}

/// Keys of sum 1 are different keys of unit 1: what is done with one leaves the others.
#[test]
fn keys_of_one_sum_are_different_keys() {
    let mut bytes = laid_out(4, 16);
    teach_all(&mut bytes, &[0x10, 0x1000_0000, 0x1, 0x100]);
    assert_eq!(keys_by_unit(&bytes)[1], [0x10, 0x1000_0000, 0x1, 0x100]);
    assert_eq!(teach(&mut bytes, 0x10, &field(0)), 5);
    assert_eq!(teach(&mut bytes, 0x1000, &field(0)), 7);
    assert_eq!(correct(&mut bytes, 0x1000, &field(0)), 6);
    assert_eq!(correct(&mut bytes, 0x1, &field(0)), 0);
    assert_eq!(erase(&mut bytes, 0x10), 0);
    assert_eq!(erase(&mut bytes, 0x10), 6);
    assert_eq!(keys_by_unit(&bytes)[1], [0x100, 0x1000_0000, 0x1]);
    for (key, due) in [(0x100, field(0x100)), (0x1000_0000, field(0x1000_0000)), (0x1, field(0))] {
        let mut out = [0; FIELD];
        assert_eq!(read(&bytes, key, &mut out), 0);
        assert_eq!(out, due);
    }
}

/// Writes a key into the first slot of a unit of group 0 and into the list of check unit 0.
fn write_first_key(bytes: &mut [u8], unit: usize, key: u32) {
    let (slot, listed) = (slot_at(1, unit, 0), listed_key_at(1, 0, 0, unit));
    bytes[slot..slot + 4].copy_from_slice(&key.to_be_bytes());
    bytes[listed..listed + 4].copy_from_slice(&key.to_be_bytes());
}

/// Two units with keys 10 and 1F: by digit sums, 1 and 16, they lie in units 1 and 0, by themselves
/// in units 0 and 1.
#[test]
fn keys_that_lie_by_themselves_are_not_sound() {
    let mut bytes = laid_out(1, 2);
    teach_all(&mut bytes, &[0x10, 0x1F]);
    assert_eq!(keys_by_unit(&bytes), [[0x1F], [0x10]]);
    write_first_key(&mut bytes, 0, 0x10);
    write_first_key(&mut bytes, 1, 0x1F);
    assert_eq!(broken_clauses(&bytes).unwrap(), ["keys in their own unit"]);
    assert!(!sound(&bytes));
    assert_eq!(read(&bytes, 0x10, &mut [0; FIELD]), 1);
    assert_eq!(grow(&mut bytes), 1);

    bytes[0] = 2;
    assert!(!sound(&bytes));
    bytes[0] = VERSION;
    write_first_key(&mut bytes, 0, 0x1F);
    write_first_key(&mut bytes, 1, 0x10);
    assert!(sound(&bytes));
}

/// The keys that check units list for a unit that is out lie by their sums too.
#[test]
fn listed_keys_of_a_unit_out_lie_by_their_sums() {
    let mut bytes = laid_out(1, 2);
    teach_all(&mut bytes, &[0x10, 0x1F]);
    assert_eq!(unit_out(&mut bytes, 1), 0);
    let listed = listed_key_at(1, 0, 0, 1);
    for (key, due) in [(0x10, true), (0x1F, false), (0x01, true), (0x11, false), (0x0F, true)] {
        bytes[listed..listed + 4].copy_from_slice(&u32::to_be_bytes(key));
        assert_eq!(sound(&bytes), due, "{key:08X}");
    }
}

/// Keys below 16 lie where they lay in version 2, and all keys where they lay in version 3; a store
/// that says one of these is not sound for all that.
#[test]
fn a_store_that_says_version_2_or_3_is_not_sound() {
    let mut bytes = laid_out(2, 4);
    teach_all(&mut bytes, &[4, 1, 2, 3]);
    for version in [2, 3] {
        bytes[0] = version;
        let before = bytes.clone();
        assert!(!sound(&bytes));
        assert_eq!(teach(&mut bytes, 5, &field(5)), 1);
        assert_eq!([grow(&mut bytes), shrink(&mut bytes)], [1, 1]);
        assert_eq!(bytes, before);
    }
    bytes[0] = VERSION;
    assert!(sound(&bytes));
}
