//! The commissioning values of document 01, values 7 and 8 with digit sums (document 02, request 2),
//! values 9 and 11 with the widths of request 4, value 10 by ranks (request 5).

use reference::ledger;
use reference::record::FIELD;
use reference::store::field as gf16;
use reference::store::layout::{length, parity_at, unit_of};
use reference::store::{correct, grow, lay_out, matrix, raise, read, repair, teach, unit_out};

/// A record's field whose body starts so; the rest and the stamp are zeros.
fn field(start: &[u8]) -> Vec<u8> {
    let mut field = start.to_vec();
    field.resize(FIELD, 0);
    field
}

fn laid_out(b: u32) -> Vec<u8> {
    let mut bytes = vec![0; length(b as usize)];
    assert_eq!(lay_out(&mut bytes, b), 0);
    bytes
}

#[test]
fn value_1_products() {
    assert_eq!(gf16::product(0xA, 0xB), 2);
    assert_eq!(gf16::product(0xA, gf16::inverse(0xB)), 4);
    assert_eq!(ledger::product(0xA, 0xB), 2);
}

fn all_columns(data: [u8; 4]) -> Vec<u8> {
    (0..17).map(|column| matrix::encode(data, column)).collect()
}

#[test]
fn values_2_and_3_code_words() {
    let mut fours = vec![4; 16];
    fours.push(0);
    assert_eq!(all_columns([4; 4]), fours);
    let due = [5, 1, 4, 9, 15, 8, 10, 4, 11, 1, 1, 2, 7, 14, 9, 9, 10];
    assert_eq!(all_columns([5, 1, 4, 9]), due);
}

#[test]
fn value_4_rebuilding() {
    assert_eq!(matrix::rebuild([3, 4, 5, 6], [9, 0xF, 8, 0xA]), (0, [5, 1, 4, 9]));
}

/// Four units with two check units, and a record of the paper in each. The level is raised at the
/// start or at the end.
fn paper_store(raise_first: bool) -> Vec<u8> {
    let mut bytes = laid_out(2);
    if raise_first {
        assert_eq!(raise(&mut bytes), 0);
    }
    for _ in 0..3 {
        assert_eq!(grow(&mut bytes), 0);
    }
    let texts = [b"En A", b"Am A", b"Dans", b"In p"];
    for (key, text) in [4, 1, 2, 3].into_iter().zip(texts) {
        assert_eq!(teach(&mut bytes, key, &field(text)), 0);
    }
    if !raise_first {
        assert_eq!(raise(&mut bytes), 0);
    }
    bytes
}

/// The first four parity bytes of a check unit of the paper's store.
fn parity(bytes: &[u8], check: usize) -> &[u8] {
    &bytes[parity_at(2, check, 0)..][..4]
}

#[test]
fn value_5_parity() {
    for raise_first in [true, false] {
        let bytes = paper_store(raise_first);
        assert_eq!(parity(&bytes, 0), [0x4F, 0x63, 0x6E, 0xE4]);
        assert_eq!(parity(&bytes, 1), [0x48, 0x6E, 0xDC, 0xEE]);
    }
}

#[test]
fn value_6_changed_parity() {
    for raise_first in [true, false] {
        let mut bytes = paper_store(raise_first);
        assert_eq!(correct(&mut bytes, 4, &field(&[0x49, 0x6E, 0x20, 0x69])), 0);
        assert_eq!(parity(&bytes, 0), [0x45, 0x63, 0x6E, 0xD8]);
        assert_eq!(parity(&bytes, 1), [0x40, 0x6E, 0xDC, 0x3F]);
    }
}

#[test]
fn values_7_and_8_units_of_keys() {
    for unit_of in [unit_of, ledger::unit_of] {
        assert_eq!([8, 4, 5].map(|key| unit_of(5, key)), [0, 4, 1]);
        assert_eq!([16, u32::MAX].map(|key| unit_of(16, key)), [1, 8]);
    }
}

#[test]
fn value_9_slices() {
    assert_eq!(lay_out(&mut [0xEE; 852], 1), 0);
    let mut short = [0xEE; 851];
    assert_eq!(lay_out(&mut short, 1), 7);
    assert_eq!(short, [0xEE; 851]);
    assert_eq!(lay_out(&mut [0; 60_000], 65), 2);
    assert_eq!(lay_out(&mut [0; 60_000], 0), 2);
}

/// Level 1, units 0 to 2 and check unit 16: key 1 in unit 1 and key 2 in unit 2, both at the first rank,
/// and nothing in unit 0.
#[test]
fn value_10_losses() {
    let mut whole = laid_out(2);
    assert_eq!([grow(&mut whole), grow(&mut whole)], [0, 0]);
    assert_eq!(teach(&mut whole, 1, &field(b"one")), 0);
    assert_eq!(teach(&mut whole, 2, &field(b"two")), 0);
    for unit in [0, 1, 2, 16] {
        let mut bytes = whole.clone();
        assert_eq!([unit_out(&mut bytes, unit), repair(&mut bytes, 0)], [0, 0]);
        assert_eq!(bytes, whole);
    }
    let repaired = [[0, 1], [0, 2]];
    let beyond = [[1, 2], [0, 16], [1, 16], [2, 16]];
    for units in repaired {
        let mut bytes = whole.clone();
        assert_eq!(units.map(|unit| unit_out(&mut bytes, unit)), [0, 0]);
        assert_eq!(repair(&mut bytes, 0), 0, "{units:?}");
        assert_eq!(bytes, whole);
    }
    for units in beyond {
        let mut bytes = whole.clone();
        assert_eq!(units.map(|unit| unit_out(&mut bytes, unit)), [0, 0]);
        let lost = bytes.clone();
        assert_eq!(repair(&mut bytes, 0), 8, "{units:?}");
        let reads = [1, 2].map(|key| read(&bytes, key, &mut [0; FIELD]));
        assert_eq!(reads, [1, 2].map(|unit| if units.contains(&unit) { 8 } else { 0 }));
        assert_eq!(bytes, lost);
    }
}

#[test]
fn value_11_fields() {
    let mut bytes = laid_out(1);
    for length in [19, 21] {
        assert_eq!(teach(&mut bytes, 1, &vec![0; length]), 2);
        assert_eq!(correct(&mut bytes, 1, &vec![0; length]), 2);
    }
    assert_eq!(teach(&mut bytes, 1, &[0; 20]), 0);
    assert_eq!(correct(&mut bytes, 1, &[0; 20]), 0);
}
