//! The two implementations' products of symbols, coefficients and addressing against each other.

use reference::ledger;
use reference::store::{field as gf16, layout, matrix};

#[test]
fn products_agree() {
    for a in 0..16 {
        for b in 0..16 {
            assert_eq!(gf16::product(a, b), ledger::product(a, b), "{a} times {b}");
        }
    }
}

#[test]
fn the_table_is_interpolation() {
    for row in 0..4 {
        for column in 0..17 {
            let due = ledger::coefficient(row as u8, column as u8);
            assert_eq!(matrix::entry(row, column), due, "row {row}, column {column}");
        }
    }
}

#[test]
fn any_four_columns_rebuild() {
    for choice in 0..17usize.pow(4) {
        let columns = [choice % 17, choice / 17 % 17, choice / 289 % 17, choice / 4913];
        let data = [choice % 16, choice / 7 % 16, choice / 61 % 16, choice / 401 % 16];
        let data = data.map(|symbol| symbol as u8);
        let given = columns.map(|column| matrix::encode(data, column));
        let twice = (0..4).any(|i| columns[..i].contains(&columns[i]));
        let due = if twice { (2, [0; 4]) } else { (0, data) };
        assert_eq!(matrix::rebuild(columns, given), due, "columns {columns:?}");
    }
}

#[test]
fn rebuilding_refuses() {
    assert_eq!(matrix::rebuild([0, 1, 2, 17], [0; 4]), (2, [0; 4]));
    assert_eq!(matrix::rebuild([0, 1, 2, 16], [0, 0, 16, 0]), (2, [0; 4]));
}

#[test]
fn keys_have_one_unit() {
    let of_any_digits = (1..2000).map(|i: u32| i.wrapping_mul(0x9E37_79B9));
    let some = (0..2000).chain(u32::MAX - 100..=u32::MAX).chain(of_any_digits);
    for key in some {
        assert_eq!(layout::digit_sum(key), ledger::digit_sum(key), "key {key:08X}");
        for units in 1..=16 {
            let unit = ledger::unit_of(units, key);
            assert!(unit < units);
            assert_eq!(layout::unit_of(units, key), unit, "key {key:08X} under {units} units");
        }
    }
    for units in 1..16 {
        assert_eq!(layout::parent(units), ledger::split_unit(units));
    }
}
