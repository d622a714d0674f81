//! Fixed inputs of hallrun, for what generated ones do not reach: lists as long as lines can make
//! them, also with units out behind a raise, and a second layout that is granted.

use crate::call::Call;
use crate::ledger::digit_sum;
use crate::random::Random;
use crate::record::FIELD;

/// The most records that an input can teach and then list. Each takes a T line, 52 bytes with its
/// 0A. An L, a G (a unit holds 64 records at most) and a P without its 0A take 8 of the 4,096
/// bytes; 78 T lines, 4,056 bytes, fit into the rest, and 79, 4,108 bytes, do not.
const RECORDS: usize = 78;

/// The most records of a unit.
const SLOTS: usize = 64;

/// Each input with its name.
pub fn fixed_inputs() -> [(&'static str, Vec<u8>); 6] {
    [
        ("fullest-list", two_units() + "P\n"),
        ("fullest-list-of-sixteen-units", many_units(16) + "P\n"),
        // The list is rebuilt with the check unit that the raise made. With twelve units it ends at
        // 4,096 bytes.
        ("raised-at-twelve-units", many_units(12) + "K\nO 00\nO 01\nP"),
        // The cut at 4,096 bytes falls between a P and its 0A.
        ("lists-up-to-the-cut", two_units() + &"P\n".repeat(30)),
        // With both units out the first ranks of unit 0 are lost; its last record is read all the same.
        ("full-unit-out", two_units() + "O 00\nP\nO 01\nP\n" + &read_of_the_last_rank()),
        ("laid-out-anew", two_units() + "P\nL 41\nP\nL 01\nP\nL 40\nP\n"),
    ]
    .map(|(name, lines)| (name, lines.into_bytes()))
}

/// The fullest store of two units: unit 1 is the first to get its records, and unit 0 gets as many as
/// it holds.
fn two_units() -> String {
    let keys = largest_keys(1, RECORDS - SLOTS).chain(largest_keys(0, SLOTS));
    fullest(2, keys)
}

/// A read of the last record of unit 0 in that store.
fn read_of_the_last_rank() -> String {
    let key = largest_keys(0, SLOTS).last().expect("a full unit");
    format!("{}\n", Call::Read { key, out: FIELD })
}

/// The fullest store of more units: the largest keys lie in all of them.
fn many_units(units: usize) -> String {
    fullest(units, (1..=u32::MAX).rev().take(RECORDS))
}

/// Lines that make so many units and teach the keys.
fn fullest(units: usize, keys: impl Iterator<Item = u32>) -> String {
    let mut random = Random::new(0x4655_4C4C);
    let teach = |key| format!("{}\n", Call::Teach { key, field: random.bytes(FIELD) });
    let teaches: String = keys.map(teach).collect();
    format!("L {SLOTS:02X}\n{}{teaches}", "G\n".repeat(units - 1))
}

/// The largest keys of one unit of two: so many whose digit sums leave this remainder by 2.
fn largest_keys(unit: usize, count: usize) -> impl Iterator<Item = u32> {
    let keys = (1..=u32::MAX).rev();
    keys.filter(move |&key| digit_sum(key) % 2 == unit).take(count)
}
