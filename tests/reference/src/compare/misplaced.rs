//! Faults of where a key lies: it is placed or looked for by another number than its digit sum, or
//! taken for another key of the same sum; or the wrong one of the sum's two remainders is taken.

use super::faults::name_chosen;
use crate::record::FIELD;
use crate::store;
use crate::store::layout::{
    digit_sum, largest_power, parent, unit_of, unit_of_number, View, IN_SERVICE, OUT,
};
use crate::store::recover::own_records;
use crate::store::write::{change_slot, make_check, set_unit, Record};

/// A number that a fault takes for the digit sum of a key.
pub type Sum = fn(u32) -> usize;

pub fn key_itself(key: u32) -> usize {
    key as usize
}

/// The sum of all hexadecimal digits but the first.
pub fn seven_digits(key: u32) -> usize {
    digit_sum(key % 0x1000_0000)
}

pub fn decimal_digits(key: u32) -> usize {
    key.to_string().chars().map(|digit| digit.to_digit(10).expect("a digit") as usize).sum()
}

/// The digits added as symbols are: by exclusive or.
pub fn digits_as_symbols(key: u32) -> usize {
    key.to_be_bytes().into_iter().fold(0, |sum, byte| sum ^ (byte / 16) ^ (byte % 16)) as usize
}

/// A store that was sound before a call that was granted.
fn view(bytes: &[u8]) -> View<'_> {
    View::new(bytes).expect("a sound store")
}

/// The unit and the rank of the record that a granted teach added.
fn taught(before: &[u8], after: &[u8]) -> (usize, usize) {
    let (before, after) = (view(before), view(after));
    let slots = (0..after.units()).flat_map(|unit| (0..after.b).map(move |rank| (unit, rank)));
    let mut slots = slots.filter(|&(unit, rank)| before.key(unit, rank) != after.key(unit, rank));
    slots.next().expect("a taught record")
}

/// A granted teach places its key by another number.
pub fn teach_by(sum: Sum, before: &[u8], after: &mut [u8], number: u8) -> u8 {
    if number != 0 {
        return number;
    }
    let (unit, rank) = taught(before, after);
    let record = (view(after).key(unit, rank), view(after).field(unit, rank));
    let other = unit_of_number(view(before).units(), sum(record.0));
    if other == unit {
        return 0;
    }
    after.copy_from_slice(before);
    teach_into(after, other, record)
}

/// Teaches a new key into a unit, whichever is its own.
fn teach_into(bytes: &mut [u8], unit: usize, record: Record) -> u8 {
    let rank = view(bytes).count(unit);
    if view(bytes).lost(unit / 4) > 0 {
        return 4;
    }
    if rank == view(bytes).b {
        return 7;
    }
    change_slot(bytes, unit, rank, record);
    0
}

/// A teach takes its key for present where the unit has another one of the same digit sum.
pub fn teach_compares_sums(before: &[u8], after: &mut [u8], number: u8) -> u8 {
    if number != 0 {
        return number;
    }
    let (unit, rank) = taught(before, after);
    let sum = |rank| digit_sum(view(after).key(unit, rank));
    if (0..rank).all(|other| sum(other) != sum(rank)) {
        return 0;
    }
    after.copy_from_slice(before);
    5
}

/// Whether a read that is granted would look for its key in another unit, by the key itself.
pub fn read_misses(bytes: &[u8], key: u32) -> bool {
    let granted = store::read(bytes, key, &mut [0; FIELD]) == 0;
    granted && unit_of_number(view(bytes).units(), key_itself(key)) != view(bytes).unit_of(key)
}

/// A granted grow deals the records of the split unit by the keys themselves.
pub fn grow_by_the_key(before: &[u8], after: &mut [u8], number: u8) -> u8 {
    if number != 0 {
        return number;
    }
    let added = view(before).units();
    let split = parent(added);
    let (moving, stay): (Vec<Record>, Vec<Record>) = own_records(view(before), split)
        .into_iter()
        .partition(|record| unit_of_number(added + 1, key_itself(record.0)) == added);
    set_unit(after, split, &stay);
    set_unit(after, added, &moving);
    for group in [split / 4, added / 4] {
        let checks = view(after).checks_in(group, IN_SERVICE);
        checks.into_iter().for_each(|check| make_check(after, check));
    }
    0
}

/// Takes a store for sound whose keys lie in their units by themselves, and has nothing to repair
/// where no unit is out.
pub fn placed_by_the_key_accepted(_: &[u8], after: &mut [u8], number: u8) -> u8 {
    let misplaced = store::broken_clauses(after) == Some(vec!["keys in their own unit"]);
    if number == 1 && misplaced && lie_by_themselves(view(after)) {
        return 0;
    }
    number
}

/// No unit is out, and each key lies in the unit that the key itself gives.
fn lie_by_themselves(view: View) -> bool {
    (0..28).all(|unit| view.state(unit) != OUT)
        && (0..view.units()).all(|unit| {
            let mut keys = (0..view.count(unit)).map(|rank| view.key(unit, rank));
            keys.all(|key| unit_of_number(view.units(), key_itself(key)) == unit)
        })
}

/// Whether a fault takes the second remainder, by the first, the second and n.
type TakesSecond = fn(usize, usize, usize) -> bool;

pub const UNIT_FAULTS: [(&str, TakesSecond); 3] = [
    ("unit-by-the-other-remainder", |first, _, n| first >= n),
    ("unit-with-the-second-remainder-compared", |_, second, n| second < n),
    ("unit-that-is-split-next-taken-as-split", |first, _, n| first <= n),
];

/// The unit of a key, with the chosen fault where it is one of these.
pub fn unit_or_fail(units: usize, key: u32) -> usize {
    let Some((_, takes_second)) = UNIT_FAULTS.iter().find(|fault| Some(fault.0) == name_chosen())
    else {
        return unit_of(units, key);
    };
    let power = largest_power(units);
    let (first, second) = (digit_sum(key) % power, digit_sum(key) % (2 * power));
    if takes_second(first, second, units - power) {
        second
    } else {
        first
    }
}
