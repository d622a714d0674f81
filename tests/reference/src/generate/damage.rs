//! Damage to a store: header, states, check units, keys, bodies, stamps, parity, and the length of
//! the slice; and stores as earlier versions had them.

use crate::compare::case::Step;
use crate::random::Random;
use crate::record::{BODY, FIELD, KEY, STAMP};
use crate::store::layout::{
    check_at, field_at, length, listed_key_at, parity_at, slot_at, state_at, unit_of_number,
    unit_range, View, CHECK_RECORD, HEADER, IN_SERVICE, OUT, SLOT, VERSION,
};
use crate::store::recover::own_records;
use crate::store::write::{make_check, set_unit, Record};

/// Some damage to a sound store.
pub fn damage(random: &mut Random, bytes: &[u8]) -> Vec<Step> {
    let view = View::new(bytes).expect("a sound store");
    match random.below(24) {
        0 | 1 => header(random, view),
        2 => vec![state(random)],
        3 => vec![units(random, view)],
        4 => vec![out_not_zeroed(random)],
        5 => other_size(view),
        6 => vec![slice(random, view)],
        7 => vec![data_key(random, view)],
        8 => vec![listed_key(random, view)],
        9..=12 => key_everywhere(random, view),
        13 => vec![empty_slot(random, view)],
        14 => vec![wrong_field(random, view)],
        15 => vec![lone_stamp(random, view)],
        16..=18 => wrong_parity(random, bytes),
        19 => vec![other_version(random)],
        20 => keys_by_themselves(random, view),
        21 => without_stamps(random, view),
        22 => check_units(random, view),
        _ => vec![anywhere(random, view)],
    }
}

fn write(at: usize, bytes: Vec<u8>) -> Step {
    Step::Write { at, bytes }
}

/// A value close to the one before.
fn near(random: &mut Random, value: u8) -> u8 {
    let values = [value.wrapping_add(1), value.wrapping_sub(1), value ^ 0x80, 0, 255];
    random.pick(&values)
}

fn header(random: &mut Random, view: View) -> Vec<Step> {
    let at = random.below(8);
    vec![write(at, vec![near(random, view.bytes[at])])]
}

/// Another version, mostly an earlier one.
fn other_version(random: &mut Random) -> Step {
    write(0, vec![random.pick(&[3, 3, 3, 2, 2, 1, 0, 5])])
}

/// The records of the units in service lie as they did in version 2, by the keys themselves, as far
/// as they fit; the store says that version or the present one.
fn keys_by_themselves(random: &mut Random, view: View) -> Vec<Step> {
    let mut bytes = view.bytes.to_vec();
    let serving: Vec<usize> =
        (0..view.units()).filter(|&unit| view.state(unit) == IN_SERVICE).collect();
    let taught: Vec<Record> = serving.iter().flat_map(|&unit| own_records(view, unit)).collect();
    for unit in serving {
        let lies_here = |record: &&Record| unit_of_number(view.units(), record.0 as usize) == unit;
        let here: Vec<Record> = taught.iter().filter(lies_here).take(view.b).copied().collect();
        set_unit(&mut bytes, unit, &here);
    }
    let checks = (0..4).flat_map(|group| view.checks_in(group, IN_SERVICE));
    checks.for_each(|check| make_check(&mut bytes, check));
    bytes[0] = random.pick(&[2, VERSION]);
    vec![write(0, bytes)]
}

/// The store as version 3 had it: slots and check records without stamps, and its length; it says
/// that version or the present one. Each parity byte comes from the bytes at its own place, so what is
/// left is the parity of the bodies.
fn without_stamps(random: &mut Random, view: View) -> Vec<Step> {
    let units = HEADER..check_at(view.b, 0, 0);
    let checks = units.end..length(view.b);
    let slots = view.bytes[units].chunks_exact(SLOT).map(|slot| &slot[..SLOT - STAMP]);
    let records = view.bytes[checks].chunks_exact(CHECK_RECORD);
    let records = records.map(|record| &record[..CHECK_RECORD - STAMP]);
    let shorter: Vec<u8> = slots.chain(records).flatten().copied().collect();
    let mut bytes = vec![random.pick(&[3, VERSION])];
    bytes.extend(((HEADER + shorter.len()) as u32).to_be_bytes());
    bytes.extend(&view.bytes[bytes.len()..HEADER]);
    bytes.extend(shorter);
    vec![write(0, bytes)]
}

/// A group in place has one check unit less than the level, or one more, which is there whole: it is
/// as the group's first one.
fn check_units(random: &mut Random, view: View) -> Vec<Step> {
    let first = 16 + 3 * random.below(view.units().div_ceil(4));
    let more = view.level() < 3 && random.chance(1, 2);
    let (unit, state, bytes) = if more {
        let whole = view.bytes[unit_range(view.b, first)].to_vec();
        (first + view.level(), view.state(first), whole)
    } else {
        (first + view.level() - 1, 0, vec![0; CHECK_RECORD * view.b])
    };
    vec![write(state_at(unit), vec![state]), write(unit_range(view.b, unit).start, bytes)]
}

fn state(random: &mut Random) -> Step {
    write(8 + random.below(28), vec![random.pick(&[0, 1, 2, 3, 255])])
}

/// M is off by one, with the state of the data unit that is too many or missing.
fn units(random: &mut Random, view: View) -> Step {
    let units = view.units();
    let more = units < 16 && random.chance(1, 2);
    let mut header = view.bytes[6..24].to_vec();
    if more {
        header[0] += 1;
        header[2 + units] = IN_SERVICE;
    } else {
        header[0] -= 1;
        header[1 + units] = 0;
    }
    write(6, header)
}

/// A unit is marked out and keeps its bytes.
fn out_not_zeroed(random: &mut Random) -> Step {
    write(8 + random.below(28), vec![OUT])
}

/// The header of a store with smaller units.
fn other_size(view: View) -> Vec<Step> {
    let b = (view.b - 1).max(1);
    let mut header = (length(b) as u32).to_be_bytes().to_vec();
    header.push(b as u8);
    vec![write(1, header)]
}

/// A shorter or longer slice.
fn slice(random: &mut Random, view: View) -> Step {
    let length = length(view.b);
    let lengths = [0, 1, 6, 35, 36, length - 1, length - 1, length + 1, length + 500];
    Step::Lend(random.pick(&lengths))
}

/// A key that is wrong in a data unit alone.
fn data_key(random: &mut Random, view: View) -> Step {
    let unit = random.below(view.units());
    let rank = random.below(view.b);
    let at = slot_at(view.b, unit, rank) + random.below(KEY);
    write(at, vec![near(random, view.bytes[at])])
}

/// A key that is wrong in one check unit's list.
fn listed_key(random: &mut Random, view: View) -> Step {
    let check = random.below(12);
    let rank = random.below(view.b);
    let at = listed_key_at(view.b, check, rank, random.below(4)) + random.below(KEY);
    write(at, vec![near(random, view.bytes[at])])
}

/// A key that is wrong in its data unit, where that is in service, and in all lists alike: given
/// twice, of another unit, missing, or behind the last record. Where it is missing, its field is
/// cleared, or its body alone, or nothing.
fn key_everywhere(random: &mut Random, view: View) -> Vec<Step> {
    let group = random.below(view.units().div_ceil(4));
    let place = random.below(4);
    let unit = 4 * group + place;
    let keys = view.keys(unit).unwrap_or_else(|| vec![0; view.b]);
    let rank = random.below(view.b);
    let key = other_key(random, unit, keys[0], keys[rank]).to_be_bytes().to_vec();
    let mut steps = Vec::new();
    if view.state(unit) == IN_SERVICE {
        steps.push(write(slot_at(view.b, unit, rank), key.clone()));
        if key == [0; KEY] {
            let cleared = random.pick(&[FIELD, FIELD, FIELD, BODY, 0]);
            steps.push(write(field_at(view.b, unit, rank), vec![0; cleared]));
        }
    }
    for check in view.checks_in(group, IN_SERVICE) {
        steps.push(write(listed_key_at(view.b, check, rank, place), key.clone()));
    }
    steps
}

/// A key in place of `key`: none, the unit's first, a near one, one that lies in the unit by itself
/// and not, but for chance, by its digit sum, one that has the same digits, or any.
fn other_key(random: &mut Random, unit: usize, first: u32, key: u32) -> u32 {
    let any = random.next_u64() as u32;
    let by_itself = any / 16 * 16 + unit as u32;
    let keys = [0, first, key.wrapping_add(1), key ^ 16, by_itself, key.rotate_left(4), any];
    random.pick(&keys)
}

/// A byte in a slot or a unit that ought to be zero, or in a record's field.
fn empty_slot(random: &mut Random, view: View) -> Step {
    let unit = random.below(28);
    let range = unit_range(view.b, unit);
    let near_end = random.chance(1, 2);
    let at = if near_end { range.end - 1 } else { range.start + random.below(range.len()) };
    write(at, vec![1 + random.next_u64() as u8 % 255])
}

/// A byte of a body or of a stamp.
fn wrong_field(random: &mut Random, view: View) -> Step {
    let unit = random.below(view.units());
    let rank = random.below(view.b);
    let at = field_at(view.b, unit, rank) + random.below(FIELD);
    write(at, vec![random.next_u64() as u8])
}

/// A byte of the stamp in a unit's first slot without a record, or in its last one where it is full.
fn lone_stamp(random: &mut Random, view: View) -> Step {
    let unit = random.below(view.units());
    let rank = view.count(unit).min(view.b - 1);
    let at = field_at(view.b, unit, rank) + BODY + random.below(STAMP);
    write(at, vec![1 + random.next_u64() as u8 % 255])
}

/// Wrong parity, in one to three records of check units in service, at ranks without a key too: of
/// all bytes or of the stamps alone. In half of the cases it is wrong in all of them.
pub fn wrong_parity(random: &mut Random, bytes: &[u8]) -> Vec<Step> {
    if random.chance(1, 2) {
        return all_parity_wrong(random, bytes);
    }
    let view = View::new(bytes).expect("a sound store");
    let checks = serving_checks(view);
    let records = if checks.is_empty() { 0 } else { 1 + random.below(3) };
    let mut record = || {
        let at = parity_at(view.b, random.pick(&checks), random.below(view.b));
        let right = random.pick(&[0, 0, BODY]);
        write(at + right, random.bytes(FIELD - right))
    };
    (0..records).map(|_| record()).collect()
}

/// Wrong parity in every record of every check unit in service.
pub fn all_parity_wrong(random: &mut Random, bytes: &[u8]) -> Vec<Step> {
    let view = View::new(bytes).expect("a sound store");
    let checks = serving_checks(view).into_iter();
    let records = checks.flat_map(|check| (0..view.b).map(move |rank| (check, rank)));
    let at = records.map(|(check, rank)| parity_at(view.b, check, rank));
    at.map(|at| write(at, random.bytes(FIELD))).collect()
}

fn serving_checks(view: View) -> Vec<usize> {
    (0..4).flat_map(|group| view.checks_in(group, IN_SERVICE)).collect()
}

fn anywhere(random: &mut Random, view: View) -> Step {
    let at = random.below(length(view.b));
    write(at, vec![random.next_u64() as u8])
}
