//! The calls on units: lay out, unit out, repair, grow, shrink, raise.

use super::layout::{length, parent, unit_of, View, IN_SERVICE, OUT, VERSION};
use super::recover;
use super::sound::sound;
use super::write::{clear_unit, make_check, set_state, set_unit, Record};

pub fn lay_out(bytes: &mut [u8], b: u32) -> u8 {
    if b == 0 || b > 64 {
        return 2;
    }
    let length = length(b as usize);
    if bytes.len() < length {
        return 7;
    }
    bytes[..length].fill(0);
    bytes[0] = VERSION;
    bytes[1..5].copy_from_slice(&(length as u32).to_be_bytes());
    bytes[5] = b as u8;
    bytes[6] = 1;
    bytes[7] = 1;
    set_state(bytes, 0, IN_SERVICE);
    set_state(bytes, 16, IN_SERVICE);
    0
}

pub fn unit_out(bytes: &mut [u8], unit: u32) -> u8 {
    if unit > 27 {
        return 2;
    }
    if !sound(bytes) {
        return 1;
    }
    let unit = unit as usize;
    match View::new(bytes).unwrap().state(unit) {
        IN_SERVICE => {
            clear_unit(bytes, unit);
            set_state(bytes, unit, OUT);
            0
        }
        OUT => 4,
        _ => 3,
    }
}

pub fn repair(bytes: &mut [u8], group: u32) -> u8 {
    if group > 3 {
        return 2;
    }
    if !sound(bytes) {
        return 1;
    }
    let group = group as usize;
    let view = View::new(bytes).unwrap();
    if 4 * group >= view.units() {
        return 3;
    }
    let out = (4 * group..4 * group + 4).filter(|&unit| view.state(unit) == OUT);
    let rebuilt = out.map(|unit| Some((unit, recover::records(view, unit)?)));
    let Some(rebuilt) = rebuilt.collect::<Option<Vec<_>>>() else { return 8 };
    put_in_service(bytes, group, &rebuilt);
    0
}

/// Writes the rebuilt data units of a group, then makes its check units that are out.
pub fn put_in_service(bytes: &mut [u8], group: usize, rebuilt: &[(usize, Vec<Record>)]) {
    for (unit, records) in rebuilt {
        set_unit(bytes, *unit, records);
        set_state(bytes, *unit, IN_SERVICE);
    }
    for check in View::new(bytes).unwrap().checks_in(group, OUT) {
        make_check(bytes, check);
    }
}

/// The number that refuses a grow, or 0.
pub fn grow_number(bytes: &[u8]) -> u8 {
    if !sound(bytes) {
        return 1;
    }
    let view = View::new(bytes).unwrap();
    let added = view.units();
    if added == 16 {
        return 9;
    }
    if view.lost(added / 4) > 0 || view.lost(parent(added) / 4) > 0 {
        return 4;
    }
    0
}

pub fn grow(bytes: &mut [u8]) -> u8 {
    let number = grow_number(bytes);
    if number == 0 {
        add_unit(bytes);
    }
    number
}

/// What a granted grow does.
pub fn add_unit(bytes: &mut [u8]) {
    let view = View::new(bytes).unwrap();
    let (added, level) = (view.units(), view.level());
    let split = parent(added);
    let (stay, moving): (Vec<Record>, Vec<Record>) = recover::own_records(view, split)
        .into_iter()
        .partition(|record| unit_of(added + 1, record.0) == split);
    set_unit(bytes, split, &stay);
    set_unit(bytes, added, &moving);
    set_state(bytes, added, IN_SERVICE);
    bytes[6] += 1;
    if added.is_multiple_of(4) {
        (0..level).for_each(|j| set_state(bytes, 16 + 3 * (added / 4) + j, IN_SERVICE));
    }
    make_checks(bytes, split / 4);
    make_checks(bytes, added / 4);
}

pub fn shrink(bytes: &mut [u8]) -> u8 {
    if !sound(bytes) {
        return 1;
    }
    let view = View::new(bytes).unwrap();
    if view.units() == 1 {
        return 9;
    }
    let last = view.units() - 1;
    let into = parent(last);
    if view.lost(last / 4) > 0 || view.lost(into / 4) > 0 {
        return 4;
    }
    let mut records = recover::own_records(view, into);
    records.extend(recover::own_records(view, last));
    if records.len() > view.b {
        return 7;
    }
    set_unit(bytes, into, &records);
    clear_unit(bytes, last);
    set_state(bytes, last, 0);
    bytes[6] -= 1;
    if last.is_multiple_of(4) {
        remove_checks(bytes, last / 4);
    }
    make_checks(bytes, into / 4);
    make_checks(bytes, last / 4);
    0
}

/// Makes all check units in place of a group without losses anew.
fn make_checks(bytes: &mut [u8], group: usize) {
    for check in View::new(bytes).unwrap().checks_in(group, IN_SERVICE) {
        make_check(bytes, check);
    }
}

fn remove_checks(bytes: &mut [u8], group: usize) {
    for unit in 16 + 3 * group..19 + 3 * group {
        clear_unit(bytes, unit);
        set_state(bytes, unit, 0);
    }
}

pub fn raise(bytes: &mut [u8]) -> u8 {
    if !sound(bytes) {
        return 1;
    }
    let view = View::new(bytes).unwrap();
    let (level, groups) = (view.level(), view.units().div_ceil(4));
    if level == 3 {
        return 9;
    }
    if (0..28).any(|unit| view.state(unit) == OUT) {
        return 4;
    }
    bytes[7] += 1;
    (0..groups).for_each(|group| make_check(bytes, 3 * group + level));
    0
}
