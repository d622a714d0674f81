//! Losses judged rank by rank (document 02, request 5): which ranks can be rebuilt, by every choice of
//! losses and by hand; and from which members, by hand, with wrong parity.

use reference::ledger::unit_of;
use reference::record::{FIELD, KEY, RECORD};
use reference::store::layout::{length, parity_at, unit_range, View};
use reference::store::{
    correct, erase, grow, lay_out, list, raise, read, read_in_place, repair, shrink, sound, teach,
    unit_out,
};

const SLOTS: usize = 2;

/// The key of a unit at a rank: each unit has the least of its keys, in their order. With four units
/// these are 4 and 8 for unit 0, 1 and 5 for unit 1, and so on.
fn key(units: usize, unit: usize, rank: usize) -> u32 {
    let mut keys = (1..).filter(|&key| unit_of(units, key) == unit);
    keys.nth(rank).expect("one more key")
}

fn field(key: u32) -> [u8; FIELD] {
    std::array::from_fn(|i| (key as usize * 29 * (i + 1)) as u8)
}

/// A store of a level whose units have so many records each, taught unit by unit.
fn store(level: usize, records: &[usize]) -> Vec<u8> {
    let mut bytes = vec![0; length(SLOTS)];
    assert_eq!(lay_out(&mut bytes, SLOTS as u32), 0);
    (1..records.len()).for_each(|_| assert_eq!(grow(&mut bytes), 0));
    (1..level).for_each(|_| assert_eq!(raise(&mut bytes), 0));
    for (unit, &count) in records.iter().enumerate() {
        for key in (0..count).map(|rank| key(records.len(), unit, rank)) {
            assert_eq!(teach(&mut bytes, key, &field(key)), 0);
        }
    }
    bytes
}

fn lose(bytes: &mut [u8], units: &[u32]) {
    units.iter().for_each(|&unit| assert_eq!(unit_out(bytes, unit), 0));
}

/// The number of a list into a buffer that holds any.
fn list_number(bytes: &[u8]) -> u8 {
    list(bytes, &mut [0; 64 * RECORD]).0
}

fn read_number(bytes: &[u8], key: u32) -> u8 {
    read(bytes, key, &mut [0; FIELD])
}

/// What a key reads, where it does.
fn field_read(bytes: &[u8], key: u32) -> [u8; FIELD] {
    let mut out = [0xA5; FIELD];
    assert_eq!(read(bytes, key, &mut out), 0);
    out
}

/// The members of a choice: bit i takes out member i, data units before check units.
fn members_of(choice: usize, level: usize, units: usize) -> Vec<u32> {
    let members = (0..units as u32).chain((16..).take(level)).enumerate();
    members.filter(|(i, _)| choice >> i & 1 == 1).map(|(_, member)| member).collect()
}

/// Reads, list and repair of one group, by the words of the request, whichever of its units are out:
/// `records` says how many each data unit has.
fn judged(whole: &[u8], level: usize, records: &[usize], out: &[u32]) {
    let lost = |unit: usize| out.contains(&(unit as u32));
    let serving = level - out.iter().filter(|&&unit| unit >= 16).count();
    let lost_with = |rank: usize| (0..records.len()).filter(move |&u| lost(u) && records[u] > rank);
    let rebuildable = |rank: usize| lost_with(rank).count() <= serving;
    let data_out = (0..records.len()).any(lost);
    let all = (serving > 0 || !data_out) && (0..SLOTS).all(rebuildable);
    let due = if all { 0 } else { 8 };

    let mut bytes = whole.to_vec();
    lose(&mut bytes, out);
    let said = format!("level {level}, records {records:?}, out {out:?}");
    assert_eq!(list_number(&bytes), due, "{said}");
    for (unit, &count) in records.iter().enumerate() {
        for rank in 0..=SLOTS {
            let key = key(records.len(), unit, rank);
            let number = match () {
                _ if lost(unit) && serving == 0 => 8,
                _ if rank >= count => 6,
                _ if lost(unit) && !rebuildable(rank) => 8,
                _ => 0,
            };
            assert_eq!(read_number(&bytes, key), number, "{said}, key {key}");
            if number == 0 {
                assert_eq!(field_read(&bytes, key), field(key), "{said}, key {key}");
            }
            let in_place = number == 0 && !lost(unit);
            let part = if in_place { field(key).to_vec() } else { Vec::new() };
            assert_eq!(read_in_place(&bytes, key), part, "{said}, key {key}");
        }
    }
    let before = bytes.clone();
    assert_eq!(repair(&mut bytes, 0), due, "{said}");
    assert!(bytes == if all { whole } else { &before }, "{said}");
}

/// Four data units with none, one or two records each, at each level, with every choice of members out.
#[test]
fn every_choice_of_losses_with_every_number_of_records() {
    for level in 1..=3 {
        for fill in 0..81 {
            let records = [1, 3, 9, 27].map(|power| fill / power % 3);
            let whole = store(level, &records);
            for choice in 0..1 << (4 + level) {
                judged(&whole, level, &records, &members_of(choice, level, 4));
            }
        }
    }
}

/// Numbers of records of one, two or three data units.
const FEW_UNITS: [&[usize]; 8] =
    [&[0], &[2], &[0, 0], &[1, 2], &[2, 0], &[0, 2, 1], &[1, 1, 0], &[2, 1, 2]];

#[test]
fn every_choice_of_losses_with_units_not_in_place() {
    for level in 1..=3 {
        for records in FEW_UNITS {
            let whole = store(level, records);
            for choice in 0..1 << (records.len() + level) {
                judged(&whole, level, records, &members_of(choice, level, records.len()));
            }
        }
    }
}

fn set_parity(bytes: &mut [u8], check: usize, rank: usize, byte: u8) {
    let at = parity_at(SLOTS, check, rank);
    bytes[at..at + FIELD].fill(byte);
}

/// Level 2; unit 0 has keys 4 and 8, unit 1 has key 1, units 2 and 3 have none. Check unit 0 takes unit 0
/// times 8 and unit 1 times F, check unit 1 the other way round. Their parity becomes 88 and FF at the
/// first rank, 88 and A5 at the second.
fn with_wrong_parity() -> Vec<u8> {
    let mut bytes = store(2, &[2, 1, 0, 0]);
    set_parity(&mut bytes, 0, 0, 0x88);
    set_parity(&mut bytes, 1, 0, 0xFF);
    set_parity(&mut bytes, 0, 1, 0x88);
    set_parity(&mut bytes, 1, 1, 0xA5);
    assert!(sound(&bytes));
    bytes
}

/// Units 0 and 1 are out. At the first rank both check units are needed: 8 times 1 and F times 0 is 8, F
/// times 1 and 8 times 0 is F, so unit 0 has 11 and unit 1 has 00. At the second rank unit 1 has no
/// record: it is the first member, before check unit 0, and 8 times 1 is 8. Check unit 1 is not used.
#[test]
fn an_empty_unit_is_a_member_before_check_units() {
    let mut bytes = with_wrong_parity();
    let checks = unit_range(SLOTS, 16).start..unit_range(SLOTS, 17).end;
    let parity_before = bytes[checks.clone()].to_vec();
    lose(&mut bytes, &[0, 1]);
    let due = [(4, [0x11; FIELD]), (8, [0x11; FIELD]), (1, [0; FIELD])];
    for (key, field) in due {
        assert_eq!(field_read(&bytes, key), field, "{key}");
    }
    let mut out = [0xA5; 3 * RECORD];
    assert_eq!(list(&bytes, &mut out), (0, 3));
    for ((key, field), entry) in due.into_iter().zip(out.chunks_exact(RECORD)) {
        assert_eq!(entry[..KEY], u32::to_be_bytes(key));
        assert_eq!(entry[KEY..], field);
    }
    assert_eq!(repair(&mut bytes, 0), 0);
    for (key, field) in due {
        assert_eq!(field_read(&bytes, key), field, "{key}");
    }
    let view = View::new(&bytes).unwrap();
    assert_eq!((view.key(1, 1), view.field(1, 1)), (0, [0; FIELD]));
    assert_eq!(bytes[checks], parity_before);
}

/// Check unit 0 is out too. The first rank misses two records and is lost. The second misses one, and
/// check unit 1 takes it times F: where its parity is FF, the record is 11.
#[test]
fn a_later_rank_is_rebuilt_where_the_first_is_lost() {
    let mut bytes = with_wrong_parity();
    set_parity(&mut bytes, 1, 1, 0xFF);
    lose(&mut bytes, &[0, 1, 16]);
    let before = bytes.clone();
    assert_eq!([4, 1].map(|key| read_number(&bytes, key)), [8, 8]);
    assert_eq!(field_read(&bytes, 8), [0x11; FIELD]);
    assert_eq!([0xC, 5].map(|key| read_number(&bytes, key)), [6, 6]);
    assert_eq!([list_number(&bytes), repair(&mut bytes, 0)], [8, 8]);
    assert_eq!(bytes, before);
}

/// Unit 1, empty, is out with unit 0 at level 1, and so are units 2 and 3, also empty: the only check
/// unit rebuilds unit 0.
#[test]
fn one_check_unit_for_four_units_out() {
    let whole = store(1, &[2, 0, 0, 0]);
    let mut bytes = whole.clone();
    lose(&mut bytes, &[0, 1, 2, 3]);
    assert_eq!([4, 8].map(|key| field_read(&bytes, key)), [4, 8].map(field));
    assert_eq!([1, 2, 3].map(|key| read_number(&bytes, key)), [6, 6, 6]);
    assert_eq!([list_number(&bytes), repair(&mut bytes, 0)], [0, 0]);
    assert_eq!(bytes, whole);
}

/// All check units are out and no data unit: nothing is missing.
#[test]
fn check_units_alone_are_made_anew() {
    for level in 1..=3 {
        let whole = store(level, &[2, 0, 1, 2]);
        let mut bytes = whole.clone();
        lose(&mut bytes, &[16, 17, 18][..level]);
        assert_eq!([4, 1].map(|key| read_number(&bytes, key)), [0, 6]);
        assert_eq!([list_number(&bytes), repair(&mut bytes, 0)], [0, 0]);
        assert_eq!(bytes, whole);
    }
}

/// With no check unit in service nothing says whether a unit that is out has records.
#[test]
fn a_unit_that_nothing_lists_is_beyond_recovery() {
    for level in 1..=3 {
        let mut bytes = store(level, &[0, 0]);
        lose(&mut bytes, &[16, 17, 18][..level]);
        lose(&mut bytes, &[1]);
        let before = bytes.clone();
        assert_eq!([1, 2].map(|key| read_number(&bytes, key)), [8, 6]);
        assert_eq!([list_number(&bytes), repair(&mut bytes, 0)], [8, 8]);
        assert_eq!(bytes, before);
    }
}

/// A list looks at every group, read and repair at one. Unit 4 has key 4, unit 5 has key 5, units 0 to 3
/// have none.
#[test]
fn groups_are_judged_apart() {
    let mut bytes = store(1, &[0, 0, 0, 0, 1, 1]);
    lose(&mut bytes, &[0, 1, 2, 3]);
    assert_eq!(list_number(&bytes), 0);
    lose(&mut bytes, &[4]);
    assert_eq!([list_number(&bytes), read_number(&bytes, 4)], [0, 0]);
    lose(&mut bytes, &[5]);
    assert_eq!([list_number(&bytes), read_number(&bytes, 4), read_number(&bytes, 1)], [8, 8, 6]);
    assert_eq!([repair(&mut bytes, 1), repair(&mut bytes, 0)], [8, 0]);
    assert_eq!(list_number(&bytes), 8);
}

/// Where a unit is out, whether it has records or not, the calls that change records or units give 4.
#[test]
fn an_empty_unit_out_is_out_for_the_other_calls() {
    let mut bytes = store(1, &[1, 0, 1]);
    lose(&mut bytes, &[1]);
    let before = bytes.clone();
    assert_eq!(teach(&mut bytes, 8, &[7; FIELD]), 4);
    assert_eq!(correct(&mut bytes, 4, &[7; FIELD]), 4);
    assert_eq!(erase(&mut bytes, 4), 4);
    assert_eq!([grow(&mut bytes), shrink(&mut bytes), raise(&mut bytes)], [4, 4, 4]);
    assert_eq!(unit_out(&mut bytes, 1), 4);
    assert_eq!(bytes, before);
}
