//! Raise: it takes hold in every group in place, at any number of units; and what soundness says of
//! check units and of the version.

use reference::call::{Answer, Call, KINDS};
use reference::record::{FIELD, RECORD};
use reference::store::layout::{length, parity_at, unit_range, View};
use reference::store::{grow, lay_out, perform, raise, read, repair, sound, teach, unit_out};

const SLOTS: u32 = 3;

/// A store of so many units at a level, with two or three records in each unit. It grows at level 1
/// and is raised afterwards.
fn store(units: usize, level: usize) -> Vec<u8> {
    let mut bytes = vec![0; length(SLOTS as usize)];
    assert_eq!(lay_out(&mut bytes, SLOTS), 0);
    (1..units).for_each(|_| assert_eq!(grow(&mut bytes), 0));
    for key in keys(units) {
        assert_eq!(teach(&mut bytes, key, &field(key)), 0);
    }
    (1..level).for_each(|_| assert_eq!(raise(&mut bytes), 0));
    bytes
}

/// The keys of that store, by digit sums: of each unit its number, or 1F of unit 0, and the same with
/// one or two zeros behind it.
fn keys(units: usize) -> Vec<u32> {
    let of_unit = |unit: usize| {
        let first = if unit == 0 { 0x1F } else { unit as u32 };
        [first, first << 4, first << 8].into_iter().take(2 + unit % 2)
    };
    (0..units).flat_map(of_unit).collect()
}

fn field(key: u32) -> [u8; FIELD] {
    std::array::from_fn(|i| (key as usize % 251 * 29 * (i + 1)) as u8)
}

fn view(bytes: &[u8]) -> View<'_> {
    View::new(bytes).unwrap()
}

/// The check units in place of each group.
fn counts(bytes: &[u8]) -> [usize; 4] {
    [0, 1, 2, 3].map(|group| view(bytes).checks_in_place(group))
}

/// So many in each group of so many units, and none in the others.
fn in_each_group(units: usize, count: usize) -> [usize; 4] {
    [0, 1, 2, 3].map(|group| if 4 * group < units { count } else { 0 })
}

#[test]
fn every_group_in_place_gets_a_check_unit_at_every_number_of_units() {
    for units in 1..=16 {
        let mut bytes = store(units, 1);
        for level in [2, 3] {
            assert_eq!(raise(&mut bytes), 0, "{units} units");
            assert_eq!(view(&bytes).level(), level);
            assert_eq!(counts(&bytes), in_each_group(units, level));
            assert!(sound(&bytes));
        }
        let before = bytes.clone();
        assert_eq!(raise(&mut bytes), 9);
        assert_eq!(bytes, before);
    }
}

/// As many units of a group as its level may be lost after a raise, whichever they are.
#[test]
fn the_new_check_unit_rebuilds() {
    for units in 1..=16 {
        for level in [2, 3] {
            let whole = store(units, level);
            for group in 0..units.div_ceil(4) {
                let data = 4 * group..(4 * group + level).min(units);
                let spare = level - data.len();
                let checks = (16 + 3 * group..).take(spare);
                let mut bytes = whole.clone();
                for unit in data.chain(checks) {
                    assert_eq!(unit_out(&mut bytes, unit as u32), 0);
                }
                for key in keys(units) {
                    let mut out = [0; FIELD];
                    assert_eq!(read(&bytes, key, &mut out), 0);
                    assert_eq!(out, field(key));
                }
                assert_eq!(repair(&mut bytes, group as u32), 0);
                assert!(bytes == whole, "{units} units, level {level}, group {group}");
            }
        }
    }
}

/// A store that is raised last has the bytes of one that was raised first.
#[test]
fn it_does_not_matter_when_the_level_is_raised() {
    for units in 1..=16 {
        let mut early = vec![0; length(SLOTS as usize)];
        assert_eq!(lay_out(&mut early, SLOTS), 0);
        assert_eq!([raise(&mut early), raise(&mut early)], [0, 0]);
        (1..units).for_each(|_| assert_eq!(grow(&mut early), 0));
        for key in keys(units) {
            assert_eq!(teach(&mut early, key, &field(key)), 0);
        }
        assert!(early == store(units, 3), "{units} units");
    }
}

#[test]
fn check_units_that_stand_there_stay_as_they_are() {
    for units in [1, 4, 6, 12, 16] {
        for level in [1, 2] {
            let mut bytes = store(units, level);
            let wrong = 3 * ((units - 1) / 4) + level - 1;
            let parity = parity_at(SLOTS as usize, wrong, 1);
            bytes[parity..parity + FIELD].fill(0x5A);
            let before = bytes.clone();
            assert_eq!(raise(&mut bytes), 0);
            for unit in (0..28).filter(|unit| *unit < 16 || (unit - 16) % 3 < level) {
                let range = unit_range(SLOTS as usize, unit);
                assert!(bytes[range.clone()] == before[range], "unit {unit}");
            }
        }
    }
}

#[test]
fn any_unit_out_refuses_it_but_level_3_comes_first() {
    for units in [1, 3, 4, 7, 9, 13, 16] {
        for level in 1..=3 {
            let whole = store(units, level);
            let data = 0..units;
            let checks = (16..28).filter(|unit| whole[8 + unit] != 0);
            for unit in data.chain(checks) {
                let mut bytes = whole.clone();
                assert_eq!(unit_out(&mut bytes, unit as u32), 0);
                let before = bytes.clone();
                let due = if level == 3 { 9 } else { 4 };
                assert_eq!(raise(&mut bytes), due, "{units} units, level {level}, unit {unit} out");
                assert!(bytes == before);
            }
        }
    }
}

#[test]
fn grow_gives_new_groups_the_level_and_adds_none_to_old_ones() {
    for at in 1..16 {
        let mut bytes = store(at, 2);
        for units in at + 1..=16 {
            assert_eq!(grow(&mut bytes), 0);
            assert_eq!(counts(&bytes), in_each_group(units, 2));
        }
    }
}

/// Every call but a layout on a store, with arguments in their ranges.
fn calls() -> Vec<Call> {
    let field = vec![1; FIELD];
    let calls = vec![
        Call::Teach { key: 100, field: field.clone() },
        Call::Correct { key: 1, field },
        Call::Erase { key: 1 },
        Call::Read { key: 1, out: FIELD },
        Call::ReadInPlace { key: 1 },
        Call::List { out: 100 * RECORD },
        Call::Out { unit: 0 },
        Call::Repair { group: 0 },
        Call::Grow,
        Call::Shrink,
        Call::Raise,
        Call::Plan { entries: SLOTS as usize },
        Call::Commit { moves: Vec::new(), count: 0 },
    ];
    assert_eq!(calls.len() + 1, KINDS.len());
    calls
}

/// Every call but a layout gives 1, or an empty part, and changes nothing.
fn assert_not_sound(bytes: &[u8], what: &str) {
    assert!(!sound(bytes), "{what}");
    for call in calls() {
        let mut after = bytes.to_vec();
        let answer = perform(&mut after, &call);
        match answer {
            Answer::Part(part) => assert!(part.is_empty(), "{what}"),
            answer => assert_eq!(answer.number(), Some(1), "{what}, {call}"),
        }
        assert!(after == bytes, "{what}, {call}");
    }
}

#[test]
fn only_version_4_is_sound() {
    let bytes = store(6, 2);
    assert_eq!(bytes[0], 4);
    for version in (0..=255).filter(|&version| version != 4) {
        let mut other = bytes.clone();
        other[0] = version;
        assert_not_sound(&other, &format!("version {version}"));
    }
    let mut old = bytes;
    old[0] = 3;
    assert_eq!(perform(&mut old, &Call::Out { unit: 28 }).number(), Some(2));
    assert_eq!(lay_out(&mut old, SLOTS), 0);
    assert!(sound(&old));
}

/// A check unit that is missing, with all its bytes, or one too many, as the group's first one is.
#[test]
fn only_k_check_units_are_sound() {
    for units in [1, 4, 6, 12, 16] {
        for level in 1..=3 {
            let whole = store(units, level);
            for group in 0..units.div_ceil(4) {
                let first = 16 + 3 * group;
                let mut fewer = whole.clone();
                fewer[unit_range(SLOTS as usize, first + level - 1)].fill(0);
                fewer[8 + first + level - 1] = 0;
                assert_not_sound(&fewer, "a check unit is missing");
                if level < 3 {
                    let mut more = whole.clone();
                    let from = unit_range(SLOTS as usize, first);
                    more.copy_within(from, unit_range(SLOTS as usize, first + level).start);
                    more[8 + first + level] = 1;
                    assert_not_sound(&more, "a check unit is too many");
                }
            }
        }
    }
}
