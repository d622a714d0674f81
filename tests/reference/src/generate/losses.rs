//! Every choice of members out of one group, for groups of each level whose data units have different
//! numbers of records, some of them none.

use crate::call::Call;
use crate::ledger::unit_of;
use crate::record::{FIELD, RECORD};

/// A group: how many records each of its data units in place has, and its check units.
struct Group {
    records: &'static [usize],
    level: usize,
}

const fn group(level: usize, records: &'static [usize]) -> Group {
    Group { records, level }
}

/// At each level some group has an empty unit, some group one that is not in place, and some group
/// records of more units at its first rank than check units.
const GROUPS: [Group; 9] = [
    group(1, &[2, 0, 1, 3]),
    group(1, &[1, 2, 2]),
    group(1, &[0, 0]),
    group(2, &[1, 3, 0, 2]),
    group(2, &[2, 1, 3]),
    group(3, &[3, 1, 2, 2]),
    group(3, &[0, 2, 3, 1]),
    group(3, &[2, 1]),
    group(3, &[0]),
];

const SLOTS: u32 = 3;

impl Group {
    /// Each member of the group is out or in service.
    const fn choices(&self) -> u64 {
        1 << (self.records.len() + self.level)
    }

    /// Its data units and its check units.
    fn members(&self) -> impl Iterator<Item = u32> + '_ {
        (0..self.records.len() as u32).chain((16..).take(self.level))
    }

    /// The keys of a unit, from the least on.
    fn keys(&self, unit: usize) -> impl Iterator<Item = u32> + '_ {
        (1..).filter(move |&key| unit_of(self.records.len(), key) == unit)
    }

    /// The keys that are taught, unit by unit.
    fn taught(&self) -> impl Iterator<Item = u32> + '_ {
        let units = self.records.iter().enumerate();
        units.flat_map(|(unit, &count)| self.keys(unit).take(count))
    }

    /// A key of each unit that is not taught.
    fn not_taught(&self) -> impl Iterator<Item = u32> + '_ {
        let units = self.records.iter().enumerate();
        units.map(|(unit, &count)| self.keys(unit).nth(count).expect("one more key"))
    }

    /// Makes the group; the last raise comes behind the teaches, another one before them.
    fn made(&self) -> Vec<Call> {
        let mut calls = vec![Call::LayOut { b: SLOTS }];
        calls.extend((2..self.level).map(|_| Call::Raise));
        calls.extend((1..self.records.len()).map(|_| Call::Grow));
        calls.extend(self.taught().map(|key| Call::Teach { key, field: field(key) }));
        calls.extend((1..self.level).take(1).map(|_| Call::Raise));
        calls
    }

    /// Reads of all keys and of one more of each unit, some of them in place too, and a list.
    fn reads(&self) -> Vec<Call> {
        let read = |key| Call::Read { key, out: FIELD };
        let mut calls: Vec<Call> = self.taught().chain(self.not_taught()).map(read).collect();
        calls.extend(self.taught().step_by(2).map(|key| Call::ReadInPlace { key }));
        calls.push(self.list());
        calls
    }

    fn list(&self) -> Call {
        Call::List { out: RECORD * self.taught().count() }
    }
}

fn field(key: u32) -> Vec<u8> {
    (1..=FIELD as u32).map(|i| (key * 37 * i) as u8).collect()
}

/// The number of all choices.
pub const LOSSES: u64 = all_choices();

const fn all_choices() -> u64 {
    let (mut all, mut i) = (0, 0);
    while i < GROUPS.len() {
        all += GROUPS[i].choices();
        i += 1;
    }
    all
}

/// The group of a choice, and the choice among those of the group: bit i takes out its member i.
fn chosen(mut choice: u64) -> (&'static Group, u64) {
    for group in &GROUPS {
        if choice < group.choices() {
            return (group, choice);
        }
        choice -= group.choices();
    }
    panic!("no such choice")
}

/// The history of a choice: the group is made, and members of it are lost.
pub fn losses(choice: u64) -> Vec<Call> {
    let mut calls = chosen(choice).0.made();
    calls.extend(losing(choice));
    calls
}

/// The members of a choice go out; then reads, a repair and a list.
pub fn losing(choice: u64) -> Vec<Call> {
    let (group, choice) = chosen(choice);
    let out = group.members().enumerate().filter(|(member, _)| choice >> member & 1 == 1);
    let mut calls: Vec<Call> = out.map(|(_, unit)| Call::Out { unit }).collect();
    calls.extend(group.reads());
    calls.push(Call::Repair { group: 0 });
    calls.push(group.list());
    calls
}
