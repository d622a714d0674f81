//! "The ledger": what a history leaves, by the calls' arguments alone.

mod change;
mod number;
mod picture;
mod symbols;

use crate::call::{Answer, Call};
use crate::moves::{Move, Place};
use crate::record::FIELD;
pub use symbols::{coefficient, product};

#[derive(Clone, Debug, PartialEq, Eq)]
pub struct Record {
    pub key: u32,
    pub field: [u8; FIELD],
}

#[derive(Clone, Debug, PartialEq, Eq)]
pub struct Ledger {
    /// Slots of a unit.
    pub b: usize,
    /// K, the level.
    pub level: usize,
    /// One list of records for each data unit in place; their number is M.
    pub lists: Vec<Vec<Record>>,
    /// Units out: data units 0 to 15, check unit j of group g at 16 + 3g + j.
    pub out: [bool; 28],
}

/// Bytes of a store before its units, and bytes of each rank in all of them, as document 02 has them;
/// the byte store works the latter out from the widths.
const HEADER: usize = 36;
const RANK: usize = 816;

/// The length of a store of units of b slots.
pub fn length(b: usize) -> usize {
    HEADER + RANK * b
}

/// The sum of a key's eight hexadecimal digits: the digit at place i is how often 16 to the power i
/// goes into the key, modulo 16.
pub fn digit_sum(key: u32) -> usize {
    (0..8).map(|place| key as usize / 16usize.pow(place) % 16).sum()
}

/// The data unit of a key where `units` data units are in place.
pub fn unit_of(units: usize, key: u32) -> usize {
    let mut j = 0;
    while 1 << (j + 1) <= units {
        j += 1;
    }
    let n = units - (1 << j);
    let sum = digit_sum(key);
    let unit = sum % (1 << j);
    if unit < n {
        sum % (1 << (j + 1))
    } else {
        unit
    }
}

/// The unit that is split next where `units` data units are in place.
pub fn split_unit(units: usize) -> usize {
    (0..units).find(|n| (units - n).is_power_of_two()).unwrap()
}

impl Ledger {
    /// The ledger that a layout opens, or the number that refuses it.
    pub fn open(b: u32, slice: usize) -> Result<Ledger, u8> {
        if !(1..=64).contains(&b) {
            return Err(2);
        }
        if slice < length(b as usize) {
            return Err(7);
        }
        Ok(Ledger { b: b as usize, level: 1, lists: vec![Vec::new()], out: [false; 28] })
    }

    /// M, the number of data units in place.
    pub fn units(&self) -> usize {
        self.lists.len()
    }

    /// Check units in place of a group.
    pub fn checks(&self, group: usize) -> usize {
        if 4 * group < self.units() {
            self.level
        } else {
            0
        }
    }

    pub fn unit_of(&self, key: u32) -> usize {
        unit_of(self.units(), key)
    }

    pub fn find(&self, key: u32) -> Option<&Record> {
        self.lists[self.unit_of(key)].iter().find(|r| r.key == key)
    }

    pub fn records(&self) -> usize {
        self.lists.iter().map(Vec::len).sum()
    }

    /// Units out of a group, check units counted too.
    pub fn lost(&self, group: usize) -> usize {
        let data = (4 * group..4 * group + 4).filter(|&u| self.out[u]);
        let checks = (16 + 3 * group..19 + 3 * group).filter(|&u| self.out[u]);
        data.count() + checks.count()
    }

    /// Check units of a group in service.
    pub fn serving_checks(&self, group: usize) -> usize {
        (0..self.checks(group)).filter(|j| !self.out[16 + 3 * group + j]).count()
    }

    /// The lengths of the lists of a group's data units that are out, the longest first.
    pub fn lengths_out(&self, group: usize) -> Vec<usize> {
        let out = (4 * group..4 * group + 4).filter(|&unit| self.out[unit]);
        let mut lengths: Vec<usize> = out.map(|unit| self.lists[unit].len()).collect();
        lengths.sort_unstable_by(|a, b| b.cmp(a));
        lengths
    }

    /// How many ranks of a group cannot be rebuilt. That is a rank which more lists that are out reach
    /// than check units are in service. With n of these in service, the list behind the n longest ones
    /// reaches it too: so these ranks are the first ones, as many as that list is long.
    pub fn ranks_lost(&self, group: usize) -> usize {
        self.lengths_out(group).get(self.serving_checks(group)).copied().unwrap_or(0)
    }

    /// A data unit of the group is out, and no check unit in service says which records it has.
    pub fn not_listed(&self, group: usize) -> bool {
        !self.lengths_out(group).is_empty() && self.serving_checks(group) == 0
    }

    /// Where the record of a key stands that is present.
    fn place_of(&self, key: u32) -> Place {
        let unit = self.unit_of(key);
        let place = self.lists[unit].iter().position(|record| record.key == key);
        (unit, 1 + place.expect("a record of this key"))
    }

    /// The moves of a grow, whether it would be granted or not, at 16 units as if there could be one
    /// more: where each record of the list that is dealt out stands, in its order, and where the grown
    /// ledger has its key.
    pub fn plan(&self) -> Vec<Move> {
        let mut grown = self.clone();
        grown.grow();
        let records = self.lists[split_unit(self.units())].iter();
        records
            .map(|record| Move::new(self.place_of(record.key), grown.place_of(record.key)))
            .collect()
    }

    /// Answers a call and takes it into the ledger. A layout opens a new ledger instead.
    pub fn perform(&mut self, call: &Call) -> Answer {
        let answer = self.answer(call);
        if answer.number() == Some(0) {
            self.change(call);
        }
        answer
    }

    fn answer(&self, call: &Call) -> Answer {
        let number = self.number(call);
        match call {
            Call::Read { key, .. } => {
                let field = if number == 0 { self.find(*key).map(|r| r.field) } else { None };
                Answer::Read(number, field)
            }
            Call::ReadInPlace { key } => Answer::Part(self.part(*key)),
            Call::List { .. } if number == 0 => {
                Answer::List(0, self.records() as u32, self.listing())
            }
            Call::List { .. } => Answer::List(number, 0, Vec::new()),
            Call::Plan { .. } if number == 0 => {
                Answer::Plan(0, self.lists[split_unit(self.units())].len(), self.plan())
            }
            Call::Plan { .. } => Answer::Plan(number, 0, Vec::new()),
            _ => Answer::Number(number),
        }
    }

    /// The field of a key, or nothing where a read would be refused or the key's unit is out.
    fn part(&self, key: u32) -> Vec<u8> {
        let refused = self.number(&Call::Read { key, out: FIELD }) != 0;
        if refused || self.out[self.unit_of(key)] {
            return Vec::new();
        }
        self.find(key).unwrap().field.to_vec()
    }

    fn listing(&self) -> Vec<u8> {
        let records = self.lists.iter().flatten();
        records.flat_map(|r| r.key.to_be_bytes().into_iter().chain(r.field)).collect()
    }
}
