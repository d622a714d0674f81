//! The picture of a ledger: the bytes of its store.

use super::symbols::{coefficient, product};
use super::{length, Ledger};
use crate::record::{FIELD, KEY, RECORD};

const VERSION: u8 = 4;
const CHECK_RECORD: usize = 4 * KEY + FIELD;

impl Ledger {
    /// The bytes of the store, of its length, put together from the front.
    pub fn picture(&self) -> Vec<u8> {
        let mut bytes = vec![VERSION];
        bytes.extend((length(self.b) as u32).to_be_bytes());
        bytes.extend([self.b as u8, self.units() as u8, self.level as u8]);
        bytes.extend((0..16).map(|unit| self.state(unit, unit < self.units())));
        for group in 0..4 {
            let state = |j| self.state(16 + 3 * group + j, j < self.checks(group));
            bytes.extend((0..3).map(state));
        }
        for unit in 0..16 {
            bytes.extend((0..self.b).flat_map(|place| self.slot(unit, place)));
        }
        for check in 0..12 {
            bytes.extend(self.check_unit(check / 3, check % 3));
        }
        bytes
    }

    fn state(&self, unit: usize, in_place: bool) -> u8 {
        match (in_place, self.out[unit]) {
            (false, _) => 0,
            (true, false) => 1,
            (true, true) => 2,
        }
    }

    fn slot(&self, unit: usize, place: usize) -> [u8; RECORD] {
        let mut slot = [0; RECORD];
        if !self.out[unit] {
            let (key, field) = self.record(unit, place);
            slot[..KEY].copy_from_slice(&key.to_be_bytes());
            slot[KEY..].copy_from_slice(&field);
        }
        slot
    }

    /// Key and field at a place of a list, a missing record as zeros.
    fn record(&self, unit: usize, place: usize) -> (u32, [u8; FIELD]) {
        let record = self.lists.get(unit).and_then(|list| list.get(place));
        record.map_or((0, [0; FIELD]), |r| (r.key, r.field))
    }

    fn check_unit(&self, group: usize, j: usize) -> Vec<u8> {
        if j >= self.checks(group) || self.out[16 + 3 * group + j] {
            return vec![0; CHECK_RECORD * self.b];
        }
        (0..self.b).flat_map(|place| self.check_record(group, j, place)).collect()
    }

    fn check_record(&self, group: usize, j: usize, place: usize) -> Vec<u8> {
        let records = [0, 1, 2, 3].map(|i| self.record(4 * group + i, place));
        let coefficients = [0, 1, 2, 3].map(|i| coefficient(i, 4 + j as u8));
        let mut bytes: Vec<u8> = records.iter().flat_map(|(key, _)| key.to_be_bytes()).collect();
        for at in 0..FIELD {
            let terms = (0..4).map(|i| times(coefficients[i], records[i].1[at]));
            bytes.push(terms.fold(0, |sum, term| sum ^ term));
        }
        bytes
    }
}

/// A symbol times both symbols of a byte.
fn times(symbol: u8, byte: u8) -> u8 {
    product(symbol, byte >> 4) << 4 | product(symbol, byte & 15)
}
