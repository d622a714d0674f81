//! What a granted call changes in the ledger.

use super::{split_unit, unit_of, Ledger, Record};
use crate::call::Call;

impl Ledger {
    pub(super) fn change(&mut self, call: &Call) {
        match call {
            Call::Teach { key, field } => self.teach(*key, field),
            Call::Correct { key, field } => self.correct(*key, field),
            Call::Erase { key } => self.erase(*key),
            Call::Out { unit } => self.out[*unit as usize] = true,
            Call::Repair { group } => self.repair(*group as usize),
            Call::Grow | Call::Commit { .. } => self.grow(),
            Call::Shrink => self.shrink(),
            Call::Raise => self.level += 1,
            Call::LayOut { .. } => panic!("a layout opens a ledger of its own"),
            Call::Read { .. } | Call::ReadInPlace { .. } => {}
            Call::List { .. } | Call::Plan { .. } => {}
        }
    }

    fn teach(&mut self, key: u32, field: &[u8]) {
        let unit = self.unit_of(key);
        self.lists[unit].push(Record { key, field: field.try_into().unwrap() });
    }

    fn correct(&mut self, key: u32, field: &[u8]) {
        let unit = self.unit_of(key);
        let record = self.lists[unit].iter_mut().find(|r| r.key == key).unwrap();
        record.field = field.try_into().unwrap();
    }

    fn erase(&mut self, key: u32) {
        let unit = self.unit_of(key);
        let list = &mut self.lists[unit];
        let place = list.iter().position(|r| r.key == key).unwrap();
        list.swap_remove(place);
    }

    fn repair(&mut self, group: usize) {
        self.out[4 * group..4 * group + 4].fill(false);
        self.out[16 + 3 * group..19 + 3 * group].fill(false);
    }

    pub(super) fn grow(&mut self) {
        let added = self.units();
        let split = split_unit(added);
        self.lists.push(Vec::new());
        for record in std::mem::take(&mut self.lists[split]) {
            self.lists[unit_of(added + 1, record.key)].push(record);
        }
    }

    fn shrink(&mut self) {
        let moved = self.lists.pop().unwrap();
        let last = self.units();
        self.lists[split_unit(last)].extend(moved);
    }
}
