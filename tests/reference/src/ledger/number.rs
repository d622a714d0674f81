//! "Numbers returned", a function for each row of the table.

use super::{split_unit, Ledger};
use crate::call::Call;
use crate::record::{FIELD, RECORD};

/// The order in which the conditions are asked. 1, not sound, never applies to a ledger.
const ORDER: [u8; 9] = [2, 3, 9, 4, 8, 5, 6, 7, 11];

impl Ledger {
    pub fn number(&self, call: &Call) -> u8 {
        ORDER.into_iter().find(|&number| self.holds(number, call)).unwrap_or(0)
    }

    fn holds(&self, number: u8, call: &Call) -> bool {
        match number {
            2 => bad_argument(call),
            3 => self.not_in_place(call),
            9 => self.at_a_limit(call),
            4 => self.unit_out(call),
            8 => self.beyond_recovery(call),
            5 => matches!(call, Call::Teach { key, .. } if self.find(*key).is_some()),
            6 => self.not_present(call),
            7 => self.too_full(call),
            _ => self.not_the_plan(call),
        }
    }

    fn not_in_place(&self, call: &Call) -> bool {
        match call {
            Call::Out { unit } => !self.in_place(*unit as usize),
            Call::Repair { group } => 4 * *group as usize >= self.units(),
            _ => false,
        }
    }

    fn in_place(&self, unit: usize) -> bool {
        if unit < 16 {
            unit < self.units()
        } else {
            (unit - 16) % 3 < self.checks((unit - 16) / 3)
        }
    }

    fn at_a_limit(&self, call: &Call) -> bool {
        match call {
            Call::Grow | Call::Plan { .. } | Call::Commit { .. } => self.units() == 16,
            Call::Shrink => self.units() == 1,
            Call::Raise => self.level == 3,
            _ => false,
        }
    }

    fn unit_out(&self, call: &Call) -> bool {
        match call {
            Call::Teach { key, .. } | Call::Correct { key, .. } | Call::Erase { key } => {
                self.lost(self.unit_of(*key) / 4) > 0
            }
            Call::Grow | Call::Plan { .. } | Call::Commit { .. } => self.pair_lost(self.units()),
            Call::Shrink => self.pair_lost(self.units() - 1),
            Call::Raise => self.out.contains(&true),
            Call::Out { unit } => self.out[*unit as usize],
            _ => false,
        }
    }

    /// A unit is out in the group of `unit` or of the one that it is split from.
    fn pair_lost(&self, unit: usize) -> bool {
        self.lost(unit / 4) > 0 || self.lost(split_unit(unit) / 4) > 0
    }

    fn beyond_recovery(&self, call: &Call) -> bool {
        match call {
            Call::Repair { group } => self.group_beyond_recovery(*group as usize),
            Call::Read { key, .. } => self.key_beyond_recovery(*key),
            Call::List { .. } => (0..4).any(|group| self.group_beyond_recovery(group)),
            _ => false,
        }
    }

    fn group_beyond_recovery(&self, group: usize) -> bool {
        self.not_listed(group) || self.ranks_lost(group) > 0
    }

    /// The key's unit is out, and its records are not listed, or the key is and its rank is lost.
    fn key_beyond_recovery(&self, key: u32) -> bool {
        let unit = self.unit_of(key);
        let place = self.lists[unit].iter().position(|record| record.key == key);
        let lost = |place| place < self.ranks_lost(unit / 4);
        self.out[unit] && (self.not_listed(unit / 4) || place.is_some_and(lost))
    }

    fn not_present(&self, call: &Call) -> bool {
        match call {
            Call::Correct { key, .. } | Call::Erase { key } | Call::Read { key, .. } => {
                self.find(*key).is_none()
            }
            _ => false,
        }
    }

    fn too_full(&self, call: &Call) -> bool {
        match call {
            Call::Teach { key, .. } => self.lists[self.unit_of(*key)].len() == self.b,
            Call::Shrink => {
                let last = self.units() - 1;
                self.lists[last].len() + self.lists[split_unit(last)].len() > self.b
            }
            Call::List { out } => *out < RECORD * self.records(),
            Call::Plan { entries } => *entries < self.lists[split_unit(self.units())].len(),
            _ => false,
        }
    }

    /// A commit whose count exceeds its list, or whose first entries, so many as its count says, are
    /// not the plan.
    fn not_the_plan(&self, call: &Call) -> bool {
        let Call::Commit { moves, count } = call else { return false };
        *count > moves.len() || moves[..*count] != self.plan()
    }
}

fn bad_argument(call: &Call) -> bool {
    match call {
        Call::LayOut { b } => !(1..=64).contains(b),
        Call::Teach { key, field } | Call::Correct { key, field } => {
            *key == 0 || field.len() != FIELD
        }
        Call::Read { key, out } => *key == 0 || *out != FIELD,
        Call::Erase { key } => *key == 0,
        Call::Out { unit } => *unit > 27,
        Call::Repair { group } => *group > 3,
        _ => false,
    }
}
