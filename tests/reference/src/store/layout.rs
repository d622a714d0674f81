//! "Bytes of a store": where its parts lie, and reading them. Ranks count from 0 here.

use crate::record::{FIELD, KEY, RECORD};

pub const VERSION: u8 = 4;
pub const HEADER: usize = 36;
/// The most data units that a store has.
pub const MOST_UNITS: usize = 16;
/// A slot: key and field.
pub const SLOT: usize = RECORD;
/// The keys of a check record: one for each place of its group.
const LISTED_KEYS: usize = 4 * KEY;
/// A check record: the keys, then the parity of the fields.
pub const CHECK_RECORD: usize = LISTED_KEYS + FIELD;
/// One rank of all 16 data units and all 12 check units.
const RANK: usize = MOST_UNITS * SLOT + 12 * CHECK_RECORD;

pub const IN_SERVICE: u8 = 1;
pub const OUT: u8 = 2;

/// The length of a store of units of b slots.
pub fn length(b: usize) -> usize {
    HEADER + RANK * b
}

pub fn slot_at(b: usize, unit: usize, rank: usize) -> usize {
    HEADER + (unit * b + rank) * SLOT
}

/// Where the field of a slot starts.
pub fn field_at(b: usize, unit: usize, rank: usize) -> usize {
    slot_at(b, unit, rank) + KEY
}

/// Where a record of check unit 0 to 11 starts.
pub fn check_at(b: usize, check: usize, rank: usize) -> usize {
    HEADER + MOST_UNITS * b * SLOT + (check * b + rank) * CHECK_RECORD
}

/// Where a check record lists the key of a place of its group.
pub fn listed_key_at(b: usize, check: usize, rank: usize, place: usize) -> usize {
    check_at(b, check, rank) + KEY * place
}

/// Where the parity of a check record starts.
pub fn parity_at(b: usize, check: usize, rank: usize) -> usize {
    check_at(b, check, rank) + LISTED_KEYS
}

/// Where the state of unit 0 to 27 lies.
pub fn state_at(unit: usize) -> usize {
    8 + unit
}

/// The bytes of unit 0 to 27.
pub fn unit_range(b: usize, unit: usize) -> std::ops::Range<usize> {
    if unit < 16 {
        slot_at(b, unit, 0)..slot_at(b, unit, b)
    } else {
        check_at(b, unit - 16, 0)..check_at(b, unit - 16, b)
    }
}

fn word(bytes: &[u8], at: usize) -> u32 {
    u32::from_be_bytes(bytes[at..at + 4].try_into().unwrap())
}

/// As many bytes as a field has, from `at` on.
fn field_in(bytes: &[u8], at: usize) -> [u8; FIELD] {
    bytes[at..at + FIELD].try_into().unwrap()
}

/// A store whose header is in order.
#[derive(Clone, Copy)]
pub struct View<'a> {
    pub bytes: &'a [u8],
    pub b: usize,
}

impl<'a> View<'a> {
    /// None where a number of the header is out of its range or the slice is too short.
    pub fn new(bytes: &'a [u8]) -> Option<View<'a>> {
        if bytes.len() < HEADER {
            return None;
        }
        let b = bytes[5] as usize;
        let in_order = bytes[0] == VERSION
            && (1..=64).contains(&b)
            && word(bytes, 1) as usize == length(b)
            && bytes.len() >= length(b)
            && (1..=MOST_UNITS).contains(&(bytes[6] as usize))
            && (1..=3).contains(&bytes[7]);
        in_order.then_some(View { bytes, b })
    }

    /// M.
    pub fn units(&self) -> usize {
        self.bytes[6] as usize
    }

    /// K.
    pub fn level(&self) -> usize {
        self.bytes[7] as usize
    }

    /// The state of unit 0 to 27.
    pub fn state(&self, unit: usize) -> u8 {
        self.bytes[state_at(unit)]
    }

    pub fn key(&self, unit: usize, rank: usize) -> u32 {
        word(self.bytes, slot_at(self.b, unit, rank))
    }

    pub fn field(&self, unit: usize, rank: usize) -> [u8; FIELD] {
        field_in(self.bytes, field_at(self.b, unit, rank))
    }

    /// The key that check unit 0 to 11 lists for a place of its group.
    pub fn listed_key(&self, check: usize, rank: usize, place: usize) -> u32 {
        word(self.bytes, listed_key_at(self.b, check, rank, place))
    }

    pub fn parity(&self, check: usize, rank: usize) -> [u8; FIELD] {
        field_in(self.bytes, parity_at(self.b, check, rank))
    }

    /// Check units of a group in a state, in number order.
    pub fn checks_in(&self, group: usize, state: u8) -> Vec<usize> {
        let checks = 3 * group..3 * group + 3;
        checks.filter(|&check| self.state(16 + check) == state).collect()
    }

    /// Check units of a group in place, out ones counted too.
    pub fn checks_in_place(&self, group: usize) -> usize {
        self.checks_in(group, IN_SERVICE).len() + self.checks_in(group, OUT).len()
    }

    /// Units out of a group, check units counted too.
    pub fn lost(&self, group: usize) -> usize {
        let data = (4 * group..4 * group + 4).filter(|&unit| self.state(unit) == OUT);
        data.count() + self.checks_in(group, OUT).len()
    }

    /// The keys of a data unit by rank, empty slots as 0: its own, or where it is out those that
    /// the first check unit in service lists; None where there is no such check unit.
    pub fn keys(&self, unit: usize) -> Option<Vec<u32>> {
        if self.state(unit) != OUT {
            return Some((0..self.b).map(|rank| self.key(unit, rank)).collect());
        }
        let check = *self.checks_in(unit / 4, IN_SERVICE).first()?;
        Some(self.listed_keys(check, unit % 4))
    }

    pub fn listed_keys(&self, check: usize, place: usize) -> Vec<u32> {
        (0..self.b).map(|rank| self.listed_key(check, rank, place)).collect()
    }

    /// The data unit of a key.
    pub fn unit_of(&self, key: u32) -> usize {
        unit_of(self.units(), key)
    }

    /// The rank of a key that is not 0 in its unit, where it is known.
    pub fn rank_of(&self, key: u32) -> Option<usize> {
        let keys = self.keys(self.unit_of(key))?;
        keys.iter().position(|&k| k == key)
    }

    /// The number of records of a unit in service.
    pub fn count(&self, unit: usize) -> usize {
        (0..self.b).filter(|&rank| self.key(unit, rank) != 0).count()
    }
}

/// The sum of a key's eight hexadecimal digits, read from its text.
pub fn digit_sum(key: u32) -> usize {
    let text = format!("{key:08X}");
    text.chars().map(|digit| digit.to_digit(16).expect("a digit") as usize).sum()
}

/// The data unit of a key under M units: that of its digit sum.
pub fn unit_of(units: usize, key: u32) -> usize {
    unit_of_number(units, digit_sum(key))
}

/// The data unit that a number comes to under M units: the remainder by the larger power of two, or
/// by the smaller one where there is no such unit yet.
pub fn unit_of_number(units: usize, number: usize) -> usize {
    let power = largest_power(units);
    let unit = number % (2 * power);
    if unit < units {
        unit
    } else {
        unit - power
    }
}

/// The largest power of two up to `units`.
pub fn largest_power(units: usize) -> usize {
    [16, 8, 4, 2, 1].into_iter().find(|&p| p <= units).unwrap()
}

/// The unit that unit `added` is split from.
pub fn parent(added: usize) -> usize {
    added - largest_power(added)
}
