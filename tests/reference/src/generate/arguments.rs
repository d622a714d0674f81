//! Arguments of calls: mostly fitting ones, and every kind that is refused.

use crate::call::{Call, Kind};
use crate::ledger::{digit_sum, unit_of, Ledger};
use crate::moves::Move;
use crate::random::Random;
use crate::record::{body_of, field_of, stamp_of, BODY, FIELD, KEY, RECORD, STAMP};

/// Numbers that are too large for a unit or a group, some of them small modulo 256.
const TOO_LARGE: [u32; 8] = [28, 29, 255, 256, 257, 272, 65_536, u32::MAX];

/// Lengths that neither a field nor the output of a read may have.
const OTHER_LENGTHS: [usize; 8] = [0, 1, STAMP, BODY, FIELD - 1, FIELD + 1, RECORD, 2 * FIELD];

pub struct Arguments {
    pub random: Random,
    /// The keys that calls are made with in the main.
    pub pool: Vec<u32>,
    /// The plan that was handed back last; at first none.
    pub asked: Vec<Move>,
    /// The stamp of the field made last.
    last_stamp: u32,
}

impl Arguments {
    /// A pool of `size` keys: small numbers, numbers in sixteens, keys of one unit with few digits or
    /// with any, or any keys.
    pub fn new(mut random: Random, size: usize) -> Arguments {
        let sum = random.below(16);
        let small = 1..=size as u32;
        let pool = match random.below(8) {
            0..=2 => small.collect(),
            3 => small.map(|i| 16 * i).collect(),
            4 => small.map(|i| key_of_sum(sum, i)).collect(),
            5 => small.map(|_| key_of_sum(sum, any_up_to(&mut random, u32::MAX / 16))).collect(),
            _ => small.map(|_| any_up_to(&mut random, u32::MAX)).collect(),
        };
        let last_stamp = random.next_u64() as u32;
        Arguments { random, pool, asked: Vec::new(), last_stamp }
    }

    /// A call of a kind, with arguments that suit a ledger or just miss.
    pub fn call(&mut self, kind: Kind, ledger: &Ledger) -> Call {
        match kind {
            Kind::LayOut => Call::LayOut { b: self.random.pick(&[0, 65, 255, 256, 257, 65_537]) },
            Kind::Teach => {
                let key = self.new_key(ledger);
                Call::Teach { key, field: self.field(ledger, key) }
            }
            Kind::Correct => {
                let key = self.known_key(ledger);
                Call::Correct { key, field: self.field(ledger, key) }
            }
            Kind::Erase => Call::Erase { key: self.known_key(ledger) },
            Kind::Read => Call::Read { key: self.known_key(ledger), out: self.output() },
            Kind::ReadInPlace => Call::ReadInPlace { key: self.known_key(ledger) },
            Kind::List => Call::List { out: self.list_output(ledger) },
            Kind::Out => Call::Out { unit: self.unit(ledger) },
            Kind::Repair => Call::Repair { group: self.group(ledger) },
            Kind::Grow => Call::Grow,
            Kind::Shrink => Call::Shrink,
            Kind::Raise => Call::Raise,
            Kind::Plan => self.plan(ledger),
            Kind::Commit => self.commit(ledger),
        }
    }

    /// A key for a teach: mostly of the pool.
    pub fn new_key(&mut self, ledger: &Ledger) -> u32 {
        match self.random.below(24) {
            0 => 0,
            1 => self.random.next_u64() as u32,
            2 | 3 => self.present_key(ledger),
            4 => self.same_digits(ledger),
            _ => self.random.pick(&self.pool),
        }
    }

    /// A key for the other calls: mostly one that is present.
    fn known_key(&mut self, ledger: &Ledger) -> u32 {
        match self.random.below(24) {
            0 => 0,
            1 => u32::MAX,
            2 => self.random.next_u64() as u32,
            3..=8 => self.random.pick(&self.pool),
            9 => self.same_digits(ledger),
            _ => self.present_key(ledger),
        }
    }

    /// The digits of a present key in another order: mostly another key of the same unit.
    fn same_digits(&mut self, ledger: &Ledger) -> u32 {
        let digits = 1 + self.random.below(7) as u32;
        self.present_key(ledger).rotate_left(4 * digits)
    }

    fn present_key(&mut self, ledger: &Ledger) -> u32 {
        let keys: Vec<u32> = ledger.lists.iter().flatten().map(|r| r.key).collect();
        if keys.is_empty() {
            return self.random.pick(&self.pool);
        }
        self.random.pick(&keys)
    }

    /// A key of a unit: mostly one that is present, where it has any.
    pub fn key_of(&mut self, ledger: &Ledger, unit: usize) -> u32 {
        let keys: Vec<u32> = ledger.lists[unit].iter().map(|record| record.key).collect();
        if keys.is_empty() || self.random.chance(1, 4) {
            return key_of_sum(unit, any_up_to(&mut self.random, u32::MAX / 16));
        }
        self.random.pick(&keys)
    }

    /// A key of a unit that is not present, but for chance. Where units are split it may stay or move.
    pub fn new_key_of(&mut self, ledger: &Ledger, unit: usize) -> u32 {
        let here = |&sum: &usize| unit_of(ledger.units(), sum as u32) == unit;
        let sums: Vec<usize> = (0..16).filter(here).collect();
        key_of_sum(self.random.pick(&sums), any_up_to(&mut self.random, u32::MAX / 16))
    }

    /// A field for a key, at times of a wrong length. For a key that is present the stamp goes by the
    /// one that it has, otherwise by that of the field made last.
    pub fn field(&mut self, ledger: &Ledger, key: u32) -> Vec<u8> {
        let present = ledger.find(key).map(|record| record.field);
        let before = present.map_or(self.last_stamp, |field| stamp_of(&field));
        let body = match present {
            Some(field) if self.random.chance(1, 6) => body_of(&field),
            _ => self.body(),
        };
        self.last_stamp = self.stamp(before);
        let mut field = field_of(body, self.last_stamp).to_vec();
        if self.random.chance(1, 25) {
            field.resize(self.random.pick(&OTHER_LENGTHS), 0);
        }
        field
    }

    fn body(&mut self) -> [u8; BODY] {
        match self.random.below(8) {
            0 => [0; BODY],
            1 => [255; BODY],
            2 => std::array::from_fn(|i| (i == 3) as u8),
            _ => std::array::from_fn(|_| self.random.next_u64() as u8),
        }
    }

    /// A stamp: 0, a small one, the largest, one earlier than `before`, a later one, the same or any.
    fn stamp(&mut self, before: u32) -> u32 {
        let step = 1 + self.random.below(1000) as u32;
        match self.random.below(10) {
            0 => 0,
            1 => step,
            2 => u32::MAX,
            3 | 4 => before.saturating_sub(step),
            5 => before.saturating_add(step),
            6 => before,
            _ => self.random.next_u64() as u32,
        }
    }

    fn output(&mut self) -> usize {
        if self.random.chance(1, 20) {
            self.random.pick(&OTHER_LENGTHS)
        } else {
            FIELD
        }
    }

    /// The length of a list's output: it fits, is longer, or is too short, also by the stamps alone.
    fn list_output(&mut self, ledger: &Ledger) -> usize {
        let fits = RECORD * ledger.records();
        let without_stamps = (KEY + BODY) * ledger.records();
        let short = [fits.saturating_sub(1), without_stamps, fits / 2];
        let short = self.random.pick(&short);
        self.random.pick(&[fits, fits + 1, fits + 300, short, short])
    }

    fn unit(&mut self, ledger: &Ledger) -> u32 {
        match self.random.below(12) {
            0 => self.random.pick(&TOO_LARGE),
            1 | 2 => self.random.below(28) as u32,
            3..=7 => self.random.below(ledger.units()) as u32,
            _ => {
                let group = self.random.below(ledger.units().div_ceil(4));
                let j = self.random.below(ledger.level);
                (16 + 3 * group + j) as u32
            }
        }
    }

    fn group(&mut self, ledger: &Ledger) -> u32 {
        match self.random.below(12) {
            0 => self.random.pick(&TOO_LARGE) - self.random.pick(&[0, 24]),
            1 => self.random.below(4) as u32,
            _ => self.random.below(ledger.units().div_ceil(4)) as u32,
        }
    }
}

/// Any number from 1 to `most`.
fn any_up_to(random: &mut Random, most: u32) -> u32 {
    1 + random.next_u64() as u32 % most
}

/// The key whose digits but the last are those of `front`, and whose digit sum is `sum` modulo 16.
/// Keys of one such sum lie in one unit, whatever the number of units.
fn key_of_sum(sum: usize, front: u32) -> u32 {
    let last = (sum + 8 * 16 - digit_sum(front)) % 16;
    16 * front + last as u32
}
