//! Histories: a layout, growth with records, then calls of all kinds.

use super::arguments::Arguments;
use crate::call::{Answer, Call, Kind, KINDS};
use crate::ledger::{split_unit, Ledger};
use crate::random::Random;
use crate::record::FIELD;

/// How often each kind is called, in the order of `KINDS`.
type Weights = [usize; 14];

const BALANCED: Weights = [1, 16, 10, 10, 12, 4, 2, 4, 6, 4, 4, 2, 2, 3];
const LOSING: Weights = [0, 6, 4, 4, 14, 4, 4, 16, 8, 2, 2, 2, 2, 3];
const MOVING: Weights = [0, 12, 4, 8, 6, 2, 2, 2, 3, 10, 13, 4, 4, 12];
const FILLING: Weights = [0, 28, 6, 8, 6, 2, 2, 1, 2, 2, 4, 1, 2, 4];

struct Maker {
    arguments: Arguments,
    ledger: Ledger,
    calls: Vec<Call>,
}

/// The calls of a history; the first is a granted layout. Its slice has the store's length.
pub fn history(seed: u64) -> Vec<Call> {
    let mut random = Random::new(seed);
    let b = match random.below(20) {
        0..=4 => 1,
        5..=9 => 2,
        10..=12 => 3,
        13..=15 => 4,
        16..=17 => 5 + random.below(4),
        18 => 9 + random.below(24),
        _ => 64,
    };
    let mixed = 20 + random.below(80);
    make(random, b, mixed)
}

/// A history with few calls and, but for one in a hundred, small units.
pub fn short_history(seed: u64) -> Vec<Call> {
    let mut random = Random::new(seed);
    let large = random.chance(1, 100);
    let b = if large { random.pick(&[16, 33, 64]) } else { random.pick(&[1, 1, 2, 2, 3, 4, 7]) };
    let mixed = random.below(16);
    make(random, b, mixed)
}

fn make(mut random: Random, b: usize, mixed: usize) -> Vec<Call> {
    let units = random.pick(&[1, 2, 3, 4, 4, 5, 6, 7, 8, 8, 9, 10, 12, 13, 15, 16]);
    let raises: Vec<usize> = (0..random.below(4)).map(|_| 1 + random.below(units)).collect();
    let fill = random.pick(&[0, 30, 75, 100]);
    let weights = random.pick(&[BALANCED, LOSING, MOVING, FILLING]);
    let mut maker = Maker {
        arguments: Arguments::new(random, 2 * b * units + 3),
        ledger: Ledger::open(b as u32, usize::MAX).expect("b is in its range"),
        calls: vec![Call::LayOut { b: b as u32 }],
    };
    maker.grow_to(units, &raises);
    maker.fill(fill);
    for left in (0..mixed).rev() {
        maker.any_call(&weights);
        if maker.arguments.random.chance(1, if left == 0 { 3 } else { 40 }) {
            maker.lose_units();
        }
        if maker.arguments.random.chance(1, 30) {
            maker.two_strokes(&weights);
        }
    }
    maker.calls
}

impl Maker {
    fn push(&mut self, call: Call) {
        if !matches!(call, Call::LayOut { .. }) {
            if let Answer::Plan(0, _, moves) = self.ledger.perform(&call) {
                self.arguments.asked = moves;
            }
        }
        self.calls.push(call);
    }

    /// Grows to so many units, at times in two strokes, with a few records between, and raises at the
    /// given numbers of units.
    fn grow_to(&mut self, units: usize, raises: &[usize]) {
        loop {
            (0..self.ledger.b.min(3)).for_each(|_| self.teach_of_pool());
            let now = raises.iter().filter(|&&at| at == self.ledger.units()).count();
            (0..now).for_each(|_| self.push(Call::Raise));
            if self.ledger.units() == units {
                return;
            }
            if self.arguments.random.chance(1, 4) {
                self.ask();
                self.commit_asked();
            } else {
                self.push(Call::Grow);
            }
        }
    }

    /// Asks for a plan with a list that just fits.
    fn ask(&mut self) {
        self.push(Call::Plan { entries: self.ledger.plan().len() });
    }

    /// Commits the plan that was handed back last.
    fn commit_asked(&mut self) {
        let moves = self.arguments.asked.clone();
        self.push(Call::Commit { count: moves.len(), moves });
    }

    /// Asks for a plan, makes a few other calls, mostly on records of the unit to be split, and commits
    /// what was handed back.
    fn two_strokes(&mut self, weights: &Weights) {
        self.ask();
        for _ in 0..self.arguments.random.below(4) {
            if self.arguments.random.chance(1, 3) {
                self.any_call(weights);
            } else {
                self.change_split_unit();
            }
        }
        self.commit_asked();
    }

    /// A record of the unit to be split next is corrected or erased, or one is taught, or both.
    fn change_split_unit(&mut self) {
        let unit = split_unit(self.ledger.units());
        let key = self.arguments.key_of(&self.ledger, unit);
        let choice = self.arguments.random.below(4);
        if choice == 0 {
            let field = self.arguments.field(&self.ledger, key);
            return self.push(Call::Correct { key, field });
        }
        if choice < 3 {
            self.push(Call::Erase { key });
        }
        if choice > 1 {
            let key = self.arguments.new_key_of(&self.ledger, unit);
            let field = self.arguments.field(&self.ledger, key);
            self.push(Call::Teach { key, field });
        }
    }

    fn teach_of_pool(&mut self) {
        let key = self.arguments.random.pick(&self.arguments.pool);
        let field = self.arguments.field(&self.ledger, key);
        self.push(Call::Teach { key, field });
    }

    /// Teaches until about so many of a hundred slots are used, as far as the keys reach.
    fn fill(&mut self, percent: usize) {
        let slots = self.ledger.units() * self.ledger.b * percent / 100;
        let mut tries = 2 * slots;
        while self.ledger.records() < slots && tries > 0 {
            self.teach_of_pool();
            tries -= 1;
        }
    }

    fn any_call(&mut self, weights: &Weights) {
        let kind = self.any_kind(weights);
        let call = self.arguments.call(kind, &self.ledger);
        self.push(call);
    }

    /// Units of one group go out, more of them than single losses would make likely; then reads of its
    /// keys, a list, at times a plan and a commit, and, in half of the cases, a repair.
    fn lose_units(&mut self) {
        let group = self.arguments.random.below(self.ledger.units().div_ceil(4));
        let data = 4 * group..self.ledger.units().min(4 * group + 4);
        let checks = 16 + 3 * group..16 + 3 * group + self.ledger.level;
        let (of_data, of_checks) =
            self.arguments.random.pick(&[(0, 4), (1, 4), (2, 0), (3, 0), (4, 0), (2, 2), (3, 2)]);
        for unit in data.clone().chain(checks) {
            let of_four = if unit < 16 { of_data } else { of_checks };
            if self.arguments.random.chance(of_four, 4) {
                self.push(Call::Out { unit: unit as u32 });
            }
        }
        for unit in data {
            let key = self.arguments.key_of(&self.ledger, unit);
            self.push(Call::Read { key, out: FIELD });
        }
        let kinds = [Kind::List, Kind::Plan, Kind::Commit];
        let other_calls = if self.arguments.random.chance(1, 6) { &kinds[..] } else { &kinds[..1] };
        for &kind in other_calls {
            let call = self.arguments.call(kind, &self.ledger);
            self.push(call);
        }
        if self.arguments.random.chance(1, 2) {
            self.push(Call::Repair { group: group as u32 });
        }
    }

    fn any_kind(&mut self, weights: &Weights) -> Kind {
        let mut at = self.arguments.random.below(weights.iter().sum());
        for (kind, weight) in KINDS.into_iter().zip(weights) {
            if at < *weight {
                return kind;
            }
            at -= weight;
        }
        unreachable!("the weights add up")
    }
}
