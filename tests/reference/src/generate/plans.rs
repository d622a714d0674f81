//! Asking for a plan and committing one: with the right list and count, and with every kind of wrong
//! ones.

use super::arguments::Arguments;
use crate::call::Call;
use crate::ledger::Ledger;
use crate::moves::{Move, MOVE};
use crate::random::Random;

/// More entries than any plan has; the number's low byte is 0.
const LONG_LIST: usize = 256;

impl Arguments {
    /// Asks for a plan: the list just fits, is longer, also by much, too short by one, or empty.
    pub fn plan(&mut self, ledger: &Ledger) -> Call {
        let fits = ledger.plan().len();
        let longer = self.random.pick(&[fits + 1, fits + 5, LONG_LIST]);
        Call::Plan { entries: self.random.pick(&[fits, fits, longer, fits.saturating_sub(1), 0]) }
    }

    /// Commits the plan of the ledger or the one that was asked for last: as it is, with entries behind
    /// it, with entries changed, or with a wrong count.
    pub fn commit(&mut self, ledger: &Ledger) -> Call {
        let last = self.random.chance(1, 4);
        let mut moves = if last { self.asked.clone() } else { ledger.plan() };
        let mut count = moves.len();
        match self.random.below(12) {
            0..=2 => {}
            3 => lend_more(&mut self.random, &mut moves),
            4..=8 => {
                change_entries(&mut self.random, &mut moves, ledger);
                count = moves.len();
                if self.random.chance(1, 4) {
                    lend_more(&mut self.random, &mut moves);
                }
            }
            _ => count = wrong_count(&mut self.random, &mut moves),
        }
        Call::Commit { moves, count }
    }
}

/// Entries behind those that count, a few or many: any, the next one that a longer unit would have, or
/// the first one again.
fn lend_more(random: &mut Random, moves: &mut Vec<Move>) {
    let few = moves.len() + 1 + random.below(5);
    let entries = random.pick(&[few, few, few, LONG_LIST]);
    while moves.len() < entries {
        let any = any_move(random);
        let next = moves.last().map_or(any, |last| Move {
            old_rank: last.old_rank.wrapping_add(1),
            new_rank: last.new_rank.wrapping_add(1),
            ..*last
        });
        let first = moves.first().copied().unwrap_or(any);
        moves.push(random.pick(&[any, next, first]));
    }
}

fn any_move(random: &mut Random) -> Move {
    Move::from([0; MOVE].map(|_| random.next_u64() as u8))
}

/// One number of one entry is another, two entries change places, one is left out or stands there
/// twice, or all are by another rule. Where there is no entry, one comes in.
fn change_entries(random: &mut Random, moves: &mut Vec<Move>, ledger: &Ledger) {
    if moves.is_empty() {
        return moves.push(any_move(random));
    }
    let one = random.below(moves.len());
    let other = (one + 1 + random.below(moves.len().max(2) - 1)) % moves.len();
    match random.below(12) {
        0..=3 => change_number(random, &mut moves[one]),
        4 | 5 => moves.swap(one, other),
        6 => {
            moves.remove(one);
        }
        7 => moves.insert(other, moves[one]),
        8 => moves[other] = moves[one],
        _ => by_another_rule(random, moves, ledger),
    }
}

fn change_number(random: &mut Random, entry: &mut Move) {
    let mut numbers = <[u8; MOVE]>::from(*entry);
    let number = &mut numbers[random.below(MOVE)];
    let any = 1 + random.below(255) as u8;
    *number = number.wrapping_add(random.pick(&[1, 255, 128, any]));
    *entry = Move::from(numbers);
}

/// Ranks from 0, ranks that count on from the one unit to the other, the records that move alone, the
/// order of the new units and ranks, or the plan of the grow after the next.
fn by_another_rule(random: &mut Random, moves: &mut Vec<Move>, ledger: &Ledger) {
    match random.below(5) {
        0 => moves.iter_mut().for_each(|entry| {
            entry.old_rank = entry.old_rank.wrapping_sub(1);
            entry.new_rank = entry.new_rank.wrapping_sub(1);
        }),
        1 => moves.iter_mut().for_each(|entry| entry.new_rank = entry.old_rank),
        2 => moves.retain(|entry| entry.new_unit != entry.old_unit),
        3 => moves.sort_by_key(|entry| (entry.new_unit, entry.new_rank)),
        _ => {
            let mut grown = ledger.clone();
            grown.perform(&Call::Grow);
            *moves = grown.plan();
        }
    }
}

/// One less, none, one more, in the list and behind it, or far more, mostly with the right number in the
/// low digits, in a list of so many entries and in one that ends before. Or the list is short by one.
fn wrong_count(random: &mut Random, moves: &mut Vec<Move>) -> usize {
    let right = moves.len();
    match random.below(10) {
        0 | 1 => right.saturating_sub(1),
        2 => 0,
        3 => {
            lend_more(random, moves);
            right + 1
        }
        4 | 5 => right + 1,
        6 => {
            moves.resize_with(right + LONG_LIST, || any_move(random));
            right + LONG_LIST
        }
        7 | 8 => {
            let low_digits = [8, 16, 32, 62].map(|bits| (1 << bits) + right);
            random.pick(&[low_digits.to_vec(), vec![usize::MAX]].concat())
        }
        _ => {
            moves.pop();
            right
        }
    }
}
