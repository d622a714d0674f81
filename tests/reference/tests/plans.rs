//! Growing in two strokes (document 02, request 6): plans by hand, plans against what a grow then does,
//! and commits of the plan and of all that is near it.

use reference::call::{Answer, Call};
use reference::ledger::{split_unit, unit_of, Ledger};
use reference::moves::{Move, MOST_MOVES, MOVE};
use reference::record::FIELD;
use reference::store::layout::{length, View};
use reference::store::{self, commit, grow, lay_out, plan, raise, teach, unit_out};

const SLOTS: usize = 5;

fn field(key: u32) -> [u8; FIELD] {
    std::array::from_fn(|i| (key as usize % 251 * 31 * (i + 1)) as u8)
}

fn view(bytes: &[u8]) -> View<'_> {
    View::new(bytes).unwrap()
}

/// An entry that is no move.
fn no_move() -> Move {
    Move::from([0xA5; MOVE])
}

/// Both references, which are given the same calls.
#[derive(Clone)]
struct Both {
    bytes: Vec<u8>,
    ledger: Ledger,
}

impl Both {
    /// So many units, and then keys in this order.
    fn new(units: usize, keys: &[u32]) -> Both {
        let mut bytes = vec![0; length(SLOTS)];
        assert_eq!(lay_out(&mut bytes, SLOTS as u32), 0);
        let mut both = Both { bytes, ledger: Ledger::open(SLOTS as u32, usize::MAX).unwrap() };
        (1..units).for_each(|_| both.granted(Call::Grow));
        keys.iter().for_each(|&key| both.teach(key));
        both
    }

    fn perform(&mut self, call: &Call) -> Answer {
        let answer = store::perform(&mut self.bytes, call);
        assert_eq!(answer, self.ledger.perform(call), "{call}");
        assert!(self.bytes == self.ledger.picture(), "{call}");
        answer
    }

    fn granted(&mut self, call: Call) {
        assert_eq!(self.perform(&call).number(), Some(0), "{call}");
    }

    fn teach(&mut self, key: u32) {
        self.granted(Call::Teach { key, field: field(key).to_vec() });
    }

    /// The plan, by asking with a list that just fits.
    fn plan(&mut self) -> Vec<Move> {
        let entries = self.ledger.lists[split_unit(self.ledger.units())].len();
        let before = self.bytes.clone();
        let Answer::Plan(0, count, moves) = self.perform(&Call::Plan { entries }) else {
            panic!("a plan that is refused")
        };
        assert_eq!([count, moves.len()], [entries; 2]);
        assert!(self.bytes == before);
        moves
    }

    /// The number of a commit; where it is refused, nothing changes.
    fn commit(&mut self, moves: &[Move], count: usize) -> u8 {
        let before = self.clone();
        let number = self.perform(&Call::Commit { moves: moves.to_vec(), count }).number().unwrap();
        assert!(number == 0 || (self.bytes == before.bytes && self.ledger == before.ledger));
        number
    }

    /// The number of a commit on a copy.
    fn would_commit(&self, moves: &[Move], count: usize) -> u8 {
        self.clone().commit(moves, count)
    }
}

/// So many units, the keys that are taught, and the plan: old unit and rank, new unit and rank.
type ByHand = (usize, &'static [u32], &'static [[u8; MOVE]]);

const BY_HAND: [ByHand; 10] = [
    // Unit 0 becomes 0 and 1, by the sums modulo 2.
    (1, &[1, 2, 3, 4], &[[0, 1, 1, 1], [0, 2, 0, 1], [0, 3, 1, 2], [0, 4, 0, 2]]),
    // Unit 0 becomes 0 and 2, modulo 4. Key 1 lies in unit 1.
    (2, &[4, 2, 1, 8, 6], &[[0, 1, 0, 1], [0, 2, 2, 1], [0, 3, 0, 2], [0, 4, 2, 2]]),
    // Unit 1 becomes 1 and 3, modulo 4. Sums: 1, 5, 3, 1, 15.
    (
        3,
        &[0x1, 0x5, 0x3, 0x10, 0xF],
        &[[1, 1, 1, 1], [1, 2, 1, 2], [1, 3, 3, 1], [1, 4, 1, 3], [1, 5, 3, 2]],
    ),
    // Unit 0 becomes 0 and 4, modulo 8, in another group. Sums: 16, 4, 12, 8.
    (4, &[0x1F, 0x4, 0xC, 0x8], &[[0, 1, 0, 1], [0, 2, 4, 1], [0, 3, 4, 2], [0, 4, 0, 2]]),
    // Unit 1 becomes 1 and 5. Key 4 lies in unit 4.
    (5, &[0x4], &[]),
    // Unit 2 becomes 2 and 6, modulo 8: all stay. Sums: 2, 10, 2.
    (6, &[0x2, 0xA, 0x11], &[[2, 1, 2, 1], [2, 2, 2, 2], [2, 3, 2, 3]]),
    // Unit 0 becomes 0 and 8, modulo 16. Sums: 120, 16.
    (8, &[u32::MAX, 0x1F], &[[0, 1, 8, 1], [0, 2, 0, 1]]),
    // Unit 3 becomes 3 and 11, modulo 16: all move. Sums: 11, 11.
    (11, &[0xB, 0x1A], &[[3, 1, 11, 1], [3, 2, 11, 2]]),
    // Unit 4 becomes 4 and 12, modulo 16. Sums: 28, 92, 4, 12.
    (
        12,
        &[0x0123_4567, 0x89AB_CDEF, 0x400, 0xC0],
        &[[4, 1, 12, 1], [4, 2, 12, 2], [4, 3, 4, 1], [4, 4, 12, 3]],
    ),
    // Unit 7 becomes 7 and 15, modulo 16. Sums: 7, 15, 7, 15, 15.
    (
        15,
        &[0x7, 0xF, 0x16, 0x78, 0xF000_0000],
        &[[7, 1, 7, 1], [7, 2, 15, 1], [7, 3, 7, 2], [7, 4, 15, 2], [7, 5, 15, 3]],
    ),
];

#[test]
fn plans_by_hand() {
    for (units, keys, due) in BY_HAND {
        let due: Vec<Move> = due.iter().map(|&entry| Move::from(entry)).collect();
        assert_eq!(Both::new(units, keys).plan(), due, "{units} units");
    }
}

/// Keys 1, 2, 3 and 4 of one unit. Erasing 1 puts 4 in its place. Then 5 is taught, so that there are
/// four again.
#[test]
fn a_plan_that_is_stale_by_hand() {
    let mut both = Both::new(1, &[1, 2, 3, 4]);
    let first = both.plan();
    both.granted(Call::Erase { key: 1 });
    let second = both.plan();
    assert_eq!(second, [[0, 1, 0, 1], [0, 2, 0, 2], [0, 3, 1, 1]].map(Move::from));
    both.teach(5);
    let third = both.plan();
    assert_eq!(third, [[0, 1, 0, 1], [0, 2, 0, 2], [0, 3, 1, 1], [0, 4, 1, 2]].map(Move::from));
    assert_eq!([both.commit(&first, 4), both.commit(&second, 3)], [11, 11]);
    assert_eq!(both.commit(&third, 4), 0);
    assert_eq!(both.ledger.units(), 2);
    assert_eq!(both.commit(&third, 4), 11);
}

/// Nothing ties a commit to an asking: what leaves the plan as it is leaves it good, and it may come
/// from another store.
#[test]
fn a_plan_holds_as_long_as_it_is_the_plan() {
    let taught = Both::new(3, &[1, 5, 3, 4]);
    let moves = taught.clone().plan();
    let mut both = taught.clone();
    both.granted(Call::Correct { key: 5, field: vec![7; FIELD] });
    both.teach(8);
    both.granted(Call::Raise);
    both.granted(Call::Erase { key: 3 });
    assert_eq!(both.commit(&moves, 3), 11);
    both.teach(0x12);
    assert_eq!(both.commit(&moves, 3), 0);

    let mut never_asked = taught.clone();
    assert_eq!(never_asked.commit(&moves, 3), 0);
    let mut other_records = Both::new(3, &[0x1000, 0x50, 0x111]);
    assert_eq!(other_records.commit(&moves, 3), 0);
}

/// A store of units of `slots` slots, so many of them, at a level.
fn laid_out(slots: usize, units: usize, level: usize) -> Vec<u8> {
    let mut bytes = vec![0; length(slots)];
    assert_eq!(lay_out(&mut bytes, slots as u32), 0);
    (1..units).for_each(|_| assert_eq!(grow(&mut bytes), 0));
    (1..level).for_each(|_| assert_eq!(raise(&mut bytes), 0));
    bytes
}

/// Such a store whose slots are all full: each unit has the least of its keys.
fn filled(slots: usize, units: usize, level: usize) -> Vec<u8> {
    let mut bytes = laid_out(slots, units, level);
    for unit in 0..units {
        let keys = (1..).filter(|&key| unit_of(units, key) == unit);
        keys.take(slots).for_each(|key| assert_eq!(teach(&mut bytes, key, &field(key)), 0));
    }
    bytes
}

/// The plan of a store.
fn plan_of(bytes: &[u8]) -> Vec<Move> {
    let mut list = [no_move(); MOST_MOVES];
    let (number, count) = plan(bytes, &mut list);
    assert_eq!(number, 0);
    list[..count].to_vec()
}

/// The key at a unit and a rank, which counts from 1.
fn key_at(bytes: &[u8], (unit, rank): (u8, u8)) -> u32 {
    view(bytes).key(unit as usize, rank as usize - 1)
}

/// The unit and the rank of each record of a unit.
fn places(bytes: &[u8], unit: usize) -> Vec<(u8, u8)> {
    (1..=view(bytes).count(unit)).map(|rank| (unit as u8, rank as u8)).collect()
}

/// The plan of a filled store has each record of the split unit in the order of its ranks. A grow puts
/// it where the plan says, and both units then have these records and no others.
fn assert_grows_as_planned(before: &[u8], units: usize) {
    let moves = plan_of(before);
    let old: Vec<_> = moves.iter().map(|entry| (entry.old_unit, entry.old_rank)).collect();
    let mut new: Vec<_> = moves.iter().map(|entry| (entry.new_unit, entry.new_rank)).collect();
    let mut after = before.to_vec();
    assert_eq!(grow(&mut after), 0);
    assert_eq!(old, places(before, split_unit(units)), "{units} units");
    for (&old, &new) in old.iter().zip(&new) {
        assert_eq!(key_at(before, old), key_at(&after, new), "{units} units, {old:?}");
    }
    new.sort_unstable();
    assert_eq!(new, [places(&after, split_unit(units)), places(&after, units)].concat());
}

/// At every number of units, where some records move and others stay.
#[test]
fn a_plan_is_what_a_grow_then_does() {
    for units in 1..16 {
        for (slots, level) in [(SLOTS, 1), (SLOTS, 2), (SLOTS, 3), (64, 1)] {
            let bytes = filled(slots, units, level);
            let moves = plan_of(&bytes);
            assert_eq!(moves.len(), slots);
            let moving = moves.iter().filter(|entry| entry.new_unit != entry.old_unit).count();
            assert!((1..slots).contains(&moving), "{units} units");
            assert_grows_as_planned(&bytes, units);
        }
    }
}

/// In filled stores and in empty ones, at each level, with entries behind the count and with none.
#[test]
fn a_commit_of_the_plan_is_a_grow() {
    for units in 1..16 {
        for level in 1..=3 {
            for before in [filled(SLOTS, units, level), laid_out(SLOTS, units, level)] {
                let mut moves = plan_of(&before);
                let count = moves.len();
                let mut grown = before.clone();
                assert_eq!(grow(&mut grown), 0);
                for _ in 0..3 {
                    let mut after = before.clone();
                    assert_eq!(commit(&mut after, &moves, count), 0, "{units} units");
                    assert!(after == grown, "{units} units, level {level}");
                    moves.push(no_move());
                }
            }
        }
    }
}

/// A list takes the plan at its front, where it has as many entries; it is not touched behind the plan,
/// and not at all where it is short.
#[test]
fn lists_of_every_length() {
    for (units, keys, due) in BY_HAND {
        let bytes = Both::new(units, keys).bytes;
        for entries in 0..=SLOTS + 3 {
            let mut list = vec![no_move(); entries];
            let (answer, written) = match entries >= due.len() {
                true => ((0, due.len()), due),
                false => ((7, 0), &[][..]),
            };
            assert_eq!(plan(&bytes, &mut list), answer, "{units} units, {entries} entries");
            let mut left: Vec<Move> = written.iter().map(|&entry| Move::from(entry)).collect();
            left.resize(entries, no_move());
            assert_eq!(list, left, "{units} units, {entries} entries");
        }
    }
}

/// Unit 1 of three, with five records: the third plan by hand.
fn five_records() -> (Both, Vec<Move>) {
    let (units, keys, _) = BY_HAND[2];
    let mut both = Both::new(units, keys);
    let moves = both.plan();
    assert_eq!(moves.len(), SLOTS);
    (both, moves)
}

/// No number of any entry may be another.
#[test]
fn every_number_of_every_entry_is_compared() {
    let (mut both, moves) = five_records();
    for at in 0..moves.len() {
        for number in 0..MOVE {
            for other in 1..=255u8 {
                let mut entry = <[u8; MOVE]>::from(moves[at]);
                entry[number] = entry[number].wrapping_add(other);
                let mut changed = moves.clone();
                changed[at] = Move::from(entry);
                let call = Call::Commit { moves: changed, count: 5 };
                assert_eq!(store::perform(&mut both.bytes, &call), Answer::Number(11), "{call}");
                assert_eq!(both.ledger.number(&call), 11, "{call}");
            }
        }
    }
    assert_eq!(both.commit(&moves, 5), 0);
}

/// Entries in another order, one left out, one twice, in place of another and beside it.
#[test]
fn every_entry_stands_once_and_in_its_place() {
    let (both, moves) = five_records();
    for one in 0..5 {
        let mut left_out = moves.clone();
        left_out.remove(one);
        assert_eq!(both.would_commit(&left_out, 4), 11);
        for other in (0..5).filter(|&other| other != one) {
            let (mut swapped, mut twice) = (moves.clone(), moves.clone());
            swapped.swap(one, other);
            assert_eq!(both.would_commit(&swapped, 5), 11);
            twice[one] = moves[other];
            assert_eq!(both.would_commit(&twice, 5), 11);
            let mut six = moves.clone();
            six.insert(one, moves[other]);
            assert_eq!(both.would_commit(&six, 6), 11);
        }
    }
}

/// The count has to be that of the plan, in a list that ends there and in longer ones, whatever stands
/// behind the count; and a list has to reach to its count.
#[test]
fn every_other_count_is_refused() {
    let (both, moves) = five_records();
    let mut list = moves.clone();
    list.extend([no_move(), moves[4], moves[0], no_move()]);
    list.resize(600, no_move());
    let low_digits = [8, 16, 32, 62].map(|bits| (1usize << bits) + 5);
    for count in (0..=600).chain(low_digits).chain([usize::MAX]) {
        for entries in [0, 1, 4, 5, 6, 9, 261, 600] {
            let due = if count == 5 && entries >= 5 { 0 } else { 11 };
            let call = Call::Commit { moves: list[..entries].to_vec(), count };
            assert_eq!(both.ledger.number(&call), due, "{count} of {entries}");
            let mut bytes = both.bytes.clone();
            assert_eq!(commit(&mut bytes, &list[..entries], count), due, "{count} of {entries}");
            assert_eq!(bytes == both.bytes, due != 0);
        }
    }
}

/// The plan of a unit without records has no entry. Count 0 commits it, with a list of none too.
#[test]
fn an_empty_unit_has_an_empty_plan() {
    for units in 1..16 {
        let both = Both::new(units, &[]);
        assert_eq!(both.clone().plan(), []);
        assert_eq!(both.would_commit(&[], 0), 0);
        assert_eq!(both.would_commit(&[no_move(); 3], 0), 0);
        assert_eq!(both.would_commit(&[], 1), 11);
        assert_eq!(both.would_commit(&[no_move(); 3], 1), 11);
    }
}

#[test]
fn none_of_a_unit_with_records_is_refused() {
    let (both, moves) = five_records();
    assert_eq!([both.would_commit(&[], 0), both.would_commit(&moves, 0)], [11, 11]);
}

/// Lists that are asked and committed with where grow is refused: of none, of the plan, and longer.
fn assert_refused(bytes: &[u8], moves: &[Move], due: u8, what: &str) {
    let mut longer = moves.to_vec();
    longer.push(no_move());
    for list in [&[], moves, &longer] {
        let mut written = list.to_vec();
        assert_eq!(plan(bytes, &mut written), (due, 0), "{what}");
        assert_eq!(written, list, "{what}");
        for count in [0, moves.len(), moves.len() + 1, usize::MAX] {
            let mut after = bytes.to_vec();
            assert_eq!(commit(&mut after, list, count), due, "{what}");
            assert!(after == bytes, "{what}");
        }
    }
}

/// 9 comes before 4, 7 and 11.
#[test]
fn at_sixteen_units_both_are_refused() {
    let mut both = Both::new(15, &[7, 0xF]);
    let moves = both.plan();
    assert_eq!(both.commit(&moves, 2), 0);
    both.teach(0x1F);
    let as_if_split = [Move::from([0, 1, 16, 1])];
    assert_refused(&both.bytes, &as_if_split, 9, "16 units");
    both.granted(Call::Out { unit: 0 });
    assert_refused(&both.bytes, &as_if_split, 9, "16 units, one out");
    for (moves, count) in [(vec![], 0), (as_if_split.to_vec(), 1), (as_if_split.to_vec(), 2)] {
        assert_eq!(both.commit(&moves, count), 9);
    }
    assert_eq!(both.perform(&Call::Plan { entries: 0 }), Answer::Plan(9, 0, vec![]));
}

/// With a unit out both refuse with 4 where grow does, before 7 and 11: it is a unit of the group of the
/// unit that is split or of the one that is added. Other groups do not matter.
#[test]
fn a_unit_out_refuses_both_where_it_refuses_a_grow() {
    let (mut refused, mut granted) = (0, 0);
    for units in 1..16 {
        for level in 1..=3 {
            let whole = filled(SLOTS, units, level);
            let moves = plan_of(&whole);
            for unit in (0..28).filter(|&unit| view(&whole).state(unit) != 0) {
                let mut bytes = whole.clone();
                assert_eq!(unit_out(&mut bytes, unit as u32), 0);
                let group = if unit < 16 { unit / 4 } else { (unit - 16) / 3 };
                let what = format!("{units} units, level {level}, unit {unit} out");
                if group == units / 4 || group == split_unit(units) / 4 {
                    assert_eq!(grow(&mut bytes.clone()), 4, "{what}");
                    assert_refused(&bytes, &moves, 4, &what);
                    refused += 1;
                } else {
                    assert_eq!(plan_of(&bytes), moves, "{what}");
                    let mut grown = bytes.clone();
                    assert_eq!(grow(&mut grown), 0, "{what}");
                    assert_eq!(commit(&mut bytes, &moves, moves.len()), 0, "{what}");
                    assert!(bytes == grown, "{what}");
                    granted += 1;
                }
            }
        }
    }
    assert!(refused > 0 && granted > 0);
}

/// 1 comes before all: with the plan, with others, at 16 units and with a unit out.
#[test]
fn a_store_that_is_not_sound_is_refused_first() {
    for units in [1, 3, 8, 15, 16] {
        let whole = filled(SLOTS, units, 2);
        let moves = if units == 16 { vec![no_move()] } else { plan_of(&whole) };
        let mut out = whole.clone();
        assert_eq!(unit_out(&mut out, 0), 0);
        for mut bytes in [whole, out] {
            for version in [0, 3, 5] {
                bytes[0] = version;
                assert_refused(&bytes, &moves, 1, &format!("{units} units, version {version}"));
            }
        }
    }
    assert_refused(&[], &[], 1, "no store");
}

#[test]
fn hallrun_has_no_line_for_them() {
    assert!(!Call::Plan { entries: 1 }.has_line());
    assert!(!Call::Commit { moves: vec![], count: 0 }.has_line());
}

/// As they are printed where a comparison differs.
#[test]
fn they_are_told_in_words() {
    let moves = vec![Move::from([3, 1, 11, 1]), Move::from([3, 2, 3, 10])];
    let told = [Call::Plan { entries: 2 }, Call::Commit { moves, count: 3 }].map(|c| c.to_string());
    assert_eq!(told[0], "plan (list of 2 entries)");
    assert_eq!(told[1], "commit 3 of 2 entries: [03 01 0B 01] [03 02 03 0A]");
}
