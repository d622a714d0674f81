//! Faults of growing in two strokes: of the plan that is handed back, of what a commit takes for the
//! plan, and of the order of the numbers.

use super::faults::{name_chosen, Fault};
use crate::call::Kind;
use crate::moves::{Move, MOVE};
use crate::store::layout::{check_at, View};
use crate::store::plan::{commit_if, moves, moves_of, write_plan};
use crate::store::units::{add_unit, grow_number};
use crate::store::{commit, plan};

/// Another plan of a store that grow would be granted for.
type Plan = fn(View) -> Vec<Move>;

const OTHER_PLANS: [(&str, Plan); 5] = [
    ("plan-counts-new-ranks-through-both-units", |view| {
        let through = |entry: Move| Move { new_rank: entry.old_rank, ..entry };
        moves(view).into_iter().map(through).collect()
    }),
    ("plan-without-the-records-that-stay", |view| {
        moves(view).into_iter().filter(|entry| entry.new_unit != entry.old_unit).collect()
    }),
    ("plan-by-new-units-and-ranks", |view| {
        let mut moves = moves(view);
        moves.sort_by_key(|entry| (entry.new_unit, entry.new_rank));
        moves
    }),
    ("plan-with-ranks-from-0", |view| {
        let from_0 = |entry: Move| Move {
            old_rank: entry.old_rank - 1,
            new_rank: entry.new_rank - 1,
            ..entry
        };
        moves(view).into_iter().map(from_0).collect()
    }),
    ("plan-of-the-unit-split-after-next", |view| moves_of(view, (view.units() + 1).min(15))),
];

/// Asking with a fault: it is given the store and the list, and returns number and count, as the right
/// one does.
type Asking = fn(&[u8], &mut [Move]) -> (u8, usize);

const ASKING_FAULTS: [(&str, Asking); 9] = [
    ("plan-writes-one-entry-more", |store, list| {
        let (number, count) = plan(store, list);
        if let (0, Some(behind)) = (number, list.get_mut(count)) {
            *behind = Move::from([0; MOVE]);
        }
        (number, count)
    }),
    ("plan-refused-where-the-list-just-fits", |store, list| {
        match plan(store, &mut list.to_vec()) {
            (0, count) if count == list.len() => (7, 0),
            _ => plan(store, list),
        }
    }),
    ("plan-takes-the-low-byte-of-the-length", |store, list| {
        let length = list.len() % 256;
        plan(store, &mut list[..length])
    }),
    ("plan-counts-entries-that-do-not-fit", |store, list| match plan(store, list) {
        (7, _) => (7, moves(view(store)).len()),
        answer => answer,
    }),
    ("plan-fills-a-short-list", |store, list| {
        let (number, count) = plan(store, list);
        if number == 7 {
            list.iter_mut().zip(moves(view(store))).for_each(|(entry, due)| *entry = due);
        }
        (number, count)
    }),
    ("plan-says-7-before-9", |store, list| short_before(9, store, list)),
    ("plan-says-7-before-4", |store, list| short_before(4, store, list)),
    ("plan-looks-at-the-group-of-the-new-unit-alone", |store, list| match plan(store, list) {
        (4, _) if view(store).lost(view(store).units() / 4) == 0 => {
            write_plan(&moves(view(store)), list)
        }
        answer => answer,
    }),
    ("plan-tests-the-header-only", |store, list| match (plan(store, list), View::new(store)) {
        ((1, _), Some(view)) if view.units() < 16 => write_plan(&moves(view), list),
        (answer, _) => answer,
    }),
];

/// What a commit takes for the plan: it is given the plan that is due, the list and the count.
type Accepted = fn(&[Move], &[Move], usize) -> bool;

const ACCEPTED_FAULTS: [(&str, Accepted); 15] = [
    ("commit-compares-the-count-alone", |due, list, count| {
        count <= list.len() && count == due.len()
    }),
    ("commit-compares-entries-up-to-the-count-alone", |due, list, count| {
        list.get(..count).is_some_and(|given| due.starts_with(given))
    }),
    ("commit-looks-behind-the-count", |due, list, count| {
        count <= list.len() && list.starts_with(due)
    }),
    ("commit-refuses-a-longer-list", |due, list, count| count == list.len() && list == due),
    ("commit-refuses-where-the-list-just-fits", |due, list, count| {
        count < list.len() && list[..count] == *due
    }),
    ("commit-refuses-an-empty-plan", |due, list, count| {
        !due.is_empty() && list.get(..count) == Some(due)
    }),
    ("commit-takes-the-low-byte-of-the-length", |due, list, count| {
        count <= list.len() % 256 && list[..count] == *due
    }),
    ("commit-takes-the-low-byte-of-the-count", |due, list, count| {
        list.get(..count % 256) == Some(due)
    }),
    ("commit-cuts-the-count-to-the-list", |due, list, count| list[..count.min(list.len())] == *due),
    ("commit-passes-over-the-old-unit", |due, list, count| passing_over(0, due, list, count)),
    ("commit-passes-over-the-old-rank", |due, list, count| passing_over(1, due, list, count)),
    ("commit-passes-over-the-new-unit", |due, list, count| passing_over(2, due, list, count)),
    ("commit-passes-over-the-new-rank", |due, list, count| passing_over(3, due, list, count)),
    ("commit-passes-over-the-last-entry", |due, list, count| {
        let front = due.len().saturating_sub(1);
        count <= list.len() && count == due.len() && list[..front] == due[..front]
    }),
    ("commit-takes-entries-in-any-order", |due, list, count| {
        list.get(..count).is_some_and(|given| sorted(given) == sorted(due))
    }),
];

/// Numbers that a commit looks at behind 11.
const BEHIND_11: [(&str, u8); 3] = [
    ("commit-says-11-before-1", 1),
    ("commit-says-11-before-9", 9),
    ("commit-says-11-before-4", 4),
];

/// Faults by what a commit leaves.
pub const COMMIT_FAULTS: [Fault; 3] = [
    ("commit-does-nothing", Kind::Commit, |before, after, number| {
        after.copy_from_slice(before);
        number
    }),
    ("commit-leaves-check-units", Kind::Commit, |before, after, number| {
        if number == 0 {
            let checks = check_at(before[5] as usize, 0, 0);
            after[checks..].copy_from_slice(&before[checks..]);
        }
        number
    }),
    ("commit-grows-on-11", Kind::Commit, |_, after, number| {
        if number == 11 {
            add_unit(after);
        }
        number
    }),
];

/// The names of the faults that `ask_or_fail` and `commit_or_fail` look for.
pub fn plan_fault_names() -> impl Iterator<Item = &'static str> {
    let plans = OTHER_PLANS.iter().map(|(name, _)| *name);
    let asking = ASKING_FAULTS.iter().map(|(name, _)| *name);
    let accepted = ACCEPTED_FAULTS.iter().map(|(name, _)| *name);
    plans.chain(asking).chain(accepted).chain(BEHIND_11.iter().map(|(name, _)| *name))
}

/// What a list of faults has for the chosen one, where it is there.
fn chosen<T: Copy>(faults: &[(&str, T)]) -> Option<T> {
    faults.iter().find(|fault| Some(fault.0) == name_chosen()).map(|fault| fault.1)
}

/// Asks for a plan, with the chosen fault where it is one of these: number and count.
pub fn ask_or_fail(store: &[u8], list: &mut [Move]) -> (u8, usize) {
    if let Some(other) = chosen(&OTHER_PLANS).filter(|_| grow_number(store) == 0) {
        return write_plan(&other(view(store)), list);
    }
    chosen(&ASKING_FAULTS).unwrap_or(plan)(store, list)
}

/// Commits, with the chosen fault where it is one of these.
pub fn commit_or_fail(store: &mut [u8], list: &[Move], count: usize) -> u8 {
    if let Some(accepted) = chosen(&ACCEPTED_FAULTS) {
        return commit_if(store, |due| accepted(due, list, count));
    }
    let number = commit(store, list, count);
    let known = View::new(store).filter(|_| chosen(&BEHIND_11) == Some(number));
    if known.is_some_and(|view| list.get(..count) != Some(&moves(view))) {
        return 11;
    }
    number
}

/// A store whose header is in order.
fn view(bytes: &[u8]) -> View<'_> {
    View::new(bytes).expect("a header in order")
}

/// Asks for a plan, with 7 before another number. A unit that is out has no entries by its bytes.
fn short_before(other: u8, store: &[u8], list: &mut [Move]) -> (u8, usize) {
    match plan(store, list) {
        (number, _) if number == other && list.len() < moves(view(store)).len() => (7, 0),
        answer => answer,
    }
}

/// Compares all numbers of each entry but one.
fn passing_over(number: usize, due: &[Move], list: &[Move], count: usize) -> bool {
    let others = |moves: &[Move]| {
        let mut numbers: Vec<[u8; MOVE]> = moves.iter().map(|&entry| entry.into()).collect();
        numbers.iter_mut().for_each(|entry| entry[number] = 0);
        numbers
    };
    list.get(..count).is_some_and(|given| others(given) == others(due))
}

fn sorted(moves: &[Move]) -> Vec<[u8; MOVE]> {
    let mut numbers: Vec<[u8; MOVE]> = moves.iter().map(|&entry| entry.into()).collect();
    numbers.sort_unstable();
    numbers
}
