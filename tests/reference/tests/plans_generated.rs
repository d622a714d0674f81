//! What generated histories and damaged stores ask for and commit: lists and counts of every kind, each
//! with the numbers that they have to give.

use reference::call::{Answer, Call, Kind};
use reference::compare::case::Step;
use reference::generate::cases::damaged_case;
use reference::generate::history;
use reference::ledger::{split_unit, Ledger};
use reference::moves::{Move, MOST_MOVES, MOVE};
use reference::store;
use std::collections::{BTreeSet, HashSet};
use std::fmt::Debug;
use std::hash::Hash;

const HISTORIES: u64 = 1500;

/// A plan that was handed back, and the ledger that it was asked of.
type Asked = (Vec<Move>, Ledger);

/// Shows each asking and each commit of the histories: the ledger that it meets, the call, the plan that
/// was handed back last in this history, and the number.
fn walk(mut see: impl FnMut(&Ledger, &Call, Option<&Asked>, u8)) {
    for seed in 0..HISTORIES {
        let calls = history(seed);
        let Call::LayOut { b } = calls[0] else { panic!("a history starts with a layout") };
        let mut ledger = Ledger::open(b, usize::MAX).unwrap();
        let mut asked = None;
        for call in &calls[1..] {
            if matches!(call.kind(), Kind::Plan | Kind::Commit) {
                see(&ledger, call, asked.as_ref(), ledger.number(call));
            }
            if let Answer::Plan(0, _, moves) = ledger.perform(call) {
                asked = Some((moves, ledger.clone()));
            }
        }
    }
}

fn assert_met<T: Copy + Debug + Eq + Hash>(met: &HashSet<T>, due: impl IntoIterator<Item = T>) {
    due.into_iter().for_each(|due| assert!(met.contains(&due), "{due:?}"));
}

/// How long a list is that a plan is asked with.
#[derive(Clone, Copy, Debug, PartialEq, Eq, Hash)]
enum Lent {
    JustFits,
    Longer,
    /// 256 entries.
    Long,
    ShortByOne,
    /// None where two entries or more are due.
    None,
    Shorter,
}

fn lent(due: usize, entries: usize) -> Lent {
    match entries {
        0 if due > 1 => Lent::None,
        256 => Lent::Long,
        _ if entries == due => Lent::JustFits,
        _ if entries > due => Lent::Longer,
        _ if entries + 1 == due => Lent::ShortByOne,
        _ => Lent::Shorter,
    }
}

/// Lists of every length, at units with records and at empty ones, and the numbers that come before 7
/// with lists that fit and with short ones.
#[test]
fn histories_ask_with_lists_of_every_length() {
    let mut met = HashSet::new();
    walk(|ledger, call, _, number| {
        let Call::Plan { entries } = call else { return };
        let due = ledger.plan().len();
        met.insert((due > 0, lent(due, *entries), number));
    });
    for number in [0, 4, 9] {
        let fit = [Lent::JustFits, Lent::Longer, Lent::Long];
        assert_met(&met, fit.map(|lent| (true, lent, number)));
        assert_met(&met, fit.map(|lent| (false, lent, number)));
    }
    for number in [7, 4, 9] {
        assert_met(&met, [Lent::ShortByOne, Lent::None].map(|lent| (true, lent, number)));
    }
}

/// Plans without entries, with few and with the 64 of a full unit are handed back and committed.
#[test]
fn histories_plan_for_units_of_every_size() {
    let mut met = HashSet::new();
    walk(|ledger, call, _, number| {
        met.insert((call.kind(), ledger.plan().len(), number));
    });
    for entries in [0, 1, 2, 3, 4, 64] {
        assert_met(&met, [Kind::Plan, Kind::Commit].map(|kind| (kind, entries, 0)));
    }
}

/// How the list and the count of a commit stand to the plan.
#[derive(Clone, Copy, Debug, PartialEq, Eq, Hash)]
enum Given {
    /// The plan, in a list that ends with it.
    Plan,
    /// The plan, with other entries behind the count.
    EntriesBehind,
    /// The same, with 256 entries in all.
    LongList,
    /// The plan, and a count of one less.
    OneLess,
    /// The plan and another entry, which is counted.
    OneMore,
    /// The plan, and a count of one more than the list has.
    OneBehind,
    /// The plan, of two entries or more, and count 0.
    NoCount,
    /// No list and count 0, where the plan has entries.
    NoList,
    /// The plan, and a count that is larger by more than 255.
    FarBehind,
    /// The plan and 256 other entries, which are counted.
    LowByte,
    /// The plan but for its last entry, and the count of the plan.
    ShortList,
    /// One entry is not that of the plan, by this number of its four.
    Number(usize),
    /// Two entries have changed places.
    Swapped,
    /// An entry stands in the place of another.
    Twice,
    /// An entry before the last is left out.
    LeftOut,
    RanksFrom0,
    /// The new ranks are the old ones.
    OldRanks,
    MovingAlone,
    ByNewUnits,
    /// The plan of the grown ledger.
    AfterNext,
}

use Given::*;

/// The numbers, of four, by which entries differ.
fn numbers_changed(one: Move, other: Move) -> Vec<usize> {
    let [one, other] = [one, other].map(<[u8; MOVE]>::from);
    (0..MOVE).filter(|&number| one[number] != other[number]).collect()
}

/// How entries differ from the plan that are as many.
fn changed(plan: &[Move], given: &[Move]) -> Option<Given> {
    if plan.len() != given.len() {
        return None;
    }
    let differ: Vec<usize> = (0..plan.len()).filter(|&at| plan[at] != given[at]).collect();
    match differ[..] {
        [at] => match numbers_changed(plan[at], given[at])[..] {
            [number] => Some(Number(number)),
            _ => plan.contains(&given[at]).then_some(Twice),
        },
        [a, b] => (plan[a] == given[b] && plan[b] == given[a]).then_some(Swapped),
        _ => None,
    }
}

/// The plan by other rules.
fn by_other_rules(ledger: &Ledger) -> [(Given, Vec<Move>); 5] {
    let plan = ledger.plan();
    let each = |change: fn(&mut Move)| {
        let mut moves = plan.clone();
        moves.iter_mut().for_each(change);
        moves
    };
    let from_0 = each(|entry| {
        entry.old_rank -= 1;
        entry.new_rank -= 1;
    });
    let old_ranks = each(|entry| entry.new_rank = entry.old_rank);
    let moving = plan.iter().copied().filter(|entry| entry.new_unit != entry.old_unit).collect();
    let mut by_new_units = plan.clone();
    by_new_units.sort_by_key(|entry| entry.new_unit);
    let mut grown = ledger.clone();
    grown.perform(&Call::Grow);
    [
        (RanksFrom0, from_0),
        (OldRanks, old_ranks),
        (MovingAlone, moving),
        (ByNewUnits, by_new_units),
        (AfterNext, grown.plan()),
    ]
}

/// What a commit gives, where the plan has entries.
fn given(ledger: &Ledger, moves: &[Move], count: usize) -> Vec<Given> {
    let plan = ledger.plan();
    let due = plan.len();
    let (whole, more) = (moves.starts_with(&plan), moves.len() > due);
    let kinds = [
        (Plan, whole && !more && count == due),
        (EntriesBehind, whole && more && count == due),
        (LongList, whole && moves.len() == 256 && count == due),
        (OneLess, whole && count == due - 1),
        (OneMore, whole && more && count == due + 1),
        (OneBehind, whole && !more && count == due + 1),
        (NoCount, whole && due > 1 && count == 0),
        (NoList, moves.is_empty() && count == 0),
        (FarBehind, whole && !more && count > due + 255),
        (LowByte, whole && count == due + 256 && moves.len() >= count),
        (ShortList, moves.len() + 1 == due && plan.starts_with(moves) && count == due),
        (LeftOut, count == due - 1 && moves.len() >= count && left_out(&plan, &moves[..count])),
    ];
    let mut met: Vec<Given> = kinds.iter().filter(|kind| kind.1).map(|kind| kind.0).collect();
    if let Some(counted) = moves.get(..count).filter(|&counted| count > 0 && counted != plan) {
        met.extend(changed(&plan, counted));
        let by_rules = by_other_rules(ledger).into_iter().filter(|by| by.1 == counted);
        met.extend(by_rules.map(|by| by.0));
    }
    met
}

/// Whether entries are those of the plan but for one that is not the last.
fn left_out(plan: &[Move], given: &[Move]) -> bool {
    (0..given.len()).any(|at| plan[..at] == given[..at] && plan[at + 1..] == given[at..])
}

/// Lists and counts of every kind where the unit to be split has records and grow would be granted; and
/// count 0 where it has none.
#[test]
fn histories_commit_lists_of_every_kind() {
    let (mut met, mut of_none) = (HashSet::new(), HashSet::new());
    walk(|ledger, call, _, number| {
        let Call::Commit { moves, count } = call else { return };
        if ledger.plan().is_empty() {
            of_none.insert((moves.len().min(1), (*count).min(2), number));
        } else {
            met.extend(given(ledger, moves, *count).into_iter().map(|given| (given, number)));
        }
    });
    assert_met(&met, [Plan, EntriesBehind, LongList].map(|given| (given, 0)));
    let counts = [OneLess, OneMore, OneBehind, NoCount, NoList, FarBehind, LowByte, ShortList];
    assert_met(&met, counts.map(|given| (given, 11)));
    assert_met(&met, [0, 1, 2, 3].map(|number| (Number(number), 11)));
    assert_met(&met, [Swapped, Twice, LeftOut].map(|given| (given, 11)));
    let by_rules = [RanksFrom0, OldRanks, MovingAlone, ByNewUnits, AfterNext];
    assert_met(&met, by_rules.map(|given| (given, 11)));
    // What would be granted and what would be refused with 11, where 9 and 4 come first.
    for number in [9, 4] {
        let some = [Plan, EntriesBehind, OneLess, OneBehind, FarBehind, Number(3), Swapped];
        assert_met(&met, some.map(|given| (given, number)));
    }
    // Of a unit without records: whether a list is lent, the count, or 2 where it is more, the number.
    assert_met(&of_none, [(0, 0, 0), (1, 0, 0), (1, 1, 11), (0, 1, 11), (0, 2, 11)]);
    assert_met(&of_none, [(0, 0, 9), (0, 0, 4)]);
}

/// Each of the four numbers is changed in the first entry, in the last and in one between.
#[test]
fn histories_change_numbers_of_every_entry() {
    let mut met = HashSet::new();
    walk(|ledger, call, _, number| {
        let Call::Commit { moves, count } = call else { return };
        let plan = ledger.plan();
        let Some(counted) = moves.get(..*count).filter(|_| number == 11) else { return };
        if let Some(Number(changed)) = changed(&plan, counted) {
            let at = (0..*count).find(|&at| plan[at] != moves[at]).unwrap();
            met.insert((changed, [at == 0, at + 1 == *count]));
        }
    });
    for number in 0..MOVE {
        let places = [[true, false], [false, true], [false, false]];
        assert_met(&met, places.map(|place| (number, place)));
    }
}

/// A plan that was handed back and is not the plan any more: of another unit, of as many entries and of
/// another number.
#[derive(Clone, Copy, Debug, PartialEq, Eq, Hash)]
enum Stale {
    OtherUnit,
    SameNumber,
    OtherNumber,
}

fn stale(plan: &[Move], asked: &[Move]) -> Option<Stale> {
    let unit = |moves: &[Move]| moves.first().map(|entry| entry.old_unit);
    match (unit(plan), unit(asked)) {
        _ if plan == asked => None,
        (Some(now), Some(then)) if now != then => Some(Stale::OtherUnit),
        _ if plan.len() == asked.len() => Some(Stale::SameNumber),
        _ => Some(Stale::OtherNumber),
    }
}

/// Plans are committed right behind the asking; when other calls have changed the store since, while
/// they still hold and when they do not; and where none was asked for.
#[test]
fn histories_commit_plans_asked_for_before() {
    let (mut refused, mut granted) = (HashSet::new(), HashSet::new());
    walk(|ledger, call, asked, number| {
        let Call::Commit { moves, count } = call else { return };
        let Some((asked, of)) = asked else {
            granted.extend((number == 0).then_some(None));
            return;
        };
        if moves == asked && *count == asked.len() {
            match number {
                0 if *count > 0 => granted.extend([Some(ledger == of)]),
                11 => refused.extend(stale(&ledger.plan(), asked)),
                _ => {}
            }
        }
    });
    assert_met(&granted, [None, Some(true), Some(false)]);
    assert_met(&refused, [Stale::OtherUnit, Stale::SameNumber, Stale::OtherNumber]);
}

/// Which groups have a unit out: that of the unit to be split, that of the unit to be added, another.
fn groups_out(ledger: &Ledger) -> [bool; 3] {
    let (split, added) = (split_unit(ledger.units()) / 4, ledger.units() / 4);
    let lost = |group: usize| ledger.lost(group) > 0;
    let other = (0..4).any(|group| group != split && group != added && lost(group));
    [lost(split), split != added && lost(added), other]
}

/// With units out in each of the groups concerned alone, in both and in others alone; in the first two
/// with data units out alone and with check units alone.
#[test]
fn histories_ask_and_commit_with_units_out() {
    let (mut met, mut members) = (HashSet::new(), HashSet::new());
    walk(|ledger, call, _, number| {
        let plan = ledger.plan();
        if ledger.units() < 16 && !plan.is_empty() && fits(call, &plan) {
            let [split, added, other] = groups_out(ledger);
            met.insert((call.kind(), [split, added], other, number));
            let (data, checks) = ledger.out.split_at(16);
            let out = [data.contains(&true), checks.contains(&true)];
            members.insert((call.kind(), [split, added], out));
        }
    });
    for kind in [Kind::Plan, Kind::Commit] {
        assert_met(&met, [(kind, [false, false], false, 0), (kind, [false, false], true, 0)]);
        for concerned in [[true, false], [false, true], [true, true]] {
            assert_met(&met, [(kind, concerned, false, 4)]);
        }
        for concerned in [[true, false], [false, true]] {
            assert_met(&members, [[true, false], [false, true]].map(|out| (kind, concerned, out)));
        }
    }
}

/// At every number of units some commit that is granted moves records and leaves others, and some splits
/// a unit without records.
#[test]
fn histories_commit_at_every_number_of_units() {
    let (mut parted, mut empty) = (BTreeSet::new(), BTreeSet::new());
    walk(|ledger, call, _, number| {
        if call.kind() != Kind::Commit || number != 0 {
            return;
        }
        let plan = ledger.plan();
        let moving = plan.iter().filter(|entry| entry.new_unit != entry.old_unit).count();
        if plan.is_empty() {
            empty.insert(ledger.units());
        }
        if (1..plan.len()).contains(&moving) {
            parted.insert(ledger.units());
        }
    });
    assert_eq!(parted, (1..16).collect());
    assert_eq!(empty, (1..16).collect());
}

/// The plan of a sound store that a grow would be granted for.
fn plan_of(bytes: &[u8]) -> Option<Vec<Move>> {
    let mut list = [Move::from([0; MOVE]); MOST_MOVES];
    let (number, count) = store::plan(bytes, &mut list);
    (number == 0).then(|| list[..count].to_vec())
}

/// Whether a call asks with a list that a plan fits into, or commits that plan.
fn fits(call: &Call, plan: &[Move]) -> bool {
    match call {
        Call::Plan { entries } => *entries >= plan.len(),
        Call::Commit { moves, count } => moves.get(..*count) == Some(plan),
        _ => false,
    }
}

/// The askings and commits of a damaged store that fit the plan that it had before the damage, where that
/// has entries; each with its number.
fn fitting_before_the_damage(index: u64) -> Vec<(Kind, Option<u8>)> {
    let case = damaged_case(index);
    let mut buffer = vec![0; case.capacity()];
    let (mut lent, mut before) = (0, None);
    let mut fitting = Vec::new();
    for step in &case.steps {
        match step {
            Step::Lend(length) => lent = *length,
            Step::Write { at, bytes } => {
                before = before.or_else(|| plan_of(&buffer[..lent]));
                buffer[*at..at + bytes.len()].copy_from_slice(bytes);
            }
            Step::Call(call) => {
                let number = store::perform(&mut buffer[..lent], call).number();
                let with_entries = before.as_ref().filter(|plan| !plan.is_empty());
                if with_entries.is_some_and(|plan| fits(call, plan)) {
                    fitting.push((call.kind(), number));
                }
            }
        }
    }
    fitting
}

/// Damaged stores that are not sound are asked for a plan, and given the one that they had before. In
/// some that are sound all the same both are granted.
#[test]
fn damaged_stores_are_asked_for_plans_and_given_them() {
    let met: HashSet<_> = (0..3000).flat_map(fitting_before_the_damage).collect();
    for kind in [Kind::Plan, Kind::Commit] {
        assert_met(&met, [(kind, Some(1)), (kind, Some(0))]);
    }
}
