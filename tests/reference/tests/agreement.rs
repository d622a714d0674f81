//! The ledger and the byte store after the same calls.

use reference::call::{Call, Kind};
use reference::compare::case::{Case, Step};
use reference::generate::cases::{damaged_case, history_case};
use reference::generate::{history, losses, LOSSES};
use reference::ledger::{digit_sum, split_unit, Ledger};
use reference::record::{body_of, stamp_of, BODY, FIELD, KEY, STAMP};
use reference::store::layout::{length, unit_of_number, View, HEADER, IN_SERVICE, OUT, VERSION};
use reference::store::{self, field as gf16, matrix};
use std::cmp::Ordering::{Equal, Greater, Less};
use std::collections::{BTreeSet, HashSet};
use std::ops::RangeInclusive;

/// Every number that the table gives to a kind of call, but 1.
const NUMBERS: [(Kind, &[u8]); 13] = [
    (Kind::LayOut, &[0, 2]),
    (Kind::Teach, &[0, 2, 4, 5, 7]),
    (Kind::Correct, &[0, 2, 4, 6]),
    (Kind::Erase, &[0, 2, 4, 6]),
    (Kind::Read, &[0, 2, 6, 8]),
    (Kind::List, &[0, 7, 8]),
    (Kind::Out, &[0, 2, 3, 4]),
    (Kind::Repair, &[0, 2, 3, 8]),
    (Kind::Grow, &[0, 4, 9]),
    (Kind::Shrink, &[0, 4, 7, 9]),
    (Kind::Raise, &[0, 4, 9]),
    (Kind::Plan, &[0, 4, 7, 9]),
    (Kind::Commit, &[0, 4, 9, 11]),
];

type Reached = HashSet<(Kind, u8)>;

/// Runs a history on both and adds the numbers that it reached.
fn agree(calls: &[Call], reached: &mut Reached) {
    let Call::LayOut { b } = calls[0] else { panic!("a history starts with a layout") };
    let length = length(b as usize);
    let mut bytes = vec![0xEE; length + 10];
    let mut ledger = Ledger::open(b, bytes.len()).unwrap();
    assert_eq!(store::lay_out(&mut bytes, b), 0);
    for call in &calls[1..] {
        let answer = store::perform(&mut bytes, call);
        assert_eq!(answer, ledger.perform(call), "{call} in {calls:?}");
        assert!(bytes[..length] == ledger.picture(), "{call} in {calls:?}");
        reached.extend(answer.number().map(|number| (call.kind(), number)));
    }
    assert!(store::sound(&bytes));
    assert_eq!(bytes[length..], [0xEE; 10]);
    reached.insert((Kind::LayOut, 0));
}

#[test]
fn ledger_and_bytes_agree() {
    let mut reached = Reached::new();
    (0..250).for_each(|seed| agree(&history(seed), &mut reached));
    let due = NUMBERS.iter().flat_map(|(kind, numbers)| numbers.iter().map(|n| (*kind, *n)));
    assert_eq!(reached, due.collect());
}

/// Shows each call of a history behind its layout, with the ledger that it meets.
fn walk(calls: &[Call], mut see: impl FnMut(&Ledger, &Call)) {
    let Call::LayOut { b } = calls[0] else { panic!("a history starts with a layout") };
    let mut ledger = Ledger::open(b, usize::MAX).unwrap();
    for call in &calls[1..] {
        see(&ledger, call);
        ledger.perform(call);
    }
}

/// The raises of a history: the units and the level that each one met, whether a data unit and
/// whether a check unit was out, and its number.
fn raises(calls: &[Call]) -> Vec<(usize, usize, bool, bool, u8)> {
    let mut raises = Vec::new();
    walk(calls, |ledger, call| {
        let (data, checks) = ledger.out.split_at(16);
        let out = (data.contains(&true), checks.contains(&true));
        if call.kind() == Kind::Raise {
            raises.push((ledger.units(), ledger.level, out.0, out.1, ledger.number(call)));
        }
    });
    raises
}

/// Raises are granted at every number of units, and refused by 4 for a data unit alone, for a check
/// unit alone and for both, at levels 1 and 2 each; 9 comes with units out too.
#[test]
fn histories_raise_everywhere() {
    let met: HashSet<_> = (0..1500).flat_map(|seed| raises(&history(seed))).collect();
    for level in [1, 2] {
        for units in 1..=16 {
            assert!(met.contains(&(units, level, false, false, 0)), "{units} units, level {level}");
        }
        for (data, checks) in [(true, false), (false, true), (true, true)] {
            let refused = (1..=16).any(|units| met.contains(&(units, level, data, checks, 4)));
            assert!(refused, "level {level}, data unit out {data}, check unit out {checks}");
        }
    }
    assert!(met.iter().any(|&(_, level, data, checks, number)| {
        level == 3 && (data || checks) && number == 9
    }));
}

/// The first eight different keys that a history teaches, where there are so many.
fn first_keys(calls: &[Call]) -> Option<BTreeSet<u32>> {
    let mut keys = BTreeSet::new();
    for call in calls {
        let Call::Teach { key, .. } = call else { continue };
        keys.insert(*key);
        if keys.len() == 8 {
            return Some(keys);
        }
    }
    None
}

/// Of keys: whether all are in sixteens, how many are below 65,536, and whether all lie in one unit,
/// whatever the number of units.
fn kind(keys: BTreeSet<u32>) -> (bool, usize, bool) {
    let in_sixteens = keys.iter().all(|key| key % 16 == 0);
    let small = keys.iter().filter(|&&key| key < 65_536).count();
    let remainders: HashSet<usize> = keys.iter().map(|&key| digit_sum(key) % 16).collect();
    (in_sixteens, small, remainders.len() == 1)
}

/// Some histories begin with keys in sixteens, some with small keys and some with large ones; of the
/// last two some begin with keys of one unit.
#[test]
fn histories_take_keys_of_every_kind() {
    let starts = (0..1500).filter_map(|seed| first_keys(&history(seed)));
    let met: HashSet<_> = starts.map(kind).collect();
    assert!(met.contains(&(true, 8, false)));
    for small in [0, 8] {
        assert!(met.contains(&(false, small, false)), "several units, {small} small keys");
        assert!(met.contains(&(false, small, true)), "one unit, {small} small keys");
    }
}

/// The records of the unit that a grow splits: whether each one moves, and whether it would move by
/// the key itself.
fn split_records(ledger: &Ledger) -> HashSet<(bool, bool)> {
    let added = ledger.units();
    let records = ledger.lists[split_unit(added)].iter();
    let moves = |number| unit_of_number(added + 1, number) == added;
    records.map(|record| (moves(digit_sum(record.key)), moves(record.key as usize))).collect()
}

/// At every number of units some grow moves records and leaves others, and records move and stay that
/// would move by the key itself, and that would stay by it.
#[test]
fn histories_split_by_the_sum() {
    let (mut parted, mut records) = (HashSet::new(), HashSet::new());
    for seed in 0..1500 {
        walk(&history(seed), |ledger, call| {
            if call.kind() == Kind::Grow && ledger.number(call) == 0 {
                let of_split = split_records(ledger);
                let moved = of_split.iter().filter(|record| record.0).count();
                if moved > 0 && moved < of_split.len() {
                    parted.insert(ledger.units());
                }
                records.extend(of_split.into_iter().map(|record| (ledger.units(), record)));
            }
        });
    }
    assert_eq!(parted, (1..16).collect());
    assert_eq!(records.len(), 15 * 4);
}

/// Every unit comes to be full, and is taught different keys of one sum.
#[test]
fn histories_fill_every_unit() {
    let (mut full, mut same_sum) = (HashSet::new(), HashSet::new());
    for seed in 0..1500 {
        walk(&history(seed), |ledger, call| {
            let Call::Teach { key, .. } = call else { return };
            let unit = ledger.unit_of(*key);
            let others = &ledger.lists[unit];
            match ledger.number(call) {
                0 if others.iter().any(|other| digit_sum(other.key) == digit_sum(*key)) => {
                    same_sum.insert(unit);
                }
                7 => {
                    full.insert(unit);
                }
                _ => {}
            }
        });
    }
    assert_eq!(full, (0..16).collect());
    assert_eq!(same_sum, (0..16).collect());
}

/// Kinds of stamps: 0, small, any with the highest bit 0 and with 1, and the largest.
const STAMPS: [RangeInclusive<u32>; 5] =
    [0..=0, 1..=1000, 1001..=0x7FFF_FFFF, 0x8000_0000..=u32::MAX - 1, u32::MAX..=u32::MAX];

/// Teaches are granted with stamps of each kind, with an earlier stamp than the teach granted before
/// and with a later one, and with a field of zeros.
#[test]
fn histories_teach_stamps_of_every_kind() {
    let (mut kinds, mut orders) = (HashSet::new(), HashSet::new());
    let mut zeros = false;
    for seed in 0..400 {
        let mut last = None;
        walk(&history(seed), |ledger, call| {
            let Call::Teach { field, .. } = call else { return };
            if ledger.number(call) != 0 {
                return;
            }
            let field: &[u8; FIELD] = field[..].try_into().unwrap();
            let stamp = stamp_of(field);
            kinds.extend(STAMPS.iter().filter(|kind| kind.contains(&stamp)));
            orders.extend(last.replace(stamp).map(|last| stamp.cmp(&last)));
            zeros |= *field == [0; FIELD];
        });
    }
    assert_eq!(kinds, STAMPS.iter().collect());
    assert!(orders.contains(&Less) && orders.contains(&Greater));
    assert!(zeros);
}

/// Corrects are granted with an earlier stamp than the key's own, with the same and with a later one,
/// each with the body kept and with another.
#[test]
fn histories_correct_to_stamps_of_every_kind() {
    let mut met = HashSet::new();
    for seed in 0..400 {
        walk(&history(seed), |ledger, call| {
            let Call::Correct { key, field } = call else { return };
            if ledger.number(call) == 0 {
                let old = ledger.find(*key).unwrap().field;
                let new: &[u8; FIELD] = field[..].try_into().unwrap();
                let kept = body_of(new) == body_of(&old);
                met.insert((stamp_of(new).cmp(&stamp_of(&old)), kept));
            }
        });
    }
    let due = [Less, Equal, Greater].into_iter().flat_map(|order| [(order, true), (order, false)]);
    assert_eq!(met, due.collect());
}

/// Teaches, corrects and reads come with fields and outputs of 19 and of 21 bytes, and with 16, a
/// body alone.
#[test]
fn histories_lend_wrong_lengths() {
    let mut met = HashSet::new();
    for seed in 0..400 {
        walk(&history(seed), |_, call| {
            let length = match call {
                Call::Teach { field, .. } | Call::Correct { field, .. } => field.len(),
                Call::Read { out, .. } => *out,
                _ => return,
            };
            met.insert((call.kind(), length));
        });
    }
    for kind in [Kind::Teach, Kind::Correct, Kind::Read] {
        for length in [BODY, 19, 20, 21] {
            assert!(met.contains(&(kind, length)), "{kind:?}, {length} bytes");
        }
    }
}

#[test]
fn every_choice_of_losses() {
    (0..LOSSES).for_each(|choice| agree(&losses(choice), &mut Reached::new()));
}

/// How a group stands, as far as units are out in it.
#[derive(Clone, Copy, Debug, PartialEq, Eq, Hash)]
enum Loss {
    /// All check units are out and no data unit.
    ChecksAlone,
    /// More data units are out than check units in service, and no rank is lost.
    FewRecords,
    /// Two data units or more are out that have records, one of them more than another; no rank is
    /// lost, and later ones miss fewer records.
    OtherFills,
    /// A rank is lost; another misses records and can be rebuilt.
    SomeRanks,
    /// Data units are out that have records, and no check unit is in service.
    NotListed,
    /// Data units are out that have no record, and no check unit is in service.
    NothingTaught,
}

use Loss::*;

/// The losses of a group, by its lists and marks.
fn losses_of(ledger: &Ledger, group: usize) -> Vec<Loss> {
    let out = (4 * group..4 * group + 4).filter(|&unit| ledger.out[unit]);
    let records: Vec<usize> = out.map(|unit| ledger.lists[unit].len()).collect();
    let checks = 16 + 3 * group..16 + 3 * group + ledger.checks(group);
    let serving = checks.clone().filter(|&check| !ledger.out[check]).count();
    let missing = |rank: usize| records.iter().filter(|&&count| count >= rank).count();
    let ranks: BTreeSet<usize> = (1..=ledger.b).map(missing).filter(|&n| n > 0).collect();
    let lost = ranks.iter().any(|&n| n > serving);
    let mut losses = Vec::new();
    match (records.len(), serving) {
        (0, 0) if !checks.is_empty() => losses.push(ChecksAlone),
        (0, _) => {}
        (_, 0) if ranks.is_empty() => losses.push(NothingTaught),
        (_, 0) => losses.push(NotListed),
        (out, _) if out > serving && !lost => losses.push(FewRecords),
        _ => {}
    }
    if serving > 0 && ranks.len() > 1 && !lost {
        losses.push(OtherFills);
    }
    if serving > 0 && lost && ranks.iter().any(|&n| n <= serving) {
        losses.push(SomeRanks);
    }
    losses
}

/// What a read, a list or a repair met: how a group stood that it looks at, the level, and its number.
type Met = HashSet<(Loss, usize, Kind, u8)>;

/// The groups that a call looks at: for a read that of the key's unit, where this is out.
fn groups_of(ledger: &Ledger, call: &Call) -> Vec<usize> {
    match call {
        Call::Read { key, .. } => {
            let unit = ledger.unit_of(*key);
            (0..4).filter(|&group| ledger.out[unit] && group == unit / 4).collect()
        }
        Call::List { .. } => (0..4).collect(),
        Call::Repair { group: repaired } => (0..4).filter(|&g| g == *repaired as usize).collect(),
        _ => vec![],
    }
}

fn meet(calls: &[Call], met: &mut Met) {
    walk(calls, |ledger, call| {
        for group in groups_of(ledger, call) {
            let number = ledger.number(call);
            let losses = losses_of(ledger, group).into_iter();
            met.extend(losses.map(|loss| (loss, ledger.level, call.kind(), number)));
        }
    });
}

/// The numbers due with each loss: those of reads of a key whose unit is out, of lists, of repairs; and
/// the levels at which the loss comes about. At level 1 there is no loss of other fills: units with
/// records have one each at the first rank.
type Due = (Loss, [&'static [u8]; 3], &'static [usize]);

const DUE: [Due; 6] = [
    (ChecksAlone, [&[], &[0], &[0]], &[1, 2, 3]),
    (FewRecords, [&[0, 6], &[0], &[0]], &[1, 2, 3]),
    (OtherFills, [&[0, 6], &[0], &[0]], &[2, 3]),
    (SomeRanks, [&[0, 6, 8], &[8], &[8]], &[1, 2, 3]),
    (NotListed, [&[8], &[8], &[8]], &[1, 2, 3]),
    (NothingTaught, [&[8], &[8], &[8]], &[1, 2, 3]),
];

/// Demands that each loss was met at each level by reads, lists and repairs with each number.
fn assert_losses_met(met: &Met) {
    for (loss, numbers, levels) in DUE {
        for (kind, numbers) in [Kind::Read, Kind::List, Kind::Repair].into_iter().zip(numbers) {
            for (level, number) in levels.iter().flat_map(|l| numbers.iter().map(move |n| (l, n))) {
                let due = (loss, *level, kind, *number);
                assert!(met.contains(&due), "{due:?}");
            }
        }
    }
}

#[test]
fn choices_of_losses_meet_every_loss() {
    let mut met = Met::new();
    (0..LOSSES).for_each(|choice| meet(&losses(choice), &mut met));
    assert_losses_met(&met);
}

#[test]
fn histories_meet_every_loss() {
    let mut met = Met::new();
    (0..1500).for_each(|seed| meet(&history(seed), &mut met));
    assert_losses_met(&met);
}

/// What the steps of a case leave, and the numbers that its last calls gave. `see` is shown the slice
/// before each call, the call, the slice after it and the number.
fn stepped(case: &Case, mut see: impl FnMut(&[u8], &Call, &[u8], Option<u8>)) -> Stepped {
    let mut buffer = vec![0; case.capacity()];
    let mut lent = 0;
    let mut last_damage = Vec::new();
    let mut numbers = Vec::new();
    for step in &case.steps {
        match step {
            Step::Lend(length) => lent = *length,
            Step::Write { at, bytes } => buffer[*at..at + bytes.len()].copy_from_slice(bytes),
            Step::Call(call) => {
                let before = buffer.clone();
                let number = store::perform(&mut buffer[..lent], call).number();
                see(&before, call, &buffer, number);
                numbers.extend(number.map(|number| (call.kind(), number)));
                continue;
            }
        }
        last_damage = buffer[..lent].to_vec();
        numbers.clear();
    }
    (last_damage, numbers)
}

type Stepped = (Vec<u8>, Vec<(Kind, u8)>);

fn damaged(index: u64, see: impl Fn(&[u8], &[u8], Option<u8>)) -> Stepped {
    stepped(&damaged_case(index), |before, _, after, number| see(before, after, number))
}

/// Whether a granted repair shows which members it takes: at some rank of the group one unit that was
/// out has a record and another has none, and a check unit that was in service before disagrees with
/// the data that was rebuilt. Taken in place of the unit without a record, it would have given others.
fn shows_members(before: View, after: View, group: usize) -> bool {
    let units = 4 * group..4 * group + 4;
    let out: Vec<usize> = units.clone().filter(|&unit| before.state(unit) == OUT).collect();
    let parted = |rank: usize| {
        let empty = |&unit: &usize| after.key(unit, rank) == 0;
        out.iter().any(empty) && !out.iter().all(empty)
    };
    let agrees = |check: usize, rank: usize| {
        let fields = units.clone().map(|unit| after.field(unit, rank));
        let terms = fields.enumerate().map(|(place, field)| {
            let coefficient = matrix::entry(place, 4 + check % 3);
            field.map(|byte| gf16::byte(gf16::symbols(byte).map(|s| gf16::product(coefficient, s))))
        });
        let sum = terms.fold([0; FIELD], gf16::sum);
        sum == after.parity(check, rank)
    };
    let checks = before.checks_in(group, IN_SERVICE);
    (0..after.b).any(|rank| parted(rank) && checks.iter().any(|&check| !agrees(check, rank)))
}

/// The levels of the stores at which a repair of a case shows which members it takes.
fn levels_with_members_shown(case: &Case) -> HashSet<usize> {
    let mut levels = HashSet::new();
    stepped(case, |before, call, after, number| {
        let Call::Repair { group } = call else { return };
        if number == Some(0) {
            let [before, after] = [before, after].map(|bytes| View::new(bytes).unwrap());
            if shows_members(before, after, *group as usize) {
                levels.insert(before.level());
            }
        }
    });
    levels
}

/// The levels at which these cases show the members. At level 1 there is one check unit, and so no
/// choice; where levels 2 and 3 are met, the rest is not looked at.
fn members_shown(cases: impl Iterator<Item = Case>) -> HashSet<usize> {
    let mut levels = HashSet::new();
    for case in cases {
        levels.extend(levels_with_members_shown(&case));
        if levels.len() == 2 {
            break;
        }
    }
    levels
}

/// Repairs of sound stores with wrong parity show which members are taken at a rank: among the choices
/// of losses and in histories at levels 2 and 3, in damaged stores at one of them at least.
#[test]
fn wrong_parity_shows_the_members_of_a_rank() {
    assert_eq!(members_shown((0..LOSSES).map(history_case)), HashSet::from([2, 3]));
    assert_eq!(members_shown((LOSSES..2500).map(history_case)), HashSet::from([2, 3]));
    assert!(!members_shown((0..3000).map(damaged_case)).is_empty());
}

#[test]
fn refusals_change_nothing() {
    let unchanged = |before: &[u8], after: &[u8], number: Option<u8>| {
        assert!(number == Some(0) || before == after);
    };
    let mut reached = Reached::new();
    (0..3000).for_each(|index| reached.extend(damaged(index, unchanged).1));
    let unsound = NUMBERS.iter().map(|(kind, _)| (*kind, 1));
    for pair in unsound.filter(|(kind, _)| *kind != Kind::LayOut) {
        assert!(reached.contains(&pair), "{pair:?}");
    }
    assert!(!reached.contains(&(Kind::LayOut, 1)));
}

/// For each clause of soundness some damaged store breaks that one alone.
#[test]
fn each_clause_alone() {
    let mut alone = HashSet::new();
    for index in 0..6000 {
        let (bytes, _) = damaged(index, |_, _, _| {});
        if let Some([clause]) = store::broken_clauses(&bytes).as_deref() {
            alone.insert(*clause);
        }
    }
    assert_eq!(alone, store::clause_names().collect());
}

/// Whether each key that a unit in service holds lies there by the key itself.
fn lie_by_themselves(view: View) -> bool {
    let lies = |unit, key| key == 0 || unit_of_number(view.units(), key as usize) == unit;
    (0..view.units()).all(|unit| (0..view.b).all(|rank| lies(unit, view.key(unit, rank))))
}

/// Some damaged stores have all keys where the keys themselves put them and not where their sums do,
/// some where the sums do and not the keys, some neither. Some say version 2 and are sound but for
/// that, some say it and have all keys where the keys themselves put them.
#[test]
fn damaged_stores_tell_sums_from_keys() {
    let mut met = HashSet::new();
    for index in 0..3000 {
        let (mut bytes, _) = damaged(index, |_, _, _| {});
        let Some(version @ (2 | VERSION)) = bytes.first().copied() else { continue };
        bytes[0] = VERSION;
        let Some(broken) = store::broken_clauses(&bytes) else { continue };
        let by_sums = broken.is_empty();
        if by_sums || broken == ["keys in their own unit"] {
            met.insert((version, by_sums, lie_by_themselves(View::new(&bytes).unwrap())));
        }
    }
    for (by_sums, by_themselves) in [(false, true), (true, false), (false, false)] {
        assert!(met.contains(&(VERSION, by_sums, by_themselves)), "{by_sums}, {by_themselves}");
    }
    for (by_sums, by_themselves) in [(true, false), (false, true)] {
        assert!(met.contains(&(2, by_sums, by_themselves)), "{by_sums}, {by_themselves}");
    }
}

/// Some damaged stores say version 1, 2, 3 or 5 and are sound but for that.
#[test]
fn damaged_stores_say_other_versions() {
    let mut met = HashSet::new();
    for index in 0..3000 {
        let (mut bytes, _) = damaged(index, |_, _, _| {});
        let Some(version) = bytes.first().copied() else { continue };
        bytes[0] = VERSION;
        if store::sound(&bytes) {
            met.insert(version);
        }
    }
    for version in [1, 2, 3, 5] {
        assert!(met.contains(&version), "version {version}");
    }
}

/// Widths of version 3, which had no stamps: a slot, a check record, and a rank of all units.
const SLOT_3: usize = KEY + BODY;
const CHECK_RECORD_3: usize = 4 * KEY + BODY;
const RANK_3: usize = 704;

/// A store of version 3 with stamps of 0 put in, and with the version and the length of today; None
/// where the version or the length is another one.
fn with_stamps(bytes: &[u8]) -> Option<Vec<u8>> {
    let b = *bytes.get(5)? as usize;
    let old_length = HEADER + RANK_3 * b;
    let says = [&[3], &(old_length as u32).to_be_bytes()[..]].concat();
    if bytes.len() < old_length || bytes[..says.len()] != says {
        return None;
    }
    let (slots, records) = bytes[HEADER..old_length].split_at(16 * b * SLOT_3);
    let stamped = |record: &[u8]| [record, &[0; STAMP]].concat();
    let mut new = [&[VERSION], &(length(b) as u32).to_be_bytes()[..]].concat();
    new.extend(&bytes[says.len()..HEADER]);
    new.extend(slots.chunks_exact(SLOT_3).flat_map(stamped));
    new.extend(records.chunks_exact(CHECK_RECORD_3).flat_map(stamped));
    Some(new)
}

/// Some damaged stores are as version 3 had them: they become sound when stamps are put in. Some of
/// these have records, and none is sound as it is.
#[test]
fn damaged_stores_are_as_version_3_had_them() {
    let mut with_records = 0;
    for index in 0..3000 {
        let (bytes, _) = damaged(index, |_, _, _| {});
        let Some(new) = with_stamps(&bytes).filter(|new| store::sound(new)) else { continue };
        assert!(!store::sound(&bytes));
        with_records += (View::new(&new).unwrap().count(0) > 0) as usize;
    }
    assert!(with_records > 0);
}
