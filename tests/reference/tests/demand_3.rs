//! What the ledger is to show, seen on histories of the byte store.

use reference::call::{Answer, Call, Kind};
use reference::generate::history;
use reference::record::FIELD;
use reference::store::layout::{length, unit_range, View, IN_SERVICE, OUT};
use reference::store::{lay_out, perform, read, repair};
use std::collections::{BTreeSet, HashMap};

/// A history that has run: its bytes, and the calls that were granted.
struct Past {
    bytes: Vec<u8>,
    granted: Vec<Call>,
}

fn laid_out(calls: &[Call]) -> Vec<u8> {
    let Call::LayOut { b } = calls[0] else { panic!("a history starts with a layout") };
    let mut bytes = vec![0; length(b as usize)];
    assert_eq!(lay_out(&mut bytes, b), 0);
    bytes
}

/// Runs a history up to a call in its midst, so that units are out in many.
fn past(seed: u64) -> Past {
    let calls = history(seed);
    let mut bytes = laid_out(&calls);
    let until = calls.len() - seed as usize % (calls.len() / 3).max(1);
    let mut granted = Vec::new();
    for call in &calls[1..until] {
        if perform(&mut bytes, call).number() == Some(0) {
            granted.push(call.clone());
        }
    }
    granted.insert(0, calls[0].clone());
    Past { bytes, granted }
}

/// Each unit in service holds what the granted calls but unit out and repair leave there alone.
#[test]
fn nothing_is_lost_in_service() {
    for seed in 0..400 {
        let past = past(seed);
        let mut alone = laid_out(&past.granted);
        let kept = |call: &&Call| !matches!(call, Call::Out { .. } | Call::Repair { .. });
        for call in past.granted[1..].iter().filter(kept) {
            assert_eq!(perform(&mut alone, call).number(), Some(0), "seed {seed}, {call}");
        }
        let view = View::new(&past.bytes).unwrap();
        for unit in (0..28).filter(|&unit| view.state(unit) == IN_SERVICE) {
            let range = unit_range(view.b, unit);
            assert!(past.bytes[range.clone()] == alone[range], "seed {seed}, unit {unit}");
        }
    }
}

/// A granted commit counts as a grow; a refused one, and asking, leave a history as it was. With grows
/// in place of the granted ones and without the others, all other calls answer as they did, and the
/// store is the same.
#[test]
fn granted_commits_count_as_grows() {
    let mut met = BTreeSet::new();
    for seed in 0..200 {
        let calls = history(seed);
        let (mut bytes, mut without) = (laid_out(&calls), laid_out(&calls));
        for call in &calls[1..] {
            let answer = perform(&mut bytes, call);
            match call.kind() {
                Kind::Plan | Kind::Commit => met.insert((call.kind(), answer.number())),
                _ => false,
            };
            let counted = match (call, answer.number()) {
                (Call::Commit { .. }, Some(0)) => &Call::Grow,
                (Call::Plan { .. } | Call::Commit { .. }, _) => continue,
                _ => call,
            };
            assert_eq!(perform(&mut without, counted), answer, "seed {seed}, {call}");
        }
        assert!(bytes == without, "seed {seed}");
    }
    let plans = [0, 4, 7, 9].map(|number| (Kind::Plan, Some(number)));
    let commits = [0, 4, 9, 11].map(|number| (Kind::Commit, Some(number)));
    assert_eq!(met, plans.into_iter().chain(commits).collect());
}

/// The check units of each group in place.
fn check_units(bytes: &[u8]) -> Vec<usize> {
    let view = View::new(bytes).unwrap();
    (0..view.units().div_ceil(4)).map(|group| view.checks_in_place(group)).collect()
}

fn is_raise(call: &Call) -> bool {
    call.kind() == Kind::Raise
}

/// After every call each group in place has one check unit more than raises were granted since the
/// layout.
#[test]
fn check_units_count_the_raises_granted() {
    for seed in 0..400 {
        let calls = history(seed);
        let mut bytes = laid_out(&calls);
        let mut raises = 0;
        for call in &calls[1..] {
            let granted = perform(&mut bytes, call).number() == Some(0);
            raises += (granted && is_raise(call)) as usize;
            let due = vec![1 + raises; check_units(&bytes).len()];
            assert_eq!(check_units(&bytes), due, "seed {seed}, {call}");
        }
    }
}

/// Two histories with equally many raises granted have equally many check units in every group in
/// place, whatever else they have; those with no raise, one and two each come to one group, to two,
/// to three and to four.
#[test]
fn equally_many_raises_leave_equally_many_check_units() {
    let pasts: Vec<(usize, Vec<usize>)> = (0..400)
        .map(past)
        .map(|past| {
            let raises = past.granted.iter().filter(|call| is_raise(call)).count();
            (raises, check_units(&past.bytes))
        })
        .collect();
    let mut met = BTreeSet::new();
    for (raises, checks) in &pasts {
        met.insert((*raises, checks.len()));
        for (_, others) in pasts.iter().filter(|other| other.0 == *raises) {
            let mut pairs =
                checks.iter().flat_map(|one| others.iter().map(move |other| (one, other)));
            assert!(pairs.all(|(one, other)| one == other), "{raises} raises granted");
        }
    }
    let all = (0..3).flat_map(|raises| (1..5).map(move |groups| (raises, groups)));
    assert_eq!(met, all.collect());
}

/// The field of each key by its last granted teach, correct or erase.
fn taught(granted: &[Call]) -> HashMap<u32, Option<&[u8]>> {
    let mut fields = HashMap::new();
    for call in granted {
        match call {
            Call::Teach { key, field } | Call::Correct { key, field } => {
                fields.insert(*key, Some(&field[..]));
            }
            Call::Erase { key } => {
                fields.insert(*key, None);
            }
            _ => {}
        }
    }
    fields
}

/// How many data units of a group are out.
fn data_out(view: View, group: usize) -> usize {
    (4 * group..4 * group + 4).filter(|&unit| view.state(unit) == OUT).count()
}

/// The records missing at a rank, by what the first check unit in service lists for data units that are
/// out; None where no check unit is in service.
fn missing(view: View, group: usize, rank: usize) -> Option<usize> {
    let check = *view.checks_in(group, IN_SERVICE).first()?;
    let out = (0..4).filter(|place| view.state(4 * group + place) == OUT);
    Some(out.filter(|&place| view.listed_key(check, rank, place) != 0).count())
}

/// Whether a rank can be rebuilt: it misses no more records than check units are in service.
fn rebuildable(view: View, group: usize, rank: usize) -> bool {
    let checks = view.checks_in(group, IN_SERVICE).len();
    missing(view, group, rank).is_some_and(|missing| missing <= checks)
}

/// Whether the read of a key is beyond recovery: its unit is out, and no check unit of the group is in
/// service, or the key's own rank cannot be rebuilt.
fn read_beyond(view: View, key: u32) -> bool {
    let unit = view.unit_of(key);
    let not_listed = view.checks_in(unit / 4, IN_SERVICE).is_empty();
    let lost = view.rank_of(key).is_some_and(|rank| !rebuildable(view, unit / 4, rank));
    view.state(unit) == OUT && (not_listed || lost)
}

/// A key reads as last taught or corrected, or as not taught; where that is beyond recovery it is
/// refused so. Some keys read so beside a rank that is lost.
#[test]
fn keys_read_as_taught() {
    let (mut beyond, mut beside) = (0, BTreeSet::new());
    for seed in 0..400 {
        let Past { mut bytes, granted } = past(seed);
        let taught = taught(&granted);
        let others = 1..40;
        let keys = taught.keys().copied().chain(others).collect::<Vec<u32>>();
        for key in keys {
            let answer = perform(&mut bytes, &Call::Read { key, out: FIELD });
            let view = View::new(&bytes).unwrap();
            let unit = view.unit_of(key);
            let due = if read_beyond(view, key) {
                beyond += 1;
                Answer::Read(8, None)
            } else {
                match taught.get(&key) {
                    Some(Some(field)) => Answer::Read(0, Some((*field).try_into().unwrap())),
                    _ => Answer::Read(6, None),
                }
            };
            let lost = (0..view.b).any(|rank| !rebuildable(view, unit / 4, rank));
            if view.state(unit) == OUT && lost {
                beside.extend(due.number());
            }
            assert_eq!(answer, due, "seed {seed}, key {key}");
        }
    }
    assert!(beyond > 0);
    assert_eq!(beside, BTreeSet::from([0, 6, 8]));
}

/// Repair of a group in place says 8 exactly where a data unit of it is out and no check unit is in
/// service or a rank cannot be rebuilt; otherwise nothing is out there afterwards and every key of the
/// group still reads the same.
#[test]
fn repair_says_8_only_beyond_recovery() {
    for seed in 0..400 {
        let past = past(seed);
        let view = View::new(&past.bytes).unwrap();
        for group in 0..view.units().div_ceil(4) {
            let mut bytes = past.bytes.clone();
            let number = repair(&mut bytes, group as u32);
            let lost = (0..view.b).any(|rank| !rebuildable(view, group, rank));
            assert_eq!(number == 8, data_out(view, group) > 0 && lost);
            if number == 0 {
                assert_eq!(View::new(&bytes).unwrap().lost(group), 0);
                same_reads(view, &bytes, group);
            }
        }
    }
}

fn same_reads(before: View, after: &[u8], group: usize) {
    for unit in 4 * group..(4 * group + 4).min(before.units()) {
        for key in before.keys(unit).unwrap().into_iter().filter(|&key| key != 0) {
            let (mut old, mut new) = ([0; FIELD], [0; FIELD]);
            assert_eq!(read(before.bytes, key, &mut old), 0);
            assert_eq!(read(after, key, &mut new), 0);
            assert_eq!(old, new);
        }
    }
}
