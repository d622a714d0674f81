//! Faults of losses judged rank by rank: of which ranks can be rebuilt, from which members, and of which
//! units and keys a call looks at.

use super::faults::{name_chosen, Fault};
use crate::call::Kind;
use crate::record::FIELD;
use crate::store;
use crate::store::layout::{state_at, View, IN_SERVICE, OUT};
use crate::store::records::write_list;
use crate::store::recover::{
    check_members, data_members, fields_from, missing, own_records, record_fields, Fields, Member,
};
use crate::store::units::put_in_service;
use crate::store::write::{set_slot, Record};

/// How read, list and repair take losses: the keys of a data unit that is out, None where nothing says
/// them, and the fields of a rank's records, None where it cannot be rebuilt.
#[derive(Clone, Copy)]
pub struct Rule {
    keys: fn(View, usize) -> Option<Vec<u32>>,
    fields: fn(View, usize, usize) -> Option<Fields>,
}

const fn by_fields(fields: fn(View, usize, usize) -> Option<Fields>) -> Rule {
    Rule { keys: |view, unit| view.keys(unit), fields }
}

const BY_UNITS_OUT: Rule = by_fields(by_units_out);
const EMPTY_UNITS_LAST: Rule = by_fields(empty_units_last);
const CHECK_UNITS_OUT_COUNTED: Rule = by_fields(check_units_out_counted);
const BY_THE_LAST_RANK: Rule = by_fields(by_the_last_rank);
const MEMBERS_OF_THE_FIRST_RANK: Rule =
    by_fields(|view, group, rank| members_of(view, group, 0, rank));
const MEMBERS_OF_THE_LAST_RANK: Rule =
    by_fields(|view, group, rank| members_of(view, group, last_missing(view, group), rank));
const BY_THE_GROUP: Rule = by_fields(by_the_group);
const NOT_LISTED_AS_EMPTY: Rule =
    Rule { keys: |view, unit| Some(view.keys(unit).unwrap_or_default()), fields: record_fields };

/// Calls by such a rule.
pub const RULE_FAULTS: [(&str, Kind, Rule); 22] = [
    ("read-judged-by-units-out", Kind::Read, BY_UNITS_OUT),
    ("list-judged-by-units-out", Kind::List, BY_UNITS_OUT),
    ("repair-judged-by-units-out", Kind::Repair, BY_UNITS_OUT),
    ("read-takes-empty-units-last", Kind::Read, EMPTY_UNITS_LAST),
    ("list-takes-empty-units-last", Kind::List, EMPTY_UNITS_LAST),
    ("repair-takes-empty-units-last", Kind::Repair, EMPTY_UNITS_LAST),
    ("read-counts-check-units-out", Kind::Read, CHECK_UNITS_OUT_COUNTED),
    ("list-counts-check-units-out", Kind::List, CHECK_UNITS_OUT_COUNTED),
    ("repair-counts-check-units-out", Kind::Repair, CHECK_UNITS_OUT_COUNTED),
    ("read-judged-by-the-last-rank", Kind::Read, BY_THE_LAST_RANK),
    ("list-judged-by-the-last-rank", Kind::List, BY_THE_LAST_RANK),
    ("repair-judged-by-the-last-rank", Kind::Repair, BY_THE_LAST_RANK),
    ("read-by-the-members-of-the-first-rank", Kind::Read, MEMBERS_OF_THE_FIRST_RANK),
    ("list-by-the-members-of-the-first-rank", Kind::List, MEMBERS_OF_THE_FIRST_RANK),
    ("repair-by-the-members-of-the-first-rank", Kind::Repair, MEMBERS_OF_THE_FIRST_RANK),
    ("read-by-the-members-of-the-last-rank", Kind::Read, MEMBERS_OF_THE_LAST_RANK),
    ("list-by-the-members-of-the-last-rank", Kind::List, MEMBERS_OF_THE_LAST_RANK),
    ("repair-by-the-members-of-the-last-rank", Kind::Repair, MEMBERS_OF_THE_LAST_RANK),
    ("read-takes-a-unit-not-listed-for-empty", Kind::Read, NOT_LISTED_AS_EMPTY),
    ("list-takes-a-unit-not-listed-for-empty", Kind::List, NOT_LISTED_AS_EMPTY),
    ("repair-takes-a-unit-not-listed-for-empty", Kind::Repair, NOT_LISTED_AS_EMPTY),
    ("read-judged-by-the-group", Kind::Read, BY_THE_GROUP),
];

/// Faults by what a call leaves.
pub const RANK_FAULTS: [Fault; 4] = [
    ("repair-refused-without-check-units", Kind::Repair, |before, after, number| {
        if number == 0 && before != after && lacks_check_units(before) {
            after.copy_from_slice(before);
            return 8;
        }
        number
    }),
    ("repair-fills-empty-ranks", Kind::Repair, repair_fills_empty_ranks),
    ("teach-granted-with-an-empty-unit-out", Kind::Teach, granted_with_empty_units_out),
    ("grow-granted-with-an-empty-unit-out", Kind::Grow, granted_with_empty_units_out),
];

/// A store that has passed the test of soundness.
fn view(bytes: &[u8]) -> View<'_> {
    View::new(bytes).expect("a sound store")
}

fn units_out(view: View, group: usize) -> Vec<usize> {
    (4 * group..4 * group + 4).filter(|&unit| view.state(unit) == OUT).collect()
}

/// No rank can be rebuilt where more data units are out than check units are in service.
fn by_units_out(view: View, group: usize, rank: usize) -> Option<Fields> {
    let enough = units_out(view, group).len() <= view.checks_in(group, IN_SERVICE).len();
    record_fields(view, group, rank).filter(|_| enough)
}

/// A unit that is out without a record comes behind the check units.
fn empty_units_last(view: View, group: usize, rank: usize) -> Option<Fields> {
    let data = data_members(view, group, rank);
    let out = |member: &Member| view.state(4 * group + member.0) == OUT;
    let (empty, serving): (Vec<Member>, Vec<Member>) = data.into_iter().partition(out);
    fields_from(&[serving, check_members(view, group, rank), empty].concat())
}

/// Check units that are out are members, with the zeros that they hold.
fn check_units_out_counted(view: View, group: usize, rank: usize) -> Option<Fields> {
    let mut members = data_members(view, group, rank);
    members.extend(check_members(view, group, rank));
    let out = view.checks_in(group, OUT).into_iter();
    members.extend(out.map(|check| (4 + check % 3, view.parity(check, rank))));
    fields_from(&members)
}

/// The last rank of a group that misses a record, or its first one.
fn last_missing(view: View, group: usize) -> usize {
    let misses = |rank: &usize| (0..4).any(|place| missing(view, 4 * group + place, *rank));
    (0..view.b).rev().find(misses).unwrap_or(0)
}

/// A rank that cannot be rebuilt is taken for zeros where the last one can.
fn by_the_last_rank(view: View, group: usize, rank: usize) -> Option<Fields> {
    let last = record_fields(view, group, last_missing(view, group));
    record_fields(view, group, rank).or(last.map(|_| [[0; FIELD]; 4]))
}

/// A rank that can be rebuilt is so by the columns of another one's members, where that one has four.
fn members_of(view: View, group: usize, other: usize, rank: usize) -> Option<Fields> {
    let right = record_fields(view, group, rank)?;
    let mut members = data_members(view, group, other);
    members.extend(check_members(view, group, other));
    let fields = members.iter().map(|&(column, _)| match column {
        0..=3 => (column, view.field(4 * group + column, rank)),
        _ => (column, view.parity(3 * group + column - 4, rank)),
    });
    fields_from(&fields.collect::<Vec<Member>>()).or(Some(right))
}

/// No rank can be rebuilt where another one cannot.
fn by_the_group(view: View, group: usize, rank: usize) -> Option<Fields> {
    record_fields(view, group, rank).filter(|_| !some_rank_lost(view, group))
}

fn some_rank_lost(view: View, group: usize) -> bool {
    (0..view.b).any(|rank| record_fields(view, group, rank).is_none())
}

/// The rule of the chosen fault, where it is one of this kind of call.
fn chosen(kind: Kind) -> Option<Rule> {
    let fault = RULE_FAULTS.iter().find(|fault| Some(fault.0) == name_chosen())?;
    Some(fault.2).filter(|_| fault.1 == kind)
}

/// The records of a data unit by rank, by a rule where it is out.
fn records_by(rule: Rule, view: View, unit: usize) -> Option<Vec<Record>> {
    if view.state(unit) != OUT {
        return Some(own_records(view, unit));
    }
    let keys = (rule.keys)(view, unit)?.into_iter().enumerate().filter(|&(_, key)| key != 0);
    keys.map(|(rank, key)| Some((key, (rule.fields)(view, unit / 4, rank)?[unit % 4]))).collect()
}

/// A read, by the rule of the chosen fault where it is one of reads.
pub fn read(bytes: &[u8], key: u32, out: &mut [u8]) -> u8 {
    let Some(rule) = chosen(Kind::Read) else { return store::read(bytes, key, out) };
    let number = store::read(bytes, key, &mut out.to_vec());
    if !matches!(number, 0 | 6 | 8) || !lies_in_a_unit_out(bytes, key) {
        return store::read(bytes, key, out);
    }
    let unit = view(bytes).unit_of(key);
    let Some(keys) = (rule.keys)(view(bytes), unit) else { return 8 };
    let Some(rank) = keys.iter().position(|&k| k == key) else { return 6 };
    let Some(fields) = (rule.fields)(view(bytes), unit / 4, rank) else { return 8 };
    out.copy_from_slice(&fields[unit % 4]);
    0
}

/// A list, by the rule of the chosen fault where it is one of lists: its number and its count.
pub fn list(bytes: &[u8], out: &mut [u8]) -> (u8, u32) {
    let rule = chosen(Kind::List).filter(|_| store::sound(bytes));
    let Some(rule) = rule else { return store::list(bytes, out) };
    let units = (0..view(bytes).units()).map(|unit| records_by(rule, view(bytes), unit));
    let Some(units) = units.collect::<Option<Vec<_>>>() else { return (8, 0) };
    write_list(&units.concat(), out)
}

/// A repair, by the rule of the chosen fault where it is one of repairs.
pub fn repair(bytes: &mut [u8], group: u32) -> u8 {
    let Some(rule) = chosen(Kind::Repair) else { return store::repair(bytes, group) };
    let number = store::repair(&mut bytes.to_vec(), group);
    if !matches!(number, 0 | 8) {
        return number;
    }
    let out = units_out(view(bytes), group as usize).into_iter();
    let rebuilt = out.map(|unit| Some((unit, records_by(rule, view(bytes), unit)?)));
    let Some(rebuilt) = rebuilt.collect::<Option<Vec<_>>>() else { return 8 };
    put_in_service(bytes, group as usize, &rebuilt);
    0
}

/// Whether the unit of a key is out, in a sound store.
pub fn lies_in_a_unit_out(bytes: &[u8], key: u32) -> bool {
    view(bytes).state(view(bytes).unit_of(key)) == OUT
}

/// Whether a rank is lost in the group of a key whose unit is out, in a sound store.
pub fn lies_beside_a_lost_rank(bytes: &[u8], key: u32) -> bool {
    let group = view(bytes).unit_of(key) / 4;
    lies_in_a_unit_out(bytes, key) && some_rank_lost(view(bytes), group)
}

/// Whether a group in place has no check unit in service, in a sound store.
pub fn lacks_check_units(bytes: &[u8]) -> bool {
    let mut groups = 0..view(bytes).units().div_ceil(4);
    groups.any(|group| view(bytes).checks_in(group, IN_SERVICE).is_empty())
}

/// A repaired data unit gets, at ranks where it has no record, what rebuilding without it gives.
fn repair_fills_empty_ranks(before: &[u8], after: &mut [u8], number: u8) -> u8 {
    if number != 0 {
        return number;
    }
    let view = view(before);
    let repaired = |unit: &usize| before[state_at(*unit)] != after[state_at(*unit)];
    for unit in (0..16).filter(repaired).collect::<Vec<usize>>() {
        for rank in (0..view.b).filter(|&rank| !missing(view, unit, rank)) {
            let fields = empty_units_last(view, unit / 4, rank).expect("a rank that is not lost");
            set_slot(after, unit, rank, (0, fields[unit % 4]));
        }
    }
    0
}

/// A unit that is out without a record at any rank is passed over by the test for 4. What the call
/// does then is left out: its number tells enough.
fn granted_with_empty_units_out(before: &[u8], _: &mut [u8], number: u8) -> u8 {
    if number != 4 {
        return number;
    }
    let view = view(before);
    let empty = |unit: usize| unit < 16 && (0..view.b).all(|rank| !missing(view, unit, rank));
    let mut out = (0..28).filter(|&unit| view.state(unit) == OUT);
    if out.all(empty) {
        return 0;
    }
    number
}
