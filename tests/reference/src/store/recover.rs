//! Rebuilding the records' fields of units that are out, rank by rank.

use super::field::{byte, symbols};
use super::layout::{View, IN_SERVICE, OUT};
use super::matrix::solve;
use super::write::Record;
use crate::record::FIELD;

/// The fields of a rank's four records, by place in the group.
pub type Fields = [[u8; FIELD]; 4];

/// A member of a rank: its column, and its field or parity.
pub type Member = (usize, [u8; FIELD]);

/// Whether a record of a data unit is missing at a rank: the unit is out, and a check unit in service
/// lists a key there.
pub fn missing(view: View, unit: usize, rank: usize) -> bool {
    let checks = view.checks_in(unit / 4, IN_SERVICE);
    let listed = |&check: &usize| view.listed_key(check, rank, unit % 4) != 0;
    view.state(unit) == OUT && checks.iter().any(listed)
}

/// The data units of a group whose record at a rank is not missing. One that is not in place, or that
/// is out without a record there, is a member too: its bytes are zeros.
pub fn data_members(view: View, group: usize, rank: usize) -> Vec<Member> {
    let here = (0..4).filter(|place| !missing(view, 4 * group + place, rank));
    here.map(|place| (place, view.field(4 * group + place, rank))).collect()
}

/// The check units of a group in service, as members of a rank.
pub fn check_members(view: View, group: usize, rank: usize) -> Vec<Member> {
    let checks = view.checks_in(group, IN_SERVICE).into_iter();
    checks.map(|check| (4 + check % 3, view.parity(check, rank))).collect()
}

/// The fields of a rank's four records, from its first four members: data units, then check units.
/// None where it has fewer.
pub fn record_fields(view: View, group: usize, rank: usize) -> Option<Fields> {
    let mut members = data_members(view, group, rank);
    members.extend(check_members(view, group, rank));
    fields_from(&members)
}

/// The fields of four records from the first four of these members; None where there are fewer.
pub fn fields_from(members: &[Member]) -> Option<Fields> {
    let first: [Member; 4] = members.get(..4)?.try_into().unwrap();
    let columns = first.map(|(column, _)| column);
    let given = first.map(|(_, field)| field.iter().flat_map(|&x| symbols(x)).collect());
    Some(solve(columns, given).map(bytes_of))
}

/// The bytes of a row of symbols.
fn bytes_of(row: Vec<u8>) -> [u8; FIELD] {
    std::array::from_fn(|i| byte([row[2 * i], row[2 * i + 1]]))
}

/// The records of a data unit by rank: its own, or where it is out the rebuilt ones, with the keys
/// that a check unit lists. None where the unit is out and no check unit of its group is in service,
/// or a rank at which it has a record cannot be rebuilt.
pub fn records(view: View, unit: usize) -> Option<Vec<Record>> {
    let keys = view.keys(unit)?;
    let listed = keys.into_iter().enumerate().filter(|&(_, key)| key != 0);
    listed.map(|(rank, key)| Some((key, record_field(view, unit, rank)?))).collect()
}

/// The field at a rank of a data unit, rebuilt where the unit is out; None where the rank cannot be.
pub fn record_field(view: View, unit: usize, rank: usize) -> Option<[u8; FIELD]> {
    if view.state(unit) != OUT {
        return Some(view.field(unit, rank));
    }
    record_fields(view, unit / 4, rank).map(|fields| fields[unit % 4])
}

/// The records of a unit in service.
pub fn own_records(view: View, unit: usize) -> Vec<Record> {
    records(view, unit).expect("a unit in service")
}
