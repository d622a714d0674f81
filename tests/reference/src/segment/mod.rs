//! The byte coder for wide groups. A segment is a slice of equal members with a mark byte for each;
//! member c is column c, the value at point c of the polynomial of a degree below m through members 0
//! to m - 1 at points 0 to m - 1.

pub mod field;
pub mod polynomial;

use polynomial::Polynomial;

/// The largest m.
pub const LARGEST_GROUP: u32 = 32;
/// The most members of a segment.
pub const MOST_MEMBERS: usize = 64;
/// The most bytes of a member.
pub const LONGEST_MEMBER: usize = 1024;

/// Rebuilds the missing members from the first m present ones and marks all as present.
pub fn rebuild(members: &mut [u8], marks: &mut [u8], m: u32) -> u8 {
    let number = number(members.len(), marks, m);
    if number == 0 {
        fill(members, marks, &present(marks)[..m as usize]);
    }
    number
}

/// The number that answers a call with so many bytes of members.
pub fn number(members_len: usize, marks: &[u8], m: u32) -> u8 {
    if !in_range(members_len, marks, m) {
        return 2;
    }
    if present(marks).len() < m as usize {
        return 8;
    }
    0
}

fn in_range(members_len: usize, marks: &[u8], m: u32) -> bool {
    let count = marks.len();
    (1..=LARGEST_GROUP).contains(&m)
        && (m as usize..=MOST_MEMBERS).contains(&count)
        && members_len.is_multiple_of(count)
        && (1..=LONGEST_MEMBER).contains(&(members_len / count))
        && marks.iter().all(|&mark| mark <= 1)
}

/// The numbers of the members that are marked as present.
pub fn present(marks: &[u8]) -> Vec<usize> {
    (0..marks.len()).filter(|&c| marks[c] == 1).collect()
}

/// Gives each missing member its column of the polynomial through the sources, and marks it.
pub(crate) fn fill(members: &mut [u8], marks: &mut [u8], sources: &[usize]) {
    let length = members.len() / marks.len();
    let polynomial = through(members, length, sources);
    for (c, mark) in marks.iter_mut().enumerate().filter(|(_, mark)| **mark == 0) {
        members[c * length..][..length].copy_from_slice(&polynomial.at(c as u8));
        *mark = 1;
    }
}

/// The polynomial through some members, each of so many bytes.
pub(crate) fn through(members: &[u8], length: usize, sources: &[usize]) -> Polynomial {
    let points = sources.iter().map(|&c| c as u8).collect();
    let values = sources.iter().map(|&c| members[c * length..][..length].to_vec()).collect();
    Polynomial::through(points, values)
}
