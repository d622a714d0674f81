//! Faults of the byte coder.

use super::faults::name_chosen;
use crate::segment::{fill, number, present, rebuild, through, LONGEST_MEMBER, MOST_MEMBERS};

/// A coder with a fault: it is given members, marks and m, as the right one is.
type Coder = fn(&mut [u8], &mut [u8], u32) -> u8;

pub const SEGMENT_FAULTS: [(&str, Coder); 15] = [
    ("segment-from-the-last-present", from_the_last_present),
    ("segment-rewrites-present-members", rewrites_present_members),
    ("segment-column-of-the-next-point", column_of_the_next_point),
    ("segment-second-missing-as-the-first", second_missing_as_the_first),
    ("segment-leaves-a-mark", leaves_a_mark),
    ("segment-refused-with-a-byte-changed", |members, marks, m| {
        let number = rebuild(members, marks, m);
        if let (2, Some(last)) = (number, members.last_mut()) {
            *last ^= 1;
        }
        number
    }),
    ("segment-refused-with-a-mark-changed", |members, marks, m| {
        let number = rebuild(members, marks, m);
        if number == 8 {
            marks[0] = 1;
        }
        number
    }),
    ("segment-says-8-first", |members, marks, m| {
        if present(marks).len() < m as usize {
            return 8;
        }
        rebuild(members, marks, m)
    }),
    ("segment-takes-2-for-present", |members, marks, m| {
        rebuild_with(members, marks, m, |_, mark| if mark == 2 { 1 } else { mark })
    }),
    ("segment-marks-behind-the-sources-not-tested", |members, marks, m| {
        let sources = present(marks);
        let behind = sources.get(m.saturating_sub(1) as usize).copied().unwrap_or(marks.len());
        rebuild_with(members, marks, m, |c, mark| if c > behind { (mark == 1) as u8 } else { mark })
    }),
    ("segment-m-by-its-low-byte", |members, marks, m| rebuild(members, marks, m % 256)),
    ("segment-slice-rounded-down", |members, marks, m| {
        let over = members.len().checked_rem(marks.len()).unwrap_or(0);
        let whole = members.len() - over;
        rebuild(&mut members[..whole], marks, m)
    }),
    ("segment-of-33-data-members", |members, marks, m| {
        granted_too(members, marks, m, m == 33 && number(members.len(), marks, 32) == 0)
    }),
    ("segment-of-65-members", |members, marks, m| {
        let whole = members.len().is_multiple_of(MOST_MEMBERS + 1);
        let first = marks.get(..MOST_MEMBERS).unwrap_or_default();
        let length = members.len() / (MOST_MEMBERS + 1) * MOST_MEMBERS;
        let one_more = marks.len() == MOST_MEMBERS + 1 && marks[MOST_MEMBERS] <= 1;
        granted_too(members, marks, m, one_more && whole && number(length, first, m) == 0)
    }),
    ("segment-of-1025-bytes-a-member", |members, marks, m| {
        let one_more = members.len() == (LONGEST_MEMBER + 1) * marks.len();
        let shorter = LONGEST_MEMBER * marks.len();
        granted_too(members, marks, m, one_more && number(shorter, marks, m) == 0)
    }),
];

/// The call, by the coder with the chosen fault where it is one of these.
pub fn rebuild_or_fail(members: &mut [u8], marks: &mut [u8], m: u32) -> u8 {
    let chosen = SEGMENT_FAULTS.iter().find(|fault| Some(fault.0) == name_chosen());
    chosen.map_or(rebuild as Coder, |fault| fault.1)(members, marks, m)
}

/// Takes other marks for those given; where the call is granted, they become 1 like all others.
fn rebuild_with(
    members: &mut [u8],
    marks: &mut [u8],
    m: u32,
    taken: impl Fn(usize, u8) -> u8,
) -> u8 {
    let mut others: Vec<u8> = marks.iter().enumerate().map(|(c, &mark)| taken(c, mark)).collect();
    let number = rebuild(members, &mut others, m);
    if number == 0 {
        marks.fill(1);
    }
    number
}

/// Grants a call too that would have to be refused with 2, where enough members are present.
fn granted_too(members: &mut [u8], marks: &mut [u8], m: u32, too: bool) -> u8 {
    let sources = present(marks);
    if !too || sources.len() < m as usize {
        return rebuild(members, marks, m);
    }
    fill(members, marks, &sources[..m as usize]);
    0
}

fn from_the_last_present(members: &mut [u8], marks: &mut [u8], m: u32) -> u8 {
    let number = number(members.len(), marks, m);
    if number == 0 {
        let sources = present(marks);
        fill(members, marks, &sources[sources.len() - m as usize..]);
    }
    number
}

/// All members but the sources are given their columns, where they are present too.
fn rewrites_present_members(members: &mut [u8], marks: &mut [u8], m: u32) -> u8 {
    let number = number(members.len(), marks, m);
    if number == 0 {
        let sources = &present(marks)[..m as usize];
        (0..marks.len()).for_each(|c| marks[c] = sources.contains(&c) as u8);
        fill(members, marks, sources);
    }
    number
}

/// The last member, where it is missing, gets the column behind its own.
fn column_of_the_next_point(members: &mut [u8], marks: &mut [u8], m: u32) -> u8 {
    let before = marks.to_vec();
    let number = rebuild(members, marks, m);
    if number == 0 && before.last() == Some(&0) {
        let length = members.len() / before.len();
        let polynomial = through(members, length, &present(&before)[..m as usize]);
        let last = (before.len() - 1) * length;
        members[last..].copy_from_slice(&polynomial.at(before.len() as u8));
    }
    number
}

/// The second missing member gets the bytes of the first.
fn second_missing_as_the_first(members: &mut [u8], marks: &mut [u8], m: u32) -> u8 {
    let missing: Vec<usize> = (0..marks.len()).filter(|&c| marks[c] == 0).collect();
    let number = rebuild(members, marks, m);
    if let (0, [first, second, ..]) = (number, &missing[..]) {
        let length = members.len() / marks.len();
        members.copy_within(first * length..(first + 1) * length, second * length);
    }
    number
}

/// The mark of the last missing member stays 0.
fn leaves_a_mark(members: &mut [u8], marks: &mut [u8], m: u32) -> u8 {
    let missing = marks.iter().rposition(|&mark| mark == 0);
    let number = rebuild(members, marks, m);
    if let (0, Some(missing)) = (number, missing) {
        marks[missing] = 0;
    }
    number
}
