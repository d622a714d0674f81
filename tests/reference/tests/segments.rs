//! The byte coder of the reference by itself: its field, its columns, rebuilding, and its refusals.

use reference::generate::segments::{segment, Segment, SegmentKind, SEGMENT_KINDS};
use reference::random::Random;
use reference::segment::field::{inverse, product};
use reference::segment::{present, rebuild};
use std::collections::HashMap;

/// The members of a segment, one byte each, from its data members.
fn columns(data: &[u8], count: usize) -> Vec<u8> {
    let mut members = data.to_vec();
    members.resize(count, 0xEE);
    let mut marks: Vec<u8> = (0..count).map(|c| (c < data.len()) as u8).collect();
    assert_eq!(rebuild(&mut members, &mut marks, data.len() as u32), 0);
    assert!(marks.iter().all(|&mark| mark == 1));
    members
}

#[test]
fn products_are_polynomials_modulo_the_modulus() {
    assert_eq!(product(0x80, 2), 0x1D, "t^8 = t^4 + t^3 + t^2 + 1");
    assert_eq!(product(0x0F, 0x0F), 0x55, "a square has its factor's bits apart");
    // (t^4 + 1)(t^4 + t) = t^8 + t^5 + t^4 + t, and t^8 leaves t^4 + t^3 + t^2 + 1
    assert_eq!(product(0x11, 0x12), 0x2F);
    for a in 0..=255 {
        assert_eq!((product(a, 0), product(0, a), product(a, 1)), (0, 0, a));
    }
}

#[test]
fn products_obey_the_laws_of_a_field() {
    let mut random = Random::new(0x4649_454C_4400);
    for pair in 0..=u16::MAX {
        let [a, b] = pair.to_be_bytes();
        let c = random.next_u64() as u8;
        assert_eq!(product(a, b), product(b, a));
        assert_eq!(product(a, b ^ c), product(a, b) ^ product(a, c));
        assert_eq!(product(product(a, b), c), product(a, product(b, c)));
    }
    assert!((1..=255).all(|a| product(a, inverse(a)) == 1));
}

#[test]
fn two_is_primitive() {
    let powers: Vec<u8> =
        std::iter::successors(Some(1), |&x| Some(product(x, 2))).take(256).collect();
    assert_eq!(powers[255], 1);
    assert!(powers[1..255].iter().all(|&power| power != 1));
}

/// m = 1: the polynomial is constant.
#[test]
fn one_data_member_stands_in_every_column() {
    assert!((0..=255).all(|data| columns(&[data], 64) == [data; 64]));
}

/// m = 2: the line through (0, d0) and (1, d1) is d0 + c (d1 - d0), and difference is sum here.
#[test]
fn two_data_members_give_a_line() {
    for pair in 0..=u16::MAX {
        let [d0, d1] = pair.to_be_bytes();
        let due: Vec<u8> = (0..64).map(|c| d0 ^ product(c, d0 ^ d1)).collect();
        assert_eq!(columns(&[d0, d1], 64), due);
    }
}

/// m = 3, by hand. Column 3 is the sum of the data: the weight of d0 there is (3-1)(3-2) divided by
/// (0-1)(0-2), that is 2 times 1 by 1 times 2; in the same way that of d1 is 3 times 1 by 1 times 3,
/// and that of d2 is 3 times 2 by 2 times 3. The data 0, 1, 4 are the squares of 0, 1, 2, so column 16
/// is 16 times 16, t^8.
#[test]
fn three_data_members_by_hand() {
    assert_eq!(columns(&[0x35, 0x81, 0xF0], 4)[3], 0x35 ^ 0x81 ^ 0xF0);
    assert_eq!(columns(&[0, 1, 4], 17)[16], 0x1D);
}

/// Data that are the powers c^k of their points, k below m, give c^k in every column.
#[test]
fn columns_are_values_of_the_polynomial() {
    for m in 1..=32u8 {
        for k in 0..m {
            let powers: Vec<u8> = (0..64).map(|c| (0..k).fold(1, |x, _| product(x, c))).collect();
            assert_eq!(columns(&powers[..m as usize], 64), powers, "m = {m}, k = {k}");
        }
    }
}

/// A segment of any data, all members present.
fn any_segment(random: &mut Random, m: usize, count: usize, length: usize) -> Vec<u8> {
    let mut members = random.bytes(count * length);
    let mut marks: Vec<u8> = (0..count).map(|c| (c < m) as u8).collect();
    let data = members[..m * length].to_vec();
    assert_eq!(rebuild(&mut members, &mut marks, m as u32), 0);
    assert_eq!(members[..m * length], data, "the data are columns 0 to m - 1");
    members
}

#[test]
fn any_m_members_give_all() {
    let mut random = Random::new(0x414E_594D_0000);
    for round in 0..2_000 {
        let m = 1 + round % 32;
        let count = m + random.below(65 - m);
        let length = 1 + random.below(20);
        let whole = any_segment(&mut random, m, count, length);
        let mut left: Vec<usize> = (0..count).collect();
        (0..m).for_each(|i| left.swap(i, i + random.below(count - i)));
        let mut members = random.bytes(count * length);
        let mut marks = vec![0; count];
        for &c in &left[..m] {
            marks[c] = 1;
            members[c * length..][..length].copy_from_slice(&whole[c * length..][..length]);
        }
        assert_eq!(rebuild(&mut members, &mut marks, m as u32), 0);
        assert!(members == whole && marks == vec![1; count], "{m} of {count}");
    }
}

/// By the first m present ones, by number; a present member that disagrees with them stays.
#[test]
fn the_first_present_members_decide() {
    let mut members = [9, 7, 7, 0, 5, 0];
    let mut marks = [0, 1, 1, 0, 1, 0];
    assert_eq!(rebuild(&mut members, &mut marks, 2), 0);
    assert_eq!(members, [7, 7, 7, 7, 5, 7]);
    assert_eq!(marks, [1; 6]);
}

/// Makes a call with so many bytes of members that is to be refused; it changes nothing.
fn refused(members: usize, marks: &[u8], m: u32) -> u8 {
    let before: Vec<u8> = (0..members).map(|i| i as u8).collect();
    let (mut after, mut after_marks) = (before.clone(), marks.to_vec());
    let number = rebuild(&mut after, &mut after_marks, m);
    assert!(after == before && after_marks == marks && number != 0);
    number
}

#[test]
fn refusals() {
    assert_eq!(refused(0, &[], 1), 2, "no marks");
    assert_eq!(refused(0, &[1, 1], 1), 2, "no bytes");
    assert_eq!(refused(1, &[1, 1], 1), 2, "less than a byte each");
    assert_eq!(refused(5, &[1, 1], 1), 2, "a byte left over");
    assert_eq!(refused(2050, &[1, 1], 1), 2, "1,025 bytes each");
    assert_eq!(refused(2, &[1, 2], 1), 2, "a mark of 2");
    assert_eq!(refused(2, &[255, 1], 1), 2, "a mark of 255");
    assert_eq!(refused(2, &[1, 1], 0), 2, "m = 0");
    assert_eq!(refused(2, &[1, 1], 3), 2, "more data members than members");
    assert_eq!(refused(64, &[1; 64], 33), 2, "m = 33");
    assert_eq!(refused(64, &[1; 64], 0x101), 2, "m = 257");
    assert_eq!(refused(65, &[1; 65], 1), 2, "65 members");
    assert_eq!(refused(2, &[0, 0], 1), 8, "none present");
    assert_eq!(refused(62, &[[1; 31], [0; 31]].concat(), 32), 8, "31 of 32 present");
}

/// Each of what is refused with 2, with fewer than m present.
#[test]
fn two_comes_before_8() {
    assert_eq!(refused(0, &[0, 0], 1), 2);
    assert_eq!(refused(5, &[0, 0], 1), 2);
    assert_eq!(refused(2050, &[0, 0], 1), 2);
    assert_eq!(refused(2, &[0, 2], 1), 2);
    assert_eq!(refused(2, &[0, 0], 3), 2);
    assert_eq!(refused(64, &[0; 64], 33), 2);
    assert_eq!(refused(65, &[0; 65], 1), 2);
}

#[test]
fn the_limits_are_granted() {
    let mut random = Random::new(0x4C49_4D49_5400);
    for (m, count, length) in [(1, 1, 1), (1, 64, 1024), (32, 32, 1), (32, 64, 1024)] {
        let whole = any_segment(&mut random, m, count, length);
        let (mut members, mut marks) = (whole.clone(), vec![1; count]);
        assert_eq!(rebuild(&mut members, &mut marks, m as u32), 0);
        assert!(members == whole && marks == vec![1; count], "none missing: nothing changes");
    }
}

/// The number that a kind of call is made for.
fn number_of(kind: SegmentKind) -> u8 {
    use SegmentKind::*;
    match kind {
        Encoding | Losses | JustEnough | NoneMissing | Disagreeing => 0,
        TooFew => 8,
        BadGroup | BadCount | BadLength | Undivided | BadMarks | SeveralBad => 2,
    }
}

/// The first calls of the comparison, with their numbers.
fn generated() -> Vec<(Segment, u8)> {
    let numbered = |segment: Segment| {
        let (mut members, mut marks) = (segment.members.clone(), segment.marks.clone());
        let number = rebuild(&mut members, &mut marks, segment.m);
        (segment, number)
    };
    (0..2_400).map(|index| numbered(segment(index))).collect()
}

#[test]
fn every_kind_is_generated() {
    let mut counts = HashMap::new();
    for (segment, number) in generated() {
        assert_eq!(number, number_of(segment.kind), "{segment}");
        *counts.entry(segment.kind).or_insert(0) += 1;
    }
    assert!(SEGMENT_KINDS.iter().all(|kind| counts[kind] == 200));
}

/// Every m, number of members and length of a member that has a name in the rules or is next to one.
#[test]
fn every_size_is_generated() {
    let calls = generated();
    let granted: Vec<&Segment> =
        calls.iter().filter(|(_, number)| *number == 0).map(|(segment, _)| segment).collect();
    let length = |segment: &Segment| segment.members.len() / segment.marks.len();
    let reached = |test: &dyn Fn(&Segment) -> bool| granted.iter().any(|segment| test(segment));
    for m in 1..=32 {
        assert!(reached(&|segment| segment.m == m), "m = {m}");
    }
    for count in [0, 1, 2] {
        assert!(reached(&|segment| segment.marks.len() == segment.m as usize + count));
    }
    assert!(reached(&|segment| segment.m == 32 && segment.marks.len() == 64));
    for due in [1, 2, 15, 16, 17, 63, 64, 65, 255, 1023, 1024] {
        assert!(reached(&|segment| length(segment) == due), "{due} bytes");
    }
    assert!(reached(&|segment| !present(&segment.marks).contains(&0)), "member 0 missing");
}

/// Each bad argument comes with m members present and with fewer.
#[test]
fn every_bad_argument_is_generated() {
    let calls = generated();
    let refused = |test: &dyn Fn(&Segment) -> bool| {
        let bad = calls.iter().map(|(segment, _)| segment).filter(|segment| {
            number_of(segment.kind) == 2 && segment.kind != SegmentKind::SeveralBad && test(segment)
        });
        let few = |segment: &Segment| present(&segment.marks).len() < segment.m as usize;
        let (few, enough): (Vec<_>, Vec<_>) = bad.partition(|segment| few(segment));
        !few.is_empty() && !enough.is_empty()
    };
    for m in [33, 64] {
        assert!(refused(&|segment| segment.m == m), "m = {m}");
    }
    for count in [65, 70, 256, 300] {
        assert!(refused(&|segment| segment.marks.len() == count), "{count} members");
    }
    for length in [0, 1025, 1026] {
        let due = |segment: &Segment| segment.members.len() == length * segment.marks.len();
        assert!(refused(&due), "{length} bytes");
    }
    for mark in [2, 128, 255] {
        assert!(refused(&|segment| segment.marks.contains(&mark)), "mark {mark}");
    }
    assert!(refused(&|segment| segment.kind == SegmentKind::Undivided));
}

/// Those that leave no choice: m = 0, and an m above every number of members; no members, and fewer
/// than m.
#[test]
fn every_extreme_is_generated() {
    let calls = generated();
    let reached = |test: &dyn Fn(&Segment) -> bool| calls.iter().any(|(segment, _)| test(segment));
    assert!(reached(&|segment| segment.m == 0));
    assert!(reached(&|segment| segment.m == u32::MAX));
    assert!(reached(&|segment| segment.marks.is_empty() && segment.members.is_empty()));
    assert!(reached(&|segment| segment.marks.is_empty() && !segment.members.is_empty()));
    assert!(reached(
        &|segment| segment.m <= 32 && (1..segment.m as usize).contains(&segment.marks.len())
    ));
}
