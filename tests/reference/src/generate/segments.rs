//! Calls of the byte coder: granted ones, and ones to be refused.

use crate::call::hex;
use crate::random::Random;
use crate::segment::{rebuild, LARGEST_GROUP, LONGEST_MEMBER, MOST_MEMBERS};
use std::fmt;

/// What a call is made for. More than half of the bad ones have fewer than m members present too.
#[derive(Clone, Copy, Debug, PartialEq, Eq, Hash)]
pub enum SegmentKind {
    /// Members 0 to m - 1 are there, the others are missing.
    Encoding,
    /// Any are missing, and at least m are there.
    Losses,
    /// Any m are there.
    JustEnough,
    /// Fewer than m are there.
    TooFew,
    NoneMissing,
    /// The members have any bytes, so that those present disagree.
    Disagreeing,
    BadGroup,
    BadCount,
    BadLength,
    /// The slice does not divide by the number of members.
    Undivided,
    BadMarks,
    /// Two or three of the bad ones at once.
    SeveralBad,
}

use SegmentKind::*;

/// All kinds, the bad ones last.
pub const SEGMENT_KINDS: [SegmentKind; 12] = [
    Encoding,
    Losses,
    JustEnough,
    TooFew,
    NoneMissing,
    Disagreeing,
    BadGroup,
    BadCount,
    BadLength,
    Undivided,
    BadMarks,
    SeveralBad,
];

/// What is wrong in one way alone.
const DAMAGES: [SegmentKind; 5] = [BadGroup, BadCount, BadLength, Undivided, BadMarks];

/// A call.
#[derive(Clone)]
pub struct Segment {
    /// The number that it is made from.
    pub index: u64,
    pub kind: SegmentKind,
    /// Guard bytes before the members and before the marks; they vary, so that both start at any
    /// alignment.
    pub fronts: [usize; 2],
    pub members: Vec<u8>,
    pub marks: Vec<u8>,
    pub m: u32,
}

/// The kinds take turns.
pub fn segment(index: u64) -> Segment {
    let mut random = Random::new(0x5345_474D_0000 + index);
    let kind = SEGMENT_KINDS[(index % SEGMENT_KINDS.len() as u64) as usize];
    let bad = kind == SeveralBad || DAMAGES.contains(&kind);
    let m = group(&mut random);
    let count = count(&mut random, m).max(if bad { 2 } else { 1 });
    let length = length(&mut random);
    let marks = marks(&mut random, kind, m, count);
    let fronts = [64 + random.below(16), 64 + random.below(16)];
    let members = random.bytes(count * length);
    let mut segment = Segment { index, kind, fronts, members, marks, m: m as u32 };
    if bad {
        segment.spoil(&mut random);
    } else if kind != Disagreeing {
        segment.agree(&mut random);
    }
    segment
}

/// One of some numbers, or in one of four cases another.
fn some_or(random: &mut Random, some: &[usize], other: usize) -> usize {
    if random.chance(1, 4) {
        other
    } else {
        random.pick(some)
    }
}

fn group(random: &mut Random) -> usize {
    let any = 1 + random.below(LARGEST_GROUP as usize);
    some_or(random, &[1, 2, 3, 4, 5, 8, 31, 32], any)
}

fn count(random: &mut Random, m: usize) -> usize {
    let any = m + random.below(MOST_MEMBERS + 1 - m);
    some_or(random, &[m, m + 1, m + 2, 63, 64], any)
}

fn length(random: &mut Random) -> usize {
    let any = 1 + random.below(LONGEST_MEMBER);
    some_or(random, &[1, 2, 15, 16, 17, 63, 64, 65, 255, 1023, 1024], any)
}

fn marks(random: &mut Random, kind: SegmentKind, m: usize, count: usize) -> Vec<u8> {
    let enough = m + random.below(count + 1 - m);
    let few = random.below(m);
    let present = match kind {
        Encoding => return (0..count).map(|c| (c < m) as u8).collect(),
        Losses | Disagreeing => enough,
        JustEnough => m,
        TooFew => few,
        NoneMissing => count,
        _ => random.pick(&[enough, few]),
    };
    shuffled(random, present, count)
}

/// So many ones among so many marks.
fn shuffled(random: &mut Random, present: usize, count: usize) -> Vec<u8> {
    let mut marks: Vec<u8> = (0..count).map(|c| (c < present) as u8).collect();
    (0..count).for_each(|c| marks.swap(c, c + random.below(count - c)));
    marks
}

impl Segment {
    /// The members become columns, but for those missing, which have any bytes.
    fn agree(&mut self, random: &mut Random) {
        let (count, length) = (self.marks.len(), self.members.len() / self.marks.len());
        let mut data: Vec<u8> = (0..count).map(|c| (c < self.m as usize) as u8).collect();
        assert_eq!(rebuild(&mut self.members, &mut data, self.m), 0);
        for c in (0..count).filter(|&c| self.marks[c] == 0) {
            self.members[c * length..][..length].copy_from_slice(&random.bytes(length));
        }
    }

    fn spoil(&mut self, random: &mut Random) {
        if self.kind != SeveralBad {
            return self.damage(random, self.kind);
        }
        let mut damages = DAMAGES;
        for i in 0..2 + random.below(2) {
            damages.swap(i, i + random.below(DAMAGES.len() - i));
            self.damage(random, damages[i]);
        }
    }

    fn damage(&mut self, random: &mut Random, damage: SegmentKind) {
        let count = self.marks.len();
        match damage {
            BadGroup => self.set_group(random),
            BadCount => self.set_count(random),
            BadLength => {
                let length = random.pick(&[0, 1025, 1025, 1026]);
                self.set_members(random, count * length);
            }
            Undivided => {
                let off = random.pick(&[1, count.saturating_sub(1)]);
                let more = random.chance(1, 2);
                let before = self.members.len();
                let after = if more { before + off } else { before.saturating_sub(off) };
                self.set_members(random, after);
            }
            _ => self.damage_marks(random),
        }
    }

    /// A number that is no m, at times with one in its low digits; in half of the cases there are as
    /// many members as a larger group would need.
    fn set_group(&mut self, random: &mut Random) {
        if self.kind == BadGroup && random.chance(1, 2) {
            let length = self.members.len() / self.marks.len();
            self.marks = vec![1; MOST_MEMBERS];
            self.set_members(random, MOST_MEMBERS * length);
        }
        let bad = [0, 33, 64, u32::MAX, 0x100 + self.m, 0x1_0000 + self.m, 0x8000_0000 + self.m];
        self.m = random.pick(&bad);
    }

    /// Fewer members than m, none, or too many.
    fn set_count(&mut self, random: &mut Random) {
        let length = self.members.len() / self.marks.len().max(1);
        let fewer = random.below(self.m.clamp(1, LARGEST_GROUP) as usize);
        let count = random.pick(&[fewer, fewer, 0, 65, 65, 70, 256, 300]);
        let present = random.pick(&[0, 3]);
        self.marks.resize_with(count, || random.chance(present, 4) as u8);
        let any = if random.chance(1, 2) { length } else { 0 };
        self.set_members(random, if count == 0 { any } else { count * length });
    }

    fn set_members(&mut self, random: &mut Random, length: usize) {
        self.members.resize_with(length, || random.next_u64() as u8);
    }

    /// One to three marks, at any place or the last, which may lie behind m present ones.
    fn damage_marks(&mut self, random: &mut Random) {
        let Some(last) = self.marks.len().checked_sub(1) else { return };
        for _ in 0..1 + random.below(3) {
            let any = random.below(last + 1);
            self.marks[random.pick(&[any, last])] = random.pick(&[2, 2, 128, 255]);
        }
    }
}

/// The call but for the bytes of its members, which follow from its index.
impl fmt::Display for Segment {
    fn fmt(&self, f: &mut fmt::Formatter) -> fmt::Result {
        let Segment { index, kind, members, marks, m, .. } = self;
        write!(f, "segment {index} ({kind:?}), m = {m}, {} bytes, ", members.len())?;
        write!(f, "{} marks {}", marks.len(), hex(marks))
    }
}
