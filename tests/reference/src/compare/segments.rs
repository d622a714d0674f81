//! The byte coder against the reference: all products of its field, and calls on segments.

use super::arena::Arena;
use super::subject;
use crate::generate::segments::{segment, Segment};
use crate::segment::field::product;
use crate::segment::rebuild;

/// What the comparison gave.
#[derive(Default)]
pub struct SegmentsOutcome {
    /// Segments granted, refused with 2 and refused with 8.
    pub granted: usize,
    pub bad: usize,
    pub beyond: usize,
    /// A wrong product.
    pub product: Option<String>,
    /// The shortest segment that differs, and in what.
    pub difference: Option<(Segment, String)>,
}

/// Compares every product of two bytes, and so many calls on segments.
pub fn compare_segments(count: usize) -> SegmentsOutcome {
    let mut outcome = SegmentsOutcome { product: wrong_product(), ..Default::default() };
    (0..count).for_each(|index| outcome.compare(segment(index as u64)));
    outcome
}

fn wrong_product() -> Option<String> {
    let pairs = (0..=u16::MAX).map(|pair| pair.to_be_bytes());
    let differs = |&[a, b]: &[u8; 2]| subject::product(a, b) != product(a, b);
    let [a, b] = pairs.into_iter().find(differs)?;
    let (got, due) = (subject::product(a, b), product(a, b));
    Some(format!("the product of {a:02X} and {b:02X} is {got:02X}, expected {due:02X}"))
}

impl SegmentsOutcome {
    pub fn differs(&self) -> bool {
        self.product.is_some() || self.difference.is_some()
    }

    fn compare(&mut self, segment: Segment) {
        let (number, differs) = compared(&segment);
        match number {
            0 => self.granted += 1,
            2 => self.bad += 1,
            _ => self.beyond += 1,
        }
        let Err(words) = differs else { return };
        let size = |segment: &Segment| segment.members.len() + segment.marks.len();
        if self.difference.as_ref().is_none_or(|(shortest, _)| size(&segment) < size(shortest)) {
            self.difference = Some((segment, words));
        }
    }
}

/// The reference's number, and how the subject differs: in its number, in a byte of the members or
/// of the marks, or in a byte around them.
fn compared(segment: &Segment) -> (u8, Result<(), String>) {
    let [front, marks_front] = segment.fronts;
    let mut members = Arena::holding(front, &segment.members);
    let mut marks = Arena::holding(marks_front, &segment.marks);
    let (mut got_members, mut got_marks) = (members.clone(), marks.clone());
    let got = subject::rebuild_segment(&mut got_members, &mut got_marks, segment.m);
    let (room, marks_room) = (members.capacity(), marks.capacity());
    let due = rebuild(members.slice(room), marks.slice(marks_room), segment.m);
    if got != due {
        return (due, Err(format!("number {got}, expected {due}")));
    }
    let same = got_members.same(&members, "members").and(got_marks.same(&marks, "marks"));
    (due, same)
}
