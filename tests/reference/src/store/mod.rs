//! The store as bytes: "Units, keys and ranks", "Bytes of a store", "Numbers returned".

pub mod field;
pub mod layout;
pub mod matrix;
pub(crate) mod plan;
pub(crate) mod records;
pub(crate) mod recover;
mod sound;
pub(crate) mod units;
pub(crate) mod write;

use crate::call::{Answer, Call};
use crate::moves::{Move, MOVE};
use crate::record::RECORD;
pub use plan::{commit, plan};
pub use records::{correct, erase, list, read, read_in_place, teach};
pub use sound::{broken_clauses, clause_names, sound};
pub use units::{grow, lay_out, raise, repair, shrink, unit_out};

/// The byte that outputs are filled with beforehand, to see what is written.
const UNWRITTEN: u8 = 0xA5;

/// Performs a call on the lent slice.
pub fn perform(bytes: &mut [u8], call: &Call) -> Answer {
    Answer::Number(match call {
        Call::LayOut { b } => lay_out(bytes, *b),
        Call::Teach { key, field } => teach(bytes, *key, field),
        Call::Correct { key, field } => correct(bytes, *key, field),
        Call::Erase { key } => erase(bytes, *key),
        Call::Read { key, out } => return perform_read(bytes, *key, *out),
        Call::ReadInPlace { key } => return Answer::Part(read_in_place(bytes, *key).to_vec()),
        Call::List { out } => return perform_list(bytes, *out),
        Call::Out { unit } => unit_out(bytes, *unit),
        Call::Repair { group } => repair(bytes, *group),
        Call::Grow => grow(bytes),
        Call::Shrink => shrink(bytes),
        Call::Raise => raise(bytes),
        Call::Plan { entries } => return perform_plan(bytes, *entries),
        Call::Commit { moves, count } => commit(bytes, moves, *count),
    })
}

fn perform_read(bytes: &[u8], key: u32, out: usize) -> Answer {
    let mut buffer = vec![UNWRITTEN; out];
    let number = read(bytes, key, &mut buffer);
    if number == 0 {
        return Answer::Read(0, Some(buffer.try_into().unwrap()));
    }
    assert!(buffer.iter().all(|&x| x == UNWRITTEN));
    Answer::Read(number, None)
}

fn perform_list(bytes: &[u8], out: usize) -> Answer {
    let mut buffer = vec![UNWRITTEN; out];
    let (number, count) = list(bytes, &mut buffer);
    let written = RECORD * count as usize;
    assert!(buffer[written..].iter().all(|&x| x == UNWRITTEN));
    buffer.truncate(written);
    Answer::List(number, count, buffer)
}

fn perform_plan(bytes: &[u8], entries: usize) -> Answer {
    let unwritten = Move::from([UNWRITTEN; MOVE]);
    let mut list = vec![unwritten; entries];
    let (number, count) = plan(bytes, &mut list);
    assert!(list[count..].iter().all(|&entry| entry == unwritten));
    list.truncate(count);
    Answer::Plan(number, count, list)
}
