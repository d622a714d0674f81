//! The store and the byte coder under test, by their C names.

use super::arena::Arena;
use super::returned::Returned;
use crate::call::Call;
use crate::moves::Move;

// What a library exports for C.
extern "C" {
    fn lhrs_lay_out(store: *mut u8, len: usize, b: u32) -> u8;
    fn lhrs_teach(store: *mut u8, len: usize, key: u32, field: *const u8, field_len: usize) -> u8;
    fn lhrs_correct(store: *mut u8, len: usize, key: u32, field: *const u8, field_len: usize)
        -> u8;
    fn lhrs_erase(store: *mut u8, len: usize, key: u32) -> u8;
    fn lhrs_read(store: *const u8, len: usize, key: u32, out: *mut u8, out_len: usize) -> u8;
    fn lhrs_list(
        store: *const u8,
        len: usize,
        out: *mut u8,
        out_len: usize,
        count: *mut usize,
    ) -> u8;
    fn lhrs_out(store: *mut u8, len: usize, unit: u32) -> u8;
    fn lhrs_repair(store: *mut u8, len: usize, group: u32) -> u8;
    fn lhrs_grow(store: *mut u8, len: usize) -> u8;
    fn lhrs_shrink(store: *mut u8, len: usize) -> u8;
    fn lhrs_raise(store: *mut u8, len: usize) -> u8;
    fn lhrs_plan(
        store: *const u8,
        len: usize,
        moves: *mut Move,
        moves_len: usize,
        count: *mut usize,
    ) -> u8;
    fn lhrs_commit(
        store: *mut u8,
        len: usize,
        moves: *const Move,
        moves_len: usize,
        count: usize,
    ) -> u8;
    fn lhrs_rebuild_segment(
        members: *mut u8,
        members_len: usize,
        marks: *mut u8,
        marks_len: usize,
        m: u32,
    ) -> u8;
}

// What crate comparing exports for these comparisons.
extern "C" {
    fn compared_read_in_place(
        store: *const u8,
        len: usize,
        key: u32,
        out: *mut u8,
        out_len: usize,
    ) -> usize;
    fn compared_rebuild(columns: *const u8, symbols: *const u8, data: *mut u8) -> u8;
    fn compared_coefficient(place: usize, column: usize) -> u8;
    fn compared_product(a: u8, b: u8) -> u8;
    fn compared_unit_of(last: u8, key: u32) -> u8;
}

/// Makes a call on the first `len` bytes of a store's arena. `lent` is the arena of the field, of the
/// output or of the list of moves; the part of read in place is copied to its front.
pub fn call(store: &mut Arena, len: usize, call: &Call, lent: &mut Arena) -> Returned {
    let store = store.start();
    let out_len = lent.capacity();
    let lent = lent.start();
    // The arenas hold the slices whole, and they are different allocations.
    Returned::Number(unsafe {
        match call {
            Call::LayOut { b } => lhrs_lay_out(store, len, *b),
            Call::Teach { key, .. } => lhrs_teach(store, len, *key, lent, out_len),
            Call::Correct { key, .. } => lhrs_correct(store, len, *key, lent, out_len),
            Call::Erase { key } => lhrs_erase(store, len, *key),
            Call::Read { key, .. } => lhrs_read(store, len, *key, lent, out_len),
            Call::ReadInPlace { key } => {
                return Returned::Part(compared_read_in_place(store, len, *key, lent, out_len));
            }
            Call::List { .. } => {
                let mut count = usize::MAX;
                let number = lhrs_list(store, len, lent, out_len, &mut count);
                return Returned::Counted(number, count);
            }
            Call::Plan { entries } => {
                let mut count = usize::MAX;
                let number = lhrs_plan(store, len, lent.cast(), *entries, &mut count);
                return Returned::Counted(number, count);
            }
            Call::Commit { moves, count } => {
                lhrs_commit(store, len, lent.cast(), moves.len(), *count)
            }
            Call::Out { unit } => lhrs_out(store, len, *unit),
            Call::Repair { group } => lhrs_repair(store, len, *group),
            Call::Grow => lhrs_grow(store, len),
            Call::Shrink => lhrs_shrink(store, len),
            Call::Raise => lhrs_raise(store, len),
        }
    })
}

/// Rebuilds from the symbols at four columns; each arena has room for four bytes.
pub fn rebuild(columns: &mut Arena, symbols: &mut Arena, data: &mut Arena) -> u8 {
    unsafe { compared_rebuild(columns.start(), symbols.start(), data.start()) }
}

/// The entry of the matrix of a place, 0 to 3, and a column, 0 to 16.
pub fn coefficient(place: usize, column: usize) -> u8 {
    unsafe { compared_coefficient(place, column) }
}

/// The unit of a key among so many units, 1 to 16.
pub fn unit_of(units: usize, key: u32) -> usize {
    usize::from(unsafe { compared_unit_of((units - 1) as u8, key) })
}

/// Rebuilds a segment; the arenas hold its members and its marks.
pub fn rebuild_segment(members: &mut Arena, marks: &mut Arena, m: u32) -> u8 {
    let (members_len, marks_len) = (members.capacity(), marks.capacity());
    // The arenas hold the slices whole, and they are different allocations.
    unsafe { lhrs_rebuild_segment(members.start(), members_len, marks.start(), marks_len, m) }
}

/// The product of two bytes in the field of the byte coder.
pub fn product(a: u8, b: u8) -> u8 {
    unsafe { compared_product(a, b) }
}
