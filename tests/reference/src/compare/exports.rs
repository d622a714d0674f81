//! This crate's byte store and byte coder under the C names of those under test, so that the
//! comparison and the C programs can be tried on them.

use super::faults::{seeded, spoil};
use super::misplaced::{read_misses, unit_or_fail};
use super::plan_faults::{ask_or_fail, commit_or_fail};
use super::rank_faults::{self, lacks_check_units, lies_beside_a_lost_rank, lies_in_a_unit_out};
use super::segment_faults::rebuild_or_fail;
use super::stamp_faults::{clear_listed_stamps_of_units_out, list_without_stamps};
use crate::call::Kind;
use crate::moves::{Move, MOST_MOVES, MOVE};
use crate::record::{BODY, FIELD, RECORD};
use crate::segment::field::product;
use crate::store::layout::{field_at, MOST_UNITS};
use crate::store::{self, matrix};
use std::slice;

/// A slice or a list that C lends; with length 0 its pointer may be null.
unsafe fn lent<'a, T>(start: *const T, len: usize) -> &'a [T] {
    if len == 0 {
        return &[];
    }
    slice::from_raw_parts(start, len)
}

unsafe fn lent_mut<'a, T>(start: *mut T, len: usize) -> &'a mut [T] {
    if len == 0 {
        return &mut [];
    }
    slice::from_raw_parts_mut(start, len)
}

#[no_mangle]
unsafe extern "C" fn lhrs_lay_out(store: *mut u8, len: usize, b: u32) -> u8 {
    spoil(Kind::LayOut, lent_mut(store, len), |store| store::lay_out(store, b))
}

#[no_mangle]
unsafe extern "C" fn lhrs_teach(
    store: *mut u8,
    len: usize,
    key: u32,
    field: *const u8,
    field_len: usize,
) -> u8 {
    let field = lent(field, field_len);
    spoil(Kind::Teach, lent_mut(store, len), |store| store::teach(store, key, field))
}

#[no_mangle]
unsafe extern "C" fn lhrs_correct(
    store: *mut u8,
    len: usize,
    key: u32,
    field: *const u8,
    field_len: usize,
) -> u8 {
    let field = lent(field, field_len);
    spoil(Kind::Correct, lent_mut(store, len), |store| store::correct(store, key, field))
}

#[no_mangle]
unsafe extern "C" fn lhrs_erase(store: *mut u8, len: usize, key: u32) -> u8 {
    spoil(Kind::Erase, lent_mut(store, len), |store| store::erase(store, key))
}

#[no_mangle]
unsafe extern "C" fn lhrs_read(
    store: *const u8,
    len: usize,
    key: u32,
    out: *mut u8,
    out_len: usize,
) -> u8 {
    let out = lent_mut(out, out_len);
    let store = lent(store, len);
    if seeded("read-by-the-key-itself") && read_misses(store, key) {
        return 6;
    }
    let number = rank_faults::read(store, key, out);
    let not_listed = seeded("read-of-a-key-not-listed-says-8") && number == 6;
    if not_listed && lies_beside_a_lost_rank(store, key) {
        return 8;
    }
    let stamp_lost = seeded("read-of-a-unit-out-yields-stamp-0");
    if stamp_lost && number == 0 && lies_in_a_unit_out(store, key) {
        out[BODY..].fill(0);
    }
    number
}

#[no_mangle]
unsafe extern "C" fn lhrs_list(
    store: *const u8,
    len: usize,
    out: *mut u8,
    out_len: usize,
    count: *mut usize,
) -> u8 {
    let out = lent_mut(out, out_len);
    let store = lent(store, len);
    let without_stamps = seeded("list-without-stamps");
    let list = if without_stamps { list_without_stamps } else { rank_faults::list };
    let (mut number, mut listed) = list(store, out);
    if seeded("list-refused-without-check-units") && number == 0 && lacks_check_units(store) {
        (number, listed) = (8, 0);
    }
    let end = RECORD * listed as usize;
    if seeded("list-writes-behind") && number == 0 && end < out_len {
        out[end] ^= 1;
    }
    if seeded("list-of-a-unit-out-yields-stamp-0") && number == 0 {
        clear_listed_stamps_of_units_out(store, &mut out[..end]);
    }
    let count_left = seeded("list-leaves-the-count-when-refused") && number != 0;
    if !count_left {
        *count = listed as usize + seeded("list-invents-its-count") as usize;
    }
    number
}

#[no_mangle]
unsafe extern "C" fn compared_read_in_place(
    store: *const u8,
    len: usize,
    key: u32,
    out: *mut u8,
    out_len: usize,
) -> usize {
    let store = lent(store, len);
    let mut part = store::read_in_place(store, key);
    let of_a_unit_out = seeded("read-in-place-of-a-unit-out") && part.is_empty();
    if of_a_unit_out && store::read(store, key, &mut [0; FIELD]) == 0 {
        part = &store[field_at(1, 0, 0)..][..FIELD];
    }
    if seeded("read-in-place-of-the-body-alone") && !part.is_empty() {
        part = &part[..BODY];
    }
    if part.len() <= out_len {
        lent_mut(out, part.len()).copy_from_slice(part);
    }
    part.len()
}

#[no_mangle]
unsafe extern "C" fn compared_rebuild(
    columns: *const [u8; 4],
    symbols: *const [u8; 4],
    data: *mut [u8; 4],
) -> u8 {
    let columns = (*columns).map(usize::from);
    let (number, found) = matrix::rebuild(columns, *symbols);
    if !(seeded("rebuild-leaves-data-when-refused") && number != 0) {
        *data = found;
    }
    if seeded("rebuild-without-column-16") && columns.contains(&16) {
        return 2;
    }
    number
}

#[no_mangle]
extern "C" fn compared_coefficient(place: usize, column: usize) -> u8 {
    let entry = matrix::entry(place % 4, column % 17);
    entry ^ (seeded("a-wrong-coefficient") && place == 2 && column == 11) as u8
}

#[no_mangle]
unsafe extern "C" fn lhrs_out(store: *mut u8, len: usize, unit: u32) -> u8 {
    spoil(Kind::Out, lent_mut(store, len), |store| store::unit_out(store, unit))
}

#[no_mangle]
unsafe extern "C" fn lhrs_repair(store: *mut u8, len: usize, group: u32) -> u8 {
    spoil(Kind::Repair, lent_mut(store, len), |store| rank_faults::repair(store, group))
}

#[no_mangle]
unsafe extern "C" fn lhrs_grow(store: *mut u8, len: usize) -> u8 {
    spoil(Kind::Grow, lent_mut(store, len), store::grow)
}

#[no_mangle]
unsafe extern "C" fn lhrs_shrink(store: *mut u8, len: usize) -> u8 {
    spoil(Kind::Shrink, lent_mut(store, len), store::shrink)
}

#[no_mangle]
unsafe extern "C" fn lhrs_raise(store: *mut u8, len: usize) -> u8 {
    spoil(Kind::Raise, lent_mut(store, len), store::raise)
}

#[no_mangle]
unsafe extern "C" fn lhrs_plan(
    store: *const u8,
    len: usize,
    moves: *mut Move,
    moves_len: usize,
    count: *mut usize,
) -> u8 {
    let (number, planned) = ask_or_fail(lent(store, len), lent_mut(moves, moves_len));
    if seeded("plan-writes-behind-the-list") && number == 0 && planned == moves_len {
        *moves.add(moves_len) = Move::from([0; MOVE]);
    }
    if seeded("plan-grows") && number == 0 {
        store::grow(lent_mut(store.cast_mut(), len));
    }
    let count_left = seeded("plan-leaves-the-count-when-refused") && number != 0;
    if !count_left {
        *count = planned;
    }
    number
}

#[no_mangle]
unsafe extern "C" fn lhrs_commit(
    store: *mut u8,
    len: usize,
    moves: *const Move,
    moves_len: usize,
    count: usize,
) -> u8 {
    // The comparison has room behind each list for as many moves as a plan can have.
    let reads_on = seeded("commit-reads-behind-the-list") && count <= MOST_MOVES;
    let list = lent(moves, if reads_on { moves_len.max(count) } else { moves_len });
    spoil(Kind::Commit, lent_mut(store, len), |store| commit_or_fail(store, list, count))
}

#[no_mangle]
unsafe extern "C" fn lhrs_rebuild_segment(
    members: *mut u8,
    members_len: usize,
    marks: *mut u8,
    marks_len: usize,
    m: u32,
) -> u8 {
    rebuild_or_fail(lent_mut(members, members_len), lent_mut(marks, marks_len), m)
}

#[no_mangle]
extern "C" fn compared_unit_of(last: u8, key: u32) -> u8 {
    unit_or_fail(last as usize % MOST_UNITS + 1, key) as u8
}

#[no_mangle]
extern "C" fn compared_product(a: u8, b: u8) -> u8 {
    if seeded("zero-with-logarithm-0") {
        return product(a.max(1), b.max(1));
    }
    product(a, b)
}
