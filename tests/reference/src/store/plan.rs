//! Growing in two strokes (document 02, request 6): asking for the plan of a grow, and committing it.

use super::layout::{parent, unit_of, View};
use super::units::{add_unit, grow_number};
use crate::moves::Move;

/// Number and count.
pub fn plan(bytes: &[u8], list: &mut [Move]) -> (u8, usize) {
    match grow_number(bytes) {
        0 => write_plan(&moves(View::new(bytes).unwrap()), list),
        number => (number, 0),
    }
}

/// Writes moves to the front of a list, where they fit: number and count.
pub fn write_plan(moves: &[Move], list: &mut [Move]) -> (u8, usize) {
    let Some(front) = list.get_mut(..moves.len()) else { return (7, 0) };
    front.copy_from_slice(moves);
    (0, moves.len())
}

pub fn commit(bytes: &mut [u8], list: &[Move], count: usize) -> u8 {
    commit_if(bytes, |plan| count <= list.len() && list[..count] == *plan)
}

/// Grows, where what was committed is the plan, which it is held against.
pub fn commit_if(bytes: &mut [u8], is_plan: impl FnOnce(&[Move]) -> bool) -> u8 {
    let number = grow_number(bytes);
    if number != 0 {
        return number;
    }
    if !is_plan(&moves(View::new(bytes).unwrap())) {
        return 11;
    }
    add_unit(bytes);
    0
}

/// The plan of a store, from the slots of the unit that a grow splits.
pub fn moves(view: View) -> Vec<Move> {
    moves_of(view, view.units())
}

/// The moves by which unit `added` is split off. A record's new rank is the number of slots, up to its
/// own, whose records go to the same unit.
pub fn moves_of(view: View, added: usize) -> Vec<Move> {
    let split = parent(added);
    let slots = 0..view.count(split);
    let new_units: Vec<usize> =
        slots.clone().map(|slot| unit_of(added + 1, view.key(split, slot))).collect();
    let of_slot = |slot: usize| {
        let to_the_same = new_units[..=slot].iter().filter(|&&unit| unit == new_units[slot]);
        Move::new((split, slot + 1), (new_units[slot], to_the_same.count()))
    };
    slots.map(of_slot).collect()
}
