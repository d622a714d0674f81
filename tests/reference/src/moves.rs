//! The moves of a plan (document 02, request 6): where the records of the unit that a grow splits lie
//! before it, and where they lie behind it. A record that stays in its unit has a move too.

use std::fmt;

/// A unit and a rank, which counts from 1.
pub type Place = (usize, usize);

/// One move, as it lies in a lent list.
#[derive(Clone, Copy, Debug, PartialEq, Eq, Hash)]
#[repr(C)]
pub struct Move {
    pub old_unit: u8,
    pub old_rank: u8,
    pub new_unit: u8,
    pub new_rank: u8,
}

/// Bytes of a move.
pub const MOVE: usize = 4;

/// The most moves that a plan has, as many as a unit has slots.
pub const MOST_MOVES: usize = 64;

impl Move {
    pub fn new(old: Place, new: Place) -> Move {
        Move::from([old.0, old.1, new.0, new.1].map(|number| number as u8))
    }
}

impl From<[u8; MOVE]> for Move {
    fn from([old_unit, old_rank, new_unit, new_rank]: [u8; MOVE]) -> Move {
        Move { old_unit, old_rank, new_unit, new_rank }
    }
}

impl From<Move> for [u8; MOVE] {
    fn from(entry: Move) -> [u8; MOVE] {
        [entry.old_unit, entry.old_rank, entry.new_unit, entry.new_rank]
    }
}

/// The bytes of a list of moves.
pub fn bytes_of(moves: &[Move]) -> Vec<u8> {
    moves.iter().flat_map(|&entry| <[u8; MOVE]>::from(entry)).collect()
}

/// The list of moves that lies in these bytes.
pub fn moves_in(bytes: &[u8]) -> Vec<Move> {
    let entries = bytes.chunks_exact(MOVE);
    entries.map(|entry| Move::from(<[u8; MOVE]>::try_from(entry).unwrap())).collect()
}

/// The four numbers, in the form of hallrun's arguments.
impl fmt::Display for Move {
    fn fmt(&self, f: &mut fmt::Formatter) -> fmt::Result {
        let Move { old_unit, old_rank, new_unit, new_rank } = self;
        write!(f, "{old_unit:02X} {old_rank:02X} {new_unit:02X} {new_rank:02X}")
    }
}
