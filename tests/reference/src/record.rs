//! The parts of a record and their widths in bytes (document 02, request 4). A record is a key and a
//! field. Its field is a body and behind it a stamp, a number of 32 bits, big-endian, that says when
//! it was taught. Calls take the field whole and hand it back whole, and parity is that of the whole.
//!
//! `store::field` and `segment::field` are something else: the finite fields of the two coders.

pub const KEY: usize = 4;
pub const BODY: usize = 16;
pub const STAMP: usize = 4;
pub const FIELD: usize = BODY + STAMP;
/// An entry of a list, and a slot of a data unit.
pub const RECORD: usize = KEY + FIELD;

/// The field of a body and a stamp.
pub fn field_of(body: [u8; BODY], stamp: u32) -> [u8; FIELD] {
    let mut field = [0; FIELD];
    field[..BODY].copy_from_slice(&body);
    field[BODY..].copy_from_slice(&stamp.to_be_bytes());
    field
}

/// The body of a field.
pub fn body_of(field: &[u8; FIELD]) -> [u8; BODY] {
    std::array::from_fn(|i| field[i])
}

/// The stamp of a field.
pub fn stamp_of(field: &[u8; FIELD]) -> u32 {
    u32::from_be_bytes(std::array::from_fn(|i| field[BODY + i]))
}
