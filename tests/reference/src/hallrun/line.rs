//! Reading a line.

use crate::call::Call;
use crate::record::FIELD;

/// The call of a line, None where it is not readable. `list` is the length of the list buffer.
pub fn parse(line: &[u8], list: usize) -> Option<Call> {
    let words: Vec<&[u8]> = line.split(|&byte| byte == b' ').collect();
    let (letter, arguments) = words.split_first()?;
    Some(match (*letter, arguments) {
        (b"L", [b]) => Call::LayOut { b: number(b, 2)? },
        (b"T", [key, field]) => Call::Teach { key: number(key, 8)?, field: field_of(field)? },
        (b"C", [key, field]) => Call::Correct { key: number(key, 8)?, field: field_of(field)? },
        (b"E", [key]) => Call::Erase { key: number(key, 8)? },
        (b"R", [key]) => Call::Read { key: number(key, 8)?, out: FIELD },
        (b"O", [unit]) => Call::Out { unit: number(unit, 2)? },
        (b"F", [group]) => Call::Repair { group: number(group, 2)? },
        (b"G", []) => Call::Grow,
        (b"S", []) => Call::Shrink,
        (b"K", []) => Call::Raise,
        (b"P", []) => Call::List { out: list },
        _ => return None,
    })
}

/// The number of so many capital hexadecimal digits.
fn number(word: &[u8], digits: usize) -> Option<u32> {
    if word.len() != digits {
        return None;
    }
    word.iter().try_fold(0, |value, &byte| Some(value << 4 | digit(byte)?))
}

fn digit(byte: u8) -> Option<u32> {
    match byte {
        b'0'..=b'9' => Some((byte - b'0') as u32),
        b'A'..=b'F' => Some((byte - b'A') as u32 + 10),
        _ => None,
    }
}

/// The field of its digits, body and stamp.
fn field_of(word: &[u8]) -> Option<Vec<u8>> {
    if word.len() != 2 * FIELD {
        return None;
    }
    word.chunks(2).map(|pair| number(pair, 2).map(|byte| byte as u8)).collect()
}
