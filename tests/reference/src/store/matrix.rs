//! The matrix of document 01, and rebuilding by elimination.

use super::field::{inverse, product};

/// Columns 4 to 16; columns 0 to 3 are the identity.
const REST: [[u8; 13]; 4] = [
    [0x8, 0xF, 0x1, 0x7, 0x7, 0x9, 0x3, 0xC, 0x2, 0xA, 0xE, 0x7, 0x7],
    [0xF, 0x8, 0x7, 0x1, 0x9, 0x7, 0xC, 0x3, 0xA, 0x2, 0x7, 0xE, 0x7],
    [0x1, 0x7, 0x8, 0xF, 0x3, 0xC, 0x7, 0x9, 0xE, 0x7, 0x2, 0xA, 0x7],
    [0x7, 0x1, 0xF, 0x8, 0xC, 0x3, 0x9, 0x7, 0x7, 0xE, 0xA, 0x2, 0x7],
];

pub fn entry(row: usize, column: usize) -> u8 {
    if column < 4 {
        (row == column) as u8
    } else {
        REST[row][column - 4]
    }
}

/// The symbol of a column for four data symbols.
pub fn encode(data: [u8; 4], column: usize) -> u8 {
    (0..4).fold(0, |sum, row| sum ^ product(data[row], entry(row, column)))
}

/// The code layer's rebuilding: number and data symbols.
pub fn rebuild(columns: [usize; 4], given: [u8; 4]) -> (u8, [u8; 4]) {
    let twice = (0..4).any(|i| columns[..i].contains(&columns[i]));
    if twice || columns.iter().any(|&c| c > 16) || given.iter().any(|&s| s > 15) {
        return (2, [0; 4]);
    }
    let data = solve(columns, given.map(|symbol| vec![symbol]));
    (0, data.map(|row| row[0]))
}

/// The four rows of data symbols that give row i of `given` in column `columns[i]`, by Gaussian
/// elimination. The columns are different, so there is a pivot at each step.
pub fn solve(columns: [usize; 4], given: [Vec<u8>; 4]) -> [Vec<u8>; 4] {
    let mut rows = given;
    for (row, column) in rows.iter_mut().zip(columns) {
        row.splice(0..0, (0..4).map(|place| entry(place, column)));
    }
    for at in 0..4 {
        let pivot = (at..4).find(|&i| rows[i][at] != 0).expect("columns given twice");
        rows.swap(at, pivot);
        let factor = inverse(rows[at][at]);
        rows[at].iter_mut().for_each(|x| *x = product(*x, factor));
        clear_column(&mut rows, at);
    }
    rows.map(|row| row[4..].to_vec())
}

/// Subtracts row `at`, whose entry there is 1, from the others so that theirs become 0.
fn clear_column(rows: &mut [Vec<u8>; 4], at: usize) {
    let pivot = rows[at].clone();
    for (i, row) in rows.iter_mut().enumerate() {
        let factor = row[at];
        if i != at && factor != 0 {
            row.iter_mut().zip(&pivot).for_each(|(x, &p)| *x ^= product(factor, p));
        }
    }
}
