//! The code layer against the reference: the matrix, and rebuilding from any four columns.

use super::arena::Arena;
use super::subject;
use crate::random::Random;
use crate::store::matrix::{encode, entry, rebuild};

/// What the comparison gave.
pub struct CodeOutcome {
    /// Rebuildings compared.
    pub compared: usize,
    /// Those that were granted.
    pub granted: usize,
    /// What differs first.
    pub difference: Option<String>,
}

/// Compares every entry of the matrix, rebuilding at every choice of four columns, and `more`
/// rebuildings with columns and symbols in and out of range.
pub fn compare_code(more: usize) -> CodeOutcome {
    let mut random = Random::new(0x434F_4445_0000);
    let mut outcome = CodeOutcome { compared: 0, granted: 0, difference: matrix_differs() };
    for choice in 0..17u32.pow(4) {
        let columns = [1, 17, 289, 4913].map(|power| (choice / power % 17) as u8);
        let data = [0; 4].map(|_| random.below(16) as u8);
        let symbols = columns.map(|column| encode(data, column as usize));
        outcome.compare(columns, symbols);
    }
    for _ in 0..more {
        let (columns, symbols) = any_given(&mut random);
        outcome.compare(columns, symbols);
    }
    outcome
}

fn matrix_differs() -> Option<String> {
    let entries = (0..4).flat_map(|place| (0..17).map(move |column| (place, column)));
    let differs = |&(place, column): &(usize, usize)| {
        subject::coefficient(place, column) != entry(place, column)
    };
    let (place, column) = entries.into_iter().find(differs)?;
    Some(format!("the coefficient of place {place} and column {column}"))
}

/// Four different columns with any symbols; in three of four cases up to three of these numbers
/// become any.
fn any_given(random: &mut Random) -> ([u8; 4], [u8; 4]) {
    let mut columns: Vec<u8> = (0..17).collect();
    (0..4).for_each(|i| columns.swap(i, i + random.below(17 - i)));
    let mut numbers: Vec<u8> = columns[..4].to_vec();
    numbers.extend((0..4).map(|_| random.below(16) as u8));
    for _ in 0..random.below(4) {
        let near = random.below(20) as u8;
        numbers[random.below(8)] = random.pick(&[near, 15, 16, 17, 32, 128, 255]);
    }
    (numbers[..4].try_into().unwrap(), numbers[4..].try_into().unwrap())
}

impl CodeOutcome {
    fn compare(&mut self, columns: [u8; 4], symbols: [u8; 4]) {
        let (expected, data) = rebuild(columns.map(usize::from), symbols);
        self.compared += 1;
        self.granted += (expected == 0) as usize;
        if self.difference.is_none() && rebuilt(columns, symbols) != Some((expected, data)) {
            self.difference = Some(format!("rebuilding from {symbols:?} at columns {columns:?}"));
        }
    }
}

/// Number and data of the layer under test; None where a byte around the lent arrays changed.
fn rebuilt(columns: [u8; 4], symbols: [u8; 4]) -> Option<(u8, [u8; 4])> {
    let given = [Arena::holding(7, &columns), Arena::holding(5, &symbols)];
    let [mut at, mut by] = given.clone();
    let mut data = Arena::new(3, 4);
    let number = subject::rebuild(&mut at, &mut by, &mut data);
    let found: [u8; 4] = data.slice(4).try_into().unwrap();
    let mut only_data = Arena::new(3, 4);
    only_data.write(0, &found);
    ([at, by] == given && data == only_data).then_some((number, found))
}
