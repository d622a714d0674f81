//! Symbols of the ledger's picture: products by logarithms to the base 2, which is primitive, and
//! coefficients by interpolation.

/// POWERS[i] is 2 to the power i: shift left, and reduce t^4 to t + 1.
const POWERS: [u8; 15] = powers();

const fn powers() -> [u8; 15] {
    let mut powers = [1; 15];
    let mut i = 1;
    while i < 15 {
        let doubled = powers[i - 1] << 1;
        powers[i] = if doubled > 15 { doubled ^ 0b10011 } else { doubled };
        i += 1;
    }
    powers
}

/// The exponent of a symbol; 0 has none.
const fn logarithm(symbol: u8) -> Option<usize> {
    let mut i = 0;
    while i < 15 {
        if POWERS[i] == symbol {
            return Some(i);
        }
        i += 1;
    }
    None
}

pub fn product(a: u8, b: u8) -> u8 {
    match (logarithm(a), logarithm(b)) {
        (Some(i), Some(j)) => POWERS[(i + j) % 15],
        _ => 0,
    }
}

fn quotient(a: u8, b: u8) -> u8 {
    let j = logarithm(b).expect("division by 0");
    logarithm(a).map_or(0, |i| POWERS[(i + 15 - j) % 15])
}

/// What data symbol `place` counts in a column: the value at point `column` of the cubic that is 1
/// at `place` and 0 at the other points of 0 to 3; in column 16 that cubic's leading coefficient.
pub fn coefficient(place: u8, column: u8) -> u8 {
    let others = (0..4).filter(|&point| point != place);
    others.fold(1, |value, point| {
        let factor = if column == 16 { 1 } else { column ^ point };
        product(value, quotient(factor, place ^ point))
    })
}
