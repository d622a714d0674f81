//! GF(256): polynomials over GF(2) modulo t^8+t^4+t^3+t^2+1, bit i of a byte as the coefficient of t^i.

use std::array;
use std::sync::LazyLock;

const MODULUS: u16 = 0b1_0001_1101;

/// A byte for each byte.
pub type Row = [u8; 256];

static PRODUCTS: LazyLock<Vec<Row>> = LazyLock::new(|| {
    let products_of = |a| array::from_fn(|b| product_by_rule(a, b as u8));
    (0..=255).map(products_of).collect()
});

static INVERSES: LazyLock<Row> = LazyLock::new(|| array::from_fn(|a| found_inverse(a as u8)));

/// The product by the rule: multiply the polynomials, then take away multiples of the modulus.
fn product_by_rule(a: u8, b: u8) -> u8 {
    let mut product = 0;
    for i in (0..8).filter(|i| b >> i & 1 == 1) {
        product ^= (a as u16) << i;
    }
    for degree in (8..15).rev() {
        if product >> degree & 1 == 1 {
            product ^= MODULUS << (degree - 8);
        }
    }
    product as u8
}

/// The byte whose product with `a` is 1, by search; 0 for 0, which has none.
fn found_inverse(a: u8) -> u8 {
    (1..=255).find(|&x| product(a, x) == 1).unwrap_or(0)
}

pub fn product(a: u8, b: u8) -> u8 {
    products_of(a)[b as usize]
}

/// The products of a byte with each byte.
pub fn products_of(a: u8) -> &'static Row {
    &PRODUCTS[a as usize]
}

/// The byte whose product with `a` is 1; `a` is not 0.
pub fn inverse(a: u8) -> u8 {
    assert!(a != 0, "0 has no inverse");
    INVERSES[a as usize]
}
