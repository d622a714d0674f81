//! GF(16): polynomials over GF(2) modulo t^4+t+1, bit i of a symbol as the coefficient of t^i.

const MODULUS: u8 = 0b10011;

/// The product by the rule: multiply the polynomials, then take away multiples of the modulus.
const fn product_by_rule(a: u8, b: u8) -> u8 {
    let mut product = 0;
    let mut i = 0;
    while i < 4 {
        if b >> i & 1 == 1 {
            product ^= a << i;
        }
        i += 1;
    }
    let mut degree = 6;
    while degree >= 4 {
        if product >> degree & 1 == 1 {
            product ^= MODULUS << (degree - 4);
        }
        degree -= 1;
    }
    product
}

const PRODUCTS: [[u8; 16]; 16] = products();

const fn products() -> [[u8; 16]; 16] {
    let mut table = [[0; 16]; 16];
    let mut i = 0;
    while i < 256 {
        table[i / 16][i % 16] = product_by_rule((i / 16) as u8, (i % 16) as u8);
        i += 1;
    }
    table
}

pub fn product(a: u8, b: u8) -> u8 {
    PRODUCTS[a as usize][b as usize]
}

/// The symbol whose product with `a` is 1; `a` is not 0.
pub fn inverse(a: u8) -> u8 {
    (1..16).find(|&x| product(a, x) == 1).expect("0 has no inverse")
}

/// A byte as two symbols, high half first.
pub fn symbols(byte: u8) -> [u8; 2] {
    [byte >> 4, byte & 15]
}

pub fn byte(symbols: [u8; 2]) -> u8 {
    symbols[0] << 4 | symbols[1]
}

/// A symbol times both symbols of each byte.
pub fn scaled<const N: usize>(symbol: u8, bytes: [u8; N]) -> [u8; N] {
    bytes.map(|b| byte(symbols(b).map(|s| product(symbol, s))))
}

/// The sum of the symbols of each two bytes.
pub fn sum<const N: usize>(a: [u8; N], b: [u8; N]) -> [u8; N] {
    std::array::from_fn(|i| a[i] ^ b[i])
}
