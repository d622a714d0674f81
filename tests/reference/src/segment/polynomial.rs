//! Polynomials over GF(256) through given points, one for each place of a member: a value is a whole
//! member.

use super::field::{inverse, products_of};

/// A polynomial in Newton's form: the sum over k of `differences[k]` times (x - p) for each of the
/// first k points p.
pub struct Polynomial {
    points: Vec<u8>,
    differences: Vec<Vec<u8>>,
}

impl Polynomial {
    /// The polynomial of a degree below the number of points that has these values there, by divided
    /// differences. The points are different.
    pub fn through(points: Vec<u8>, values: Vec<Vec<u8>>) -> Polynomial {
        let mut differences = values;
        for step in 1..points.len() {
            for i in (step..points.len()).rev() {
                let factor = products_of(inverse(points[i] ^ points[i - step]));
                let (before, from) = differences.split_at_mut(i);
                let pairs = from[0].iter_mut().zip(&before[i - 1]);
                pairs.for_each(|(byte, other)| *byte = factor[(*byte ^ other) as usize]);
            }
        }
        Polynomial { points, differences }
    }

    /// The value at a point, by Horner's rule.
    pub fn at(&self, point: u8) -> Vec<u8> {
        let mut value = vec![0; self.differences[0].len()];
        for (p, difference) in self.points.iter().zip(&self.differences).rev() {
            let factor = products_of(point ^ p);
            let pairs = value.iter_mut().zip(difference);
            pairs.for_each(|(byte, more)| *byte = factor[*byte as usize] ^ more);
        }
        value
    }
}
