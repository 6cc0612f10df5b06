//! Division of polynomials modulo q, for keys.

use crate::parameters::{N, Q};
use crate::ring::{modulo_q, Whole};

/// The inverse of f modulo q and x^512 + 1, where it has one.
pub fn inverse(f: &[i64]) -> Option<Whole> {
    let (divisor, cofactor) = common_divisor(f);
    (divisor == [1]).then_some(cofactor)
}

/// The greatest common divisor of f and x^512 + 1 modulo q, with 1 as its last coefficient, and a
/// cofactor: the divisor is the cofactor times f modulo q and x^512 + 1. By Euclid's way, in which
/// each remainder is its cofactor times f.
pub fn common_divisor(f: &[i64]) -> (Whole, Whole) {
    let mut ring = vec![0; N + 1];
    ring[0] = 1;
    ring[N] = 1;
    let mut remainders = (ring, trimmed(modulo_q(f)));
    let mut cofactors = (Whole::new(), vec![1]);
    while let Some(&last) = remainders.1.last() {
        let scale = field_inverse(last);
        while remainders.0.len() >= remainders.1.len() {
            let shift = remainders.0.len() - remainders.1.len();
            let factor = remainders.0[remainders.0.len() - 1] * scale % Q;
            subtract(&mut remainders.0, &remainders.1, factor, shift);
            subtract(&mut cofactors.0, &cofactors.1, factor, shift);
        }
        remainders = (remainders.1, remainders.0);
        cofactors = (cofactors.1, cofactors.0);
    }
    let scale = field_inverse(remainders.0[remainders.0.len() - 1]);
    let scaled = |entries: Whole| entries.iter().map(|entry| entry * scale % Q).collect();
    let (divisor, mut cofactor): (Whole, Whole) = (scaled(remainders.0), scaled(cofactors.0));
    cofactor.resize(N, 0);
    (divisor, cofactor)
}

/// The quotient of a polynomial by x - root modulo q, and what is left: its value at the root.
pub fn divided_by_root(polynomial: &[i64], root: i64) -> (Whole, i64) {
    let mut quotient = vec![0; polynomial.len()];
    let mut carried = 0;
    for (entry, coefficient) in quotient.iter_mut().zip(polynomial).rev() {
        *entry = carried;
        carried = (carried * root + coefficient).rem_euclid(Q);
    }
    (quotient, carried)
}

/// left - factor x^shift right modulo q, with no zero at the end.
fn subtract(left: &mut Whole, right: &[i64], factor: i64, shift: usize) {
    if left.len() < right.len() + shift {
        left.resize(right.len() + shift, 0);
    }
    for (i, entry) in right.iter().enumerate() {
        left[i + shift] = (left[i + shift] - factor * entry).rem_euclid(Q);
    }
    *left = trimmed(std::mem::take(left));
}

fn trimmed(mut polynomial: Whole) -> Whole {
    while polynomial.last() == Some(&0) {
        polynomial.pop();
    }
    polynomial
}

/// x to the power q - 2 modulo q.
fn field_inverse(x: i64) -> i64 {
    let (mut power, mut square, mut exponent) = (1, x, Q - 2);
    while exponent > 0 {
        if exponent % 2 == 1 {
            power = power * square % Q;
        }
        square = square * square % Q;
        exponent /= 2;
    }
    power
}
