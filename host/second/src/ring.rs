//! "Ring arithmetic": polynomials of 512 coefficients with x^512 = -1, over whole numbers.

use crate::parameters::{Set, N, Q};

/// A polynomial or vector over whole numbers.
pub type Whole = Vec<i64>;

/// The whole numbers that the entries stand for.
pub fn whole<T: Copy + Into<i64>>(entries: &[T]) -> Whole {
    entries.iter().map(|&entry| entry.into()).collect()
}

/// The signed-wrap product: a term that passes x^511 returns at the bottom with its sign turned.
pub fn product(a: &[i64], b: &[i64]) -> Whole {
    let mut sum = vec![0; N];
    for (i, &left) in a.iter().enumerate() {
        for (j, &right) in b.iter().enumerate() {
            if i + j < N {
                sum[i + j] += left * right;
            } else {
                sum[i + j - N] -= left * right;
            }
        }
    }
    sum
}

/// x^i times s.
pub fn column(s: &[i64], i: usize) -> Whole {
    let mut turned = vec![0; N];
    for (j, &entry) in s.iter().enumerate() {
        if i + j < N {
            turned[i + j] = entry;
        } else {
            turned[i + j - N] = -entry;
        }
    }
    turned
}

/// Each coefficient modulo q, in 0 .. 12288.
pub fn modulo_q(a: &[i64]) -> Whole {
    a.iter().map(|entry| entry.rem_euclid(Q)).collect()
}

/// Modulo 2q, in 0 .. 24577.
pub fn modulo_2q(x: i64) -> i64 {
    x.rem_euclid(2 * Q)
}

pub fn inner_product(a: &[i64], b: &[i64]) -> i64 {
    a.iter().zip(b).map(|(left, right)| left * right).sum()
}

pub fn squared_length(a: &[i64]) -> i64 {
    inner_product(a, a)
}

/// The quotient of x by 2^d, rounded. x has been reduced modulo 24578 first.
pub fn quotient(set: Set, x: i64) -> i64 {
    assert!((0..2 * Q).contains(&x), "{x} is not reduced modulo 24578");
    (x + set.step() / 2).div_euclid(set.step())
}

/// The upper digits of x: the rounded quotient modulo p.
pub fn upper_digits(set: Set, x: i64) -> i64 {
    quotient(set, x) % set.p()
}

/// The rest after rounding: x minus 2^d times the rounded quotient before the remainder by p.
pub fn rest(set: Set, x: i64) -> i64 {
    x - set.step() * quotient(set, x)
}

/// Centring modulo p gives -p/2 .. p/2 - 1.
pub fn centred(set: Set, x: i64) -> i64 {
    let half = set.p() / 2;
    (x + half).rem_euclid(set.p()) - half
}
