//! The test-only key maker: keys (f, g, a) that pass the key test, and the thin key that does not.

use super::euclid::{common_divisor, divided_by_root, inverse};
use super::noise::Noise;
use crate::key::s2;
use crate::parameters::{KeyCounts, Set, N, Q};
use crate::ring::{modulo_q, product, whole};

#[derive(Clone, Debug, PartialEq, Eq)]
pub struct Key {
    pub f: Vec<i8>,
    pub g: Vec<i8>,
    pub a: Vec<u16>,
}

/// A key as the key generation of source document 001 makes them.
pub fn published(set: Set, noise: &mut Noise) -> Key {
    let counts = set.key_counts();
    loop {
        let f = sparse(counts, noise);
        let g = sparse(counts, noise);
        if let Some(key) = with_public(f, g) {
            return key;
        }
    }
}

/// A key whose squared length is K: g starts with its largest coefficient.
pub fn at_k(set: Set, noise: &mut Noise) -> Key {
    let counts = set.key_counts();
    let size = if counts.twos > 0 { 2 } else { 1 };
    loop {
        let f = sparse(counts, noise);
        let mut g = sparse(counts, noise);
        let place = g.iter().position(|entry| entry.abs() == size);
        g.swap(0, place.expect("there are coefficients of this size"));
        g[0] = size;
        if let Some(key) = with_public(f, g) {
            return key;
        }
    }
}

/// A key that holds the relation although f has no inverse: f and x^512 + 1 have a root in common,
/// and there 2g + 1 is zero too.
pub fn without_inverse(set: Set, noise: &mut Noise) -> Key {
    let counts = set.key_counts();
    let (f, root, cofactor) = loop {
        let f = sparse(counts, noise);
        let (divisor, cofactor) = common_divisor(&whole(&f));
        if let [constant, 1] = divisor[..] {
            break (f, Q - constant, cofactor);
        }
    };
    let mut powers = vec![1; N];
    for place in 1..N {
        powers[place] = powers[place - 1] * root % Q;
    }
    let mut g = sparse(counts, noise);
    let (_, mut value) = divided_by_root(&s2(&g), root);
    while value != 0 {
        let place = noise.below(N);
        g[place] = -g[place];
        value = (value + 4 * i64::from(g[place]) * powers[place]).rem_euclid(Q);
    }
    let (quotient, _) = divided_by_root(&s2(&g), root);
    let a = public(&modulo_q(&product(&cofactor, &quotient)));
    Key { f, g, a }
}

/// f = 1, g = 0, a = 1, which holds the relation: the key of 01's reference point.
pub fn thin() -> Key {
    let mut f = vec![0; N];
    let mut a = vec![0; N];
    f[0] = 1;
    a[0] = 1;
    Key {
        f,
        g: vec![0; N],
        a,
    }
}

/// A key that passes the key test of the set, and whose f has an inverse.
pub fn any(set: Set, noise: &mut Noise) -> Key {
    match noise.below(8) {
        0 => at_k(set, noise),
        _ => published(set, noise),
    }
}

/// A vector with exactly these counts, the rest zero.
fn sparse(counts: KeyCounts, noise: &mut Noise) -> Vec<i8> {
    let KeyCounts { ones, twos } = counts;
    let mut vector = vec![0; N];
    for (drawn, place) in noise.places(ones + twos, N).into_iter().enumerate() {
        let size = if drawn < ones { 1 } else { 2 };
        vector[place] = if noise.bit() { size } else { -size };
    }
    vector
}

/// The key with a = (2g + 1) / f modulo q, where f has an inverse.
pub fn with_public(f: Vec<i8>, g: Vec<i8>) -> Option<Key> {
    let inverse = inverse(&whole(&f))?;
    let a = public(&modulo_q(&product(&s2(&g), &inverse)));
    Some(Key { f, g, a })
}

fn public(a: &[i64]) -> Vec<u16> {
    a.iter().map(|&entry| entry as u16).collect()
}
