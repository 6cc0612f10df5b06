//! "Key", with the counts that paper 02 adds to it (C-12).

use crate::answers::Refusal;
use crate::parameters::{require_vectors, KeyCounts, Set, N, Q};
use crate::ring::{modulo_q, product, squared_length, whole, Whole};

/// The key test: 1, 2, 3, 15, 7, 6.
pub fn key_test(set: u32, f: &[i8], g: &[i8], a: &[u16]) -> Result<(), Refusal> {
    let set = Set::asked(set)?;
    require_vectors(&[f.len(), g.len(), a.len()])?;
    require_secret_range(f)?;
    require_secret_range(g)?;
    require_public_range(a)?;
    require_proper(set, f, g, a)
}

/// Refusals 15, 7 and 6: what makes a key within its ranges a proper one, for the key test and for
/// the response.
pub fn require_proper(set: Set, f: &[i8], g: &[i8], a: &[u16]) -> Result<(), Refusal> {
    require_counts(set, f, g)?;
    require_key_length(set, f, g)?;
    require_relation(f, g, a)
}

/// Refusal 3, for f and g: -2 .. 2.
pub fn require_secret_range(secret: &[i8]) -> Result<(), Refusal> {
    if secret.iter().all(|entry| (-2..=2).contains(entry)) {
        Ok(())
    } else {
        Err(Refusal::COEFFICIENT)
    }
}

/// Refusal 3, for a: 0 .. 12288.
pub fn require_public_range(a: &[u16]) -> Result<(), Refusal> {
    if a.iter().all(|&entry| i64::from(entry) < Q) {
        Ok(())
    } else {
        Err(Refusal::COEFFICIENT)
    }
}

/// Refusal 15: f and g each have exactly d1 coefficients of 1 or -1 and exactly d2 of 2 or -2, the
/// rest zero.
pub fn require_counts(set: Set, f: &[i8], g: &[i8]) -> Result<(), Refusal> {
    let wanted = set.key_counts();
    let zeros = N - wanted.ones - wanted.twos;
    let right = |secret: &[i8]| counts_of(secret) == wanted && of_size(0, secret) == zeros;
    if right(f) && right(g) {
        Ok(())
    } else {
        Err(Refusal::COUNTS)
    }
}

pub fn counts_of(secret: &[i8]) -> KeyCounts {
    KeyCounts {
        ones: of_size(1, secret),
        twos: of_size(2, secret),
    }
}

/// How many coefficients have this absolute value.
fn of_size(size: u8, secret: &[i8]) -> usize {
    let of_size = secret.iter().filter(|entry| entry.unsigned_abs() == size);
    of_size.count()
}

/// s1 = f.
pub fn s1(f: &[i8]) -> Whole {
    whole(f)
}

/// s2 = 2g + 1, where the 1 stands at place 0.
pub fn s2(g: &[i8]) -> Whole {
    let mut s2: Whole = g.iter().map(|&entry| 2 * i64::from(entry)).collect();
    s2[0] += 1;
    s2
}

/// The sum of the squares of s1 and s2.
pub fn key_squared_length(f: &[i8], g: &[i8]) -> i64 {
    squared_length(&s1(f)) + squared_length(&s2(g))
}

/// Refusal 7: the squared length is at most K.
pub fn require_key_length(set: Set, f: &[i8], g: &[i8]) -> Result<(), Refusal> {
    if key_squared_length(f, g) <= set.k() {
        Ok(())
    } else {
        Err(Refusal::KEY_LENGTH)
    }
}

/// Refusal 6: a times f = 2g + 1 modulo q.
pub fn require_relation(f: &[i8], g: &[i8], a: &[u16]) -> Result<(), Refusal> {
    if modulo_q(&product(&whole(a), &whole(f))) == modulo_q(&s2(g)) {
        Ok(())
    } else {
        Err(Refusal::RELATION)
    }
}
