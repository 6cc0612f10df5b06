//! "Commitment", and the rests that paper 02 adds to it.

use crate::answers::Refusal;
use crate::key::require_public_range;
use crate::parameters::{require_vectors, Set, MASK_LIMIT, Q};
use crate::ring::{modulo_2q, modulo_q, product, rest, upper_digits, whole, Whole};

/// The commitment: 1, 2, 3, 4.
pub fn commitment(
    set: u32,
    a: &[u16],
    y1: &[i16],
    y2: &[i16],
    out: &mut [u16],
) -> Result<(), Refusal> {
    let (set, u) = tested_sums(set, a, y1, y2, &[out.len()])?;
    put_digits(set, &u, out);
    Ok(())
}

/// The commitment that also fills a vector of rests: 1, 2, 3, 4.
pub fn commitment_with_rests(
    set: u32,
    a: &[u16],
    y1: &[i16],
    y2: &[i16],
    out: &mut [u16],
    rests: &mut [i16],
) -> Result<(), Refusal> {
    let (set, u) = tested_sums(set, a, y1, y2, &[out.len(), rests.len()])?;
    put_digits(set, &u, out);
    for (entry, &x) in rests.iter_mut().zip(&u) {
        *entry = rest(set, x) as i16;
    }
    Ok(())
}

/// The tests of both calls, and what they round: the set and u.
fn tested_sums(
    set: u32,
    a: &[u16],
    y1: &[i16],
    y2: &[i16],
    outputs: &[usize],
) -> Result<(Set, Whole), Refusal> {
    let set = Set::asked(set)?;
    require_vectors(&[a.len(), y1.len(), y2.len()])?;
    require_vectors(outputs)?;
    require_public_range(a)?;
    require_masks(y1, y2)?;
    Ok((set, sums(a, y1, y2)))
}

fn put_digits(set: Set, u: &[i64], out: &mut [u16]) {
    for (entry, &x) in out.iter_mut().zip(u) {
        *entry = upper_digits(set, x) as u16;
    }
}

/// Refusal 4: masks lie in -4096 .. 4096.
pub fn require_masks(y1: &[i16], y2: &[i16]) -> Result<(), Refusal> {
    let within = |&entry: &i16| (-MASK_LIMIT..=MASK_LIMIT).contains(&i64::from(entry));
    if y1.iter().all(within) && y2.iter().all(within) {
        Ok(())
    } else {
        Err(Refusal::MASK)
    }
}

/// u = 12288 t + y2 modulo 24578, where t = a times y1 modulo q.
pub fn sums(a: &[u16], y1: &[i16], y2: &[i16]) -> Whole {
    let t = modulo_q(&product(&whole(a), &whole(y1)));
    t.iter()
        .zip(y2)
        .map(|(&t, &y2)| modulo_2q(doubled_zeta_times(t) + i64::from(y2)))
        .collect()
}

/// 12288 t modulo 24578, for t in 0 .. 12288. 12288 is q - 1, twice zeta modulo 2q.
pub fn doubled_zeta_times(t: i64) -> i64 {
    modulo_2q((Q - 1) * t)
}
