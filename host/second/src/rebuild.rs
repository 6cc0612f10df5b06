//! "Rebuild".

use crate::answers::Refusal;
use crate::commitment::doubled_zeta_times;
use crate::key::require_public_range;
use crate::length_rule::length_rule;
use crate::parameters::{require_vectors, Set, N, Q};
use crate::response::require_list;
use crate::ring::{modulo_2q, modulo_q, product, upper_digits, whole};

/// The rebuild: 1, 2, 3, 5, 10, 11.
pub fn rebuild(
    set: u32,
    a: &[u16],
    z1: &[i16],
    z2_dagger: &[i8],
    list: &[u16],
    out: &mut [u16],
) -> Result<(), Refusal> {
    rebuild_for(Set::asked(set)?, a, z1, z2_dagger, list, out)
}

/// The rebuild that keeps the old default (02, C-17): 1, 2, 3, 5, 10, 11.
pub fn rebuild_default_one(
    set: u32,
    a: &[u16],
    z1: &[i16],
    z2_dagger: &[i8],
    list: &[u16],
    out: &mut [u16],
) -> Result<(), Refusal> {
    rebuild_for(Set::asked_default_one(set)?, a, z1, z2_dagger, list, out)
}

fn rebuild_for(
    set: Set,
    a: &[u16],
    z1: &[i16],
    z2_dagger: &[i8],
    list: &[u16],
    out: &mut [u16],
) -> Result<(), Refusal> {
    require_vectors(&[a.len(), z1.len(), z2_dagger.len(), out.len()])?;
    require_public_range(a)?;
    require_list(set, list)?;
    let z1 = whole(z1);
    let z2_dagger = whole(z2_dagger);
    length_rule(set, &z1, &z2_dagger)?;

    let t = modulo_q(&product(&whole(a), &z1));
    let mut challenge = vec![0; N];
    for &place in list {
        challenge[usize::from(place)] = 1;
    }
    for i in 0..N {
        let x = modulo_2q(doubled_zeta_times(t[i]) + Q * challenge[i]);
        out[i] = (upper_digits(set, x) + z2_dagger[i]).rem_euclid(set.p()) as u16;
    }
    Ok(())
}
