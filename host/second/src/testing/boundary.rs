//! Signatures that lie exactly at the limits of the length rule.

use super::noise::Noise;
use crate::parameters::{Set, N};

/// A z1 within "largest" whose sum of squares is exactly `sum`, at random places and signs.
/// Each entry takes as much of what is left as it may.
pub fn z1_of_sum(set: Set, sum: i64, noise: &mut Noise) -> Vec<i16> {
    let mut z1 = vec![0; N];
    let mut rest = sum;
    for place in noise.places(N, N) {
        let entry = rest.isqrt().min(set.largest());
        rest -= entry * entry;
        z1[place] = if noise.bit() { entry } else { -entry } as i16;
    }
    assert_eq!(rest, 0, "{sum} is not reached by 512 entries");
    z1
}

/// The largest z2 dagger that the length rule admits.
pub fn largest_z2_dagger(set: Set) -> i64 {
    set.largest() / set.step()
}

/// A z1 and a z2 dagger within "largest" whose sum, as the length rule takes it, is exactly `sum`.
pub fn signature_of_sum(set: Set, sum: i64, noise: &mut Noise) -> (Vec<i16>, Vec<i8>) {
    let mut z2_dagger = vec![0; N];
    let mut rest = sum;
    let square = set.step() * set.step();
    let limit = largest_z2_dagger(set);
    for place in noise.places(N / 4, N) {
        let entry = noise.between(-limit, limit);
        if entry * entry * square <= rest {
            z2_dagger[place] = entry as i8;
            rest -= entry * entry * square;
        }
    }
    (z1_of_sum(set, rest, noise), z2_dagger)
}
