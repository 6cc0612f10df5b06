//! "Response".

use crate::answers::{Refusal, Response};
use crate::commitment::{require_masks, sums};
use crate::draw::draw;
use crate::form::KEY_NOT_STATED;
use crate::key::{require_proper, require_public_range, require_secret_range, s1, s2};
use crate::length_rule::length_rule;
use crate::parameters::{require_lengths, require_vectors, Set, N, THRESHOLDS};
use crate::ring::{
    centred, column, inner_product, modulo_2q, squared_length, upper_digits, whole, Whole,
};

/// The response: 1, 2, 3, 4, 5, 15, 7, 6, then 8 or 9 as the walk ends, then 10, 11. The key number is
/// its caller's (02, C-13).
#[allow(clippy::too_many_arguments)]
pub fn respond(
    set: u32,
    key: u32,
    f: &[i8],
    g: &[i8],
    a: &[u16],
    y1: &[i16],
    y2: &[i16],
    list: &[u16],
    sign: bool,
    thresholds: &[u64],
    words: &[u64],
    z1: &mut [i16],
    z2_dagger: &mut [i8],
) -> Response {
    let admitted = Set::asked(set).and_then(|set| {
        require_vectors(&[f.len(), g.len(), a.len(), y1.len(), y2.len()])?;
        require_vectors(&[z1.len(), z2_dagger.len()])?;
        require_lengths(&[thresholds.len()], THRESHOLDS)?;
        require_secret_range(f)?;
        require_secret_range(g)?;
        require_public_range(a)?;
        require_masks(y1, y2)?;
        require_list(set, list)?;
        require_proper(set, f, g, a)?;
        Ok(set)
    });
    let set = match admitted {
        Ok(set) => set,
        Err(refusal) => {
            return Response {
                outcome: Err(refusal),
                words: 0,
                key: KEY_NOT_STATED,
            }
        }
    };

    let (v1, v2) = sign_choices(&s1(f), &s2(g), list);
    let answered1 = shifted(&whole(y1), &v1, sign);
    let answered2 = shifted(&whole(y2), &v2, sign);
    let (first, second) = trials(set, &v1, &v2, &answered1, &answered2);
    let (drawn, taken) = draw(first, second, thresholds, words);

    let outcome = drawn.and_then(|()| {
        let dropped = dropped_digits(set, &sums(a, y1, y2), &answered2);
        length_rule(set, &answered1, &dropped)?;
        for i in 0..N {
            z1[i] = answered1[i] as i16;
            z2_dagger[i] = dropped[i] as i8;
        }
        Ok(())
    });
    Response {
        outcome,
        words: taken,
        key: outcome.map_or(KEY_NOT_STATED, |()| key),
    }
}

/// Refusal 5: exactly kappa places, strictly rising, each below 512.
pub fn require_list(set: Set, list: &[u16]) -> Result<(), Refusal> {
    let rising = list.windows(2).all(|pair| pair[0] < pair[1]);
    let below = list.iter().all(|&place| usize::from(place) < N);
    if list.len() == set.kappa() && rising && below {
        Ok(())
    } else {
        Err(Refusal::LIST)
    }
}

/// GreedySC of source document 004: v = S c'. Where the inner product of v with the column is
/// zero or more, the column is subtracted, otherwise added.
pub fn sign_choices(s1: &[i64], s2: &[i64], list: &[u16]) -> (Whole, Whole) {
    let mut v1 = vec![0; N];
    let mut v2 = vec![0; N];
    for &place in list {
        let column1 = column(s1, usize::from(place));
        let column2 = column(s2, usize::from(place));
        let inner = inner_product(&v1, &column1) + inner_product(&v2, &column2);
        let choice = if inner >= 0 { -1 } else { 1 };
        for i in 0..N {
            v1[i] += choice * column1[i];
            v2[i] += choice * column2[i];
        }
    }
    (v1, v2)
}

/// z = y + v for sign bit 0, y - v for sign bit 1.
pub fn shifted(y: &[i64], v: &[i64], sign: bool) -> Whole {
    let turn = if sign { -1 } else { 1 };
    y.iter().zip(v).map(|(y, v)| y + turn * v).collect()
}

/// The numbers that the draw tries: kappa K minus the squared length of v, and twice the
/// absolute value of the inner product of z and v.
pub fn trials(set: Set, v1: &[i64], v2: &[i64], z1: &[i64], z2: &[i64]) -> (i64, i64) {
    let squared = squared_length(v1) + squared_length(v2);
    let inner = inner_product(z1, v1) + inner_product(z2, v2);
    (set.kappa() as i64 * set.k() - squared, 2 * inner.abs())
}

/// z2 dagger: the upper digits of u minus those of u - z2 modulo 24578, centred modulo p.
pub fn dropped_digits(set: Set, u: &[i64], z2: &[i64]) -> Whole {
    u.iter()
        .zip(z2)
        .map(|(&u, &z2)| {
            let difference = upper_digits(set, u) - upper_digits(set, modulo_2q(u - z2));
            centred(set, difference)
        })
        .collect()
}

/// What the dropped digits cost at each place (02, C-24): 2^d times z2 dagger, less z2.
pub fn costs(set: Set, z2_dagger: &[i64], z2: &[i64]) -> Whole {
    let pairs = z2_dagger.iter().zip(z2);
    pairs.map(|(dagger, z2)| set.step() * dagger - z2).collect()
}
