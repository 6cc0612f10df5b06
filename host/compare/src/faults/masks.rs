//! Masks: refusal 4, and masks of all sizes.

use super::{fault, put, set_of, Fault, WITH_MASKS};
use second::parameters::MASK_LIMIT;
use second::testing::calls::Input;
use second::testing::noise::Noise;

pub const FAULTS: &[Fault] = &[
    fault("mask y1 past its limit", WITH_MASKS, |input, noise| {
        put(&mut input.y1, &[4097, -4097, i16::MAX, i16::MIN], noise)
    }),
    fault("mask y2 past its limit", WITH_MASKS, |input, noise| {
        put(&mut input.y2, &[4097, -4097, i16::MAX, i16::MIN], noise)
    }),
    fault("masks at their limit", WITH_MASKS, masks_at_limit),
    fault("masks of sigma", WITH_MASKS, masks_of_sigma),
    fault("wide masks", WITH_MASKS, wide_masks),
];

fn masks_at_limit(input: &mut Input, noise: &mut Noise) {
    for entry in input.y1.iter_mut().chain(&mut input.y2) {
        let limit = MASK_LIMIT as i16;
        *entry = if noise.bit() { limit } else { -limit };
    }
}

fn masks_of_sigma(input: &mut Input, noise: &mut Noise) {
    let set = set_of(input);
    (input.y1, input.y2) = (noise.mask(set), noise.mask(set));
}

fn wide_masks(input: &mut Input, noise: &mut Noise) {
    let deviation = noise.between(300, 4000) as f64;
    input.y1 = noise.mask_of_deviation(deviation);
    input.y2 = noise.mask_of_deviation(deviation);
}
