//! Sets and lengths: refusals 1 and 2.

use super::{
    fault, Fault, READING, WITH_KEY, WITH_MASKS, WITH_PUBLIC, WITH_ROUNDED, WITH_SET,
    WITH_SIGNATURE,
};
use second::parameters::{LIST_BUFFER, N};
use second::testing::calls::Call::{CommitmentWithRests, Read, ReadPacked, Respond};
use second::testing::calls::Input;
use second::testing::noise::Noise;
use second::{Edition, Set};

pub const FAULTS: &[Fault] = &[
    fault("number above the sets", WITH_SET, number_above),
    fault("another set", WITH_SET, another_set),
    fault("length of f", WITH_KEY, |input, noise| {
        resize(&mut input.f, noise)
    }),
    fault("length of g", WITH_KEY, |input, noise| {
        resize(&mut input.g, noise)
    }),
    fault("length of a", WITH_PUBLIC, |input, noise| {
        resize(&mut input.a, noise)
    }),
    fault("length of y1", WITH_MASKS, |input, noise| {
        resize(&mut input.y1, noise)
    }),
    fault("length of y2", WITH_MASKS, |input, noise| {
        resize(&mut input.y2, noise)
    }),
    fault("length of thresholds", &[Respond], |input, noise| {
        resize(&mut input.thresholds, noise)
    }),
    fault("length of z1", WITH_SIGNATURE, |input, noise| {
        resize(&mut input.z1, noise)
    }),
    fault("length of z2 dagger", WITH_SIGNATURE, |input, noise| {
        resize(&mut input.z2_dagger, noise)
    }),
    fault(
        "length of the rounded output",
        WITH_ROUNDED,
        |input, noise| input.lengths.rounded = other_length(N, noise),
    ),
    fault(
        "length of the rests output",
        &[CommitmentWithRests],
        |input, noise| input.lengths.rests = other_length(N, noise),
    ),
    fault(
        "length of the z1 output",
        &[Respond, Read, ReadPacked],
        |input, noise| input.lengths.z1 = other_length(N, noise),
    ),
    fault(
        "length of the z2 dagger output",
        &[Respond, Read, ReadPacked],
        |input, noise| input.lengths.z2_dagger = other_length(N, noise),
    ),
    fault("length of the list output", READING, |input, noise| {
        input.lengths.list = other_length(LIST_BUFFER, noise)
    }),
    fault("list output of an older reader", READING, |input, _| {
        input.lengths.list = Edition::OLDER.list_buffer()
    }),
];

fn number_above(input: &mut Input, noise: &mut Noise) {
    let above = [Set::ABOVE, 16, 255, 256, 257, 65_536, 1 << 31, u32::MAX];
    input.set = noise.one_of(&above);
}

/// Another set with the same vectors: their count and limits may no longer fit.
fn another_set(input: &mut Input, noise: &mut Noise) {
    input.set = noise.below(Set::ABOVE as usize) as u32;
}

fn other_length(right: usize, noise: &mut Noise) -> usize {
    noise.one_of(&[0, 1, right - 1, right + 1, 2 * right])
}

fn resize<T: Copy + Default>(vector: &mut Vec<T>, noise: &mut Noise) {
    let length = other_length(vector.len().max(1), noise);
    vector.resize(length, T::default());
}
