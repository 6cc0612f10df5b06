//! The length rule: refusals 10 and 11, in a response and in a signature.

use super::{fault, place_in, put, set_of, Fault, WITH_SIGNATURE};
use second::key::{s1, s2};
use second::parameters::N;
use second::response::sign_choices;
use second::testing::boundary::{largest_z2_dagger, signature_of_sum, z1_of_sum};
use second::testing::calls::Call::Respond;
use second::testing::calls::Input;
use second::testing::noise::Noise;

pub const FAULTS: &[Fault] = &[
    fault(
        "response with z1 at and past largest",
        &[Respond],
        respond_z1_at_largest,
    ),
    fault(
        "response with z2 dagger at and past largest",
        &[Respond],
        respond_z2_at_largest,
    ),
    fault(
        "response with the sum at B2 squared",
        &[Respond],
        |input, noise| respond_with_sum(input, 0, noise),
    ),
    fault(
        "response with the sum past B2 squared",
        &[Respond],
        |input, noise| respond_with_sum(input, 1, noise),
    ),
    fault("z1 at and past largest", WITH_SIGNATURE, z1_at_largest),
    fault(
        "z2 dagger at and past largest",
        WITH_SIGNATURE,
        z2_at_largest,
    ),
    fault("sum at and past B2 squared", WITH_SIGNATURE, sum_at_limit),
    fault(
        "every entry at largest",
        WITH_SIGNATURE,
        every_entry_at_largest,
    ),
    fault(
        "z1 at the ends of 13 bits and past them",
        WITH_SIGNATURE,
        |input, noise| stretch(&mut input.z1, &[4095, -4096, -1], 1 << 13, noise),
    ),
    fault(
        "z2 dagger at the ends of 4 bits and past them",
        WITH_SIGNATURE,
        |input, noise| stretch(&mut input.z2_dagger, &[7, -8, -1], 1 << 4, noise),
    ),
];

/// What the response adds to the masks: v with the sign bit's turn, where key and list admit it.
fn added(input: &Input) -> Option<(Vec<i64>, Vec<i64>)> {
    let sized = input.f.len() == N && input.g.len() == N;
    let masked = input.y1.len() == N && input.y2.len() == N;
    let listed = input.list.iter().all(|&place| usize::from(place) < N);
    if !(sized && masked && listed) {
        return None;
    }
    let (mut v1, mut v2) = sign_choices(&s1(&input.f), &s2(&input.g), &input.list);
    if input.sign {
        for entry in v1.iter_mut().chain(&mut v2) {
            *entry = -*entry;
        }
    }
    Some((v1, v2))
}

/// Either sign of the limit, or one past it.
fn at_limit(limit: i64, noise: &mut Noise) -> i64 {
    let size = limit + noise.between(0, 1);
    if noise.bit() {
        size
    } else {
        -size
    }
}

fn respond_z1_at_largest(input: &mut Input, noise: &mut Noise) {
    let Some((v1, _)) = added(input) else { return };
    let place = place_in(N, noise);
    let z1 = at_limit(set_of(input).largest(), noise);
    input.y1[place] = (z1 - v1[place]) as i16;
}

/// A z2 of about the limit's steps: where it falls is the rounding's to say.
fn respond_z2_at_largest(input: &mut Input, noise: &mut Noise) {
    if input.y2.is_empty() {
        return;
    }
    let set = set_of(input);
    let place = place_in(input.y2.len(), noise);
    let steps = at_limit(largest_z2_dagger(set), noise);
    let z2 = steps * set.step() + noise.between(-set.step() / 2, set.step() / 2);
    input.y2[place] = z2 as i16;
}

/// Masks for which z2 is zero, hence z2 dagger too, and z1 has exactly this sum.
fn respond_with_sum(input: &mut Input, excess: i64, noise: &mut Noise) {
    let Some((v1, v2)) = added(input) else { return };
    let set = set_of(input);
    let z1 = z1_of_sum(set, set.b2_squared() + excess, noise);
    for i in 0..N {
        input.y1[i] = (i64::from(z1[i]) - v1[i]) as i16;
        input.y2[i] = -v2[i] as i16;
    }
}

fn z1_at_largest(input: &mut Input, noise: &mut Noise) {
    let entry = at_limit(set_of(input).largest(), noise) as i16;
    put(&mut input.z1, &[entry, entry, i16::MIN], noise);
}

fn z2_at_largest(input: &mut Input, noise: &mut Noise) {
    let entry = at_limit(largest_z2_dagger(set_of(input)), noise) as i8;
    put(&mut input.z2_dagger, &[entry, entry, i8::MIN], noise);
}

/// One of the values, or an entry that the packed form's bits would cut to what it was.
fn stretch<T: Copy + std::ops::Add<Output = T>>(
    vector: &mut [T],
    values: &[T],
    cut: T,
    noise: &mut Noise,
) {
    if vector.is_empty() || noise.bit() {
        return put(vector, values, noise);
    }
    let place = place_in(vector.len(), noise);
    vector[place] = vector[place] + cut;
}

fn sum_at_limit(input: &mut Input, noise: &mut Noise) {
    let set = set_of(input);
    let sum = set.b2_squared() + noise.between(-1, 1);
    (input.z1, input.z2_dagger) = signature_of_sum(set, sum, noise);
}

/// In 32 bits the sum over set I's largest entries would wrap to less than B2 squared.
fn every_entry_at_largest(input: &mut Input, _: &mut Noise) {
    let set = set_of(input);
    input.z1.fill(set.largest() as i16);
    input.z2_dagger.fill(largest_z2_dagger(set) as i8);
}
