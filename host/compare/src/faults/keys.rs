//! Keys: refusals 3, 15 and 6.

use super::{fault, place_in, put, set_of, Fault, WITH_KEY, WITH_PUBLIC, WITH_ROUNDED};
use second::parameters::{N, Q};
use second::testing::calls::Input;
use second::testing::edges::{past_k, Edge};
use second::testing::keys::{self, Key};
use second::testing::noise::Noise;
use second::Set;
use std::sync::OnceLock;

/// Other keys come first: what is spoilt after them stays spoilt.
pub const FAULTS: &[Fault] = &[
    fault("key at K", WITH_KEY, key_at_k),
    fault(
        "a key whose f has no inverse",
        WITH_KEY,
        key_without_inverse,
    ),
    fault("thin key", WITH_KEY, |input, _| {
        take_key(input, keys::thin())
    }),
    fault("key past K", WITH_KEY, key_past_k),
    fault("key with its counts off", WITH_KEY, key_with_counts_off),
    fault("counts of f or g", WITH_KEY, miscount),
    fault("key relation", WITH_KEY, break_relation),
    fault("coefficient of f", WITH_KEY, |input, noise| {
        put(&mut input.f, &[3, -3, 127, -128], noise)
    }),
    fault("coefficient of g", WITH_KEY, |input, noise| {
        put(&mut input.g, &[3, -3, 127, -128], noise)
    }),
    fault("coefficient of a", WITH_PUBLIC, |input, noise| {
        put(&mut input.a, &[12289, 12290, 24577, 32768, 65535], noise)
    }),
    fault("any a", WITH_ROUNDED, any_a),
];

fn any_a(input: &mut Input, noise: &mut Noise) {
    match noise.below(3) {
        0 => input.a.fill(Q as u16 - 1),
        1 => input.a.fill(0),
        _ => {
            for entry in &mut input.a {
                *entry = noise.below(Q as usize) as u16;
            }
        }
    }
}

fn take_key(input: &mut Input, key: Key) {
    (input.f, input.g, input.a) = (key.f, key.g, key.a);
}

fn key_at_k(input: &mut Input, noise: &mut Noise) {
    take_key(input, keys::at_k(set_of(input), noise));
}

fn key_past_k(input: &mut Input, noise: &mut Noise) {
    match noise.below(3) {
        0 => input.f.fill(2),
        1 => input.g.fill(-2),
        _ => take_key(input, past_k(set_of(input), noise)),
    }
}

/// Such keys are found by search: a few of each set are made once.
fn key_without_inverse(input: &mut Input, noise: &mut Noise) {
    static KEYS: [OnceLock<[Key; 3]>; Set::ALL.len()] = [const { OnceLock::new() }; Set::ALL.len()];
    let set = set_of(input);
    let keys = KEYS[set.number() as usize - 1]
        .get_or_init(|| [1, 2, 3].map(|seed| keys::without_inverse(set, &mut Noise::new(seed))));
    take_key(input, keys[noise.below(keys.len())].clone());
}

fn key_with_counts_off(input: &mut Input, noise: &mut Noise) {
    let set = set_of(input);
    let edge = noise.one_of(&Edge::all(set));
    let key = keys::published(set, noise);
    take_key(input, edge.of(set, &key, noise));
}

/// f or g, whichever comes.
fn secret<'a>(input: &'a mut Input, noise: &mut Noise) -> &'a mut [i8] {
    if noise.bit() {
        &mut input.f
    } else {
        &mut input.g
    }
}

/// A coefficient of another size. a stays, so that the relation breaks too.
fn miscount(input: &mut Input, noise: &mut Noise) {
    let secret = secret(input, noise);
    if !secret.is_empty() {
        let place = place_in(secret.len(), noise);
        let others: &[i8] = match secret[place].unsigned_abs() {
            0 => &[-2, -1, 1, 2],
            1 => &[-2, 0, 2],
            _ => &[-1, 0, 1],
        };
        secret[place] = noise.one_of(others);
    }
}

/// The counts stay right.
fn break_relation(input: &mut Input, noise: &mut Noise) {
    match noise.below(3) {
        0 => {
            if let Some(entry) = input.a.get_mut(place_in(N, noise)) {
                *entry = entry.wrapping_add(1) % Q as u16;
            }
        }
        // A sign turned.
        1 => {
            let mut entries = secret(input, noise).iter_mut();
            if let Some(entry) = entries.find(|entry| **entry > 0) {
                *entry = -*entry;
            }
        }
        // A coefficient moved.
        _ => {
            let secret = secret(input, noise);
            let place = secret.windows(2).position(|pair| pair[0] != pair[1]);
            if let Some(place) = place {
                secret.swap(place, place + 1);
            }
        }
    }
}
