//! Lists: refusals 5 and 12.

use super::{fault, place_in, set_of, Fault, WITH_HASHED, WITH_LIST};
use second::parameters::LIST_BUFFER;
use second::testing::calls::Input;
use second::testing::noise::Noise;

pub const FAULTS: &[Fault] = &[
    fault("count of the list", WITH_LIST, |input, noise| {
        recount(&mut input.list, noise)
    }),
    fault("form of the list", WITH_LIST, |input, noise| {
        deform(&mut input.list, noise)
    }),
    fault("count of the hashed list", WITH_HASHED, |input, noise| {
        recount(&mut input.hashed, noise)
    }),
    fault("form of the hashed list", WITH_HASHED, |input, noise| {
        deform(&mut input.hashed, noise)
    }),
    fault("the hashed list differs", WITH_HASHED, differ),
];

fn recount(list: &mut Vec<u16>, noise: &mut Noise) {
    match noise.below(4) {
        0 => list.clear(),
        1 => {
            list.pop();
        }
        2 => list.push(511),
        _ => {
            let count = noise.below(LIST_BUFFER + 6);
            *list = (0..count as u16).collect();
        }
    }
}

pub fn deform(list: &mut [u16], noise: &mut Noise) {
    if list.len() < 2 {
        return;
    }
    let place = 1 + place_in(list.len() - 1, noise);
    match noise.below(5) {
        0 => list[place] = list[place - 1],
        1 => list.swap(place, place - 1),
        2 => list[place] = noise.one_of(&[512, 513, 1024, 32_768, 65_535]),
        // Nine bits would hold the right place.
        3 => list[place] |= 512,
        _ => list[list.len() - 1] = noise.one_of(&[511, 512]),
    }
}

fn differ(input: &mut Input, noise: &mut Noise) {
    input.hashed = match noise.below(3) {
        0 => (0..input.list.len() as u16).collect(),
        1 => {
            // One place later, where there is room.
            let mut list = input.list.clone();
            if let Some(last) = list.last_mut() {
                *last = last.saturating_add(1).min(511);
            }
            list
        }
        _ => noise.list(set_of(input)),
    };
}
