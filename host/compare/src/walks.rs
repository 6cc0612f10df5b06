//! Rows of words that lead the draw through its steps as planned.

use second::key::{s1, s2};
use second::response::{shifted, sign_choices, trials};
use second::ring::whole;
use second::testing::calls::Input;
use second::testing::noise::Noise;
use second::Set;

/// Every threshold of these walks: a word passes below it.
pub const THRESHOLD: u64 = 1 << 63;

/// The numbers of words that the two trials take where they succeed.
fn places(input: &Input) -> (usize, usize) {
    let set = Set::asked(input.set).expect("a right input");
    let (v1, v2) = sign_choices(&s1(&input.f), &s2(&input.g), &input.list);
    let z1 = shifted(&whole(&input.y1), &v1, input.sign);
    let z2 = shifted(&whole(&input.y2), &v2, input.sign);
    let (first, second) = trials(set, &v1, &v2, &z1, &z2);
    (first.count_ones() as usize, second.count_ones() as usize)
}

fn passing(noise: &mut Noise) -> u64 {
    noise.word() % THRESHOLD
}

fn failing(noise: &mut Noise) -> u64 {
    noise.word() | THRESHOLD
}

/// A trial of so many places that succeeds.
fn success(places: usize, noise: &mut Noise) -> Vec<u64> {
    (0..places).map(|_| passing(noise)).collect()
}

/// A trial that fails at this place.
fn failure(place: usize, noise: &mut Noise) -> Vec<u64> {
    let mut words = success(place, noise);
    words.push(failing(noise));
    words
}

/// The word of step 3.
fn coin(odd: bool, noise: &mut Noise) -> Vec<u64> {
    vec![noise.word() & !1 | u64::from(odd)]
}

/// Walks for an input with thresholds of `THRESHOLD`: each ends where its words do.
pub fn walks(input: &Input, noise: &mut Noise) -> Vec<Vec<u64>> {
    let (first, second) = places(input);
    let mut walks = Vec::new();
    for place in 0..first {
        walks.push(failure(place, noise));
    }
    let admitted = success(first, noise);
    walks.push([admitted.clone(), success(second, noise)].concat());
    for place in 0..second {
        let failed = [admitted.clone(), failure(place, noise)].concat();
        // Step 3 is odd: back to step 2.
        let again = [coin(true, noise), success(second, noise)].concat();
        walks.push([failed.clone(), again].concat());
        // Even, and step 4 succeeds: back to step 2.
        let even = [coin(false, noise), success(second, noise)].concat();
        walks.push([failed.clone(), even, success(second, noise)].concat());
        // Even, and step 4 fails at any place: rejected.
        for last in 0..second {
            let even = [coin(false, noise), failure(last, noise)].concat();
            walks.push([failed.clone(), even].concat());
        }
    }
    if second > 0 {
        walks.push(long_walk(&admitted, second, noise));
    }
    walks
}

/// Ten turns through steps 2, 3 and 4 before step 2 succeeds.
fn long_walk(admitted: &[u64], second: usize, noise: &mut Noise) -> Vec<u64> {
    let mut words = admitted.to_vec();
    for _ in 0..10 {
        let place = noise.below(second);
        words.extend(failure(place, noise));
        let odd = noise.bit();
        words.extend(coin(odd, noise));
        if !odd {
            words.extend(success(second, noise));
        }
    }
    words.extend(success(second, noise));
    words
}

#[cfg(test)]
mod tests {
    use super::{walks, THRESHOLD};
    use crate::buffers::Left;
    use crate::inputs::right_input;
    use second::testing::calls::{run, Call};
    use second::testing::keys;
    use second::testing::noise::Noise;
    use second::Set;

    #[test]
    fn each_walk_takes_all_its_words() {
        let mut noise = Noise::new(81);
        let key = keys::published(Set::II, &mut noise);
        let mut input = right_input(Set::II, &key, &mut noise);
        input.thresholds.fill(THRESHOLD);
        let mut numbers = [0, 0];
        for words in walks(&input, &mut noise) {
            input.words = words;
            let answered = Left::by(run, Call::Respond, &input, 7).answered;
            assert_eq!(answered.words, input.words.len() as u64);
            match answered.number {
                0 => numbers[0] += 1,
                8 => numbers[1] += 1,
                other => panic!("a walk ends with {other}"),
            }
        }
        assert!(numbers[0] > 3 && numbers[1] > 10, "{numbers:?}");
    }
}
