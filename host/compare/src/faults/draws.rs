//! The draw: refusals 8 and 9.

use super::{fault, set_of, Fault};
use second::parameters::THRESHOLDS;
use second::testing::calls::Call::Respond;
use second::testing::calls::Input;
use second::testing::noise::{thresholds, Noise};

pub const FAULTS: &[Fault] = &[
    fault("thresholds of the set", &[Respond], thresholds_of_the_set),
    fault("any thresholds", &[Respond], any_thresholds),
    fault("thresholds that reject", &[Respond], thresholds_that_reject),
    fault(
        "words equal to thresholds",
        &[Respond],
        words_equal_thresholds,
    ),
    fault("few words", &[Respond], few_words),
];

fn thresholds_of_the_set(input: &mut Input, noise: &mut Noise) {
    input.thresholds = thresholds(set_of(input));
    input.words = noise.words(200);
}

fn any_thresholds(input: &mut Input, noise: &mut Noise) {
    input.thresholds = noise.words(THRESHOLDS);
    input.words = noise.words(200);
}

fn thresholds_that_reject(input: &mut Input, noise: &mut Noise) {
    let value = noise.one_of(&[0, 1, 1 << 60]);
    input.thresholds.fill(value);
}

/// Every word meets a threshold of its own size: not below, so the first trial fails.
fn words_equal_thresholds(input: &mut Input, noise: &mut Noise) {
    let any = noise.word();
    let value = noise.one_of(&[0, 1, u64::MAX, any]);
    input.thresholds.fill(value);
    input.words.fill(value);
    let at = noise.below(input.words.len().max(1));
    if let Some(word) = input.words.get_mut(at) {
        *word = value.wrapping_sub(1);
    }
}

fn few_words(input: &mut Input, noise: &mut Noise) {
    let count = noise.below(20);
    input.words.truncate(count);
}
