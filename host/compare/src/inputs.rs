//! Right inputs at random.

use second::parameters::THRESHOLDS;
use second::record::write_in;
use second::testing::boundary::signature_of_sum;
use second::testing::calls::{Input, OutputLengths};
use second::testing::key_numbers;
use second::testing::keys::Key;
use second::testing::noise::Noise;
use second::{Form, Set};

/// More words than any walk takes whose trials all succeed: two trials of at most 31 places.
const PASSING_WORDS: usize = 62;

/// An input of this set, which it names, on which every call is done, where the key passes the key
/// test.
pub fn right_input(set: Set, key: &Key, noise: &mut Noise) -> Input {
    let list = noise.list(set);
    let mut input = Input {
        set: set.number(),
        key: key_numbers::any(noise),
        f: key.f.clone(),
        g: key.g.clone(),
        a: key.a.clone(),
        y1: short_mask(set, noise),
        y2: short_mask(set, noise),
        hashed: list.clone(),
        list,
        sign: noise.bit(),
        thresholds: vec![u64::MAX; THRESHOLDS],
        words: noise.words(PASSING_WORDS),
        z1: Vec::new(),
        z2_dagger: Vec::new(),
        record: Vec::new(),
        packed: Vec::new(),
        lengths: OutputLengths::stated(set),
    };
    let sum = match noise.below(4) {
        0 => set.b2_squared(),
        _ => noise.between(0, set.b2_squared()),
    };
    sign_with_sum(&mut input, set, sum, noise);
    input
}

/// A mask below sigma / 4, with which a response stays within the length rule for any key.
pub fn short_mask(set: Set, noise: &mut Noise) -> Vec<i16> {
    noise.mask_of_deviation(set.sigma() as f64 / 4.0)
}

/// Puts a signature of this sum, and the records of it, with the input's key number.
fn sign_with_sum(input: &mut Input, set: Set, sum: i64, noise: &mut Noise) {
    (input.z1, input.z2_dagger) = signature_of_sum(set, sum, noise);
    for form in Form::ALL {
        let (z1, z2_dagger, list) = (&input.z1, &input.z2_dagger, &input.list);
        let (number, mut record) = (set.number(), vec![0; form.total(set)]);
        let outcome = write_in(form, number, input.key, z1, z2_dagger, list, &mut record);
        outcome.expect("the signature is within the limits");
        *input.record_in(form) = record;
    }
}
