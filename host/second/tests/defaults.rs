//! 02, C-17: on a call 0 stands for set 4; two calls keep the old default, by which it stands for
//! set 1.

use second::parameters::{LIST_BUFFER, N};
use second::testing::calls::{run, Answered, Call, Input, OutputLengths, Outputs};
use second::testing::keys;
use second::testing::noise::Noise;
use second::testing::sheet::{sign, Signed};
use second::{compare, compare_default_one, rebuild, rebuild_default_one, Form, Refusal, Set};

/// A signed sheet of this set, and the public key.
fn signed(set: Set) -> (Input, Signed) {
    let mut noise = Noise::new(17);
    let key = keys::published(set, &mut noise);
    let signed = sign(set, &key, b"sheet", &mut noise);
    let (last, signature) = (signed.last_try.clone(), signed.signature.clone());
    let input = Input {
        set: set.number(),
        key: 77,
        f: key.f,
        g: key.g,
        a: key.a,
        y1: last.y1,
        y2: last.y2,
        list: last.list.clone(),
        hashed: last.list,
        sign: last.sign,
        thresholds: last.thresholds,
        words: last.words,
        z1: signature.z1,
        z2_dagger: signature.z2_dagger,
        record: Vec::new(),
        packed: Vec::new(),
        lengths: OutputLengths::stated(set),
    };
    (input, signed)
}

/// The numbers in the outputs of a call, widened.
type Written = Vec<Vec<i64>>;

/// All that a call with this number leaves behind.
fn left(call: Call, input: &Input, number: u32) -> (Answered, Written) {
    let (mut rounded, mut rests) = (vec![0xabcd; N], vec![-79; N]);
    let (mut z1, mut z2_dagger) = (vec![-77; N], vec![-78; N]);
    let mut list = vec![0xabce; LIST_BUFFER];
    let mut record = vec![0xab; Form::Plain.longest()];
    let outputs = Outputs {
        rounded: &mut rounded,
        rests: &mut rests,
        z1: &mut z1,
        z2_dagger: &mut z2_dagger,
        list: &mut list,
        record: &mut record,
    };
    let asked = Input {
        set: number,
        ..input.clone()
    };
    let answered = run(call, &asked, outputs);
    let written = vec![
        widened(&rounded),
        widened(&rests),
        widened(&z1),
        widened(&z2_dagger),
        widened(&list),
        widened(&record),
    ];
    (answered, written)
}

fn widened<T: Copy + Into<i64>>(numbers: &[T]) -> Vec<i64> {
    numbers.iter().map(|&number| number.into()).collect()
}

const OLD_DEFAULT: [(Call, Call); 2] = [
    (Call::RebuildDefaultOne, Call::Rebuild),
    (Call::CompareDefaultOne, Call::Compare),
];

#[test]
fn zero_is_four_named_on_every_call() {
    for set in Set::ALL {
        let (input, _) = signed(set);
        for call in Call::ALL.into_iter().filter(|call| call.takes_set()) {
            if OLD_DEFAULT.iter().all(|&(old, _)| old != call) {
                let (zero, four) = (left(call, &input, 0), left(call, &input, 4));
                assert_eq!(zero, four, "{}, a sheet of {set:?}", call.name());
            }
        }
    }
}

#[test]
fn the_old_default_is_one_named_and_any_other_number_itself() {
    for set in Set::ALL {
        let (input, _) = signed(set);
        for (old, call) in OLD_DEFAULT {
            for number in 0..=Set::ABOVE {
                let named = number.max(1);
                let (kept, plain) = (left(old, &input, number), left(call, &input, named));
                assert_eq!(kept, plain, "{}, {number}, of {set:?}", old.name());
            }
        }
    }
}

#[test]
fn a_sheet_of_set_one() {
    let (input, signed) = signed(Set::I);
    let Input {
        a,
        z1,
        z2_dagger,
        list,
        ..
    } = &input;
    let mut out = vec![7; N];
    let refused = rebuild(0, a, z1, z2_dagger, list, &mut out);
    assert_eq!(refused, Err(Refusal::LIST));
    assert_eq!(out, vec![7; N]);
    assert_eq!(compare(0, list, list), Err(Refusal::LIST));
    let kept = rebuild_default_one(0, a, z1, z2_dagger, list, &mut out);
    assert_eq!(kept, Ok(()));
    assert_eq!(out, signed.committed);
    assert_eq!(compare_default_one(0, list, list), Ok(()));
}
