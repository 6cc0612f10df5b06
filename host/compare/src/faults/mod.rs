//! Ways to spoil a right input. What number a spoilt input brings is the second program's to say;
//! several ways may be taken at once.

mod draws;
mod keys;
mod lengths;
mod limits;
mod lists;
mod masks;
mod records;

use second::testing::calls::Call::{self, *};
use second::testing::calls::Input;
use second::testing::noise::Noise;
use second::{Form, Set};

/// A way to spoil, or merely to vary, an input.
pub struct Fault {
    pub name: &'static str,
    pub calls: &'static [Call],
    apply: Apply,
}

enum Apply {
    Input(fn(&mut Input, &mut Noise)),
    /// What is spoilt is the record of the form that the call is lent.
    Record(fn(Form, &mut Input, &mut Noise)),
}

impl Fault {
    /// Spoils an input of this call, which is one of the fault's.
    pub fn apply(&self, call: Call, input: &mut Input, noise: &mut Noise) {
        match (&self.apply, call.takes()) {
            (Apply::Input(apply), _) => apply(input, noise),
            (Apply::Record(apply), Some(form)) => apply(form, input, noise),
            (Apply::Record(_), None) => unreachable!("the call is lent no record"),
        }
    }
}

/// The ways that concern a call.
pub fn faults_of(call: Call) -> Vec<&'static Fault> {
    let topics = [
        lengths::FAULTS,
        keys::FAULTS,
        masks::FAULTS,
        lists::FAULTS,
        draws::FAULTS,
        limits::FAULTS,
        records::FAULTS,
    ];
    let all = topics.into_iter().flatten();
    all.filter(|fault| fault.calls.contains(&call)).collect()
}

const fn fault(
    name: &'static str,
    calls: &'static [Call],
    apply: fn(&mut Input, &mut Noise),
) -> Fault {
    let apply = Apply::Input(apply);
    Fault { name, calls, apply }
}

const fn record_fault(
    name: &'static str,
    calls: &'static [Call],
    apply: fn(Form, &mut Input, &mut Noise),
) -> Fault {
    let apply = Apply::Record(apply);
    Fault { name, calls, apply }
}

const WITH_SET: &[Call] = &[
    KeyTest,
    Commitment,
    Respond,
    Rebuild,
    Compare,
    Write,
    CommitmentWithRests,
    RebuildDefaultOne,
    CompareDefaultOne,
    WritePacked,
    Kappa,
    RecordBytes,
    PackedBytes,
];
const WITH_KEY: &[Call] = &[KeyTest, Respond];
const WITH_PUBLIC: &[Call] = &[
    KeyTest,
    Commitment,
    Respond,
    Rebuild,
    CommitmentWithRests,
    RebuildDefaultOne,
];
const WITH_MASKS: &[Call] = &[Commitment, Respond, CommitmentWithRests];
const WITH_ROUNDED: &[Call] = &[Commitment, Rebuild, CommitmentWithRests, RebuildDefaultOne];
const WITH_LIST: &[Call] = &[
    Respond,
    Rebuild,
    Compare,
    Write,
    RebuildDefaultOne,
    CompareDefaultOne,
    WritePacked,
];
const WITH_HASHED: &[Call] = &[Compare, CompareDefaultOne];
const WITH_SIGNATURE: &[Call] = &[Rebuild, Write, RebuildDefaultOne, WritePacked];
const WITH_KEY_NUMBER: &[Call] = &[Respond, Write, WritePacked];
const READING: &[Call] = &[Read, ReadPacked];
const WITH_RECORD: &[Call] = &[
    Read,
    Z1Section,
    Z2Section,
    ListSection,
    ReadPacked,
    Pack,
    Unpack,
];
const WITH_PACKED: &[Call] = &[ReadPacked, Unpack];
const WITH_RECORD_OUTPUT: &[Call] = &[Write, WritePacked, Pack, Unpack];

/// The set that the input names, or set 1 where it names none.
fn set_of(input: &Input) -> Set {
    Set::asked(input.set).unwrap_or(Set::I)
}

/// Puts one of the values at a place, the first and the last more often than others.
fn put<T: Copy>(vector: &mut [T], values: &[T], noise: &mut Noise) {
    if !vector.is_empty() {
        let place = place_in(vector.len(), noise);
        vector[place] = noise.one_of(values);
    }
}

fn place_in(length: usize, noise: &mut Noise) -> usize {
    match noise.below(4) {
        0 => 0,
        1 => length - 1,
        _ => noise.below(length),
    }
}

#[cfg(test)]
mod tests {
    use super::{faults_of, Apply};
    use crate::inputs::right_input;
    use second::testing::calls::Call;
    use second::testing::keys;
    use second::testing::noise::Noise;
    use second::{Form, Set};

    #[test]
    fn every_fault_of_a_record_spoils_the_one_that_is_lent() {
        let mut noise = Noise::new(86);
        let key = keys::published(Set::VII, &mut noise);
        let mut right = right_input(Set::VII, &key, &mut noise);
        for form in Form::ALL {
            let record = right.record_in(form).clone();
            for &call in Call::lent(form) {
                let faults = faults_of(call).into_iter();
                for fault in faults.filter(|fault| matches!(fault.apply, Apply::Record(_))) {
                    // Now and then a fault puts what was there.
                    let spoils = (0..20).any(|_| {
                        let mut input = right.clone();
                        fault.apply(call, &mut input, &mut noise);
                        *input.record_in(form) != record
                    });
                    assert!(spoils, "{}: {}", call.name(), fault.name);
                }
            }
        }
    }
}
