//! Comparisons of key numbers (02, C-13), and what they have to be whatever the second program says.

use crate::buffers::Left;
use crate::cases::Found;
use second::form::{key_in, turn_bit, Section, KEY_FIELD, KEY_NOT_STATED};
use second::testing::calls::{Call, Input};
use second::testing::key_numbers::NUMBERS;
use second::{Form, Set};

/// The key number that goes into a call: it is lent, or stands in the record that is.
pub fn key_of(call: Call, input: &Input) -> Option<u32> {
    let record = match call.takes() {
        None => return call.takes_key().then_some(input.key),
        Some(Form::Plain) => &input.record,
        Some(Form::Packed) => &input.packed,
    };
    record.get(KEY_FIELD).map(|_| key_in(record))
}

/// How the key number that comes out of a call is not the one that went in, or not 0 on a refusal.
pub fn wrong_key(call: Call, input: &Input, left: &Left) -> Option<String> {
    let answered = left.answered.key;
    if left.number() != 0 || !call.has_key() {
        return (answered != KEY_NOT_STATED).then(|| format!("it answers key number {answered}"));
    }
    let wanted = key_of(call, input)?;
    let found = match call.writes() {
        Some(_) => key_in(left.buffers.record()),
        None if call.answers_key() => answered,
        None => return None,
    };
    (found != wanted).then(|| format!("key number {found}, and it was {wanted}"))
}

/// A change of a record of a form.
type Change<'a> = &'a dyn Fn(Form, &mut Vec<u8>);

/// Each byte of a key number by itself.
const SINGLE_BYTES: [u32; 4] = [0x80, 0x9000, 0xa0_0000, 0xb000_0000];

impl Found {
    /// Each bit of a key number by itself, none and all of them, lent and in a record; and each byte in
    /// records with faults that go before and after it.
    pub fn compare_key_numbers(&mut self, right: &Input) {
        let bits = (0..32).map(|place| 1 << place);
        for key in bits.chain(NUMBERS) {
            let mut input = right.clone();
            input.key = key;
            for call in Call::ALL.into_iter().filter(|call| call.takes_key()) {
                self.compare(call, &input);
            }
            self.compare_records(right, |_, record| put_key(record, key));
        }
        let set = Set::asked(right.set).expect("a right input");
        let changes: [Change; 5] = [
            &|_, record| record[18] ^= 1,
            &|_, record| {
                record.pop();
            },
            &|_, record| record.push(0),
            &|form, record| record[form.offset(Section::List)..].fill(0),
            &|form, record| {
                let spare = form.spare_bits(set).into_iter();
                spare.for_each(|place| turn_bit(record, place));
            },
        ];
        for key in SINGLE_BYTES {
            for change in changes {
                self.compare_records(right, |form, record| {
                    put_key(record, key);
                    change(form, record);
                });
            }
        }
    }
}

fn put_key(record: &mut [u8], key: u32) {
    record[KEY_FIELD].copy_from_slice(&key.to_le_bytes());
}

#[cfg(test)]
mod tests {
    use super::{key_of, wrong_key};
    use crate::buffers::Left;
    use crate::inputs::right_input;
    use second::form::{HEADER, KEY_FIELD};
    use second::testing::calls::{run, Answered, Call, Input, Outputs};
    use second::testing::keys;
    use second::testing::noise::Noise;
    use second::{Form, Set};

    const KEY: u32 = 0x0403_0201;

    /// An input with this key number, lent and in its records.
    fn input() -> Input {
        let mut noise = Noise::new(87);
        let key = keys::published(Set::VI, &mut noise);
        let mut input = right_input(Set::VI, &key, &mut noise);
        input.key = KEY;
        for form in Form::ALL {
            input.record_in(form)[KEY_FIELD].copy_from_slice(&KEY.to_le_bytes());
        }
        input
    }

    /// The calls by which a side is found out on an input.
    fn found_out(
        input: &Input,
        side: impl Fn(Call, &Input, Outputs) -> Answered,
    ) -> Vec<&'static str> {
        let calls = Call::ALL.into_iter();
        let found = calls.filter(|&call| {
            let left = Left::by(&side, call, input, 7);
            wrong_key(call, input, &left).is_some()
        });
        found.map(Call::name).collect()
    }

    const ANSWERING: [&str; 3] = ["response", "reader", "packed reader"];
    const WRITING: [&str; 4] = ["writer", "packed writer", "packing", "unpacking"];

    #[test]
    fn a_wrong_key_number_is_found_out() {
        let right = input();
        assert_eq!(found_out(&right, run), [""; 0]);
        for call in Call::ALL {
            assert_eq!(key_of(call, &right), call.has_key().then_some(KEY));
        }
        for wrong in [0, KEY.swap_bytes(), KEY & 0xffff, KEY + 1] {
            let answers = |call: Call, input: &Input, out: Outputs| {
                let mut answered = run(call, input, out);
                if call.answers_key() {
                    answered.key = wrong;
                }
                answered
            };
            assert_eq!(found_out(&right, answers), ANSWERING);
            // Every call that is given a key number gets this one.
            let gets = |call: Call, input: &Input, out: Outputs| {
                let mut input = input.clone();
                input.key = wrong;
                for form in Form::ALL {
                    input.record_in(form)[KEY_FIELD].copy_from_slice(&wrong.to_le_bytes());
                }
                run(call, &input, out)
            };
            let mut every = [&ANSWERING[..], &WRITING].concat();
            let mut found = found_out(&right, gets);
            every.sort_unstable();
            found.sort_unstable();
            assert_eq!(found, every);
        }
    }

    #[test]
    fn a_key_number_on_a_refusal_is_found_out() {
        let mut refused = input();
        refused.set = Set::ABOVE;
        refused.record.truncate(HEADER);
        refused.packed.truncate(HEADER);
        assert_eq!(found_out(&refused, run), [""; 0]);
        let keeps = |call: Call, input: &Input, out: Outputs| {
            let answered = run(call, input, out);
            assert!(answered.number != 0 || !call.has_number());
            Answered {
                key: key_of(call, input).unwrap_or(0),
                ..answered
            }
        };
        let found = found_out(&refused, keeps);
        let with_key = Call::ALL.into_iter().filter(|call| call.has_key());
        assert_eq!(found, with_key.map(Call::name).collect::<Vec<_>>());
    }
}
