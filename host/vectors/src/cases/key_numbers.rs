//! 02, C-13: the key number, bytes 20-23 of both forms.

use super::{with_lengths, Recording};
use crate::slots::{Asked, RECORD};
use second::form::{turn_bit, Section, KEY_FIELD};
use second::record::Held;
use second::testing::calls::Call;
use second::testing::key_numbers::NUMBERS;
use second::testing::sheet::{Signature, Try};
use second::Form;

/// Each byte of a key number by itself.
const SINGLE_BYTES: [u32; 4] = [0x80, 0x9000, 0xa0_0000, 0xb000_0000];

impl Recording<'_> {
    /// The key number of this set's records, four bytes that differ, where no other is asked for.
    pub(super) fn key_number(&self) -> u32 {
        0x4030_2010 + self.set.number()
    }

    /// The sheet that is loaded with many key numbers, lent and in its records; and each byte of one
    /// beside what is refused.
    pub(super) fn key_numbers(&mut self, attempt: &Try, signature: &Signature) {
        for call in Call::ALL.into_iter().filter(|call| call.takes_key()) {
            for key in NUMBERS {
                let asked = Asked {
                    key,
                    sign: attempt.sign,
                    ..self.asked_of(call)
                };
                self.recorder.call_with_key(call, asked);
            }
        }
        let right = self.held(signature);
        for form in Form::ALL {
            self.recorder.load(RECORD, &right.record(form));
            for key in NUMBERS.into_iter().chain(SINGLE_BYTES) {
                self.with_key(key, |recording| {
                    for &call in Call::lent(form) {
                        recording.call(call);
                    }
                });
            }
            // Refusals alike for all kappa stand once; spare bits are not.
            let in_full = self.set.like() == self.set;
            for record in faulty(form, &right, in_full) {
                self.recorder.load(RECORD, &record);
                for key in SINGLE_BYTES {
                    self.with_key(key, |recording| {
                        for &call in Call::lent(form) {
                            recording.call(call);
                        }
                    });
                }
            }
            if in_full {
                self.recorder.load(RECORD, &right.record(form));
                self.without_room(form);
            }
        }
    }

    /// Runs `within` with this key number in the record that is loaded.
    fn with_key(&mut self, key: u32, within: impl FnOnce(&mut Self)) {
        let old = self
            .recorder
            .exchange(RECORD, KEY_FIELD.start, &key.to_le_bytes());
        within(self);
        self.recorder.exchange(RECORD, KEY_FIELD.start, &old);
    }

    /// The conversion of the record that is loaded with an output that is too short.
    fn without_room(&mut self, form: Form) {
        let lent = Call::lent(form).iter();
        for &call in lent.filter(|call| call.writes().is_some()) {
            let short = with_lengths(self.asked_of(call), |lengths| lengths.record -= 1);
            for key in SINGLE_BYTES {
                self.with_key(key, |recording| {
                    recording.recorder.call(call, short);
                });
            }
        }
    }
}

/// Records that are refused: for the total, the length, the list, an entry; and for spare bits, those
/// alone where they are not asked for in full.
fn faulty(form: Form, right: &Held, in_full: bool) -> Vec<Vec<u8>> {
    let record = right.record(form);
    let changed = |change: &dyn Fn(&mut Vec<u8>)| {
        let mut record = record.clone();
        change(&mut record);
        record
    };
    let held = |change: &dyn Fn(&mut Held)| {
        let mut held = right.clone();
        change(&mut held);
        held.record(form)
    };
    let spare = form.spare_bits(right.set);
    let mut records: Vec<Vec<u8>> = spare
        .first()
        .map(|&place| changed(&|record| turn_bit(record, place)))
        .into_iter()
        .collect();
    if in_full {
        let beyond = right.set.largest() + 1;
        records.extend([
            changed(&|record| record[18] ^= 1),
            changed(&|record| {
                record.pop();
            }),
            changed(&|record| record.push(0)),
            held(&|held| held.list[0] = held.list[1]),
            held(&|held| held.entries_mut(Section::Z1)[511] = beyond),
        ]);
    }
    records
}
