//! The record's calls: the refusals of writer, reader and sections.

use super::faults::{Z1_OUTPUT, Z2_OUTPUT};
use super::{with_lengths, Recording};
use crate::slots::{LIST, RECORD, Z1, Z2_DAGGER};
use second::form::HEADER;
use second::parameters::{LIST_BUFFER, N};
use second::record::Held;
use second::testing::calls::Call;
use second::testing::sheet::Signature;
use second::{Edition, Form, Set};

/// The calls on a plain record that answer what stands in it.
const READING: [Call; 4] = [
    Call::Read,
    Call::Z1Section,
    Call::Z2Section,
    Call::ListSection,
];

impl Recording<'_> {
    /// What a record of this signature holds, with the set's key number.
    pub(super) fn held(&self, signature: &Signature) -> Held {
        let Signature {
            z1,
            z2_dagger,
            list,
        } = signature;
        Held::new(self.set, self.key_number(), z1, z2_dagger, list)
    }

    /// The record of a signature, and what is read from it.
    pub(super) fn readings(&mut self, signature: &Signature) {
        let record = self.held(signature).record(Form::Plain);
        self.recorder.load(RECORD, &record);
        for call in READING {
            self.call(call);
        }
    }

    pub(super) fn writer_refusals(&mut self, call: Call, signature: &Signature) {
        let asked = self.asked_of(call);
        self.sets_and_lengths(call, asked, &[(Z1, N), (Z2_DAGGER, N)]);
        self.list_faults(LIST, &signature.list, |recorder| {
            recorder.call(call, asked);
        });
        self.entry_faults(call, asked);
        self.output_rooms(call);
    }

    /// Outputs for a record that are too short, and a longer one.
    pub(super) fn output_rooms(&mut self, call: Call) {
        let asked = self.asked_of(call);
        let total = asked.lengths.record;
        for length in [0, HEADER - 1, total - 1, total + 7] {
            let other = with_lengths(asked, |lengths| lengths.record = length);
            self.recorder.call(call, other);
        }
    }

    /// Wrong lengths of a reader's outputs.
    pub(super) fn reader_lengths(&mut self, call: Call) {
        let asked = self.asked();
        self.output_lengths(call, asked, &[Z1_OUTPUT, Z2_OUTPUT]);
        let older = Edition::OLDER.list_buffer();
        for length in [0, older, LIST_BUFFER - 1, LIST_BUFFER + 1] {
            let other = with_lengths(asked, |lengths| lengths.list = length);
            self.recorder.call(call, other);
        }
    }

    pub(super) fn reader_refusals(&mut self, signature: &Signature) {
        let record = self.held(signature).record(Form::Plain);
        self.recorder.load(RECORD, &record);
        let asked = self.asked();
        self.reader_lengths(Call::Read);
        for (at, byte) in record.iter().enumerate().take(HEADER) {
            let byte = byte ^ 1 << self.noise.below(8);
            self.recorder.patched(RECORD, at, byte, |recorder| {
                for call in READING {
                    recorder.call(call, asked);
                }
            });
        }
        for byte in 0..=Set::ABOVE as u8 {
            self.recorder.patched(RECORD, 4, byte, |recorder| {
                recorder.call(Call::Read, asked);
            });
        }
        let right = record.len();
        for length in [0, 1, 3, 4, 23, 24, 25, 1559, 1560, right - 1, right + 1] {
            self.recorder.resized(RECORD, length, |recorder| {
                for call in READING {
                    recorder.call(call, asked);
                }
            });
        }
        // The high bytes of the first and last entries of each section, and the list's order.
        for at in [25, 1047, 1048, 1559, 1561, right - 1, right - 3] {
            for byte in [0x7fu8, 0x80, 0x02] {
                self.recorder.patched(RECORD, at, byte, |recorder| {
                    recorder.call(Call::Read, asked);
                });
            }
        }
        self.recorder.patched(RECORD, 25, 0x7fu8, |recorder| {
            recorder.call(Call::Z1Section, asked);
        });
    }
}
