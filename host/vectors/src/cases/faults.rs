//! Faults that several calls have in common: sets, lengths, entries, lists.

use super::{with_lengths, Recording};
use crate::recorder::Recorder;
use crate::slots::{Asked, Z1, Z2_DAGGER};
use second::testing::boundary::largest_z2_dagger;
use second::testing::calls::{Call, OutputLengths};
use second::Set;

/// One of the lengths of a call's outputs.
pub(super) type Length = fn(&mut OutputLengths) -> &mut usize;

pub(super) const ROUNDED_OUTPUT: Length = |lengths| &mut lengths.rounded;
pub(super) const RESTS_OUTPUT: Length = |lengths| &mut lengths.rests;
pub(super) const Z1_OUTPUT: Length = |lengths| &mut lengths.z1;
pub(super) const Z2_OUTPUT: Length = |lengths| &mut lengths.z2_dagger;

impl Recording<'_> {
    /// A call with a number above the sets, and with each of these slots one short and one long.
    pub(super) fn sets_and_lengths(&mut self, call: Call, asked: Asked, slots: &[(usize, usize)]) {
        for set in [Set::ABOVE, u32::MAX] {
            self.recorder.call(call, Asked { set, ..asked });
        }
        for &(slot, length) in slots {
            for wrong in [0, length - 1, length + 1] {
                self.recorder.resized(slot, wrong, |recorder| {
                    recorder.call(call, asked);
                });
            }
        }
    }

    /// Wrong lengths of these outputs, each a vector.
    pub(super) fn output_lengths(&mut self, call: Call, asked: Asked, outputs: &[Length]) {
        for length in [0, 511, 513] {
            for output in outputs {
                let other = with_lengths(asked, |lengths| *output(lengths) = length);
                self.recorder.call(call, other);
            }
        }
    }

    /// Entries at and beyond largest in either vector, and beyond in both.
    pub(super) fn entry_faults(&mut self, call: Call, asked: Asked) {
        let largest = self.set.largest() as i16;
        let most = largest_z2_dagger(self.set) as i8;
        for (place, value) in [
            (0, largest),
            (511, -largest),
            (0, largest + 1),
            (511, -largest - 1),
            (200, i16::MIN),
        ] {
            self.recorder.patched(Z1, place, value, |recorder| {
                recorder.call(call, asked);
            });
        }
        for (place, value) in [
            (0, most),
            (511, -most),
            (0, most + 1),
            (511, -most - 1),
            (9, i8::MIN),
        ] {
            self.recorder.patched(Z2_DAGGER, place, value, |recorder| {
                recorder.call(call, asked);
            });
        }
        self.recorder.patched(Z1, 511, largest + 1, |recorder| {
            recorder.patched(Z2_DAGGER, 0, most + 1, |recorder| {
                recorder.call(call, asked);
            });
        });
    }

    /// A call with a list of every improper form.
    pub(super) fn list_faults(&mut self, slot: usize, right: &[u16], call: impl Fn(&mut Recorder)) {
        let kappa = right.len();
        for length in [0, kappa - 1, kappa + 1] {
            self.recorder.resized(slot, length, &call);
        }
        for (at, place) in [
            (0, right[1]),
            (kappa - 1, right[kappa - 2]),
            (kappa - 1, 512),
            (kappa / 2, u16::MAX),
        ] {
            self.recorder.patched(slot, at, place, &call);
        }
    }
}
