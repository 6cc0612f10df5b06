//! The checker's calls: the refusals of rebuild and comparison, and sums at their limit.

use super::faults::ROUNDED_OUTPUT;
use super::Recording;
use crate::slots::{A, HASHED, LIST, RECORD, Z1, Z2_DAGGER};
use second::parameters::N;
use second::record::Held;
use second::testing::boundary::{largest_z2_dagger, signature_of_sum};
use second::testing::calls::Call;
use second::testing::sheet::Signature;
use second::{Form, Set};

/// The calls that rebuild, and those that compare: with each default.
pub(super) const REBUILDING: [Call; 2] = [Call::Rebuild, Call::RebuildDefaultOne];
pub(super) const COMPARING: [Call; 2] = [Call::Compare, Call::CompareDefaultOne];

impl Recording<'_> {
    pub(super) fn rebuild_refusals(&mut self, signature: &Signature) {
        for call in REBUILDING {
            let asked = self.asked_of(call);
            self.sets_and_lengths(call, asked, &[(A, N), (Z1, N), (Z2_DAGGER, N)]);
            self.output_lengths(call, asked, &[ROUNDED_OUTPUT]);
            self.recorder.patched(A, 511, 12289u16, |recorder| {
                recorder.call(call, asked);
                // Two faults: the list's comes after the coefficient's.
                recorder.patched(LIST, 0, 512u16, |recorder| {
                    recorder.call(call, asked);
                });
            });
            self.list_faults(LIST, &signature.list, |recorder| {
                recorder.call(call, asked);
            });
            self.entry_faults(call, asked);
        }
    }

    pub(super) fn comparisons(&mut self, list: &[u16]) {
        for call in COMPARING {
            let asked = self.asked_of(call);
            self.sets_and_lengths(call, asked, &[]);
            for slot in [LIST, HASHED] {
                self.list_faults(slot, list, |recorder| {
                    recorder.call(call, asked);
                });
            }
            let other = self.noise.list(self.set);
            self.recorder.load(HASHED, &other);
            self.recorder.call(call, asked);
            // Two faults: the form comes before the difference.
            self.recorder.patched(LIST, 0, 512u16, |recorder| {
                recorder.call(call, asked);
            });
            self.recorder.load(HASHED, list);
        }
    }

    /// Sums exactly at B2 squared and one past it, and for set I every entry at largest.
    pub(super) fn sums(&mut self) {
        let list = self.noise.list(self.set);
        let limit = self.set.b2_squared();
        let (mut z1, z2_dagger) = signature_of_sum(self.set, limit, &mut self.noise);
        self.sum(&z1, &z2_dagger, &list);
        let zero = z1.iter().position(|&entry| entry == 0);
        z1[zero.expect("most entries are zero")] = -1;
        self.sum(&z1, &z2_dagger, &list);
        self.call(Call::WritePacked);
        if self.set != Set::I {
            return;
        }
        // In 32 bits this sum would wrap to less than B2 squared.
        let most = largest_z2_dagger(self.set) as i8;
        self.recorder.load(Z1, &[self.set.largest() as i16; N]);
        self.recorder.load(Z2_DAGGER, &[most; N]);
        self.call(Call::Rebuild);
        self.call(Call::Write);
    }

    /// Rebuild, writer, and reader of a record that is put together past the writer's test.
    pub(super) fn sum(&mut self, z1: &[i16], z2_dagger: &[i8], list: &[u16]) {
        self.recorder.load(LIST, list);
        self.recorder.load(Z1, z1);
        self.recorder.load(Z2_DAGGER, z2_dagger);
        self.call(Call::Rebuild);
        self.call(Call::Write);
        let held = Held::new(self.set, self.key_number(), z1, z2_dagger, list);
        self.recorder.load(RECORD, &held.record(Form::Plain));
        self.call(Call::Read);
    }
}
