//! The signer's calls: sheets that are signed, and the refusals of commitment and response.

use super::faults::{Length, RESTS_OUTPUT, ROUNDED_OUTPUT, Z1_OUTPUT, Z2_OUTPUT};
use super::{with_lengths, Recording};
use crate::recorder::Recorder;
use crate::slots::{
    Asked, A, F, G, HASHED, LIST, THRESHOLDS, WORDS, WORDS_ROOM, Y1, Y2, Z1, Z2_DAGGER,
};
use second::key::{s1, s2};
use second::parameters::N;
use second::response::sign_choices;
use second::testing::calls::Call;
use second::testing::sheet::{sign, Signed, Try};

/// The calls that commit, with the outputs that they are lent.
const COMMITTING: [(Call, &[Length]); 2] = [
    (Call::Commitment, &[ROUNDED_OUTPUT]),
    (Call::CommitmentWithRests, &[ROUNDED_OUTPUT, RESTS_OUTPUT]),
];

impl Recording<'_> {
    /// Sheets signed and checked. The last one is returned.
    pub(super) fn sheets(&mut self) -> Signed {
        let mut last = None;
        for sheet in [b"first sheet ", b"second sheet"] {
            let signed = self.sheet(sheet);
            let signature = &signed.signature;
            self.recorder.load(Z1, &signature.z1);
            self.recorder.load(Z2_DAGGER, &signature.z2_dagger);
            self.call(Call::Rebuild);
            self.recorder.load(HASHED, &signature.list);
            self.call(Call::Compare);
            self.call(Call::Write);
            self.readings(signature);
            last = Some(signed);
        }
        last.expect("there were sheets")
    }

    /// Tries until one is given out whose walk fits the words' room.
    pub(super) fn sheet(&mut self, sheet: &[u8]) -> Signed {
        loop {
            let signed = sign(self.set, &self.key, sheet, &mut self.noise);
            let (response, _) = signed.last_try.respond(self.set, &self.key);
            if response.words as usize > WORDS_ROOM {
                continue;
            }
            self.attempt(&signed.last_try);
            return signed;
        }
    }

    /// Commitment, also with its rests, and response.
    pub(super) fn attempt(&mut self, attempt: &Try) {
        self.load_try(attempt);
        for (call, _) in COMMITTING {
            self.call(call);
        }
        let sign = attempt.sign;
        let asked = self.asked();
        self.recorder.call(Call::Respond, Asked { sign, ..asked });
    }

    pub(super) fn load_try(&mut self, attempt: &Try) {
        self.recorder.load(Y1, &attempt.y1);
        self.recorder.load(Y2, &attempt.y2);
        self.recorder.load(LIST, &attempt.list);
        self.recorder.load(THRESHOLDS, &attempt.thresholds);
        self.recorder.load(WORDS, &attempt.words[..WORDS_ROOM]);
    }

    pub(super) fn commitment_refusals(&mut self) {
        let asked = self.asked();
        for (call, outputs) in COMMITTING {
            self.sets_and_lengths(call, asked, &[(A, N), (Y1, N), (Y2, N)]);
            self.output_lengths(call, asked, outputs);
        }
        let committed = |recorder: &mut Recorder| {
            for (call, _) in COMMITTING {
                recorder.call(call, asked);
            }
        };
        for (slot, value) in [
            (Y1, 4096i16),
            (Y1, 4097),
            (Y2, -4096),
            (Y2, -4097),
            (Y2, i16::MIN),
        ] {
            self.recorder.patched(slot, 500, value, committed);
        }
        self.recorder.patched(A, 3, 12289u16, committed);
        self.recorder.patched(Y1, 0, 4097i16, |recorder| {
            // Two faults: the masks' comes after the coefficient's and after the lengths'.
            recorder.patched(A, 511, 12289u16, committed);
            for (call, outputs) in COMMITTING {
                for output in outputs {
                    let other = with_lengths(asked, |lengths| *output(lengths) = 511);
                    recorder.call(call, other);
                }
            }
        });
    }

    pub(super) fn response_refusals(&mut self, attempt: &Try) {
        let sign = attempt.sign;
        let asked = Asked {
            sign,
            ..self.asked()
        };
        let call = Call::Respond;
        let lengths = [(F, N), (G, N), (A, N), (Y1, N), (Y2, N), (THRESHOLDS, 31)];
        self.sets_and_lengths(call, asked, &lengths);
        self.output_lengths(call, asked, &[Z1_OUTPUT, Z2_OUTPUT]);
        self.key_faults(call, asked);
        for (slot, value) in [(Y1, 4097i16), (Y2, -4097)] {
            self.recorder.patched(slot, 0, value, |recorder| {
                recorder.call(call, asked);
                // Two faults: the list's comes after the masks'.
                recorder.patched(LIST, 0, 512u16, |recorder| {
                    recorder.call(call, asked);
                });
            });
        }
        // The counts' comes after the masks' and after the list's.
        self.recorder
            .patched(F, self.place_in_f(0), -1i8, |recorder| {
                recorder.patched(Y2, 511, 4097i16, |recorder| {
                    recorder.call(call, asked);
                });
                recorder.patched(LIST, 0, 512u16, |recorder| {
                    recorder.call(call, asked);
                });
            });
        self.list_faults(LIST, &attempt.list, |recorder| {
            recorder.call(call, asked);
        });
        // Draws: the other sign bit, thresholds that pass and that reject everything.
        let other = Asked {
            sign: !sign,
            ..asked
        };
        self.recorder.call(call, other);
        self.recorder.load(THRESHOLDS, &[u64::MAX; 31]);
        self.recorder.call(call, other);
        self.response_limits(attempt, asked);
        self.recorder.load(THRESHOLDS, &[0u64; 31]);
        self.recorder.call(call, asked);
        self.recorder.load(THRESHOLDS, &attempt.thresholds);
    }

    /// z1 at largest and one past it, with thresholds that pass everything; and a sum past B2
    /// squared.
    pub(super) fn response_limits(&mut self, attempt: &Try, asked: Asked) {
        let (v1, _) = sign_choices(&s1(&self.key.f), &s2(&self.key.g), &attempt.list);
        let turn = if attempt.sign { -1 } else { 1 };
        let largest = self.set.largest();
        for (place, entry) in [
            (0, largest),
            (511, -largest),
            (77, largest + 1),
            (3, -largest - 1),
        ] {
            let mask = (entry - turn * v1[place]) as i16;
            self.recorder.patched(Y1, place, mask, |recorder| {
                recorder.call(Call::Respond, asked);
            });
        }
        for mask in [2000i16, -3000, 3500, -4096] {
            self.recorder.patched(Y2, 300, mask, |recorder| {
                recorder.call(Call::Respond, asked);
            });
        }
        let large = [largest as i16 - 200; 100];
        self.recorder.patched_run(Y1, 0, &large, |recorder| {
            recorder.call(Call::Respond, asked);
        });
    }

    /// The walk with every count of words from none to one more than it takes.
    pub(super) fn word_counts(&mut self, attempt: &Try) {
        let asked = Asked {
            sign: attempt.sign,
            ..self.asked()
        };
        let (response, _) = attempt.respond(self.set, &self.key);
        for count in 0..=response.words as usize {
            self.recorder.resize(WORDS, count);
            self.recorder.call(Call::Respond, asked);
        }
        self.recorder.resize(WORDS, WORDS_ROOM);
    }
}
