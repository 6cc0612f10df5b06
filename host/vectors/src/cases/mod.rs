//! The cases of the file.

mod checking;
mod defaults;
mod faults;
mod key_numbers;
mod keys;
mod packed;
mod records;
mod reference;
mod signing;

use crate::recorder::Recorder;
use crate::slots::{Asked, A, F, G};
use second::form::KEY_NOT_STATED;
use second::testing::calls::{Answered, Call, OutputLengths};
use second::testing::keys::{published, Key};
use second::testing::noise::Noise;
use second::Set;

/// The file of vectors that this seed makes.
pub fn vectors(seed: u64) -> Vec<u8> {
    let mut recorder = Recorder::new(seed);
    reference::reference_point(&mut recorder);
    for set in Set::ALL {
        let mut noise = Noise::part(seed, u64::from(set.number()));
        let key = published(set, &mut noise);
        let mut recording = Recording {
            recorder: &mut recorder,
            set,
            noise,
            key,
        };
        recording.key_tests();
        let signed = recording.sheets();
        recording.response_refusals(&signed.last_try);
        recording.word_counts(&signed.last_try);
        recording.rebuild_refusals(&signed.signature);
        recording.comparisons(&signed.signature.list);
        recording.defaults(&signed.last_try);
        recording.writer_refusals(Call::Write, &signed.signature);
        recording.reader_refusals(&signed.signature);
        recording.both_forms(&signed.signature);
        recording.key_numbers(&signed.last_try, &signed.signature);
        recording.sums();
        recording.other_keys();
        if set.like() == set {
            // Commitments and keys know nothing of kappa: their refusals stand once.
            recording.commitment_refusals();
            recording.wrong_counts();
        }
        recording.more_keys();
    }
    recorder.finish()
}

/// A call of this set with sign bit 0 and every output array at its stated length. The recorder has its
/// fill and, but for `call_with_key`, its key number.
fn asked(set: u32) -> Asked {
    Asked {
        set,
        key: KEY_NOT_STATED,
        sign: false,
        lengths: OutputLengths::stated(Set::asked(set).expect("a set")),
        fill: 0,
    }
}

/// The same call with other lengths of its output arrays.
fn with_lengths(asked: Asked, change: impl Fn(&mut OutputLengths)) -> Asked {
    let mut lengths = asked.lengths;
    change(&mut lengths);
    Asked { lengths, ..asked }
}

fn load_key(recorder: &mut Recorder, key: &Key) {
    recorder.load(F, &key.f);
    recorder.load(G, &key.g);
    recorder.load(A, &key.a);
}

/// The recording of one set's cases.
struct Recording<'a> {
    recorder: &'a mut Recorder,
    set: Set,
    noise: Noise,
    key: Key,
}

impl Recording<'_> {
    fn asked(&self) -> Asked {
        asked(self.set.number())
    }

    /// This call of the set: with 0 where that stands for it by the old default, and on a conversion,
    /// which takes no set. An output for a record is as long as the record.
    fn asked_of(&self, call: Call) -> Asked {
        let old_default = matches!(call, Call::RebuildDefaultOne | Call::CompareDefaultOne);
        let conversion = call.takes().is_some() && call.writes().is_some();
        let mut asked = self.asked();
        if conversion || old_default && self.set == Set::I {
            asked.set = 0;
        }
        if let Some(form) = call.writes() {
            asked.lengths.record = form.total(self.set);
        }
        asked
    }

    /// Records a call of the set with outputs of the stated lengths.
    fn call(&mut self, call: Call) -> Answered {
        let asked = self.asked_of(call);
        self.recorder.call(call, asked)
    }
}
