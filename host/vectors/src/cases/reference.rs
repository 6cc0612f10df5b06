//! 01's reference points, and 02's rests beside them.

use super::checking::{COMPARING, REBUILDING};
use super::{asked, load_key};
use crate::recorder::Recorder;
use crate::slots::{HASHED, LIST, THRESHOLDS, WORDS, Y1, Y2, Z1, Z2_DAGGER};
use second::parameters::N;
use second::testing::calls::Call;
use second::testing::keys;
use second::Set;

/// 01's reference point: set 1, f = 1, g = 0, a = 1, masks zero, list 0 .. 22, sign bit 0. Its key
/// is refused.
pub fn reference_point(recorder: &mut Recorder) {
    let key = keys::thin();
    load_key(recorder, &key);
    recorder.load(Y1, &[0i16; N]);
    recorder.load(Y2, &[0i16; N]);
    recorder.load(LIST, &(0..23).collect::<Vec<u16>>());
    recorder.load(THRESHOLDS, &[1u64; 31]);
    recorder.load(WORDS, &[0u64; 12]);
    for set in [0, 1] {
        recorder.call(Call::KeyTest, asked(set));
        recorder.call(Call::Commitment, asked(set));
        recorder.call(Call::CommitmentWithRests, asked(set));
        recorder.call(Call::Respond, asked(set));
    }
    recorder.resize(WORDS, 0);
    recorder.call(Call::Respond, asked(1));
    rests(recorder);
    let z1: Vec<i16> = (0..N).map(|i| if i < 23 { -1 } else { 0 }).collect();
    recorder.load(Z1, &z1);
    recorder.load(Z2_DAGGER, &[0i8; N]);
    // A sheet of set 1 with 0, which stands for set 4: refused with 5, and done by the old default.
    recorder.load(HASHED, &(0..23).collect::<Vec<u16>>());
    for set in [0, 1] {
        for call in REBUILDING.into_iter().chain(COMPARING) {
            recorder.call(call, asked(set));
        }
        recorder.call(Call::Write, asked(set));
        recorder.call(Call::WritePacked, asked(set));
    }
    for (entry, beyond) in [(2100, 2101), (-2100, -2101)] {
        for value in [entry, beyond] {
            recorder.patched(Z1, 40, value as i16, |recorder| {
                recorder.call(Call::Rebuild, asked(1));
            });
        }
    }
    for value in [2i8, 3, -2, -3, 127, -128] {
        recorder.patched(Z2_DAGGER, 41, value, |recorder| {
            recorder.call(Call::Rebuild, asked(1));
        });
    }
}

/// Sums, 12288 y1 + y2, on both sides of the first and of the last half step, for d = 10, 9 and 8;
/// then 24577, and 25089 and 25090, which are reduced first.
fn rests(recorder: &mut Recorder) {
    let y2: [i16; 15] = [
        511, 512, -515, -514, 255, 256, -259, -258, 127, 128, -131, -130, -1, 513, 514,
    ];
    recorder.patched_run(Y2, 0, &y2, |recorder| {
        recorder.patched_run(Y1, 13, &[2i16, 2], |recorder| {
            for set in Set::ALL {
                recorder.call(Call::CommitmentWithRests, asked(set.number()));
            }
        });
    });
}
