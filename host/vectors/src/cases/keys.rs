//! Keys: the key test, and keys of all kinds.

use super::{load_key, Recording};
use crate::slots::{Asked, A, F, G};
use second::parameters::N;
use second::testing::calls::Call;
use second::testing::edges::{past_k, Edge};
use second::testing::keys::{self, Key};
use second::testing::sheet::Try;

/// Keys of each set beside the first, which has the refusals.
const MORE_KEYS: u8 = 3;

impl Recording<'_> {
    pub(super) fn key_tests(&mut self) {
        load_key(self.recorder, &self.key);
        let asked = self.asked();
        self.call(Call::KeyTest);
        self.sets_and_lengths(Call::KeyTest, asked, &[(F, N), (G, N), (A, N)]);
        self.key_faults(Call::KeyTest, asked);
    }

    /// Refusals 3, 15 and 6, alone and several at once.
    pub(super) fn key_faults(&mut self, call: Call, asked: Asked) {
        for (slot, place, value) in [(F, 0, 3), (F, 511, -3), (G, 7, i8::MIN), (G, 511, i8::MAX)] {
            self.recorder.patched(slot, place, value, |recorder| {
                recorder.call(call, asked);
            });
        }
        for (place, value) in [(0, 12289u16), (511, u16::MAX)] {
            self.recorder.patched(A, place, value, |recorder| {
                recorder.call(call, asked);
            });
        }
        let a = self.key.a[9];
        self.recorder.patched(A, 9, (a + 1) % 12289, |recorder| {
            recorder.call(call, asked);
        });
        // A sign turned, which keeps the counts.
        let one = self.place_in_f(1);
        let turned = -self.key.f[one];
        self.recorder.patched(F, one, turned, |recorder| {
            recorder.call(call, asked);
        });
        // One coefficient more, where the relation breaks too; and one out of range beside it.
        self.recorder
            .patched(F, self.place_in_f(0), 1i8, |recorder| {
                recorder.call(call, asked);
                recorder.patched(G, 7, -3i8, |recorder| {
                    recorder.call(call, asked);
                });
            });
    }

    /// The last place where f has a coefficient of this size.
    pub(super) fn place_in_f(&self, size: i8) -> usize {
        let place = self.key.f.iter().rposition(|entry| entry.abs() == size);
        place.expect("f has a coefficient of this size")
    }

    /// A key at K and one whose f has no inverse: key test and a try each, with thresholds that
    /// pass everything.
    pub(super) fn other_keys(&mut self) {
        let mut attempt = Try::new(self.set, &self.key, b"other keys", &mut self.noise).0;
        attempt.thresholds.fill(u64::MAX);
        for make in [keys::at_k, keys::without_inverse] {
            load_key(self.recorder, &make(self.set, &mut self.noise));
            self.call(Call::KeyTest);
            self.attempt(&attempt);
        }
    }

    /// Every edge of the counts, and a key past K, also with the relation broken.
    pub(super) fn wrong_counts(&mut self) {
        for edge in Edge::all(self.set) {
            let key = edge.of(self.set, &self.key, &mut self.noise);
            self.test_and_respond(&key);
        }
        let mut key = past_k(self.set, &mut self.noise);
        self.test_and_respond(&key);
        key.a[9] = (key.a[9] + 1) % 12289;
        self.test_and_respond(&key);
    }

    fn test_and_respond(&mut self, key: &Key) {
        load_key(self.recorder, key);
        self.call(Call::KeyTest);
        self.call(Call::Respond);
    }

    /// Keys as they are made for signing: key test and a sheet each.
    pub(super) fn more_keys(&mut self) {
        for number in 0..MORE_KEYS {
            self.key = keys::published(self.set, &mut self.noise);
            load_key(self.recorder, &self.key);
            self.call(Call::KeyTest);
            self.sheet(&[number]);
        }
    }
}
