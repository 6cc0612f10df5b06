//! 02, C-17: what 0 stands for on each call.

use super::checking::{COMPARING, REBUILDING};
use super::{asked, Recording};
use crate::slots::Asked;
use second::testing::calls::Call;
use second::testing::sheet::Try;
use second::Set;

impl Recording<'_> {
    /// The sheet that is loaded with 0 on every call that takes a set; and with each number that is
    /// a set on the calls of a checker, those that keep the old default among them.
    pub(super) fn defaults(&mut self, attempt: &Try) {
        let sign = attempt.sign;
        for call in Call::ALL {
            if call.has_number() && call.takes_set() {
                self.recorder.call(call, Asked { sign, ..asked(0) });
            }
        }
        for call in REBUILDING.into_iter().chain(COMPARING) {
            for set in Set::ALL {
                self.recorder.call(call, asked(set.number()));
            }
        }
    }
}
