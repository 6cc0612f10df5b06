//! "The draw": the walk over lent words.

use crate::answers::Refusal;

/// A row of words that is read from the front.
struct Walk<'a> {
    words: &'a [u64],
    taken: usize,
}

impl Walk<'_> {
    fn take(&mut self) -> Result<u64, Refusal> {
        let word = *self.words.get(self.taken).ok_or(Refusal::WORDS)?;
        self.taken += 1;
        Ok(word)
    }

    /// A trial of x visits its binary places 30 down to 0. Each set place takes one word; the
    /// trial stops at the first word that is not below its threshold, and fails.
    fn trial(&mut self, x: i64, thresholds: &[u64]) -> Result<bool, Refusal> {
        assert!((0..1 << 31).contains(&x), "a trial of {x}");
        for place in (0..31).rev() {
            let set = x >> place & 1 == 1;
            if set && self.take()? >= thresholds[place] {
                return Ok(false);
            }
        }
        Ok(true)
    }

    /// The four steps of the draw.
    fn draw(&mut self, first: i64, second: i64, thresholds: &[u64]) -> Result<(), Refusal> {
        if !self.trial(first, thresholds)? {
            return Err(Refusal::DRAW);
        }
        while !self.trial(second, thresholds)? {
            let odd = self.take()? % 2 == 1;
            if !odd && !self.trial(second, thresholds)? {
                return Err(Refusal::DRAW);
            }
        }
        Ok(())
    }
}

/// Draws with trials of `first` (step 1) and `second` (steps 2 and 4); the outcome is done, 8
/// or 9, beside the count of words taken.
pub fn draw(
    first: i64,
    second: i64,
    thresholds: &[u64],
    words: &[u64],
) -> (Result<(), Refusal>, u64) {
    let mut walk = Walk { words, taken: 0 };
    let outcome = walk.draw(first, second, thresholds);
    (outcome, walk.taken as u64)
}
