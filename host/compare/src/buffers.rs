//! Output buffers that show what a call wrote, and all that a call leaves behind.

use second::testing::calls::{Answered, Call, Input, Outputs};
use second::testing::noise::Noise;

/// Entries before and after a lent buffer, which no call may touch.
const MARGIN: usize = 5;

/// The output buffers, each with its margins.
#[derive(Clone, Debug, PartialEq, Eq)]
pub struct Buffers {
    rounded: Vec<u16>,
    rests: Vec<i16>,
    z1: Vec<i16>,
    z2_dagger: Vec<i8>,
    list: Vec<u16>,
    record: Vec<u8>,
}

impl Buffers {
    /// Buffers of the input's lengths, filled with noise from this seed.
    pub fn new(input: &Input, fill: u64) -> Buffers {
        let lengths = input.lengths;
        let mut noise = Noise::new(fill);
        let mut filled = |length: usize| noise.words(length + 2 * MARGIN).into_iter();
        Buffers {
            rounded: filled(lengths.rounded).map(|word| word as u16).collect(),
            rests: filled(lengths.rests).map(|word| word as i16).collect(),
            z1: filled(lengths.z1).map(|word| word as i16).collect(),
            z2_dagger: filled(lengths.z2_dagger).map(|word| word as i8).collect(),
            list: filled(lengths.list).map(|word| word as u16).collect(),
            record: filled(lengths.record).map(|word| word as u8).collect(),
        }
    }

    fn outputs(&mut self) -> Outputs<'_> {
        Outputs {
            rounded: within_mut(&mut self.rounded),
            rests: within_mut(&mut self.rests),
            z1: within_mut(&mut self.z1),
            z2_dagger: within_mut(&mut self.z2_dagger),
            list: within_mut(&mut self.list),
            record: within_mut(&mut self.record),
        }
    }

    pub fn rounded(&self) -> &[u16] {
        within(&self.rounded)
    }

    pub fn z1(&self) -> &[i16] {
        within(&self.z1)
    }

    pub fn z2_dagger(&self) -> &[i8] {
        within(&self.z2_dagger)
    }

    pub fn list(&self) -> &[u16] {
        within(&self.list)
    }

    pub fn record(&self) -> &[u8] {
        within(&self.record)
    }
}

/// The part of a buffer that is lent.
fn within<T>(buffer: &[T]) -> &[T] {
    &buffer[MARGIN..buffer.len() - MARGIN]
}

fn within_mut<T>(buffer: &mut [T]) -> &mut [T] {
    let end = buffer.len() - MARGIN;
    &mut buffer[MARGIN..end]
}

/// All that a call leaves behind.
#[derive(Clone, Debug, PartialEq, Eq)]
pub struct Left {
    pub answered: Answered,
    pub buffers: Buffers,
}

impl Left {
    /// What a side leaves of a call on buffers with this fill.
    pub fn by(
        side: impl Fn(Call, &Input, Outputs) -> Answered,
        call: Call,
        input: &Input,
        fill: u64,
    ) -> Left {
        let mut buffers = Buffers::new(input, fill);
        let answered = side(call, input, buffers.outputs());
        Left { answered, buffers }
    }

    pub fn number(&self) -> u32 {
        self.answered.number
    }
}

/// Where two results differ, in words; none where they are the same byte for byte.
pub fn difference(library: &Left, second: &Left) -> Option<String> {
    if library.answered != second.answered {
        return Some(format!(
            "library: {:?}; second program: {:?}",
            library.answered, second.answered
        ));
    }
    let (ours, theirs) = (&library.buffers, &second.buffers);
    entry("rounded vector", &ours.rounded, &theirs.rounded)
        .or_else(|| entry("rests", &ours.rests, &theirs.rests))
        .or_else(|| entry("z1", &ours.z1, &theirs.z1))
        .or_else(|| entry("z2 dagger", &ours.z2_dagger, &theirs.z2_dagger))
        .or_else(|| entry("list", &ours.list, &theirs.list))
        .or_else(|| entry("record", &ours.record, &theirs.record))
}

/// The first entry where two buffers differ; places before the lent part are negative.
fn entry<T: PartialEq + std::fmt::Display>(name: &str, ours: &[T], theirs: &[T]) -> Option<String> {
    let index = (0..ours.len()).find(|&index| ours[index] != theirs[index])?;
    let place = index as i64 - MARGIN as i64;
    Some(format!(
        "{name}, entry {place}: library {}, second program {}",
        ours[index], theirs[index]
    ))
}

#[cfg(test)]
mod tests {
    use super::{difference, Left};
    use crate::inputs::right_input;
    use second::testing::calls::{run, Call};
    use second::testing::keys;
    use second::testing::noise::Noise;
    use second::Set;

    #[test]
    fn every_difference_is_noticed() {
        let mut noise = Noise::new(82);
        let key = keys::published(Set::I, &mut noise);
        let input = right_input(Set::I, &key, &mut noise);
        let right = Left::by(run, Call::Read, &input, 7);
        assert_eq!(difference(&right, &right), None);
        let changes: [fn(&mut Left); 13] = [
            |left| left.answered.number += 1,
            |left| left.answered.place += 1,
            |left| left.answered.words += 1,
            |left| left.answered.set += 1,
            |left| left.answered.key ^= 1 << 31,
            |left| left.answered.part.0 += 1,
            |left| left.answered.size += 1,
            |left| left.buffers.rounded[3] ^= 1,
            |left| left.buffers.rests[200] ^= 1,
            |left| left.buffers.z1[0] ^= 1,
            |left| left.buffers.z2_dagger[300] ^= 1,
            |left| *left.buffers.list.last_mut().unwrap() ^= 1,
            |left| left.buffers.record[9] ^= 1,
        ];
        for change in changes {
            let mut other = right.clone();
            change(&mut other);
            assert!(difference(&other, &right).is_some());
        }
    }

    #[test]
    fn a_right_input_is_done_by_every_call() {
        let mut noise = Noise::new(83);
        for set in Set::ALL {
            let key = keys::published(set, &mut noise);
            let input = right_input(set, &key, &mut noise);
            for call in Call::ALL {
                let number = Left::by(run, call, &input, 7).number();
                assert_eq!(number, 0, "{}", call.name());
            }
        }
    }
}
