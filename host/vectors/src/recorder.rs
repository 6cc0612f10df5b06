//! Records loads, patches and calls, with the answers of the second program.

use crate::slots::{bytes_of, Asked, Element, Slots};
use crate::LETTERS;
use second::form::KEY_NOT_STATED;
use second::testing::calls::{Answered, Call};
use second::testing::key_numbers;
use second::testing::noise::Noise;
use std::ops::Range;

pub const LOAD: u8 = 1;
pub const PATCH: u8 = 2;
pub const CALL: u8 = 3;

/// The bytes of an entry's head.
const HEAD: usize = 8;

pub struct Recorder {
    slots: Slots,
    entries: Vec<u8>,
    count: u32,
    calls: u32,
    fill: u8,
    /// What the key numbers are drawn from.
    numbers: Noise,
}

impl Recorder {
    /// A recorder whose key numbers are drawn from this seed.
    pub fn new(seed: u64) -> Recorder {
        Recorder {
            slots: Slots::default(),
            entries: Vec::new(),
            count: 0,
            calls: 0,
            fill: 0,
            numbers: Noise::part(seed, 0),
        }
    }

    /// Puts numbers into a slot, and its length to theirs.
    pub fn load<T: Element>(&mut self, slot: usize, numbers: &[T]) {
        self.load_bytes(slot, &bytes_of(numbers));
    }

    /// Brings a slot to this content, by patches where they are shorter than a load.
    fn load_bytes(&mut self, slot: usize, bytes: &[u8]) {
        let held = self.slots.get(slot);
        let width = held.width();
        let length = bytes.len() / width;
        let runs = differing_runs(held.part(0, length), bytes, width);
        let patches: usize = runs.iter().map(|run| HEAD + width * run.len()).sum();
        if patches > bytes.len() {
            self.slots.get_mut(slot).load(0, bytes);
            self.entry(LOAD, slot, width, 0, bytes);
            return;
        }
        if held.length() != length {
            self.resize(slot, length);
        }
        for run in runs {
            self.patch(slot, run.start, &bytes[width * run.start..width * run.end]);
        }
    }

    /// Sets a slot's length and leaves its entries.
    pub fn resize(&mut self, slot: usize, length: usize) {
        self.slots.get_mut(slot).load(length, &[]);
        self.entry(LOAD, slot, self.slots.get(slot).width(), length, &[]);
    }

    /// Runs `within` with one entry of a slot changed, and puts the entry back.
    pub fn patched<T: Element>(
        &mut self,
        slot: usize,
        at: usize,
        number: T,
        within: impl FnOnce(&mut Recorder),
    ) {
        self.patched_run(slot, at, &[number], within);
    }

    /// The same with a run of entries.
    pub fn patched_run<T: Element>(
        &mut self,
        slot: usize,
        at: usize,
        numbers: &[T],
        within: impl FnOnce(&mut Recorder),
    ) {
        let old = self.exchange(slot, at, &bytes_of(numbers));
        within(self);
        self.patch(slot, at, &old);
    }

    /// Puts a run of bytes, whole entries, into a slot. Gives those that were there.
    pub fn exchange(&mut self, slot: usize, at: usize, bytes: &[u8]) -> Vec<u8> {
        let held = self.slots.get(slot);
        let old = held.part(at, bytes.len() / held.width()).to_vec();
        self.patch(slot, at, bytes);
        old
    }

    fn patch(&mut self, slot: usize, at: usize, bytes: &[u8]) {
        self.slots.get_mut(slot).patch(at, bytes);
        self.entry(PATCH, slot, self.slots.get(slot).width(), at, bytes);
    }

    /// Runs `within` with another length of a slot, and sets the length back.
    pub fn resized(&mut self, slot: usize, length: usize, within: impl FnOnce(&mut Recorder)) {
        let old = self.slots.get(slot).length();
        self.resize(slot, length);
        within(self);
        self.resize(slot, old);
    }

    /// Records a call with the second program's answer and output, and with another key number each
    /// time where it takes one.
    pub fn call(&mut self, call: Call, asked: Asked) -> Answered {
        let key = match call.takes_key() {
            true => key_numbers::any(&mut self.numbers),
            false => KEY_NOT_STATED,
        };
        self.call_with_key(call, Asked { key, ..asked })
    }

    /// The same with the key number that is asked with.
    pub fn call_with_key(&mut self, call: Call, asked: Asked) -> Answered {
        // Another fill for every call.
        self.fill = self.fill % 127 + 1;
        let asked = Asked {
            fill: self.fill,
            ..asked
        };
        let (answered, outputs) = self.slots.call(call, &asked);
        if answered.number == 0 {
            for (slot, bytes) in outputs {
                self.load_bytes(slot, &bytes);
            }
        }
        self.calls += 1;
        self.entry(CALL, call as usize, 1, 0, &encoded(&asked, &answered));
        answered
    }

    fn entry(&mut self, what: u8, number: usize, width: usize, start: usize, bytes: &[u8]) {
        self.count += 1;
        self.entries.extend([what, number as u8, width as u8, 0]);
        self.entries.extend((start as u16).to_le_bytes());
        self.entries
            .extend(((bytes.len() / width) as u16).to_le_bytes());
        self.entries.extend(bytes);
    }

    /// The file.
    pub fn finish(self) -> Vec<u8> {
        let mut file = LETTERS.to_vec();
        file.extend(self.count.to_le_bytes());
        file.extend(self.calls.to_le_bytes());
        file.extend(self.entries);
        file
    }
}

/// The runs of elements where two contents differ. Runs with fewer bytes between them than a head
/// takes are one.
fn differing_runs(held: &[u8], wanted: &[u8], width: usize) -> Vec<Range<usize>> {
    let mut runs: Vec<Range<usize>> = Vec::new();
    let pairs = held.chunks(width).zip(wanted.chunks(width));
    for (index, (held, wanted)) in pairs.enumerate() {
        if held == wanted {
            continue;
        }
        match runs.last_mut() {
            Some(run) if width * (index - run.end) < HEAD => run.end = index + 1,
            _ => runs.push(index..index + 1),
        }
    }
    runs
}

/// The 36 bytes of a call.
fn encoded(asked: &Asked, answered: &Answered) -> Vec<u8> {
    let mut bytes = asked.set.to_le_bytes().to_vec();
    bytes.extend([answered.number as u8, answered.set as u8]);
    let lengths = asked.lengths;
    for number in [
        answered.place as usize,
        answered.words as usize,
        answered.part.0,
        answered.part.1,
        lengths.rounded,
        lengths.z1,
        lengths.z2_dagger,
        lengths.list,
        lengths.record,
        lengths.rests,
    ] {
        let short = u16::try_from(number).expect("within a record or a row of words");
        bytes.extend(short.to_le_bytes());
    }
    bytes.extend([u8::from(asked.sign), asked.fill]);
    bytes.extend(asked.key.to_le_bytes());
    bytes.extend(answered.key.to_le_bytes());
    bytes
}
