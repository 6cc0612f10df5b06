//! The eighteen slots, and a call on them by the second program.

use second::testing::calls::{run, Answered, Call, Input, OutputLengths, Outputs};

/// An array of elements, kept as bytes, and its length in elements.
#[derive(Clone, Debug)]
pub struct Slot {
    width: usize,
    bytes: Vec<u8>,
    length: usize,
}

impl Slot {
    fn new(width: usize, room: usize) -> Slot {
        Slot {
            width,
            bytes: vec![0; width * room],
            length: 0,
        }
    }

    pub fn width(&self) -> usize {
        self.width
    }

    pub fn length(&self) -> usize {
        self.length
    }

    /// The elements that there is room for.
    pub fn room(&self) -> usize {
        self.bytes.len() / self.width
    }

    /// The bytes of the entries within the length.
    pub fn content(&self) -> &[u8] {
        &self.bytes[..self.width * self.length]
    }

    /// The bytes of `count` entries from `start` on.
    pub fn part(&self, start: usize, count: usize) -> &[u8] {
        &self.bytes[self.width * start..self.width * (start + count)]
    }

    pub fn load(&mut self, start: usize, elements: &[u8]) {
        self.patch(start, elements);
        self.length = start + elements.len() / self.width;
        assert!(self.content().len() <= self.bytes.len());
    }

    pub fn patch(&mut self, start: usize, elements: &[u8]) {
        let at = self.width * start;
        self.bytes[at..at + elements.len()].copy_from_slice(elements);
    }

    fn numbers<T: Element>(&self) -> Vec<T> {
        self.content().chunks(self.width).map(T::of).collect()
    }
}

/// A number as the bytes of an entry.
pub trait Element: Copy {
    fn of(bytes: &[u8]) -> Self;
    fn bytes(self) -> Vec<u8>;
}

macro_rules! element {
    ($($type:ty),*) => {
        $(impl Element for $type {
            fn of(bytes: &[u8]) -> $type {
                <$type>::from_le_bytes(bytes.try_into().expect("an entry of this width"))
            }
            fn bytes(self) -> Vec<u8> {
                self.to_le_bytes().to_vec()
            }
        })*
    };
}
element!(i8, u8, i16, u16, u64);

/// The bytes of some numbers.
pub fn bytes_of<T: Element>(numbers: &[T]) -> Vec<u8> {
    numbers.iter().flat_map(|number| number.bytes()).collect()
}

pub const F: usize = 1;
pub const G: usize = 2;
pub const A: usize = 3;
pub const Y1: usize = 4;
pub const Y2: usize = 5;
pub const LIST: usize = 6;
pub const HASHED: usize = 7;
pub const THRESHOLDS: usize = 8;
pub const WORDS: usize = 9;
pub const Z1: usize = 10;
pub const Z2_DAGGER: usize = 11;
pub const RECORD: usize = 12;
pub const WANTED_ROUNDED: usize = 13;
pub const WANTED_Z1: usize = 14;
pub const WANTED_Z2_DAGGER: usize = 15;
pub const WANTED_LIST: usize = 16;
pub const WANTED_RECORD: usize = 17;
pub const WANTED_RESTS: usize = 18;

const VECTOR_ROOM: usize = 520;
const LIST_ROOM: usize = 128;
const RECORD_ROOM: usize = 1800;
/// Room for the walks that are recorded.
pub const WORDS_ROOM: usize = 64;

/// Width and room of slots 1 to 18.
const ROOMS: [(usize, usize); 18] = [
    (1, VECTOR_ROOM),
    (1, VECTOR_ROOM),
    (2, VECTOR_ROOM),
    (2, VECTOR_ROOM),
    (2, VECTOR_ROOM),
    (2, LIST_ROOM),
    (2, LIST_ROOM),
    (8, 40),
    (8, WORDS_ROOM),
    (2, VECTOR_ROOM),
    (1, VECTOR_ROOM),
    (1, RECORD_ROOM),
    (2, VECTOR_ROOM),
    (2, VECTOR_ROOM),
    (1, VECTOR_ROOM),
    (2, LIST_ROOM),
    (1, RECORD_ROOM),
    (2, VECTOR_ROOM),
];

/// What a call takes beside the slots.
#[derive(Clone, Copy, Debug)]
pub struct Asked {
    pub set: u32,
    /// The key number.
    pub key: u32,
    pub sign: bool,
    pub lengths: OutputLengths,
    pub fill: u8,
}

/// An output array after a call: the slot that it is held to, and its bytes.
pub type Output = (usize, Vec<u8>);

#[derive(Clone)]
pub struct Slots(Vec<Slot>);

impl Default for Slots {
    fn default() -> Slots {
        let slots = ROOMS.iter().map(|&(width, room)| Slot::new(width, room));
        Slots(slots.collect())
    }
}

impl Slots {
    /// The slot of this number, 1 to 18.
    pub fn get(&self, number: usize) -> &Slot {
        &self.0[number - 1]
    }

    pub fn get_mut(&mut self, number: usize) -> &mut Slot {
        &mut self.0[number - 1]
    }

    /// The slot of a number that may be any.
    pub fn find(&mut self, number: usize) -> Option<&mut Slot> {
        self.0.get_mut(number.checked_sub(1)?)
    }

    /// The second program's answer, and the output arrays that the call has.
    pub fn call(&self, call: Call, asked: &Asked) -> (Answered, Vec<Output>) {
        let lengths = asked.lengths;
        let mut rounded = vec![u16::from(asked.fill); lengths.rounded];
        let mut rests = vec![i16::from(asked.fill); lengths.rests];
        let mut z1 = vec![i16::from(asked.fill); lengths.z1];
        let mut z2_dagger = vec![asked.fill as i8; lengths.z2_dagger];
        let mut list = vec![u16::from(asked.fill); lengths.list];
        let mut record = vec![asked.fill; lengths.record];
        let outputs = Outputs {
            rounded: &mut rounded,
            rests: &mut rests,
            z1: &mut z1,
            z2_dagger: &mut z2_dagger,
            list: &mut list,
            record: &mut record,
        };
        let answered = run(call, &self.input(asked), outputs);
        let rounded = (WANTED_ROUNDED, bytes_of(&rounded));
        let z1 = (WANTED_Z1, bytes_of(&z1));
        let z2_dagger = (WANTED_Z2_DAGGER, bytes_of(&z2_dagger));
        let outputs = match call {
            Call::Commitment | Call::Rebuild | Call::RebuildDefaultOne => vec![rounded],
            Call::CommitmentWithRests => vec![rounded, (WANTED_RESTS, bytes_of(&rests))],
            Call::Respond => vec![z1, z2_dagger],
            Call::Write | Call::WritePacked | Call::Pack | Call::Unpack => {
                vec![(WANTED_RECORD, record)]
            }
            Call::Read | Call::ReadPacked => {
                vec![z1, z2_dagger, (WANTED_LIST, bytes_of(&list))]
            }
            _ => vec![],
        };
        (answered, outputs)
    }

    fn input(&self, asked: &Asked) -> Input {
        Input {
            set: asked.set,
            key: asked.key,
            f: self.get(F).numbers(),
            g: self.get(G).numbers(),
            a: self.get(A).numbers(),
            y1: self.get(Y1).numbers(),
            y2: self.get(Y2).numbers(),
            list: self.get(LIST).numbers(),
            hashed: self.get(HASHED).numbers(),
            sign: asked.sign,
            thresholds: self.get(THRESHOLDS).numbers(),
            words: self.get(WORDS).numbers(),
            z1: self.get(Z1).numbers(),
            z2_dagger: self.get(Z2_DAGGER).numbers(),
            record: self.get(RECORD).numbers(),
            // One slot for both forms.
            packed: self.get(RECORD).numbers(),
            lengths: asked.lengths,
        }
    }
}
