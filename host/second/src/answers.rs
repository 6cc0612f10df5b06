//! "Numbers that come back".

/// A refusal: its number, and its place, which is 0 except with 10 and 13.
#[derive(Clone, Copy, Debug, PartialEq, Eq)]
pub struct Refusal {
    pub number: u32,
    pub place: u32,
}

impl Refusal {
    /// The set is above the last one.
    pub const SET: Refusal = Refusal::at(1, 0);
    /// A vector, read or written, is not 512 long, the thresholds not 31, or the reader's list
    /// buffer not as long as the longest list.
    pub const LENGTH: Refusal = Refusal::at(2, 0);
    /// A coefficient of f, g or a is outside its range.
    pub const COEFFICIENT: Refusal = Refusal::at(3, 0);
    /// A mask coefficient is outside -4096 .. 4096.
    pub const MASK: Refusal = Refusal::at(4, 0);
    /// The list is not of the stated form, its count included.
    pub const LIST: Refusal = Refusal::at(5, 0);
    /// The key relation does not hold.
    pub const RELATION: Refusal = Refusal::at(6, 0);
    /// The key is longer than K. It can't occur: where the counts are right, no key is.
    pub const KEY_LENGTH: Refusal = Refusal::at(7, 0);
    /// Rejected by the draw.
    pub const DRAW: Refusal = Refusal::at(8, 0);
    /// The walk needs a word and none is left.
    pub const WORDS: Refusal = Refusal::at(9, 0);
    /// The sum of squares is above B2 squared.
    pub const SUM: Refusal = Refusal::at(11, 0);
    /// Both lists are proper and differ.
    pub const LISTS_DIFFER: Refusal = Refusal::at(12, 0);
    /// The output for a record is shorter than the total.
    pub const ROOM: Refusal = Refusal::at(14, 0);
    /// The counts of f or of g are wrong.
    pub const COUNTS: Refusal = Refusal::at(15, 0);

    /// An entry is beyond "largest": z1 is places 0 .. 511, z2 dagger 512 .. 1023.
    pub const fn entry(place: usize) -> Refusal {
        Refusal::at(10, place as u32)
    }

    /// The header is malformed: the first byte of the first wrong field, or the length under 24. A
    /// spare bit is set: its byte.
    pub const fn header(place: usize) -> Refusal {
        Refusal::at(13, place as u32)
    }

    const fn at(number: u32, place: u32) -> Refusal {
        Refusal { number, place }
    }
}

/// The number and place of an outcome: 0 and 0 when done.
pub fn number_and_place(outcome: Result<(), Refusal>) -> (u32, u32) {
    match outcome {
        Ok(()) => (0, 0),
        Err(refusal) => (refusal.number, refusal.place),
    }
}

/// What the response answers: the count of words taken stands beside every outcome, and the key number
/// that it took, 0 when it refuses.
#[derive(Clone, Copy, Debug, PartialEq, Eq)]
pub struct Response {
    pub outcome: Result<(), Refusal>,
    pub words: u64,
    pub key: u32,
}

/// What the reader answers: the record's set and key number, 0 when it refuses.
#[derive(Clone, Copy, Debug, PartialEq, Eq)]
pub struct Reading {
    pub outcome: Result<(), Refusal>,
    pub set: u32,
    pub key: u32,
}
