//! "Parameters": the numbers of a set are asked of the set and stand nowhere else.

use crate::answers::Refusal;
use crate::form::{FIELDS, KEY_FIELD};
use std::ops::Range;

/// The number of coefficients of a polynomial.
pub const N: usize = 512;
/// The modulus q.
pub const Q: i64 = 12289;
/// Masks lie in -4096 .. 4096.
pub const MASK_LIMIT: i64 = 4096;
/// The number of thresholds that the draw is lent.
pub const THRESHOLDS: usize = 31;
/// The length of the reader's list buffer.
pub const LIST_BUFFER: usize = Edition::THIS.list_buffer();

/// How many coefficients of a polynomial are 1 or -1, and how many are 2 or -2.
#[derive(Clone, Copy, Debug, PartialEq, Eq)]
pub struct KeyCounts {
    pub ones: usize,
    pub twos: usize,
}

/// The sets of paper 01, and those of paper 02 with longer challenges (C-22).
#[derive(Clone, Copy, Debug, PartialEq, Eq)]
pub enum Set {
    I = 1,
    II,
    III,
    IV,
    V,
    VI,
    VII,
    VIII,
}

/// A row of paper 01's table: what is asked of a set beside its number and kappa.
enum Row {
    First,
    Second,
    Third,
    Fourth,
}

impl Set {
    pub const ALL: [Set; 8] = [
        Set::I,
        Set::II,
        Set::III,
        Set::IV,
        Set::V,
        Set::VI,
        Set::VII,
        Set::VIII,
    ];

    /// The first number above the sets.
    pub const ABOVE: u32 = Set::ALL.len() as u32 + 1;

    /// The set that a call's number asks for: 0 stands for set 4 (02, C-17).
    pub fn asked(number: u32) -> Result<Set, Refusal> {
        Set::asked_or(Set::IV, number)
    }

    /// The same on the calls that keep the old default: 0 stands for set 1.
    pub fn asked_default_one(number: u32) -> Result<Set, Refusal> {
        Set::asked_or(Set::I, number)
    }

    fn asked_or(default: Set, number: u32) -> Result<Set, Refusal> {
        match number {
            0 => Ok(default),
            _ => Set::stated(number).ok_or(Refusal::SET),
        }
    }

    /// The set that a record states: 0 is malformed there.
    pub fn stated(number: u32) -> Option<Set> {
        Set::ALL.into_iter().find(|set| set.number() == number)
    }

    pub fn number(self) -> u32 {
        self as u32
    }

    /// The challenge size.
    pub const fn kappa(self) -> usize {
        match self {
            Set::I | Set::II => 23,
            Set::III => 30,
            Set::IV => 39,
            Set::V | Set::VI => 58,
            Set::VII => 82,
            Set::VIII => 113,
        }
    }

    /// The set of paper 01 that it is like: but for kappa it has the numbers of that one.
    pub fn like(self) -> Set {
        match self.row() {
            Row::First => Set::I,
            Row::Second => Set::II,
            Row::Third => Set::III,
            Row::Fourth => Set::IV,
        }
    }

    /// The row that it shares with the set that it is like.
    fn row(self) -> Row {
        match self {
            Set::I | Set::V => Row::First,
            Set::II | Set::VI => Row::Second,
            Set::III | Set::VII => Row::Third,
            Set::IV | Set::VIII => Row::Fourth,
        }
    }

    /// The standard deviation of the masks. No call uses it; the test thresholds and masks do.
    pub fn sigma(self) -> i64 {
        match self.row() {
            Row::First => 215,
            Row::Second => 107,
            Row::Third => 250,
            Row::Fourth => 271,
        }
    }

    /// The number of dropped binary digits.
    pub fn d(self) -> u32 {
        match self.row() {
            Row::First | Row::Second => 10,
            Row::Third => 9,
            Row::Fourth => 8,
        }
    }

    /// 2q divided by 2^d, rounded down.
    pub fn p(self) -> i64 {
        2 * Q / self.step()
    }

    /// 2^d.
    pub fn step(self) -> i64 {
        1 << self.d()
    }

    /// The figure of the data sheet (02, C-24): how far 2^d times z2 dagger lies from z2 at most.
    pub fn figure(self) -> i64 {
        self.step() + 1
    }

    pub fn largest(self) -> i64 {
        match self.row() {
            Row::First => 2100,
            Row::Second => 1563,
            Row::Third => 1760,
            Row::Fourth => 1613,
        }
    }

    /// B2 squared.
    pub fn b2_squared(self) -> i64 {
        let b2: i64 = match self.row() {
            Row::First => 12872,
            Row::Second => 11074,
            Row::Third => 10206,
            Row::Fourth => 9901,
        };
        b2 * b2
    }

    /// The limit K on a key's squared length.
    pub fn k(self) -> i64 {
        match self.row() {
            Row::First | Row::Second => 775,
            Row::Third => 1409,
            Row::Fourth => 1784,
        }
    }

    /// The counts that f and g each have, d1 and d2 of paper 02 (C-12). d itself is another number.
    pub fn key_counts(self) -> KeyCounts {
        let (ones, twos) = match self.row() {
            Row::First | Row::Second => (154, 0),
            Row::Third => (216, 16),
            Row::Fourth => (231, 31),
        };
        KeyCounts { ones, twos }
    }
}

/// A reader of records, by the sets that it knows and by whether it knows key numbers.
#[derive(Clone, Copy, Debug)]
pub struct Edition {
    sets: &'static [Set],
    keys: bool,
}

impl Edition {
    pub const THIS: Edition = Edition {
        sets: &Set::ALL,
        keys: true,
    };
    /// The one before the key number (02, C-13).
    pub const BEFORE_KEYS: Edition = Edition {
        sets: &Set::ALL,
        keys: false,
    };
    /// The one before the longer challenges.
    pub const OLDER: Edition = Edition {
        sets: &[Set::I, Set::II, Set::III, Set::IV],
        keys: false,
    };

    pub fn knows_keys(self) -> bool {
        self.keys
    }

    /// The fields of a header that it tests. Every number is a key number: an edition that knows them
    /// has nothing to test there, one that does not wants zeros.
    pub fn fields(self) -> impl Iterator<Item = Range<usize>> {
        let tested = move |field: &Range<usize>| *field != KEY_FIELD || !self.keys;
        FIELDS.into_iter().filter(tested)
    }

    /// The set that a record states, where it is one of these.
    pub fn stated(self, number: u32) -> Option<Set> {
        Set::stated(number).filter(|set| self.sets.contains(set))
    }

    /// The length of its list buffer: the largest kappa.
    pub const fn list_buffer(self) -> usize {
        let (mut largest, mut at) = (0, 0);
        while at < self.sets.len() {
            if self.sets[at].kappa() > largest {
                largest = self.sets[at].kappa();
            }
            at += 1;
        }
        largest
    }
}

/// Refusal 2, for the vectors of a call.
pub fn require_vectors(lengths: &[usize]) -> Result<(), Refusal> {
    require_lengths(lengths, N)
}

/// Refusal 2, for any stated length.
pub fn require_lengths(lengths: &[usize], stated: usize) -> Result<(), Refusal> {
    if lengths.iter().all(|&length| length == stated) {
        Ok(())
    } else {
        Err(Refusal::LENGTH)
    }
}
