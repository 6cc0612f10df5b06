//! The forms of a record: paper 01's plain one and paper 02's packed one (C-11). A form is its letters
//! and the bits of an entry in each section; header, offsets and totals follow. Both have the key number
//! in the last field of the header (C-13).

use crate::parameters::{Set, LIST_BUFFER, N};
use crate::ring::Whole;
use std::ops::Range;

/// The length of a header.
pub const HEADER: usize = 24;

/// The fields of a header, in rising order.
pub const FIELDS: [Range<usize>; 11] = [
    0..4,
    4..5,
    5..6,
    6..8,
    8..10,
    10..12,
    12..14,
    14..16,
    16..18,
    TOTAL_FIELD,
    KEY_FIELD,
];
pub const TOTAL_FIELD: Range<usize> = 18..20;
/// The key number; before C-13 four zeros.
pub const KEY_FIELD: Range<usize> = 20..HEADER;

/// The key number of a signature that states none.
pub const KEY_NOT_STATED: u32 = 0;

/// A section of a record.
#[derive(Clone, Copy, Debug, PartialEq, Eq)]
pub enum Section {
    Z1,
    Z2Dagger,
    List,
}

impl Section {
    pub const ALL: [Section; 3] = [Section::Z1, Section::Z2Dagger, Section::List];

    /// The count of its entries.
    pub fn count(self, set: Set) -> usize {
        match self {
            Section::Z1 | Section::Z2Dagger => N,
            Section::List => set.kappa(),
        }
    }
}

#[derive(Clone, Copy, Debug, PartialEq, Eq)]
pub enum Form {
    Plain,
    Packed,
}

impl Form {
    pub const ALL: [Form; 2] = [Form::Plain, Form::Packed];

    /// The form whose letters open the record.
    pub fn of(record: &[u8]) -> Option<Form> {
        let mut forms = Form::ALL.into_iter();
        forms.find(|form| record.starts_with(form.letters()))
    }

    pub fn other(self) -> Form {
        match self {
            Form::Plain => Form::Packed,
            Form::Packed => Form::Plain,
        }
    }

    pub fn name(self) -> &'static str {
        match self {
            Form::Plain => "plain",
            Form::Packed => "packed",
        }
    }

    pub fn letters(self) -> &'static [u8; 4] {
        match self {
            Form::Plain => b"BLB1",
            Form::Packed => b"BLP1",
        }
    }

    /// The bits of an entry.
    pub const fn bits(self, section: Section) -> usize {
        match (self, section) {
            (Form::Plain, Section::Z1 | Section::List) => 16,
            (Form::Plain, Section::Z2Dagger) => 8,
            (Form::Packed, Section::Z1) => 13,
            (Form::Packed, Section::Z2Dagger) => 4,
            (Form::Packed, Section::List) => 9,
        }
    }

    /// The bytes of a section of so many entries: it ends with a whole one.
    const fn bytes(self, section: Section, count: usize) -> usize {
        (self.bits(section) * count).div_ceil(8)
    }

    /// Where a section starts.
    pub const fn offset(self, section: Section) -> usize {
        match section {
            Section::Z1 => HEADER,
            Section::Z2Dagger => self.offset(Section::Z1) + self.bytes(Section::Z1, N),
            Section::List => self.offset(Section::Z2Dagger) + self.bytes(Section::Z2Dagger, N),
        }
    }

    /// Where a section lies.
    pub fn part(self, section: Section, set: Set) -> Range<usize> {
        let start = self.offset(section);
        start..start + self.bytes(section, section.count(set))
    }

    /// The length of a record of this set.
    pub fn total(self, set: Set) -> usize {
        self.part(Section::List, set).end
    }

    /// The length of the longest record.
    pub const fn longest(self) -> usize {
        self.offset(Section::List) + self.bytes(Section::List, LIST_BUFFER)
    }

    /// The header of a record of this set with this key number.
    pub fn header(self, set: Set, key: u32) -> [u8; HEADER] {
        let sections = Section::ALL.map(|section| [section.count(set), self.offset(section)]);
        let numbers = sections.into_iter().flatten().chain([self.total(set)]);
        let mut header = [0; HEADER];
        header[..4].copy_from_slice(self.letters());
        header[4] = set.number() as u8;
        for (field, number) in header[6..].chunks_exact_mut(2).zip(numbers) {
            field.copy_from_slice(&(number as u16).to_le_bytes());
        }
        header[KEY_FIELD].copy_from_slice(&key.to_le_bytes());
        header
    }

    /// Where the spare bits of a record stand: behind the last entry of a section, up to its end.
    pub fn spare_bits(self, set: Set) -> Vec<usize> {
        let spare = |section: Section| {
            let part = self.part(section, set);
            8 * part.start + self.bits(section) * section.count(set)..8 * part.end
        };
        Section::ALL.into_iter().flat_map(spare).collect()
    }

    /// The bytes of a section with these entries.
    pub fn encoded(self, section: Section, entries: &[i64]) -> Vec<u8> {
        let bits = self.bits(section);
        let mut bytes = vec![0; self.bytes(section, entries.len())];
        for (index, entry) in entries.iter().enumerate() {
            for place in 0..bits {
                if entry >> place & 1 == 1 {
                    turn_bit(&mut bytes, bits * index + place);
                }
            }
        }
        bytes
    }

    /// The entries of a section: a list's are never negative, the others two's complement.
    pub fn decoded(self, section: Section, set: Set, bytes: &[u8]) -> Whole {
        let bits = self.bits(section);
        let worth = |place: usize| match section {
            Section::Z1 | Section::Z2Dagger if place == bits - 1 => -(1 << place),
            _ => 1 << place,
        };
        let entry = |index: usize| {
            let set_places = (0..bits).filter(|place| bit(bytes, bits * index + place));
            set_places.map(worth).sum()
        };
        (0..section.count(set)).map(entry).collect()
    }
}

/// The key number in a header: its low byte comes first.
pub fn key_in(header: &[u8]) -> u32 {
    let bytes = header[KEY_FIELD].iter().rev();
    bytes.fold(0, |number, &byte| 256 * number + u32::from(byte))
}

/// A bit by its place: low first within a byte and from byte to byte.
pub fn bit(bytes: &[u8], place: usize) -> bool {
    bytes[place / 8] >> (place % 8) & 1 == 1
}

pub fn turn_bit(bytes: &mut [u8], place: usize) {
    bytes[place / 8] ^= 1 << (place % 8);
}
