//! "The record", and paper 02's packed one (C-11), with the key number (C-13): the writers, the readers,
//! the conversions and the three section calls.

use crate::answers::{number_and_place, Reading, Refusal};
use crate::form::{bit, key_in, Form, Section, HEADER, KEY_NOT_STATED, TOTAL_FIELD};
use crate::length_rule::length_rule;
use crate::parameters::{require_lengths, require_vectors, Edition, Set};
use crate::response::require_list;
use crate::ring::{whole, Whole};

/// The writer: 1, 2, 5, 10, 11, 14. A longer output keeps its tail.
pub fn write(
    set: u32,
    key: u32,
    z1: &[i16],
    z2_dagger: &[i8],
    list: &[u16],
    out: &mut [u8],
) -> Result<(), Refusal> {
    write_in(Form::Plain, set, key, z1, z2_dagger, list, out)
}

/// The packed writer: 1, 2, 5, 10, 11, 14. A longer output keeps its tail.
pub fn write_packed(
    set: u32,
    key: u32,
    z1: &[i16],
    z2_dagger: &[i8],
    list: &[u16],
    out: &mut [u8],
) -> Result<(), Refusal> {
    write_in(Form::Packed, set, key, z1, z2_dagger, list, out)
}

/// The reader: 2, 13, 5, 10, 11. List entries after kappa keep their old contents.
pub fn read(record: &[u8], z1: &mut [i16], z2_dagger: &mut [i8], list: &mut [u16]) -> Reading {
    Edition::THIS.read(Form::Plain, record, z1, z2_dagger, list)
}

/// The packed reader: 2, 13, 5, 10, 11. List entries after kappa keep their old contents.
pub fn read_packed(
    record: &[u8],
    z1: &mut [i16],
    z2_dagger: &mut [i8],
    list: &mut [u16],
) -> Reading {
    Edition::THIS.read(Form::Packed, record, z1, z2_dagger, list)
}

/// From the plain form to the packed one: 13, 5, 10, 11, 14. A longer output keeps its tail.
pub fn pack(record: &[u8], out: &mut [u8]) -> Result<(), Refusal> {
    convert(Form::Plain, record, out)
}

/// From the packed form to the plain one: 13, 5, 10, 11, 14. A longer output keeps its tail.
pub fn unpack(record: &[u8], out: &mut [u8]) -> Result<(), Refusal> {
    convert(Form::Packed, record, out)
}

/// The z1 bytes of the lent record: 13 only.
pub fn z1_section<'a>(record: &'a [u8], number: &mut u32, place: &mut u32) -> &'a [u8] {
    Edition::THIS.section(Section::Z1, record, number, place)
}

/// The z2 dagger bytes of the lent record: 13 only.
pub fn z2_section<'a>(record: &'a [u8], number: &mut u32, place: &mut u32) -> &'a [u8] {
    Edition::THIS.section(Section::Z2Dagger, record, number, place)
}

/// The list bytes of the lent record: 13 only.
pub fn list_section<'a>(record: &'a [u8], number: &mut u32, place: &mut u32) -> &'a [u8] {
    Edition::THIS.section(Section::List, record, number, place)
}

/// The writer of a form.
pub fn write_in(
    form: Form,
    set: u32,
    key: u32,
    z1: &[i16],
    z2_dagger: &[i8],
    list: &[u16],
    out: &mut [u8],
) -> Result<(), Refusal> {
    let set = Set::asked(set)?;
    require_vectors(&[z1.len(), z2_dagger.len()])?;
    let held = Held::new(set, key, z1, z2_dagger, list);
    held.require_proper()?;
    held.put(form, out)
}

/// From this form to the other one. The key number stays.
fn convert(form: Form, record: &[u8], out: &mut [u8]) -> Result<(), Refusal> {
    let held = Edition::THIS.held(form, record)?;
    held.put(form.other(), out)
}

/// What a record holds: a set, a key number and the entries of its sections.
#[derive(Clone, Debug, PartialEq, Eq)]
pub struct Held {
    pub set: Set,
    pub key: u32,
    pub z1: Whole,
    pub z2_dagger: Whole,
    pub list: Whole,
}

impl Held {
    pub fn new(set: Set, key: u32, z1: &[i16], z2_dagger: &[i8], list: &[u16]) -> Held {
        Held {
            set,
            key,
            z1: whole(z1),
            z2_dagger: whole(z2_dagger),
            list: whole(list),
        }
    }

    /// The key number of a record and what stands in its sections; nothing else of the header is
    /// looked at.
    pub fn of(form: Form, set: Set, record: &[u8]) -> Held {
        let decoded =
            |section: Section| form.decoded(section, set, &record[form.part(section, set)]);
        Held {
            set,
            key: key_in(record),
            z1: decoded(Section::Z1),
            z2_dagger: decoded(Section::Z2Dagger),
            list: decoded(Section::List),
        }
    }

    /// The record that holds it. It may be one that no writer makes.
    pub fn record(&self, form: Form) -> Vec<u8> {
        let mut record = form.header(self.set, self.key).to_vec();
        for section in Section::ALL {
            record.extend(form.encoded(section, self.entries(section)));
        }
        record
    }

    pub fn entries(&self, section: Section) -> &Whole {
        match section {
            Section::Z1 => &self.z1,
            Section::Z2Dagger => &self.z2_dagger,
            Section::List => &self.list,
        }
    }

    pub fn entries_mut(&mut self, section: Section) -> &mut Whole {
        match section {
            Section::Z1 => &mut self.z1,
            Section::Z2Dagger => &mut self.z2_dagger,
            Section::List => &mut self.list,
        }
    }

    /// Refusals 5, 10 and 11.
    fn require_proper(&self) -> Result<(), Refusal> {
        require_list(self.set, &self.places())?;
        length_rule(self.set, &self.z1, &self.z2_dagger)
    }

    /// Refusal 14, or the record at the front of the output.
    fn put(&self, form: Form, out: &mut [u8]) -> Result<(), Refusal> {
        let total = form.total(self.set);
        let front = out.get_mut(..total).ok_or(Refusal::ROOM)?;
        front.copy_from_slice(&self.record(form));
        Ok(())
    }

    fn places(&self) -> Vec<u16> {
        self.list.iter().map(|&place| place as u16).collect()
    }
}

/// The calls on a record, as this edition answers them.
impl Edition {
    /// The reader of a form.
    pub fn read(
        self,
        form: Form,
        record: &[u8],
        z1: &mut [i16],
        z2_dagger: &mut [i8],
        list: &mut [u16],
    ) -> Reading {
        match self.read_signature(form, record, z1, z2_dagger, list) {
            Ok(held) => Reading {
                outcome: Ok(()),
                set: held.set.number(),
                key: held.key,
            },
            Err(refusal) => Reading {
                outcome: Err(refusal),
                set: 0,
                key: KEY_NOT_STATED,
            },
        }
    }

    fn read_signature(
        self,
        form: Form,
        record: &[u8],
        z1: &mut [i16],
        z2_dagger: &mut [i8],
        list: &mut [u16],
    ) -> Result<Held, Refusal> {
        require_vectors(&[z1.len(), z2_dagger.len()])?;
        require_lengths(&[list.len()], self.list_buffer())?;
        let held = self.held(form, record)?;
        for (entry, held) in z1.iter_mut().zip(&held.z1) {
            *entry = *held as i16;
        }
        for (entry, held) in z2_dagger.iter_mut().zip(&held.z2_dagger) {
            *entry = *held as i8;
        }
        list[..held.set.kappa()].copy_from_slice(&held.places());
        Ok(held)
    }

    /// What a record of the form holds, or one of 13, 5, 10, 11.
    fn held(self, form: Form, record: &[u8]) -> Result<Held, Refusal> {
        let set = self.require_header(form, record)?;
        let held = Held::of(form, set, record);
        held.require_proper()?;
        Ok(held)
    }

    /// That part of the plain record itself, or with 13 the empty part at its start; number and
    /// place go into the two lent numbers, refused or not.
    pub fn section<'a>(
        self,
        section: Section,
        record: &'a [u8],
        number: &mut u32,
        place: &mut u32,
    ) -> &'a [u8] {
        let tested = self.require_header(Form::Plain, record);
        (*number, *place) = number_and_place(tested.map(|_| ()));
        match tested {
            Ok(set) => &record[Form::Plain.part(section, set)],
            Err(_) => &record[..0],
        }
    }

    /// The set of a record whose header is well-formed and whose spare bits are zero, or refusal 13.
    fn require_header(self, form: Form, record: &[u8]) -> Result<Set, Refusal> {
        if record.len() < HEADER {
            return Err(Refusal::header(record.len()));
        }
        if !record.starts_with(form.letters()) {
            return Err(Refusal::header(0));
        }
        let stated = self.stated(u32::from(record[4]));
        let set = stated.ok_or(Refusal::header(4))?;
        let right = form.header(set, KEY_NOT_STATED);
        for field in self.fields() {
            let other_length = field == TOTAL_FIELD && record.len() != form.total(set);
            if record[field.clone()] != right[field.clone()] || other_length {
                return Err(Refusal::header(field.start));
            }
        }
        let mut spare = form.spare_bits(set).into_iter();
        match spare.find(|&place| bit(record, place)) {
            Some(place) => Err(Refusal::header(place / 8)),
            None => Ok(set),
        }
    }
}
