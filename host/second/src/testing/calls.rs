//! The calls over one kind of input and answer, for programs that run them all.

use crate::answers::{number_and_place, Reading, Refusal};
use crate::form::Form;
use crate::parameters::{Set, LIST_BUFFER, N};
use crate::{commitment, commitment_with_rests, compare, key_test, read, rebuild, respond, write};
use crate::{compare_default_one, rebuild_default_one};
use crate::{kappa, list_section, packed_bytes, record_bytes, z1_section, z2_section};
use crate::{pack, read_packed, unpack, write_packed};

#[derive(Clone, Copy, Debug, PartialEq, Eq, PartialOrd, Ord)]
pub enum Call {
    KeyTest = 1,
    Commitment,
    Respond,
    Rebuild,
    Compare,
    Write,
    Read,
    Z1Section,
    Z2Section,
    ListSection,
    CommitmentWithRests,
    RebuildDefaultOne,
    CompareDefaultOne,
    WritePacked,
    ReadPacked,
    Pack,
    Unpack,
    Kappa,
    RecordBytes,
    PackedBytes,
}

impl Call {
    pub const ALL: [Call; 20] = [
        Call::KeyTest,
        Call::Commitment,
        Call::Respond,
        Call::Rebuild,
        Call::Compare,
        Call::Write,
        Call::Read,
        Call::Z1Section,
        Call::Z2Section,
        Call::ListSection,
        Call::CommitmentWithRests,
        Call::RebuildDefaultOne,
        Call::CompareDefaultOne,
        Call::WritePacked,
        Call::ReadPacked,
        Call::Pack,
        Call::Unpack,
        Call::Kappa,
        Call::RecordBytes,
        Call::PackedBytes,
    ];

    /// The calls that are lent a record of this form.
    pub fn lent(form: Form) -> &'static [Call] {
        match form {
            Form::Plain => &[
                Call::Read,
                Call::Z1Section,
                Call::Z2Section,
                Call::ListSection,
                Call::Pack,
            ],
            Form::Packed => &[Call::ReadPacked, Call::Unpack],
        }
    }

    /// The form of the record that it is lent, where it is lent one.
    pub fn takes(self) -> Option<Form> {
        let mut forms = Form::ALL.into_iter();
        forms.find(|&form| Call::lent(form).contains(&self))
    }

    /// The form of the record that it writes, where it writes one.
    pub fn writes(self) -> Option<Form> {
        match self {
            Call::Write | Call::Unpack => Some(Form::Plain),
            Call::WritePacked | Call::Pack => Some(Form::Packed),
            _ => None,
        }
    }

    pub fn name(self) -> &'static str {
        match self {
            Call::KeyTest => "key test",
            Call::Commitment => "commitment",
            Call::Respond => "response",
            Call::Rebuild => "rebuild",
            Call::Compare => "comparison",
            Call::Write => "writer",
            Call::Read => "reader",
            Call::Z1Section => "z1 section",
            Call::Z2Section => "z2 section",
            Call::ListSection => "list section",
            Call::CommitmentWithRests => "commitment with rests",
            Call::RebuildDefaultOne => "rebuild with default one",
            Call::CompareDefaultOne => "comparison with default one",
            Call::WritePacked => "packed writer",
            Call::ReadPacked => "packed reader",
            Call::Pack => "packing",
            Call::Unpack => "unpacking",
            Call::Kappa => "kappa",
            Call::RecordBytes => "record bytes",
            Call::PackedBytes => "packed bytes",
        }
    }

    /// Whether it is one of the papers' seventeen, which have a number.
    pub fn has_number(self) -> bool {
        !matches!(self, Call::Kappa | Call::RecordBytes | Call::PackedBytes)
    }

    /// Whether it is asked for a set: a record states its own.
    pub fn takes_set(self) -> bool {
        self.takes().is_none()
    }

    /// Whether it is given a key number: a record states its own.
    pub fn takes_key(self) -> bool {
        matches!(self, Call::Respond | Call::Write | Call::WritePacked)
    }

    /// Whether a key number goes into it: it is given one, or is lent a record.
    pub fn has_key(self) -> bool {
        self.takes_key() || self.takes().is_some()
    }

    /// Whether it answers a key number.
    pub fn answers_key(self) -> bool {
        matches!(self, Call::Respond | Call::Read | Call::ReadPacked)
    }

    /// The set that a number asks the call for: 0 stands for set 4, and for set 1 on the calls that
    /// keep the old default.
    pub fn asked(self, number: u32) -> Result<Set, Refusal> {
        match self {
            Call::RebuildDefaultOne | Call::CompareDefaultOne => Set::asked_default_one(number),
            _ => Set::asked(number),
        }
    }

    /// The numbers that the call gives: 0, then its refusals in the paper's order. 7, between 15
    /// and 6, can't occur.
    pub fn numbers(self) -> &'static [u32] {
        match self {
            Call::KeyTest => &[0, 1, 2, 3, 15, 6],
            Call::Commitment | Call::CommitmentWithRests => &[0, 1, 2, 3, 4],
            Call::Respond => &[0, 1, 2, 3, 4, 5, 15, 6, 8, 9, 10, 11],
            Call::Rebuild | Call::RebuildDefaultOne => &[0, 1, 2, 3, 5, 10, 11],
            Call::Compare | Call::CompareDefaultOne => &[0, 1, 5, 12],
            Call::Write | Call::WritePacked => &[0, 1, 2, 5, 10, 11, 14],
            Call::Read | Call::ReadPacked => &[0, 2, 13, 5, 10, 11],
            Call::Pack | Call::Unpack => &[0, 13, 5, 10, 11, 14],
            Call::Z1Section | Call::Z2Section | Call::ListSection => &[0, 13],
            Call::Kappa | Call::RecordBytes | Call::PackedBytes => &[0],
        }
    }
}

/// What the calls take. Each call reads the fields that it needs.
#[derive(Clone, Debug, Default)]
pub struct Input {
    pub set: u32,
    /// The key number.
    pub key: u32,
    pub f: Vec<i8>,
    pub g: Vec<i8>,
    pub a: Vec<u16>,
    pub y1: Vec<i16>,
    pub y2: Vec<i16>,
    pub list: Vec<u16>,
    pub hashed: Vec<u16>,
    pub sign: bool,
    pub thresholds: Vec<u64>,
    pub words: Vec<u64>,
    pub z1: Vec<i16>,
    pub z2_dagger: Vec<i8>,
    /// What is lent to the calls that take a plain record.
    pub record: Vec<u8>,
    /// What is lent to the calls that take a packed one.
    pub packed: Vec<u8>,
    pub lengths: OutputLengths,
}

impl Input {
    /// What is lent to the calls that take a record of this form.
    pub fn record_in(&mut self, form: Form) -> &mut Vec<u8> {
        match form {
            Form::Plain => &mut self.record,
            Form::Packed => &mut self.packed,
        }
    }
}

/// The lengths of the output buffers that are lent.
#[derive(Clone, Copy, Debug, Default, PartialEq, Eq)]
pub struct OutputLengths {
    pub rounded: usize,
    pub rests: usize,
    pub z1: usize,
    pub z2_dagger: usize,
    pub list: usize,
    pub record: usize,
}

impl OutputLengths {
    /// Every buffer at its stated length, that for a record at the plain one's.
    pub fn stated(set: Set) -> OutputLengths {
        OutputLengths {
            rounded: N,
            rests: N,
            z1: N,
            z2_dagger: N,
            list: LIST_BUFFER,
            record: Form::Plain.total(set),
        }
    }
}

/// The output buffers. Each call writes to those that it has.
pub struct Outputs<'a> {
    pub rounded: &'a mut [u16],
    pub rests: &'a mut [i16],
    pub z1: &'a mut [i16],
    pub z2_dagger: &'a mut [i8],
    pub list: &'a mut [u16],
    pub record: &'a mut [u8],
}

/// What a call answers; a field that the call does not have is 0.
#[derive(Clone, Copy, Debug, Default, PartialEq, Eq)]
pub struct Answered {
    pub number: u32,
    pub place: u32,
    /// The response's count of words.
    pub words: u64,
    /// The set that a reader answers.
    pub set: u32,
    /// The key number that the response or a reader answers.
    pub key: u32,
    /// Start and length of a section in the lent record.
    pub part: (usize, usize),
    /// The size that a set's number was asked for.
    pub size: usize,
}

impl Answered {
    pub fn new((number, place): (u32, u32)) -> Answered {
        Answered {
            number,
            place,
            ..Answered::default()
        }
    }

    pub fn of_size(size: usize) -> Answered {
        Answered {
            size,
            ..Answered::default()
        }
    }

    /// With the part of the lent record that a section call answers.
    pub fn with_part(self, record: &[u8], part: &[u8]) -> Answered {
        let start = part.as_ptr() as usize - record.as_ptr() as usize;
        Answered {
            part: (start, part.len()),
            ..self
        }
    }
}

/// Runs a call of the second program.
pub fn run(call: Call, input: &Input, out: Outputs) -> Answered {
    let Input {
        set, key, list, a, ..
    } = input;
    let outcome = match call {
        Call::KeyTest => key_test(*set, &input.f, &input.g, a),
        Call::Commitment => commitment(*set, a, &input.y1, &input.y2, out.rounded),
        Call::CommitmentWithRests => {
            commitment_with_rests(*set, a, &input.y1, &input.y2, out.rounded, out.rests)
        }
        Call::Rebuild => rebuild(*set, a, &input.z1, &input.z2_dagger, list, out.rounded),
        Call::RebuildDefaultOne => {
            rebuild_default_one(*set, a, &input.z1, &input.z2_dagger, list, out.rounded)
        }
        Call::Compare => compare(*set, list, &input.hashed),
        Call::CompareDefaultOne => compare_default_one(*set, list, &input.hashed),
        Call::Write => write(*set, *key, &input.z1, &input.z2_dagger, list, out.record),
        Call::WritePacked => {
            let (z1, z2_dagger) = (&input.z1, &input.z2_dagger);
            write_packed(*set, *key, z1, z2_dagger, list, out.record)
        }
        Call::Pack => pack(&input.record, out.record),
        Call::Unpack => unpack(&input.packed, out.record),
        Call::Respond => {
            let response = respond(
                *set,
                *key,
                &input.f,
                &input.g,
                a,
                &input.y1,
                &input.y2,
                list,
                input.sign,
                &input.thresholds,
                &input.words,
                out.z1,
                out.z2_dagger,
            );
            return Answered {
                words: response.words,
                key: response.key,
                ..Answered::new(number_and_place(response.outcome))
            };
        }
        Call::Read => {
            return reading(read(&input.record, out.z1, out.z2_dagger, out.list));
        }
        Call::ReadPacked => {
            return reading(read_packed(&input.packed, out.z1, out.z2_dagger, out.list));
        }
        Call::Z1Section => return section(&input.record, z1_section),
        Call::Z2Section => return section(&input.record, z2_section),
        Call::ListSection => return section(&input.record, list_section),
        Call::Kappa => return Answered::of_size(kappa(*set) as usize),
        Call::RecordBytes => return Answered::of_size(record_bytes(*set) as usize),
        Call::PackedBytes => return Answered::of_size(packed_bytes(*set) as usize),
    };
    Answered::new(number_and_place(outcome))
}

fn reading(reading: Reading) -> Answered {
    Answered {
        set: reading.set,
        key: reading.key,
        ..Answered::new(number_and_place(reading.outcome))
    }
}

fn section(record: &[u8], call: for<'a> fn(&'a [u8], &mut u32, &mut u32) -> &'a [u8]) -> Answered {
    let (mut number, mut place) = (u32::MAX, u32::MAX);
    let part = call(record, &mut number, &mut place);
    Answered::new((number, place)).with_part(record, part)
}
