//! Records as files, in either form, and the signatures that they hold.

use crate::causes::{explain, explain_header};
use crate::failure::{Failure, Named};
use crate::header::HEADER;
use crate::lent::{source_of, Lent};
use bursztok::{Refusal, KEY_NOT_STATED, LIST, RECORD, VECTOR};
use second::form::Section;
use second::ring::whole;
use second::{Form, Set};
use shell::files::{is_stream, read_some};
use std::ops::Range;
use std::path::Path;

/// The first bytes of a file, as many as tell whether it is a record.
pub struct Record {
    /// The file as messages name it.
    pub source: String,
    /// At most one byte more than the longest record has: no call answers otherwise for more.
    pub bytes: Vec<u8>,
    /// The length of the file, where it is known.
    pub length: Option<u64>,
}

/// A section of a record: where it lies, and its entries.
pub struct Part {
    pub bytes: Range<usize>,
    pub entries: Vec<i64>,
}

/// A signature as a record holds it.
pub struct Signature {
    pub form: Form,
    pub set: u32,
    pub key: u32,
    pub z1: Vec<i16>,
    pub z2_dagger: Vec<i8>,
    pub list: Vec<u16>,
}

impl Record {
    pub fn open(path: &Path) -> Result<Record, Failure> {
        let bytes = read_some(path, RECORD as u64 + 1)?;
        let whole = bytes.len() <= RECORD;
        let length = match std::fs::metadata(path) {
            Ok(file) if file.is_file() && !is_stream(path) => Some(file.len()),
            _ => whole.then_some(bytes.len() as u64),
        };
        Ok(Record {
            source: source_of(path),
            bytes,
            length,
        })
    }

    /// The bytes of a record that is no file.
    pub fn of(source: &str, bytes: Vec<u8>) -> Record {
        Record {
            source: source.to_string(),
            length: Some(bytes.len() as u64),
            bytes,
        }
    }

    /// The length in words.
    pub fn size(&self) -> String {
        match self.length {
            Some(length) => format!("{length} bytes"),
            None => format!("more than {RECORD} bytes"),
        }
    }

    /// The set that byte 4 states, 0 where it is none.
    pub fn stated_set(&self) -> u32 {
        let set = self.bytes.get(4).map_or(0, |&byte| u32::from(byte));
        match bursztok::kappa(set) {
            0 => 0,
            _ => set,
        }
    }

    /// The form whose letters open it; the plain one where none do, so that its reader refuses them.
    pub fn form(&self) -> Form {
        Form::of(&self.bytes).unwrap_or(Form::Plain)
    }

    /// The signature that it holds.
    pub fn read(&self) -> Result<Signature, Failure> {
        let form = self.form();
        let (mut z1, mut z2_dagger) = (vec![0; VECTOR], vec![0; VECTOR]);
        let mut list = vec![0; LIST];
        let reader = match form {
            Form::Plain => bursztok::read,
            Form::Packed => bursztok::read_packed,
        };
        let reading = reader(&self.bytes, &mut z1, &mut z2_dagger, &mut list);
        let outcome = reading.outcome.named(reader_name(form));
        outcome.map_err(|failure| self.explained(&Form::ALL, failure))?;
        list.truncate(bursztok::kappa(reading.set));
        Ok(Signature {
            form,
            set: reading.set,
            key: reading.key,
            z1,
            z2_dagger,
            list,
        })
    }

    /// The record in the other form, by the conversion that takes this one.
    pub fn converted(&self, form: Form) -> Result<Vec<u8>, Failure> {
        let mut record = vec![0; RECORD];
        let (outcome, call) = match form {
            Form::Plain => (bursztok::pack(&self.bytes, &mut record), "packing"),
            Form::Packed => (bursztok::unpack(&self.bytes, &mut record), "unpacking"),
        };
        let outcome = outcome.named(call);
        outcome.map_err(|failure| self.explained(&[form], failure))?;
        record.truncate(bytes_of(form.other(), self.stated_set()));
        Ok(record)
    }

    /// A refusal where records of these forms are taken, with its causes.
    fn explained(&self, forms: &[Form], failure: Failure) -> Failure {
        failure.with(|refused| {
            let mut lent = Lent::default();
            let parts = Section::ALL.map(|section| self.part(section, Err(refused.refusal)));
            if let [Ok(z1), Ok(z2_dagger), Ok(list)] = parts {
                let parts = [z1, z2_dagger, list];
                self.lend(&mut lent, parts.map(|part| part.entries));
            }
            refused.form = Form::of(&self.bytes);
            explain(refused, self.stated_set(), &lent.vectors);
            explain_header(refused, self, forms);
        })
    }

    /// A section of a record that was taken or refused with this outcome. The library tells where
    /// those of a plain record lie; those of a packed one lie where its form says.
    pub fn part(&self, section: Section, outcome: Result<(), Refusal>) -> Result<Part, Refusal> {
        let form = self.form();
        let bytes = match form {
            Form::Plain => {
                let found = match section {
                    Section::Z1 => bursztok::z1_section(&self.bytes),
                    Section::Z2Dagger => bursztok::z2_section(&self.bytes),
                    Section::List => bursztok::list_section(&self.bytes),
                };
                found.outcome?;
                let start = found.part.as_ptr() as usize - self.bytes.as_ptr() as usize;
                start..start + found.part.len()
            }
            Form::Packed => {
                if let Err(Refusal::Header { place }) = outcome {
                    // Spare bits leave the header as it has to be.
                    if place < HEADER as u32 {
                        return Err(Refusal::Header { place });
                    }
                }
                form.part(section, self.set())
            }
        };
        Ok(Part {
            entries: form.decoded(section, self.set(), &self.bytes[bytes.clone()]),
            bytes,
        })
    }

    /// The set that byte 4 states in a header that is well-formed.
    fn set(&self) -> Set {
        Set::stated(self.stated_set()).expect("the header states a set")
    }

    /// Vectors that come from this record: z1, z2 dagger and the list.
    pub fn lend(&self, lent: &mut Lent, [z1, z2_dagger, list]: [Vec<i64>; 3]) {
        let source = |part: &str| format!("{}, {part}", self.source);
        lent.add("z1", source("z1"), &z1, None);
        lent.add("z2", source("z2 dagger"), &z2_dagger, None);
        lent.add("list", self.source.clone(), &list, None);
        lent.form = Some(self.form());
    }
}

impl Signature {
    /// z1, z2 dagger and the list.
    pub fn entries(&self) -> [Vec<i64>; 3] {
        [whole(&self.z1), whole(&self.z2_dagger), whole(&self.list)]
    }
}

/// The bytes of a record of this form and set.
pub fn bytes_of(form: Form, set: u32) -> usize {
    match form {
        Form::Plain => bursztok::record_bytes(set),
        Form::Packed => bursztok::packed_bytes(set),
    }
}

/// The bytes that the packed form of a record of this set saves.
pub fn saved(set: u32) -> usize {
    bytes_of(Form::Plain, set) - bytes_of(Form::Packed, set)
}

/// The call that reads a record of this form.
pub fn reader_name(form: Form) -> &'static str {
    match form {
        Form::Plain => "reader",
        Form::Packed => "packed reader",
    }
}

/// The call that writes a record of this form.
pub fn writer_name(form: Form) -> &'static str {
    match form {
        Form::Plain => "writer",
        Form::Packed => "packed writer",
    }
}

/// A record of this form in words.
pub fn record_name(form: Form) -> &'static str {
    match form {
        Form::Plain => "record",
        Form::Packed => "packed record",
    }
}

/// A key number in words.
pub fn key_name(key: u32) -> String {
    match key {
        KEY_NOT_STATED => "key number not stated".to_string(),
        _ => format!("key number {key}"),
    }
}

/// A key number as a sentence.
pub fn key_sentence(key: u32) -> String {
    match key {
        KEY_NOT_STATED => "Key number: not stated.".to_string(),
        _ => format!("Key number: {key}."),
    }
}

/// The record of a signature, exactly as long as its set's.
pub fn record_of(
    form: Form,
    set: u32,
    key: u32,
    z1: &[i16],
    z2_dagger: &[i8],
    list: &[u16],
) -> Result<Vec<u8>, Failure> {
    let mut record = vec![0; RECORD];
    let writer = match form {
        Form::Plain => bursztok::write,
        Form::Packed => bursztok::write_packed,
    };
    writer(set, key, z1, z2_dagger, list, &mut record).named(writer_name(form))?;
    record.truncate(bytes_of(form, set));
    Ok(record)
}

/// The vector that the signer committed to.
pub fn rebuild(a: &[u16], signature: &Signature) -> Result<Vec<u16>, Failure> {
    let Signature {
        set,
        z1,
        z2_dagger,
        list,
        ..
    } = signature;
    let mut rebuilt = vec![0; VECTOR];
    bursztok::rebuild(*set, a, z1, z2_dagger, list, &mut rebuilt).named("rebuild")?;
    Ok(rebuilt)
}
