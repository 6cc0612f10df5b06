//! The fields of a record's header, what stands in them and what has to.

use crate::record::{bytes_of, Record};
use bursztok::KEY_NOT_STATED;
use second::form::{Section, FIELDS, KEY_FIELD};
use second::{Form, Set};
use std::ops::Range;

pub use second::form::HEADER;

pub struct Field {
    pub bytes: Range<usize>,
    pub name: &'static str,
}

/// The names of the fields, in their order.
const NAMES: [&str; FIELDS.len()] = [
    "letters",
    "set",
    "zero",
    "count of z1",
    "offset of z1",
    "count of z2 dagger",
    "offset of z2 dagger",
    "count of the list",
    "offset of the list",
    "total",
    "key number",
];

pub fn fields() -> impl Iterator<Item = Field> {
    let named = FIELDS.into_iter().zip(NAMES);
    named.map(|(bytes, name)| Field { bytes, name })
}

impl Field {
    /// What stands there.
    pub fn content(&self, bytes: &[u8]) -> String {
        let bytes = &bytes[self.bytes.clone()];
        match (self.bytes.start, low_first(bytes)) {
            (0, _) => bytes.escape_ascii().to_string(),
            (start, KEY_NOT_STATED) if start == KEY_FIELD.start => "0, not stated".to_string(),
            (_, number) => number.to_string(),
        }
    }

    /// What has to stand there in a record of one of these forms that states the set.
    fn expected(&self, forms: &[Form], set: Option<Set>) -> String {
        let contents = |set: Set| {
            let headers = forms.iter().map(|form| form.header(set, KEY_NOT_STATED));
            let contents: Vec<String> = headers.map(|header| self.content(&header)).collect();
            contents.join(" or ")
        };
        match self.bytes.start {
            0 => contents(Set::I),
            4 => format!("1 to {}", Set::ALL.len()),
            _ => set.map_or(String::new(), contents),
        }
    }
}

fn low_first(bytes: &[u8]) -> u32 {
    bytes
        .iter()
        .rev()
        .fold(0, |number, &byte| number << 8 | u32::from(byte))
}

/// The spare bits of a packed record of this set: their byte, and which of its bits they are.
pub fn spare_bits(set: Set) -> (usize, u8) {
    let form = Form::Packed;
    let places = form.spare_bits(set).into_iter();
    let bits = places.map(|place| 1 << (place % 8)).sum();
    (form.part(Section::List, set).end - 1, bits)
}

/// What is wrong with a record that was refused with 13 at this place, where records of these forms
/// are taken.
pub fn wrong_field(record: &Record, forms: &[Form], place: u32) -> String {
    if record.bytes.len() < HEADER {
        return format!("{}, a header has {HEADER}", record.size());
    }
    let told = Form::of(&record.bytes);
    let taken = told.filter(|form| forms.contains(form));
    if let (Some(other), None) = (told, taken) {
        let (name, letters) = (other.name(), other.letters().escape_ascii());
        return format!("a {name} record already, with the letters {letters}");
    }
    let forms = taken.as_ref().map_or(forms, std::slice::from_ref);
    let number = record.stated_set();
    let (set, total) = (Set::stated(number), bytes_of(record.form(), number));
    if place == 18 && record.bytes.len() != total {
        return format!("{}, set {number} has {total}", record.size());
    }
    if let Some((byte, bits)) = set.map(spare_bits).filter(|spare| spare.0 as u32 == place) {
        let content = record.bytes[byte] & bits;
        return format!("byte {byte}, spare bits: {content}, 0 expected");
    }
    let Some(field) = fields().find(|field| field.bytes.start as u32 == place) else {
        return format!("no field starts at {place}");
    };
    let (first, last) = (field.bytes.start, field.bytes.end - 1);
    let bytes = match first == last {
        true => format!("byte {first}"),
        false => format!("bytes {first}-{last}"),
    };
    let (name, content) = (field.name, field.content(&record.bytes));
    let expected = field.expected(forms, set);
    format!("{bytes}, {name}: {content}, {expected} expected")
}

#[cfg(test)]
mod tests {
    use super::{low_first, wrong_field};
    use crate::failure::Failure;
    use crate::record::{record_of, Record};
    use second::Form;

    #[test]
    fn low_bytes_come_first() {
        assert_eq!(low_first(&[0x18, 0x06]), 1560);
        assert_eq!(low_first(&[0, 0, 0, 1]), 1 << 24);
    }

    fn right(form: Form) -> Vec<u8> {
        let list: Vec<u16> = (0..30).collect();
        record_of(form, 3, 9, &[0; 512], &[0; 512], &list).unwrap()
    }

    /// The cause of a record of set 3 that is refused with 13.
    fn told(record: Vec<u8>) -> String {
        let record = Record::of("sheet", record);
        match record.read().map(|signature| signature.set) {
            Err(Failure::Refused(refused)) => {
                wrong_field(&record, &Form::ALL, refused.refusal.place())
            }
            other => panic!("{other:?}"),
        }
    }

    #[test]
    fn the_wrong_field_is_told() {
        for (form, letters, z2_dagger, list, total, wrong) in [
            (
                Form::Plain,
                "BLB2",
                "1024, 1048",
                "24, 1560",
                "1620",
                "1536",
            ),
            (Form::Packed, "BLP2", "768, 856", "88, 1112", "1146", "1024"),
        ] {
            let told_with = |at: usize, byte: u8| {
                let mut record = right(form);
                record[at] = byte;
                told(record)
            };
            let said = |said: &str| format!("{said} expected");
            let wanted = format!("bytes 0-3, letters: {letters}, BLB1 or BLP1");
            assert_eq!(told_with(3, b'2'), said(&wanted));
            assert_eq!(told_with(4, 9), said("byte 4, set: 9, 1 to 8"));
            assert_eq!(told_with(5, 1), said("byte 5, zero: 1, 0"));
            assert_eq!(told_with(7, 1), said("bytes 6-7, count of z1: 256, 512"));
            assert_eq!(told_with(8, 25), said("bytes 8-9, offset of z1: 25, 24"));
            let wanted = "bytes 10-11, count of z2 dagger: 513, 512";
            assert_eq!(told_with(10, 1), said(wanted));
            let wanted = format!("bytes 12-13, offset of z2 dagger: {z2_dagger}");
            assert_eq!(told_with(12, 0), said(&wanted));
            let wanted = "bytes 14-15, count of the list: 31, 30";
            assert_eq!(told_with(14, 31), said(wanted));
            let wanted = format!("bytes 16-17, offset of the list: {list}");
            assert_eq!(told_with(17, 0), said(&wanted));
            let wanted = format!("bytes 18-19, total: {wrong}, {total}");
            assert_eq!(told_with(18, 0), said(&wanted));
            let longer = [&right(form)[..], &[0, 0]].concat();
            let wanted = format!("{} bytes, set 3 has {total}", longer.len());
            assert_eq!(told(longer), wanted);
            assert_eq!(told(right(form)[..7].to_vec()), "7 bytes, a header has 24");
        }
        let long = Record {
            length: None,
            ..Record::of("sheet", vec![0; 1787])
        };
        assert_eq!(long.size(), "more than 1786 bytes");
    }

    #[test]
    fn spare_bits_and_the_other_form_are_told() {
        let mut spare = right(Form::Packed);
        spare[1145] |= 0x40;
        assert_eq!(told(spare), "byte 1145, spare bits: 64, 0 expected");
        for (form, said) in [
            (
                Form::Plain,
                "a packed record already, with the letters BLP1",
            ),
            (
                Form::Packed,
                "a plain record already, with the letters BLB1",
            ),
        ] {
            let other = Record::of("sheet", right(form.other()));
            assert_eq!(wrong_field(&other, &[form], 0), said);
            let mut neither = right(form);
            neither[3] = b'2';
            let neither = Record::of("sheet", neither);
            let wanted = format!("{} expected", form.letters().escape_ascii());
            let told = wrong_field(&neither, &[form], 0);
            assert!(told.ends_with(&format!("2, {wanted}")), "{told}");
        }
    }
}
