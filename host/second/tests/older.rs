//! 02, C-22: an older reader, which knows sets 1 to 4, refuses a new record at byte 4, and a packed
//! one (C-11) at its letters. C-13: any reader from before the key number refuses one at byte 20.

use second::form::{Section, FIELDS, HEADER};
use second::parameters::N;
use second::record::write_in;
use second::testing::key_numbers::NUMBERS;
use second::testing::keys;
use second::testing::noise::Noise;
use second::testing::sheet::sign;
use second::{pack, Edition, Form, Reading, Refusal, Set};

/// The record of a signed sheet, with no key number.
fn record(set: Set) -> Vec<u8> {
    records(set, &[0]).swap_remove(0)
}

/// The same with each of these key numbers.
fn records(set: Set, numbers: &[u32]) -> Vec<Vec<u8>> {
    let mut noise = Noise::new(22);
    let key = keys::published(set, &mut noise);
    let signature = sign(set, &key, b"sheet", &mut noise).signature;
    let (z1, z2_dagger, list) = (signature.z1, signature.z2_dagger, signature.list);
    let record = |&key: &u32| {
        let (form, number) = (Form::Plain, set.number());
        let mut record = vec![0; form.total(set)];
        write_in(form, number, key, &z1, &z2_dagger, &list, &mut record).unwrap();
        record
    };
    numbers.iter().map(record).collect()
}

/// What is read, with the output buffers.
type Read = (Reading, Vec<i16>, Vec<i8>, Vec<u16>);

/// What an edition reads with a list buffer of this length.
fn read_with(edition: Edition, length: usize, record: &[u8]) -> Read {
    let (mut z1, mut z2_dagger, mut list) = (vec![77; N], vec![78; N], vec![79; length]);
    let reading = edition.read(Form::Plain, record, &mut z1, &mut z2_dagger, &mut list);
    (reading, z1, z2_dagger, list)
}

fn read_by(edition: Edition, record: &[u8]) -> Read {
    read_with(edition, edition.list_buffer(), record)
}

/// A refusal, with the buffers as they were lent.
fn untouched(refusal: Refusal, length: usize) -> Read {
    let reading = Reading {
        outcome: Err(refusal),
        set: 0,
        key: 0,
    };
    (reading, vec![77; N], vec![78; N], vec![79; length])
}

/// Number and place of a section call, and its part.
fn section_by(edition: Edition, section: Section, record: &[u8]) -> (u32, u32, &[u8]) {
    let (mut number, mut place) = (99, 99);
    let part = edition.section(section, record, &mut number, &mut place);
    (number, place, part)
}

/// Sees that every call of an older reader refuses the record with 13 at this place.
fn require_refused(record: &[u8], place: usize) {
    let refused = untouched(Refusal::header(place), 39);
    assert_eq!(read_by(Edition::OLDER, record), refused);
    for section in Section::ALL {
        let (number, at, part) = section_by(Edition::OLDER, section, record);
        assert_eq!((number, at as usize), (13, place));
        assert_eq!((part.as_ptr(), part.len()), (record.as_ptr(), 0));
    }
}

/// The sets of the older reader, or those that came after it.
fn sets(new: bool) -> impl Iterator<Item = Set> {
    let sets = Set::ALL.into_iter();
    sets.filter(move |set| (set.like() != *set) == new)
}

#[test]
fn a_new_record_is_refused_at_byte_4() {
    for set in sets(true) {
        let record = record(set);
        let (reading, ..) = read_by(Edition::THIS, &record);
        assert_eq!((reading.outcome, reading.set), (Ok(()), set.number()));
        require_refused(&record, 4);
    }
}

#[test]
fn a_packed_record_is_refused_at_its_letters() {
    for set in Set::ALL {
        let mut packed = vec![0; Form::Packed.total(set)];
        pack(&record(set), &mut packed).unwrap();
        require_refused(&packed, 0);
    }
}

#[test]
fn an_old_record_is_read_as_ever() {
    for set in sets(false) {
        let record = record(set);
        let (reading, z1, z2_dagger, list) = read_by(Edition::OLDER, &record);
        assert_eq!((reading.outcome, reading.set), (Ok(()), set.number()));
        let this = read_by(Edition::THIS, &record);
        assert_eq!((&z1, &z2_dagger), (&this.1, &this.2));
        assert_eq!(list[..set.kappa()], this.3[..set.kappa()]);
        for section in Section::ALL {
            let part = section_by(Edition::OLDER, section, &record);
            assert_eq!(part, section_by(Edition::THIS, section, &record));
            assert!(!part.2.is_empty());
        }
    }
}

#[test]
fn the_set_goes_before_the_later_fields_and_after_letters_and_length() {
    for set in sets(true) {
        let record = record(set);
        for at in 5..HEADER {
            let mut wrong = record.clone();
            wrong[at] ^= 0x80;
            require_refused(&wrong, 4);
        }
        require_refused(&record[..HEADER], 4);
        require_refused(&record[..HEADER - 1], HEADER - 1);
        let mut other_letters = record.clone();
        other_letters[3] = b'2';
        require_refused(&other_letters, 0);
    }
}

/// What an edition answers to a record of this form: number and place, set and key number.
fn answer_of(edition: Edition, form: Form, record: &[u8]) -> (Result<(), Refusal>, u32, u32) {
    let (mut z1, mut z2_dagger) = (vec![77; N], vec![78; N]);
    let mut list = vec![79; edition.list_buffer()];
    let reading = edition.read(form, record, &mut z1, &mut z2_dagger, &mut list);
    (reading.outcome, reading.set, reading.key)
}

/// Both readers of before the key number: a record that states none is what it was to them.
#[test]
fn a_key_number_is_refused_at_byte_20() {
    for set in Set::ALL {
        for (plain, key) in records(set, &NUMBERS).into_iter().zip(NUMBERS) {
            let mut packed = vec![0; Form::Packed.total(set)];
            pack(&plain, &mut packed).unwrap();
            for (form, record) in [(Form::Plain, &plain), (Form::Packed, &packed)] {
                let done = (Ok(()), set.number(), key);
                assert_eq!(answer_of(Edition::THIS, form, record), done);
                let before = match key {
                    0 => done,
                    _ => (Err(Refusal::header(20)), 0, 0),
                };
                assert_eq!(answer_of(Edition::BEFORE_KEYS, form, record), before);
            }
            for section in Section::ALL {
                let (number, place, _) = section_by(Edition::BEFORE_KEYS, section, &plain);
                let wanted = if key == 0 { (0, 0) } else { (13, 20) };
                assert_eq!((number, place), wanted);
            }
            if key != 0 && set.like() == set {
                require_refused(&plain, 20);
            }
        }
    }
    for edition in [Edition::BEFORE_KEYS, Edition::OLDER] {
        assert!(edition.fields().eq(FIELDS));
    }
}

/// To a reader of before, the length goes before the key number, and that before spare bits and list.
#[test]
fn the_key_number_has_its_place_among_the_fields_of_before() {
    let refused = |form: Form, record: &[u8], place: usize| {
        let (outcome, ..) = answer_of(Edition::BEFORE_KEYS, form, record);
        assert_eq!(outcome, Err(Refusal::header(place)));
    };
    for set in Set::ALL {
        let mut plain = records(set, &[256]).swap_remove(0);
        let mut packed = vec![0; Form::Packed.total(set)];
        pack(&plain, &mut packed).unwrap();
        *packed.last_mut().unwrap() |= 0x80;
        refused(Form::Packed, &packed, 20);
        plain[Form::Plain.part(Section::List, set)].fill(0);
        refused(Form::Plain, &plain, 20);
        plain.push(0);
        packed.push(0);
        refused(Form::Plain, &plain, 18);
        refused(Form::Packed, &packed, 18);
    }
}

#[test]
fn each_reader_has_its_list_buffer() {
    let record = record(Set::I);
    for (edition, length, other) in [(Edition::OLDER, 39, 113), (Edition::THIS, 113, 39)] {
        assert_eq!(edition.list_buffer(), length);
        let refused = untouched(Refusal::LENGTH, other);
        assert_eq!(read_with(edition, other, &record), refused);
    }
}
