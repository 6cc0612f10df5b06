//! Records: refusals 13 and 14, damaged sections, and key numbers, which no call refuses.

use super::lists::deform;
use super::{fault, place_in, record_fault, set_of};
use super::{Fault, WITH_KEY_NUMBER, WITH_PACKED, WITH_RECORD, WITH_RECORD_OUTPUT};
use second::form::{bit, turn_bit, Section, HEADER, KEY_FIELD};
use second::parameters::N;
use second::testing::calls::Input;
use second::testing::key_numbers;
use second::testing::noise::Noise;
use second::{Form, Set};

/// A record of another kind comes first: what is spoilt after it stays spoilt.
pub const FAULTS: &[Fault] = &[
    fault(
        "short output for the record",
        WITH_RECORD_OUTPUT,
        short_record_output,
    ),
    fault(
        "long output for the record",
        WITH_RECORD_OUTPUT,
        |input, noise| input.lengths.record += noise.below(40),
    ),
    record_fault("record of noise", WITH_RECORD, record_of_noise),
    record_fault("record of the other form", WITH_RECORD, |_, input, _| {
        std::mem::swap(&mut input.record, &mut input.packed)
    }),
    record_fault("letters of the other form", WITH_RECORD, other_letters),
    record_fault("header of the other form", WITH_RECORD, other_header),
    record_fault("header byte", WITH_RECORD, header_byte),
    record_fault("set byte", WITH_RECORD, set_byte),
    record_fault("record's key number", WITH_RECORD, record_key),
    fault("another key number", WITH_KEY_NUMBER, |input, noise| {
        input.key = key_numbers::any(noise)
    }),
    record_fault("spare bit", WITH_PACKED, spare_bit),
    record_fault("record's list", WITH_RECORD, record_list),
    record_fault("record's z1", WITH_RECORD, record_z1_entry),
    record_fault("record's z2 dagger", WITH_RECORD, record_z2_entry),
    record_fault("record's sum", WITH_RECORD, record_sum),
    record_fault("any byte of the record", WITH_RECORD, any_record_byte),
    record_fault("sections of noise", WITH_RECORD, sections_of_noise),
    record_fault("record of another length", WITH_RECORD, record_length),
];

/// More than any record has.
const BEYOND: usize = Form::Plain.longest() + 62;

/// Puts an entry of a section, as far as the record goes, in as many bits as it has.
fn put_entry(record: &mut [u8], form: Form, section: Section, index: usize, entry: i64) {
    let bits = form.bits(section);
    let start = 8 * form.offset(section) + bits * index;
    for place in 0..bits {
        let at = start + place;
        if at / 8 < record.len() && bit(record, at) != (entry >> place & 1 == 1) {
            turn_bit(record, at);
        }
    }
}

fn short_record_output(input: &mut Input, noise: &mut Noise) {
    let under = input.lengths.record.saturating_sub(1);
    input.lengths.record = noise.one_of(&[0, 1, 24, under]);
}

/// Puts bytes at the front, as far as the record goes.
fn put_front(record: &mut [u8], bytes: &[u8]) {
    for (byte, other) in record.iter_mut().zip(bytes) {
        *byte = *other;
    }
}

fn other_letters(form: Form, input: &mut Input, _: &mut Noise) {
    put_front(input.record_in(form), form.other().letters());
}

/// The whole header, with this form's letters or its own.
fn other_header(form: Form, input: &mut Input, noise: &mut Noise) {
    let mut header = form.other().header(set_of(input), input.key);
    if noise.bit() {
        put_front(&mut header, form.letters());
    }
    put_front(input.record_in(form), &header);
}

fn header_byte(form: Form, input: &mut Input, noise: &mut Noise) {
    if let Some(byte) = input.record_in(form).get_mut(noise.below(HEADER)) {
        *byte = noise.word() as u8;
    }
}

fn set_byte(form: Form, input: &mut Input, noise: &mut Noise) {
    if let Some(byte) = input.record_in(form).get_mut(4) {
        *byte = noise.below(Set::ABOVE as usize + 2) as u8;
    }
}

fn record_key(form: Form, input: &mut Input, noise: &mut Noise) {
    let key = key_numbers::any(noise);
    if let Some(bytes) = input.record_in(form).get_mut(KEY_FIELD) {
        bytes.copy_from_slice(&key.to_le_bytes());
    }
}

fn spare_bit(form: Form, input: &mut Input, noise: &mut Noise) {
    let place = noise.one_of(&form.spare_bits(set_of(input)));
    let record = input.record_in(form);
    if place / 8 < record.len() {
        turn_bit(record, place);
    }
}

fn record_length(form: Form, input: &mut Input, noise: &mut Noise) {
    let (any, record) = (noise.below(BEYOND), input.record_in(form));
    let length = noise.one_of(&[record.len().saturating_sub(1), record.len() + 1, any]);
    record.resize(length, 0);
}

fn record_list(form: Form, input: &mut Input, noise: &mut Noise) {
    let set = set_of(input);
    let record = input.record_in(form);
    let Some(bytes) = record.get(form.part(Section::List, set)) else {
        return;
    };
    let places = form.decoded(Section::List, set, bytes);
    let mut list: Vec<u16> = places.into_iter().map(|place| place as u16).collect();
    deform(&mut list, noise);
    for (index, place) in list.into_iter().enumerate() {
        put_entry(record, form, Section::List, index, place.into());
    }
}

fn record_z1_entry(form: Form, input: &mut Input, noise: &mut Noise) {
    let value = noise.one_of(&[
        i16::MIN,
        i16::MAX,
        1563,
        1564,
        -1613,
        -1614,
        1760,
        -1761,
        2100,
        2101,
        -2101,
        4095,
        -4096,
        8191,
        -8192,
        -1,
    ]);
    let place = place_in(N, noise);
    put_entry(
        input.record_in(form),
        form,
        Section::Z1,
        place,
        value.into(),
    );
}

fn record_z2_entry(form: Form, input: &mut Input, noise: &mut Noise) {
    let value = noise.one_of(&[i8::MIN, i8::MAX, 1, -1, 2, 3, -3, 6, -6, 7, -7, -8, 15, -16]);
    let place = place_in(N, noise);
    put_entry(
        input.record_in(form),
        form,
        Section::Z2Dagger,
        place,
        value.into(),
    );
}

fn record_sum(form: Form, input: &mut Input, noise: &mut Noise) {
    let value = noise.between(200, 1563);
    for place in 0..N {
        put_entry(input.record_in(form), form, Section::Z1, place, value);
    }
}

fn any_record_byte(form: Form, input: &mut Input, noise: &mut Noise) {
    let record = input.record_in(form);
    if !record.is_empty() {
        let at = noise.below(record.len());
        record[at] ^= 1 << noise.below(8);
    }
}

fn record_of_noise(form: Form, input: &mut Input, noise: &mut Noise) {
    let length = noise.below(BEYOND);
    *input.record_in(form) = (0..length).map(|_| noise.word() as u8).collect();
}

/// The header as it is, and any bytes after it.
fn sections_of_noise(form: Form, input: &mut Input, noise: &mut Noise) {
    for byte in input.record_in(form).iter_mut().skip(HEADER) {
        *byte = noise.word() as u8;
    }
}
