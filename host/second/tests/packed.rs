//! 02, C-11: the packed record and the conversions, with the key number (C-13).

use second::form::{bit, turn_bit, Section, HEADER};
use second::parameters::{LIST_BUFFER, N};
use second::record::Held;
use second::testing::boundary::signature_of_sum;
use second::testing::key_numbers::{self, NUMBERS};
use second::testing::noise::Noise;
use second::{
    list_section, pack, packed_bytes, read, read_packed, unpack, write, write_packed, z1_section,
    z2_section, Form, Refusal, Set,
};

/// A proper signature of the set.
fn held(set: Set, noise: &mut Noise) -> Held {
    let sum = noise.between(0, set.b2_squared());
    let (z1, z2_dagger) = signature_of_sum(set, sum, noise);
    let key = key_numbers::any(noise);
    Held::new(set, key, &z1, &z2_dagger, &noise.list(set))
}

/// The outcome of a reader, which leaves its buffers alone where it refuses.
fn read_by(form: Form, record: &[u8]) -> Result<(), Refusal> {
    let (mut z1, mut z2_dagger) = (vec![77; N], vec![77; N]);
    let mut list = vec![777; LIST_BUFFER];
    let reader = match form {
        Form::Plain => read,
        Form::Packed => read_packed,
    };
    let reading = reader(record, &mut z1, &mut z2_dagger, &mut list);
    if reading.outcome.is_err() {
        assert_eq!((reading.set, reading.key), (0, 0));
        assert_eq!((z1, z2_dagger), (vec![77; N], vec![77; N]));
        assert_eq!(list, vec![777; LIST_BUFFER]);
    }
    reading.outcome
}

/// The conversion of a record, with an output of this length; a refusal leaves it alone.
fn converted(form: Form, record: &[u8], length: usize) -> Result<Vec<u8>, Refusal> {
    let mut out = vec![0xee; length];
    let convert = match form {
        Form::Plain => pack,
        Form::Packed => unpack,
    };
    let outcome = convert(record, &mut out);
    if outcome.is_err() {
        assert_eq!(out, vec![0xee; length]);
    }
    outcome.map(|()| out)
}

/// Sees that the packed reader and the conversion refuse a packed record.
fn require_refused(record: &[u8], refusal: Refusal) {
    assert_eq!(read_by(Form::Packed, record), Err(refusal));
    let longest = Form::Plain.longest();
    assert_eq!(converted(Form::Packed, record, longest), Err(refusal));
}

#[test]
fn the_form_of_the_paper() {
    for set in Set::ALL {
        let parts = Section::ALL.map(|section| Form::Packed.part(section, set));
        let total = Form::Packed.total(set);
        assert_eq!(parts, [24..856, 856..1112, 1112..total]);
        assert_eq!(total, 1112 + (9 * set.kappa()).div_ceil(8));
        assert_eq!(packed_bytes(set.number()) as usize, total);
    }
    assert_eq!(packed_bytes(0), 1156);
    assert_eq!(packed_bytes(Set::ABOVE), 0);
    assert_eq!(Form::of(b"BLP1"), Some(Form::Packed));
    assert_eq!(Form::of(b"BLB1 and more"), Some(Form::Plain));
    assert_eq!(Form::of(b"BLP"), None);
}

/// The first entries of each section and the bytes that they make, worked out by hand.
#[test]
fn bits_go_low_first() {
    let list: Vec<u16> = (0..23).map(|place| 22 * place + 1).collect();
    let (mut z1, mut z2_dagger) = (vec![0; N], vec![0; N]);
    z1[..3].copy_from_slice(&[1, -1, -2100]);
    z1[511] = 2;
    z2_dagger[..3].copy_from_slice(&[-1, 2, -2]);
    z2_dagger[511] = -2;
    let mut record = vec![0xee; 1138];
    write_packed(1, 9, &z1, &z2_dagger, &list, &mut record).unwrap();
    assert_eq!(record[..HEADER], Form::Packed.header(Set::I, 9));
    // 1 in bits 0-12, thirteen ones in 13-25, and -2100 = 6092 - 8192 in 26-38.
    assert_eq!(record[24..30], [0x01, 0xe0, 0xff, 0x33, 0x5f, 0]);
    // 2 in the last thirteen bits, of which the first is bit 3 of byte 854.
    assert_eq!(record[853..856], [0, 0x10, 0]);
    // -1 and 2 in a byte, then -2 and 0; in the last byte 0 and -2.
    assert_eq!(record[856..859], [0x2f, 0x0e, 0]);
    assert_eq!(record[1111], 0xe0);
    // 1, 23 and 45 in bits 0-8, 9-17 and 18-26.
    assert_eq!(record[1112..1115], [0x01, 0x2e, 0xb4]);
    // The last place, 485, in bits 198-206: its low bits are the high ones of byte 1136.
    assert_eq!(record[1136] >> 6, 0b01);
    assert_eq!(record[1137], 0b0111_1001);
}

#[test]
fn spare_bits_are_zero_and_stand_in_the_last_byte() {
    let mut noise = Noise::new(111);
    let counts = [1, 1, 2, 1, 6, 6, 6, 7];
    for (set, count) in Set::ALL.into_iter().zip(counts) {
        assert_eq!(Form::Plain.spare_bits(set), []);
        let (spare, last) = (Form::Packed.spare_bits(set), Form::Packed.total(set) - 1);
        assert_eq!(spare.len(), count);
        assert_eq!(spare.last(), Some(&(8 * last + 7)));
        let sum = set.b2_squared();
        let (z1, z2_dagger) = signature_of_sum(set, sum, &mut noise);
        let list = noise.list(set);
        let mut right = vec![0xff; last + 1];
        write_packed(set.number(), 0, &z1, &z2_dagger, &list, &mut right).unwrap();
        assert!(spare.iter().all(|&place| !bit(&right, place)));
        for place in spare {
            let mut wrong = right.clone();
            turn_bit(&mut wrong, place);
            require_refused(&wrong, Refusal::header(last));
            // A key number makes no difference to it.
            for at in 20..HEADER {
                wrong[at] = 1;
                require_refused(&wrong, Refusal::header(last));
            }
            // Every field of the header goes before it, the total among them.
            wrong[16] ^= 1;
            require_refused(&wrong, Refusal::header(16));
            wrong[16] ^= 1;
            require_refused(&[&wrong[..], &[0]].concat(), Refusal::header(18));
            require_refused(&wrong[..last], Refusal::header(18));
            // It goes before the list.
            wrong[1112..last].fill(0);
            require_refused(&wrong, Refusal::header(last));
            turn_bit(&mut wrong, place);
            require_refused(&wrong, Refusal::LIST);
        }
    }
}

#[test]
fn values_that_the_bits_hold_and_the_limit_cannot() {
    let mut noise = Noise::new(112);
    for set in Set::ALL {
        let right = held(set, &mut noise);
        for place in [0, 200, 511] {
            for value in [4095, -4096, set.largest() + 1, -set.largest() - 1] {
                let mut wrong = right.clone();
                wrong.z1[place] = value;
                require_refused(&wrong.record(Form::Packed), Refusal::entry(place));
            }
            for value in [7, -8] {
                let mut wrong = right.clone();
                wrong.z2_dagger[place] = value;
                require_refused(&wrong.record(Form::Packed), Refusal::entry(N + place));
            }
        }
        let minus_one = Held {
            z1: vec![-1; N],
            z2_dagger: vec![0; N],
            ..right
        };
        let packed = minus_one.record(Form::Packed);
        assert_eq!(packed[24..856], [0xff; 832]);
        assert_eq!(read_by(Form::Packed, &packed), Ok(()));
        assert_eq!(Held::of(Form::Packed, set, &packed), minus_one);
    }
}

#[test]
fn there_and_back_it_is_the_same() {
    let mut noise = Noise::new(113);
    for set in Set::ALL {
        for round in 0..10 {
            let mut held = held(set, &mut noise);
            held.key = NUMBERS.get(round).copied().unwrap_or(held.key);
            let records = Form::ALL.map(|form| held.record(form));
            for (form, record) in Form::ALL.into_iter().zip(&records) {
                let other = form.other();
                let total = other.total(set);
                let there = converted(form, record, total).unwrap();
                assert_eq!(there, records[other as usize]);
                assert_eq!(there[20..HEADER], held.key.to_le_bytes());
                let back = converted(other, &there, record.len()).unwrap();
                assert_eq!(&back, record);
                let longer = converted(form, record, total + 9).unwrap();
                assert_eq!(longer[..total], there);
                assert_eq!(longer[total..], [0xee; 9], "a longer output keeps its tail");
                for short in [0, HEADER, total - 1] {
                    let refused = Err(Refusal::ROOM);
                    assert_eq!(converted(form, record, short), refused);
                }
            }
        }
    }
}

#[test]
fn a_record_of_the_other_form_is_refused_at_its_letters() {
    let mut noise = Noise::new(114);
    for set in Set::ALL {
        let held = held(set, &mut noise);
        for form in Form::ALL {
            let record = held.record(form.other());
            let refused = Refusal::header(0);
            assert_eq!(read_by(form, &record), Err(refused));
            assert_eq!(converted(form, &record, 2000), Err(refused));
        }
        let packed = held.record(Form::Packed);
        for section in [z1_section, z2_section, list_section] {
            let (mut number, mut place) = (99, 99);
            let part = section(&packed, &mut number, &mut place);
            assert_eq!((number, place), (13, 0));
            assert_eq!((part.as_ptr(), part.len()), (packed.as_ptr(), 0));
        }
        // The other letters alone make no record of the other form.
        let mut renamed = packed;
        renamed[..4].copy_from_slice(Form::Plain.letters());
        assert_eq!(read_by(Form::Plain, &renamed), Err(Refusal::header(12)));
    }
}

/// What was written in one form and is converted is what is written in the other.
#[test]
fn the_conversions_agree_with_the_writers() {
    let mut noise = Noise::new(115);
    for set in Set::ALL {
        let sum = set.b2_squared();
        let (z1, z2_dagger) = signature_of_sum(set, sum, &mut noise);
        let list = noise.list(set);
        let (mut plain, mut packed) = (
            vec![0; Form::Plain.total(set)],
            vec![0; Form::Packed.total(set)],
        );
        let (number, key) = (set.number(), 0x0a0b_0c0d);
        write(number, key, &z1, &z2_dagger, &list, &mut plain).unwrap();
        write_packed(number, key, &z1, &z2_dagger, &list, &mut packed).unwrap();
        assert_eq!(
            converted(Form::Plain, &plain, packed.len()),
            Ok(packed.clone())
        );
        assert_eq!(converted(Form::Packed, &packed, plain.len()), Ok(plain));
    }
}
