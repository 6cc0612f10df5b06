//! "The record", plain and packed: round trips both ways, the header's fields, the key number, the
//! section calls.

use second::form::{FIELDS, HEADER};
use second::parameters::{LIST_BUFFER, N};
use second::record::write_in;
use second::testing::boundary::{largest_z2_dagger, signature_of_sum};
use second::testing::key_numbers::{self, NUMBERS};
use second::testing::noise::Noise;
use second::{list_section, z1_section, z2_section, Edition, Form, Reading, Refusal, Set};

/// A proper signature of the set: z1, z2 dagger and list. Its key number is drawn apart.
fn signature(set: Set, noise: &mut Noise) -> (Vec<i16>, Vec<i8>, Vec<u16>) {
    let sum = noise.between(0, set.b2_squared());
    let (z1, z2_dagger) = signature_of_sum(set, sum, noise);
    (z1, z2_dagger, noise.list(set))
}

fn record(form: Form, set: Set, noise: &mut Noise) -> Vec<u8> {
    let (z1, z2_dagger, list) = signature(set, noise);
    let key = key_numbers::any(noise);
    let mut record = vec![0; form.total(set)];
    write_in(form, set.number(), key, &z1, &z2_dagger, &list, &mut record).unwrap();
    record
}

/// What is read, with the output buffers.
fn read(form: Form, record: &[u8]) -> (Reading, Vec<i16>, Vec<i8>, Vec<u16>) {
    let (mut z1, mut z2_dagger) = (vec![77; N], vec![77; N]);
    let mut list = vec![777; LIST_BUFFER];
    let reading = Edition::THIS.read(form, record, &mut z1, &mut z2_dagger, &mut list);
    (reading, z1, z2_dagger, list)
}

fn verdict(form: Form, record: &[u8]) -> Result<(), Refusal> {
    let (reading, z1, z2_dagger, list) = read(form, record);
    if reading.outcome.is_err() {
        assert_eq!((reading.set, reading.key), (0, 0));
        assert_eq!((z1, z2_dagger), (vec![77; N], vec![77; N]));
        assert_eq!(list, vec![777; LIST_BUFFER]);
    }
    reading.outcome
}

/// Every form with every set.
fn forms() -> impl Iterator<Item = (Form, Set)> {
    let of = |form: Form| Set::ALL.into_iter().map(move |set| (form, set));
    Form::ALL.into_iter().flat_map(of)
}

#[test]
fn what_is_written_reads_back() {
    let mut noise = Noise::new(41);
    for (form, set) in forms() {
        for round in 0..20 {
            let (z1, z2_dagger, list) = signature(set, &mut noise);
            let any = key_numbers::any(&mut noise);
            let key = NUMBERS.get(round).copied().unwrap_or(any);
            let (number, total) = (set.number(), form.total(set));
            let mut record = vec![0xee; total + 3];
            let outcome = write_in(form, number, key, &z1, &z2_dagger, &list, &mut record);
            assert_eq!(outcome, Ok(()));
            assert_eq!(record[total..], [0xee; 3], "a longer output keeps its tail");

            let (reading, read_z1, read_z2, read_list) = read(form, &record[..total]);
            let expected = Reading {
                outcome: Ok(()),
                set: number,
                key,
            };
            assert_eq!(reading, expected);
            assert_eq!((read_z1, read_z2), (z1, z2_dagger));
            assert_eq!(read_list[..set.kappa()], list);
            assert!(read_list[set.kappa()..].iter().all(|&entry| entry == 777));
        }
    }
}

/// Damaged records that still read are the ones that the writer makes of what was read.
#[test]
fn what_reads_is_what_the_writer_makes_of_it() {
    let mut noise = Noise::new(42);
    for form in Form::ALL {
        let mut reads = 0;
        for round in 0..400 {
            let set = Set::ALL[round % Set::ALL.len()];
            let mut record = record(form, set, &mut noise);
            for _ in 0..noise.between(1, 2) {
                let at = noise.below(record.len());
                record[at] ^= 1 << noise.below(8);
            }
            let (reading, z1, z2_dagger, list) = read(form, &record);
            if reading.outcome == Ok(()) {
                reads += 1;
                let kappa = Set::asked(reading.set).unwrap().kappa();
                let mut again = vec![0; record.len()];
                let (Reading { set, key, .. }, list) = (reading, &list[..kappa]);
                let outcome = write_in(form, set, key, &z1, &z2_dagger, list, &mut again);
                assert_eq!(outcome, Ok(()));
                assert_eq!(again, record);
            }
        }
        assert!(reads > 20, "only {reads} damaged records read");
    }
}

#[test]
fn set_zero_is_written_as_set_four() {
    let mut noise = Noise::new(43);
    for form in Form::ALL {
        let (z1, z2_dagger, list) = signature(Set::IV, &mut noise);
        let written = |number: u32| {
            let mut record = vec![0; form.total(Set::IV)];
            write_in(form, number, 5, &z1, &z2_dagger, &list, &mut record).unwrap();
            record
        };
        let mut zero = written(0);
        assert_eq!(zero, written(4));
        assert_eq!(zero[4], 4);
        zero[4] = 0;
        assert_eq!(verdict(form, &zero), Err(Refusal::header(4)));
    }
}

#[test]
fn the_header_byte_by_byte() {
    let plain = [
        b'B', b'L', b'B', b'1', 3, 0, 0, 2, 24, 0, 0, 2, 0x18, 0x04, 30, 0, 0x18, 0x06, 0x54, 0x06,
        0, 0, 0, 0,
    ];
    assert_eq!(Form::Plain.header(Set::III, 0), plain);
    let packed = [
        b'B', b'L', b'P', b'1', 8, 0, 0, 2, 24, 0, 0, 2, 0x58, 0x03, 113, 0, 0x58, 0x04, 0xd8,
        0x04, 0x67, 0x45, 0x23, 0x01,
    ];
    assert_eq!(Form::Packed.header(Set::VIII, 0x0123_4567), packed);
}

/// 02, C-13: bytes 20-23, low byte first; no byte of them is refused, and none counts for anything else.
#[test]
fn the_key_number_is_bytes_20_to_23() {
    let mut noise = Noise::new(50);
    for (form, set) in forms() {
        let mut record = record(form, set, &mut noise);
        let (_, z1, z2_dagger, list) = read(form, &record);
        for (bytes, key) in [
            ([0, 0, 0, 0], 0),
            ([7, 0, 0, 0], 7),
            ([255, 0, 0, 0], 255),
            ([0, 1, 0, 0], 256),
            ([0, 0, 1, 0], 65_536),
            ([0, 0, 0, 1], 16_777_216),
            ([0, 0, 0, 128], 2_147_483_648),
            ([1, 2, 3, 4], 67_305_985),
            ([255; 4], 4_294_967_295),
        ] {
            record[20..24].copy_from_slice(&bytes);
            let reading = Reading {
                outcome: Ok(()),
                set: set.number(),
                key,
            };
            let wanted = (reading, z1.clone(), z2_dagger.clone(), list.clone());
            assert_eq!(read(form, &record), wanted);
            let mut written = vec![0; record.len()];
            let places = &list[..set.kappa()];
            let number = set.number();
            write_in(form, number, key, &z1, &z2_dagger, places, &mut written).unwrap();
            assert_eq!(written, record);
        }
    }
}

#[test]
fn a_wrong_byte_is_refused_at_the_first_byte_of_its_field() {
    // The key number is never wrong.
    let starts = [
        0, 0, 0, 0, 4, 5, 6, 6, 8, 8, 10, 10, 12, 12, 14, 14, 16, 16, 18, 18,
    ];
    assert_eq!(FIELDS[10], 20..24);
    assert_eq!(Edition::THIS.fields().last(), Some(18..20));
    let mut noise = Noise::new(44);
    for (form, set) in forms() {
        let right = record(form, set, &mut noise);
        for (at, &start) in starts.iter().enumerate() {
            for bit in 3..8 {
                let mut wrong = right.clone();
                wrong[at] ^= 1 << bit;
                let refused = Err(Refusal::header(start));
                assert_eq!(verdict(form, &wrong), refused, "byte {at}");
                // The first wrong field counts, whatever the key number.
                wrong[19] ^= 1;
                wrong[23] ^= 1;
                assert_eq!(verdict(form, &wrong), refused, "byte {at}");
            }
        }
    }
}

#[test]
fn the_slice_is_exactly_the_total() {
    let mut noise = Noise::new(45);
    for (form, set) in forms() {
        let mut right = record(form, set, &mut noise);
        for length in 0..form.total(set) {
            let place = if length < HEADER { length } else { 18 };
            assert_eq!(verdict(form, &right[..length]), Err(Refusal::header(place)));
        }
        right.push(0);
        assert_eq!(verdict(form, &right), Err(Refusal::header(18)));
        right[16] ^= 1;
        assert_eq!(verdict(form, &right), Err(Refusal::header(16)));
    }
}

#[test]
fn the_set_decides_count_and_limits() {
    let mut noise = Noise::new(46);
    for form in Form::ALL {
        let mut changed = record(form, Set::I, &mut noise);
        for other in [3, 5] {
            changed[4] = other;
            assert_eq!(verdict(form, &changed), Err(Refusal::header(14)));
        }
        // Sets 1 and 2 share every header field, and so do 5 and 6; the limits differ.
        for (set, other) in [(Set::I, 2), (Set::V, 6)] {
            let list: Vec<u16> = (0..set.kappa() as u16).collect();
            let (mut z1, mut record) = (vec![0; N], vec![0; form.total(set)]);
            z1[9] = 1564;
            write_in(form, set.number(), 0, &z1, &[0; N], &list, &mut record).unwrap();
            assert_eq!(verdict(form, &record), Ok(()));
            record[4] = other;
            assert_eq!(verdict(form, &record), Err(Refusal::entry(9)));
        }
    }
}

#[test]
fn a_section_is_that_part_of_the_record_itself() {
    let mut noise = Noise::new(47);
    for set in Set::ALL {
        let record = record(Form::Plain, set, &mut noise);
        let (mut number, mut place) = (99, 99);
        let parts = [
            (z1_section(&record, &mut number, &mut place), 24, 1024),
            (z2_section(&record, &mut number, &mut place), 1048, 512),
            (
                list_section(&record, &mut number, &mut place),
                1560,
                2 * set.kappa(),
            ),
        ];
        assert_eq!((number, place), (0, 0));
        for (part, start, length) in parts {
            assert_eq!(part.as_ptr(), record[start..].as_ptr());
            assert_eq!(part.len(), length);
        }
    }
}

#[test]
fn a_section_call_tests_the_header_only() {
    let mut noise = Noise::new(48);
    let mut record = record(Form::Plain, Set::IV, &mut noise);
    let (mut number, mut place) = (99, 99);
    record[HEADER..].fill(0xff);
    assert_eq!(verdict(Form::Plain, &record), Err(Refusal::LIST));
    assert_eq!(z1_section(&record, &mut number, &mut place).len(), 1024);
    assert_eq!((number, place), (0, 0));
    for section in [z1_section, z2_section, list_section] {
        for at in 20..HEADER {
            record[20..HEADER].fill(0);
            record[at] = 0x81;
            (number, place) = (99, 99);
            let part = section(&record, &mut number, &mut place);
            assert_eq!((number, place), (0, 0));
            assert!(!part.is_empty());
        }
        record[18] ^= 1;
        let part = section(&record, &mut number, &mut place);
        assert_eq!((number, place), (13, 18));
        assert_eq!((part.as_ptr(), part.len()), (record.as_ptr(), 0));
        record[18] ^= 1;
        let part = section(&record[..5], &mut number, &mut place);
        assert_eq!((number, place), (13, 5));
        assert_eq!((part.as_ptr(), part.len()), (record.as_ptr(), 0));
    }
}

#[test]
fn the_sum_at_and_above_b2_squared() {
    let mut noise = Noise::new(49);
    for (form, set) in forms() {
        let list = noise.list(set);
        for (excess, outcome) in [(0, Ok(())), (1, Err(Refusal::SUM))] {
            let (z1, z2_dagger) = signature_of_sum(set, set.b2_squared() + excess, &mut noise);
            let filled = vec![0xee; form.total(set)];
            let mut record = filled.clone();
            let number = set.number();
            let written = write_in(form, number, 9, &z1, &z2_dagger, &list, &mut record);
            assert_eq!(written, outcome);
            assert_eq!(outcome.is_err(), record == filled);
        }
    }
}

/// In 32 bits the sum over set I's largest entries would wrap to less than B2 squared.
#[test]
fn a_sum_past_32_bits_is_refused() {
    let list: Vec<u16> = (0..23).collect();
    let limit = largest_z2_dagger(Set::I) as i8;
    for form in Form::ALL {
        let mut record = vec![0; form.total(Set::I)];
        let outcome = write_in(form, 1, 0, &[2100; N], &[limit; N], &list, &mut record);
        assert_eq!(outcome, Err(Refusal::SUM));
    }
}
