//! The file is small, says the same at each making, replays, and notices damage.

use second::form::{key_in, turn_bit, KEY_FIELD};
use second::record::Held;
use second::testing::calls::Call;
use second::testing::key_numbers::NUMBERS;
use second::{Form, Set};
use std::collections::BTreeSet;
use std::process::Command;
use vectors::slots::{Slots, RECORD};
use vectors::{replay, vectors, Fault};

#[test]
fn the_file_replays_and_reaches_every_number_that_can_occur() {
    let file = vectors(1);
    assert!(file.len() < 1280 * 1024, "{} bytes", file.len());
    assert_eq!(file, vectors(1));
    let replayed = replay(&file).unwrap();
    assert_eq!(replayed.taken_back, None);
    let counts = replayed.counts;
    for call in Call::ALL.into_iter().filter(|call| call.has_number()) {
        let of_call = counts.keys().filter(|(which, _)| *which == call as u8);
        let reached: BTreeSet<u32> = of_call.map(|&(_, number)| number).collect();
        let numbers = call.numbers().iter().copied().collect();
        assert_eq!(reached, numbers, "{}", call.name());
    }
}

/// The entries of a file, each with the place where it stands.
fn entries(file: &[u8]) -> Vec<(usize, &[u8])> {
    let (mut at, mut entries) = (16, Vec::new());
    while at < file.len() {
        let count = usize::from(u16::from_le_bytes([file[at + 6], file[at + 7]]));
        let length = 8 + count * usize::from(file[at + 2]);
        entries.push((at, &file[at..at + length]));
        at += length;
    }
    entries
}

/// Where the first entry stands that starts with these bytes and has elements.
fn find(file: &[u8], start: [u8; 2]) -> usize {
    let entries = entries(file).into_iter();
    let mut found = entries.filter(|(_, entry)| entry[..2] == start && entry.len() > 8);
    found.next().expect("there is such an entry").0
}

/// A call of the file.
struct Called {
    call: Call,
    /// The set asked for.
    asked: u8,
    /// The key numbers that are lent and wanted.
    keys: (u32, u32),
    /// Wanted number and place.
    wanted: (u8, u16),
    /// The length of the record output.
    room: usize,
    /// The record that is lent.
    record: Vec<u8>,
}

impl Called {
    fn is(&self, call: Call, wanted: (u8, u16)) -> bool {
        self.call == call && self.wanted == wanted
    }

    /// The set of the call, or of the record where it takes none.
    fn set(&self) -> u8 {
        match self.call.takes_set() {
            true => self.asked,
            false => self.record.get(4).copied().unwrap_or(0),
        }
    }

    /// The key number that is lent, or that stands in the record where the call is lent one.
    fn key(&self) -> u32 {
        match self.call.takes() {
            None => self.keys.0,
            Some(_) => self
                .record
                .get(KEY_FIELD)
                .map_or(0, |_| key_in(&self.record)),
        }
    }
}

/// The calls of a file, in its order.
fn calls_of(file: &[u8]) -> Vec<Called> {
    let (mut slots, mut calls) = (Slots::default(), Vec::new());
    for (_, entry) in entries(file) {
        let short = |at: usize| u16::from_le_bytes([entry[at], entry[at + 1]]);
        let long = |at: usize| u32::from_le_bytes(entry[at..at + 4].try_into().unwrap());
        let (start, elements) = (usize::from(short(4)), &entry[8..]);
        match entry[0] {
            1 => slots.get_mut(entry[1].into()).load(start, elements),
            2 => slots.get_mut(entry[1].into()).patch(start, elements),
            _ => calls.push(Called {
                call: Call::ALL[usize::from(entry[1]) - 1],
                asked: elements[0],
                keys: (long(8 + 28), long(8 + 32)),
                wanted: (elements[4], short(8 + 6)),
                room: short(8 + 22).into(),
                record: slots.get(RECORD).content().to_vec(),
            }),
        }
    }
    calls
}

#[test]
fn every_call_is_done_for_every_set() {
    let calls = calls_of(&vectors(1));
    for call in Call::ALL.into_iter().filter(|call| call.has_number()) {
        for set in Set::ALL {
            let number = set.number() as u8;
            let mut calls = calls.iter();
            let done = calls.any(|called| called.is(call, (0, 0)) && called.set() == number);
            assert!(done, "{}, {set:?}", call.name());
        }
    }
}

/// What a replay has to see of 02, C-11, beside the numbers.
#[test]
fn the_edges_of_the_packed_form_are_there() {
    let calls = calls_of(&vectors(1));
    let packed = Call::lent(Form::Packed);
    for set in Set::ALL {
        let shown = |call: Call, wanted: (u8, u16), with: &dyn Fn(&Called) -> bool| {
            let of_set = |called: &&Called| called.set() == set.number() as u8;
            let mut calls = calls.iter().filter(of_set);
            let shown = calls.any(|called| called.is(call, wanted) && with(called));
            assert!(shown, "{}, {set:?}, {wanted:?}", call.name());
        };
        let read = |called: &&Called| called.is(packed[0], (0, 0)) && called.set() == set as u8;
        let right = &calls.iter().find(read).expect("one is read").record;
        // Each spare bit set by itself.
        for place in Form::Packed.spare_bits(set) {
            let mut record = right.clone();
            turn_bit(&mut record, place);
            for &call in packed {
                let refused = (13, right.len() as u16 - 1);
                shown(call, refused, &|called| called.record == record);
            }
        }
        // A record of the other form on each call that is lent one.
        let held = Held::of(Form::Packed, set, right);
        for form in Form::ALL {
            let other = held.record(form.other());
            for &call in Call::lent(form) {
                shown(call, (13, 0), &|called| called.record == other);
            }
        }
        // Outputs for a record too short by one, exact, and longer.
        for call in Call::ALL {
            if let Some(form) = call.writes() {
                let total = form.total(set);
                shown(call, (14, 0), &|called| called.room == total - 1);
                shown(call, (0, 0), &|called| called.room == total);
                shown(call, (0, 0), &|called| called.room == total + 7);
            }
        }
        // Entries that thirteen and four bits hold and no limit allows.
        if set.like() != set {
            continue;
        }
        for (place, value) in [(0, 4095), (511, -4096), (512, 7), (1023, -8)] {
            for &call in packed {
                shown(call, (10, place), &|called| {
                    let held = Held::of(Form::Packed, set, &called.record);
                    let entries = [held.z1, held.z2_dagger].concat();
                    entries[usize::from(place)] == value
                });
            }
        }
    }
}

/// What a replay has to see of 02, C-13, beside the numbers.
#[test]
fn the_key_numbers_are_there() {
    let calls = calls_of(&vectors(1));
    for called in &calls {
        // It is answered where the call is done, and stands in the file where it is lent.
        let answers = called.call.answers_key() && called.wanted.0 == 0;
        let wanted = if answers { called.key() } else { 0 };
        assert_eq!(called.keys.1, wanted, "{}", called.call.name());
        assert!(called.call.takes_key() || called.keys.0 == 0);
    }
    let with_key = |call: &Call| call.takes_key() || call.takes().is_some();
    for call in Call::ALL.into_iter().filter(with_key) {
        for set in Set::ALL {
            let of_set = |called: &&Called| called.call == call && called.set() == set as u8;
            let shown = |key: u32, wanted: &dyn Fn(&Called) -> bool| {
                let mut calls = calls.iter().filter(of_set);
                let shown = calls.any(|called| called.key() == key && wanted(called));
                assert!(shown, "{}, {set:?}, key number {key}", call.name());
            };
            for key in NUMBERS {
                shown(key, &|called| called.wanted.0 == 0);
            }
            // Each byte alone, also in a record that is refused.
            let Some(form) = call.takes() else { continue };
            let last = form.total(set) as u16 - 1;
            for byte in [0x80, 0x9000, 0xa0_0000, 0xb000_0000] {
                shown(byte, &|called| called.wanted.0 == 0);
                if form == Form::Packed {
                    shown(byte, &|called| called.wanted == (13, last));
                }
                if set.like() != set {
                    continue;
                }
                let total = form.total(set);
                for length in [total - 1, total, total + 1] {
                    shown(byte, &|called| {
                        called.wanted == (13, 18) && called.record.len() == length
                    });
                }
                for number in [5, 10, 14] {
                    if call.numbers().contains(&number) {
                        shown(byte, &|called| u32::from(called.wanted.0) == number);
                    }
                }
            }
        }
        // A number that is kept on any refusal would be seen.
        for &number in call.numbers().iter().filter(|number| **number != 0) {
            let mut calls = calls.iter().filter(|called| called.call == call);
            let kept =
                calls.any(|called| u32::from(called.wanted.0) == number && called.key() != 0);
            assert!(kept, "{}, {number}", call.name());
        }
    }
}

/// The file of before the key number, as it was stored.
fn before_keys() -> Vec<u8> {
    let path = "../../crates/replay/data/vectors_before_keys.bin";
    std::fs::read(format!("{}/{path}", env!("CARGO_MANIFEST_DIR"))).unwrap()
}

#[test]
fn the_file_of_before_the_key_number_replays() {
    let file = before_keys();
    assert_eq!((&file[..8], file.len()), (&b"BLVECT04"[..], 1_071_820));
    let state = file
        .iter()
        .fold(0xcbf2_9ce4_8422_2325, |state: u64, &byte| {
            (state ^ u64::from(byte)).wrapping_mul(0x0100_0000_01b3)
        });
    assert_eq!(state, 0x928e_a6d4_71fe_aac6, "it is what it was");
    let replayed = replay(&file).unwrap();
    assert_eq!((replayed.calls(), replayed.taken_back), (5313, Some(156)));
    // What is taken back is counted apart, and nothing else is.
    let thirteen = |(call, number): &(u8, u32)| (*number == 13).then_some(*call);
    let calls: BTreeSet<u8> = replayed.counts.keys().filter_map(thirteen).collect();
    assert_eq!(calls, BTreeSet::from([7, 8, 9, 10, 15, 16, 17]));
}

/// In a file of today the same answer is one like any other, and a wrong one.
#[test]
fn thirteen_at_twenty_is_taken_back_in_the_file_of_before_alone() {
    let mut file = before_keys();
    let changed = entries(&file).into_iter().find_map(|(at, entry)| {
        let wanted = (entry[0] == 3).then(|| [entry[12], entry[14], entry[15]]);
        (wanted == Some([13, 20, 0])).then_some(at)
    });
    // At another place it is wanted as it stands.
    let at = changed.expect("there is such a call");
    file[at + 14] = 18;
    let fault = replay(&file).unwrap_err();
    assert!(matches!(&fault, Fault::Differs(_)), "{fault}");

    let file = vectors(2);
    let at = find(&file, [3, Call::Read as u8]);
    let mut damaged = file.clone();
    damaged[at + 8 + 4] = 13;
    damaged[at + 8 + 6] = 20;
    let fault = replay(&damaged).unwrap_err();
    assert!(fault.to_string().contains("place: 20"), "{fault}");
}

#[test]
fn damage_is_noticed() {
    let file = vectors(2);
    let damaged = |at: usize| {
        let mut damaged = file.clone();
        damaged[at] ^= 1;
        replay(&damaged).unwrap_err()
    };
    let differs = |at: usize, said: &str| {
        let fault = damaged(at);
        assert!(
            matches!(&fault, Fault::Differs(what) if what.contains(said)),
            "{fault}"
        );
    };
    // An entry of a wanted commitment, and the wanted number of the first commitment.
    differs(find(&file, [1, 13]) + 8, "Commitment: slot 13");
    differs(find(&file, [3, 2]) + 8 + 4, "Commitment");
    differs(find(&file, [1, 18]) + 8, "CommitmentWithRests: slot 18");
    // Each byte of a key number that is lent, and of one that is wanted.
    let done = entries(&file).into_iter().find(|(_, entry)| {
        let call = entry[0] == 3 && entry[1] == Call::Respond as u8;
        call && entry[12] == 0
    });
    let at = done.expect("a response is done").0;
    for byte in 28..36 {
        differs(at + 8 + byte, "Respond");
    }
    differs(find(&file, [3, 7]) + 8 + 35, "Read");
    let lent = damaged(find(&file, [3, 7]) + 8 + 28).to_string();
    assert!(lent.contains("a key number for a call that takes none"));
    assert!(damaged(0).to_string().contains("BLVECT05 or BLVECT04"));
    assert!(replay(&file[..file.len() - 1]).is_err());
    let longer = [&file[..], &[0]].concat();
    assert!(replay(&longer).is_err());
}

/// A file of these entries.
fn file_of(entries: &[Vec<u8>]) -> Vec<u8> {
    let calls = entries.iter().filter(|entry| entry[0] == 3).count();
    let counts = [entries.len() as u32, calls as u32].map(u32::to_le_bytes);
    [b"BLVECT05", counts.as_flattened(), &entries.concat()].concat()
}

/// A call of set 1 with this wanted number, and no key number.
fn call_entry(call: u8, number: u8) -> Vec<u8> {
    let mut entry = vec![3, call, 1, 0, 0, 0, 36, 0, 1, 0, 0, 0, number];
    entry.resize(8 + 27, 0);
    entry.push(1);
    entry.resize(8 + 36, 0);
    entry
}

#[test]
fn malformed_entries_are_named() {
    let malformed = |entry: &[u8], said: &str| {
        let fault = replay(&file_of(&[entry.to_vec()])).unwrap_err();
        assert_eq!(fault, Fault::Malformed(format!("entry 0: {said}")));
    };
    malformed(&[1, 0, 1, 0, 0, 0, 0, 0], "no slot 0");
    malformed(&[2, 19, 1, 0, 0, 0, 0, 0], "no slot 19");
    malformed(&[1, 1, 2, 0, 0, 0, 0, 0], "slot 1 has another width than 2");
    malformed(
        &[1, 1, 1, 0, 9, 2, 0, 0],
        "slot 1 has room for 520, not 521",
    );
    malformed(
        &[2, 1, 1, 0, 8, 2, 1, 0, 7],
        "slot 1 has room for 520, not 521",
    );
    malformed(&[1, 1, 1, 0, 0, 0, 9, 0], "the file ends too soon");
    malformed(&[3, 18, 1, 0, 0, 0, 0, 0], "no call 18");
    malformed(&[3, 1, 1, 0, 0, 0, 0, 0], "a call of 0 bytes");
    let before = [&[3, 1, 1, 0, 0, 0, 28, 0][..], &[0; 28]].concat();
    malformed(&before, "a call of 28 bytes");
    malformed(&[4, 1, 1, 0, 0, 0, 0, 0], "no entry of kind 4");
    let zero = "byte 3 of its head is not zero";
    malformed(&[1, 1, 1, 7, 0, 0, 0, 0], zero);
}

#[test]
fn both_outputs_of_a_commitment_with_rests_have_their_lengths() {
    // a, y1, y2 and the wanted outputs at 512 zeros.
    let zeros = [3, 4, 5, 13, 18].map(|slot| vec![1, slot, 2, 0, 0, 2, 0, 0]);
    let replayed = |rounded: u16, rests: u16, number: u8| {
        let mut call = call_entry(11, number);
        call[8 + 14..][..2].copy_from_slice(&rounded.to_le_bytes());
        call[8 + 24..][..2].copy_from_slice(&rests.to_le_bytes());
        replay(&file_of(&[&zeros[..], &[call]].concat()))
    };
    assert!(replayed(512, 512, 0).is_ok());
    for (rounded, rests) in [(512, 511), (512, 513), (512, 0), (511, 512)] {
        assert!(replayed(rounded, rests, 2).is_ok());
        assert!(replayed(rounded, rests, 0).is_err());
    }
}

#[test]
fn a_replay_ends_with_the_status_of_its_fault() {
    let name = format!("bursztok-{}.vectors", std::process::id());
    let path = std::env::temp_dir().join(name);
    let status_of = |file: &[u8]| {
        std::fs::write(&path, file).unwrap();
        let program = Command::new(env!("CARGO_BIN_EXE_bursztok-vectors"))
            .arg("--replay")
            .arg(&path)
            .output();
        program.unwrap().status.code()
    };
    // A key test of nothing, which gives 2, and one that is said to give 0.
    let mut file = file_of(&[call_entry(1, 2)]);
    assert_eq!(status_of(&file), Some(0));
    file[16 + 8 + 4] = 0;
    assert_eq!(status_of(&file), Some(1));
    assert_eq!(status_of(&file[..20]), Some(2));
    assert_eq!(status_of(b""), Some(2));
    std::fs::remove_file(&path).unwrap();
}
