//! The calls that are measured, on the input of one signed sheet. Every run must be done, with 0.

use compare::library;
use second::testing::calls::{self, Answered, Call, Input, OutputLengths, Outputs};
use second::testing::keys::published;
use second::testing::noise::Noise;
use second::testing::sheet::sign;
use second::{Form, Set};
use std::hint::black_box;

/// The calls that are measured: as options name them, and the symbols that the library exports.
pub const MEASURED: [(Call, &str, &str); 12] = [
    (Call::KeyTest, "key-test", "bursztok_key_test"),
    (Call::Commitment, "commitment", "bursztok_commitment"),
    (
        Call::CommitmentWithRests,
        "commitment-with-rests",
        "bursztok_commitment_with_rests",
    ),
    (Call::Respond, "response", "bursztok_respond"),
    (Call::Rebuild, "rebuild", "bursztok_rebuild"),
    (
        Call::RebuildDefaultOne,
        "rebuild-default-one",
        "bursztok_rebuild_default_one",
    ),
    (Call::Write, "write", "bursztok_write"),
    (Call::Read, "read", "bursztok_read"),
    (Call::WritePacked, "write-packed", "bursztok_write_packed"),
    (Call::ReadPacked, "read-packed", "bursztok_read_packed"),
    (Call::Pack, "pack", "bursztok_pack"),
    (Call::Unpack, "unpack", "bursztok_unpack"),
];

/// The key number that the sheet is signed with.
const KEY: u32 = 7;

/// Who does the work.
#[derive(Clone, Copy, Debug, PartialEq, Eq)]
pub enum Side {
    Library,
    Second,
}

/// A key, a signed sheet and its records, and buffers to write to.
pub struct Work {
    input: Input,
    rounded: Vec<u16>,
    rests: Vec<i16>,
    z1: Vec<i16>,
    z2_dagger: Vec<i8>,
    list: Vec<u16>,
    record: Vec<u8>,
}

impl Work {
    pub fn new(set: Set, seed: u64) -> Work {
        let mut noise = Noise::new(seed);
        let key = published(set, &mut noise);
        let signed = sign(set, &key, b"sheet", &mut noise);
        let (last_try, signature) = (signed.last_try, signed.signature);
        let lengths = OutputLengths::stated(set);
        let mut work = Work {
            input: Input {
                set: set.number(),
                key: KEY,
                f: key.f,
                g: key.g,
                a: key.a,
                y1: last_try.y1,
                y2: last_try.y2,
                hashed: last_try.list.clone(),
                list: last_try.list,
                sign: last_try.sign,
                thresholds: last_try.thresholds,
                words: last_try.words,
                z1: signature.z1,
                z2_dagger: signature.z2_dagger,
                record: Vec::new(),
                packed: Vec::new(),
                lengths,
            },
            rounded: vec![0; lengths.rounded],
            rests: vec![0; lengths.rests],
            z1: vec![0; lengths.z1],
            z2_dagger: vec![0; lengths.z2_dagger],
            list: vec![0; lengths.list],
            record: vec![0; lengths.record],
        };
        for (call, form) in [
            (Call::Write, Form::Plain),
            (Call::WritePacked, Form::Packed),
        ] {
            work.run(Side::Second, call);
            let record = work.record[..form.total(set)].to_vec();
            *work.input.record_in(form) = record;
        }
        work
    }

    /// Runs the call once.
    pub fn run(&mut self, side: Side, call: Call) {
        let outputs = Outputs {
            rounded: &mut self.rounded,
            rests: &mut self.rests,
            z1: &mut self.z1,
            z2_dagger: &mut self.z2_dagger,
            list: &mut self.list,
            record: &mut self.record,
        };
        let input = black_box(&self.input);
        let answered: Answered = match side {
            Side::Library => library::run(call, input, outputs),
            Side::Second => calls::run(call, input, outputs),
        };
        assert_eq!(answered.number, 0, "{} refused", call.name());
        black_box(self);
    }
}
