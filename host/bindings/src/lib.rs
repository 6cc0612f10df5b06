//! Safe bindings to `libbursztok.a`, the proved BLISS-B signing core.
//!
//! The seventeen calls of papers 01 and 02, with slices for the pointers and lengths of `bursztok.h`,
//! and the three that tell a set's sizes. Every call answers on all input, slices of any length included; a
//! refusal leaves every output slice with the contents it came with, and answers no key number. A set of
//! 0 stands for set 4, and for set 1 on the two calls that keep the old default.

pub mod foreign;
#[cfg(target_arch = "x86_64")]
mod linked;
mod refusal;
#[cfg(not(target_arch = "x86_64"))]
mod served;

pub use refusal::Refusal;

use foreign::{Answer, Part};
#[cfg(target_arch = "x86_64")]
use linked as calls;
#[cfg(not(target_arch = "x86_64"))]
use served as calls;

/// The length of every vector.
pub const VECTOR: usize = 512;
/// The length of the row of thresholds.
pub const THRESHOLDS: usize = 31;
/// The length of the reader's list buffer.
pub const LIST: usize = 113;
/// The length of the longest record.
pub const RECORD: usize = 1786;
/// The length of the longest packed record.
pub const PACKED: usize = 1240;
/// The key number of a signature that states none.
pub const KEY_NOT_STATED: u32 = 0;

/// What a response takes beside the set, the key number and the two vectors that it writes.
#[derive(Clone, Copy, Debug)]
pub struct Challenge<'a> {
    pub f: &'a [i8],
    pub g: &'a [i8],
    pub a: &'a [u16],
    pub y1: &'a [i16],
    pub y2: &'a [i16],
    pub list: &'a [u16],
    /// The sign bit.
    pub sign: bool,
    pub thresholds: &'a [u64],
    pub words: &'a [u64],
}

/// The answer of a response: the count of words taken stands beside every outcome, and the key number
/// that it was given, 0 when it refuses.
#[derive(Clone, Copy, Debug, PartialEq, Eq)]
#[must_use]
pub struct Response {
    pub outcome: Result<(), Refusal>,
    pub words: u64,
    pub key: u32,
}

/// The answer of a reader: the set and the key number that the record states, 0 when it refuses.
#[derive(Clone, Copy, Debug, PartialEq, Eq)]
#[must_use]
pub struct Reading {
    pub outcome: Result<(), Refusal>,
    pub set: u32,
    pub key: u32,
}

/// The answer of a section call: a part of the lent record, empty and at its start when refused.
#[derive(Clone, Copy, Debug, PartialEq, Eq)]
#[must_use]
pub struct Section<'a> {
    pub outcome: Result<(), Refusal>,
    pub part: &'a [u8],
}

/// The key test.
pub fn key_test(set: u32, f: &[i8], g: &[i8], a: &[u16]) -> Result<(), Refusal> {
    outcome(calls::key_test(set, f, g, a))
}

/// The commitment to the masks y1 and y2.
pub fn commitment(
    set: u32,
    a: &[u16],
    y1: &[i16],
    y2: &[i16],
    out: &mut [u16],
) -> Result<(), Refusal> {
    outcome(calls::commitment(set, a, y1, y2, out))
}

/// The commitment, and how far each sum lies from its rounded step: -2^(d-1) .. 2^(d-1) - 1.
pub fn commitment_with_rests(
    set: u32,
    a: &[u16],
    y1: &[i16],
    y2: &[i16],
    out: &mut [u16],
    rests: &mut [i16],
) -> Result<(), Refusal> {
    outcome(calls::commitment_with_rests(set, a, y1, y2, out, rests))
}

/// The response to a challenge: writes z1 and z2 dagger. Any key number will do.
pub fn respond(
    set: u32,
    key: u32,
    challenge: Challenge,
    z1: &mut [i16],
    z2_dagger: &mut [i8],
) -> Response {
    let answer = calls::respond(set, key, challenge, z1, z2_dagger);
    Response {
        outcome: Refusal::outcome(answer.number, answer.place),
        words: answer.words,
        key: answer.key,
    }
}

/// The rebuild of the vector that the signer committed to.
pub fn rebuild(
    set: u32,
    a: &[u16],
    z1: &[i16],
    z2_dagger: &[i8],
    list: &[u16],
    out: &mut [u16],
) -> Result<(), Refusal> {
    outcome(calls::rebuild(set, a, z1, z2_dagger, list, out))
}

/// The rebuild for callers that pass 0 for sheets of set 1: with 0 it is `rebuild` with 1, with any
/// other number `rebuild` with that number.
pub fn rebuild_default_one(
    set: u32,
    a: &[u16],
    z1: &[i16],
    z2_dagger: &[i8],
    list: &[u16],
    out: &mut [u16],
) -> Result<(), Refusal> {
    outcome(calls::rebuild_default_one(set, a, z1, z2_dagger, list, out))
}

/// The comparison of the claimed list with the list that the caller hashed.
pub fn compare(set: u32, claimed: &[u16], hashed: &[u16]) -> Result<(), Refusal> {
    outcome(calls::compare(set, claimed, hashed))
}

/// The comparison for callers that pass 0 for sheets of set 1: with 0 it is `compare` with 1, with
/// any other number `compare` with that number.
pub fn compare_default_one(set: u32, claimed: &[u16], hashed: &[u16]) -> Result<(), Refusal> {
    outcome(calls::compare_default_one(set, claimed, hashed))
}

/// The record writer. Any key number will do; a longer output keeps its tail.
pub fn write(
    set: u32,
    key: u32,
    z1: &[i16],
    z2_dagger: &[i8],
    list: &[u16],
    out: &mut [u8],
) -> Result<(), Refusal> {
    outcome(calls::write(set, key, z1, z2_dagger, list, out))
}

/// The writer of packed records. Any key number will do; a longer output keeps its tail.
pub fn write_packed(
    set: u32,
    key: u32,
    z1: &[i16],
    z2_dagger: &[i8],
    list: &[u16],
    out: &mut [u8],
) -> Result<(), Refusal> {
    outcome(calls::write_packed(set, key, z1, z2_dagger, list, out))
}

/// The record reader. List entries after kappa keep their old contents.
pub fn read(record: &[u8], z1: &mut [i16], z2_dagger: &mut [i8], list: &mut [u16]) -> Reading {
    reading(calls::read(record, z1, z2_dagger, list))
}

/// The reader of packed records. List entries after kappa keep their old contents.
pub fn read_packed(
    record: &[u8],
    z1: &mut [i16],
    z2_dagger: &mut [i8],
    list: &mut [u16],
) -> Reading {
    reading(calls::read_packed(record, z1, z2_dagger, list))
}

/// The packed record of a plain one, key number included. A longer output keeps its tail.
pub fn pack(record: &[u8], out: &mut [u8]) -> Result<(), Refusal> {
    outcome(calls::pack(record, out))
}

/// The plain record of a packed one, key number included. A longer output keeps its tail.
pub fn unpack(record: &[u8], out: &mut [u8]) -> Result<(), Refusal> {
    outcome(calls::unpack(record, out))
}

/// The z1 bytes of a record: two an entry, low byte first.
pub fn z1_section(record: &[u8]) -> Section<'_> {
    section(record, calls::z1_section(record))
}

/// The z2 dagger bytes of a record: one an entry.
pub fn z2_section(record: &[u8]) -> Section<'_> {
    section(record, calls::z2_section(record))
}

/// The list bytes of a record: two a place, low byte first.
pub fn list_section(record: &[u8]) -> Section<'_> {
    section(record, calls::list_section(record))
}

/// The places of a list of this set, 0 where the number stands for no set. 0 stands for set 4.
pub fn kappa(set: u32) -> usize {
    calls::kappa(set) as usize
}

/// The bytes of a record of this set, 0 where the number stands for no set. 0 stands for set 4.
pub fn record_bytes(set: u32) -> usize {
    calls::record_bytes(set) as usize
}

/// The bytes of a packed record of this set, 0 where the number stands for no set. 0 stands for set 4.
pub fn packed_bytes(set: u32) -> usize {
    calls::packed_bytes(set) as usize
}

fn reading(answer: foreign::Reading) -> Reading {
    Reading {
        outcome: Refusal::outcome(answer.number, answer.place),
        set: answer.set,
        key: answer.key,
    }
}

fn section(record: &[u8], (answer, part): (Answer, Part)) -> Section<'_> {
    let Part { start, length } = part;
    let end = start.checked_add(length).expect("a part has an end");
    Section {
        outcome: outcome(answer),
        part: &record[start as usize..end as usize],
    }
}

fn outcome(answer: Answer) -> Result<(), Refusal> {
    Refusal::outcome(answer.number, answer.place)
}
