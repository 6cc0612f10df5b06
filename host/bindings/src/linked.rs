//! The calls of the linked library, with slices.

use crate::foreign::{self, Answer, Part, Reading, Response};
use crate::Challenge;

pub fn key_test(set: u32, f: &[i8], g: &[i8], a: &[u16]) -> Answer {
    // SAFETY: each pointer is good for the length beside it.
    unsafe {
        foreign::bursztok_key_test(
            set,
            f.as_ptr(),
            f.len(),
            g.as_ptr(),
            g.len(),
            a.as_ptr(),
            a.len(),
        )
    }
}

pub fn commitment(set: u32, a: &[u16], y1: &[i16], y2: &[i16], out: &mut [u16]) -> Answer {
    // SAFETY: each pointer is good for the length beside it; `out` is borrowed alone.
    unsafe {
        foreign::bursztok_commitment(
            set,
            a.as_ptr(),
            a.len(),
            y1.as_ptr(),
            y1.len(),
            y2.as_ptr(),
            y2.len(),
            out.as_mut_ptr(),
            out.len(),
        )
    }
}

pub fn commitment_with_rests(
    set: u32,
    a: &[u16],
    y1: &[i16],
    y2: &[i16],
    out: &mut [u16],
    rests: &mut [i16],
) -> Answer {
    // SAFETY: each pointer is good for the length beside it; the outputs are borrowed alone.
    unsafe {
        foreign::bursztok_commitment_with_rests(
            set,
            a.as_ptr(),
            a.len(),
            y1.as_ptr(),
            y1.len(),
            y2.as_ptr(),
            y2.len(),
            out.as_mut_ptr(),
            out.len(),
            rests.as_mut_ptr(),
            rests.len(),
        )
    }
}

pub fn respond(
    set: u32,
    key: u32,
    asked: Challenge,
    z1: &mut [i16],
    z2_dagger: &mut [i8],
) -> Response {
    // SAFETY: each pointer is good for the length beside it; the outputs are borrowed alone.
    unsafe {
        foreign::bursztok_respond(
            set,
            key,
            asked.f.as_ptr(),
            asked.f.len(),
            asked.g.as_ptr(),
            asked.g.len(),
            asked.a.as_ptr(),
            asked.a.len(),
            asked.y1.as_ptr(),
            asked.y1.len(),
            asked.y2.as_ptr(),
            asked.y2.len(),
            asked.list.as_ptr(),
            asked.list.len(),
            asked.sign,
            asked.thresholds.as_ptr(),
            asked.thresholds.len(),
            asked.words.as_ptr(),
            asked.words.len(),
            z1.as_mut_ptr(),
            z1.len(),
            z2_dagger.as_mut_ptr(),
            z2_dagger.len(),
        )
    }
}

pub fn rebuild(
    set: u32,
    a: &[u16],
    z1: &[i16],
    z2_dagger: &[i8],
    list: &[u16],
    out: &mut [u16],
) -> Answer {
    rebuild_by(foreign::bursztok_rebuild, set, a, z1, z2_dagger, list, out)
}

pub fn rebuild_default_one(
    set: u32,
    a: &[u16],
    z1: &[i16],
    z2_dagger: &[i8],
    list: &[u16],
    out: &mut [u16],
) -> Answer {
    let call = foreign::bursztok_rebuild_default_one;
    rebuild_by(call, set, a, z1, z2_dagger, list, out)
}

type RebuildCall = unsafe extern "C" fn(
    u32,
    *const u16,
    usize,
    *const i16,
    usize,
    *const i8,
    usize,
    *const u16,
    usize,
    *mut u16,
    usize,
) -> Answer;

fn rebuild_by(
    call: RebuildCall,
    set: u32,
    a: &[u16],
    z1: &[i16],
    z2_dagger: &[i8],
    list: &[u16],
    out: &mut [u16],
) -> Answer {
    // SAFETY: each pointer is good for the length beside it; `out` is borrowed alone.
    unsafe {
        call(
            set,
            a.as_ptr(),
            a.len(),
            z1.as_ptr(),
            z1.len(),
            z2_dagger.as_ptr(),
            z2_dagger.len(),
            list.as_ptr(),
            list.len(),
            out.as_mut_ptr(),
            out.len(),
        )
    }
}

pub fn compare(set: u32, claimed: &[u16], hashed: &[u16]) -> Answer {
    compare_by(foreign::bursztok_compare, set, claimed, hashed)
}

pub fn compare_default_one(set: u32, claimed: &[u16], hashed: &[u16]) -> Answer {
    compare_by(foreign::bursztok_compare_default_one, set, claimed, hashed)
}

type CompareCall = unsafe extern "C" fn(u32, *const u16, usize, *const u16, usize) -> Answer;

fn compare_by(call: CompareCall, set: u32, claimed: &[u16], hashed: &[u16]) -> Answer {
    // SAFETY: each pointer is good for the length beside it.
    unsafe {
        call(
            set,
            claimed.as_ptr(),
            claimed.len(),
            hashed.as_ptr(),
            hashed.len(),
        )
    }
}

pub fn write(
    set: u32,
    key: u32,
    z1: &[i16],
    z2_dagger: &[i8],
    list: &[u16],
    out: &mut [u8],
) -> Answer {
    write_by(foreign::bursztok_write, set, key, z1, z2_dagger, list, out)
}

pub fn write_packed(
    set: u32,
    key: u32,
    z1: &[i16],
    z2_dagger: &[i8],
    list: &[u16],
    out: &mut [u8],
) -> Answer {
    let call = foreign::bursztok_write_packed;
    write_by(call, set, key, z1, z2_dagger, list, out)
}

type WriteCall = unsafe extern "C" fn(
    u32,
    u32,
    *const i16,
    usize,
    *const i8,
    usize,
    *const u16,
    usize,
    *mut u8,
    usize,
) -> Answer;

fn write_by(
    call: WriteCall,
    set: u32,
    key: u32,
    z1: &[i16],
    z2_dagger: &[i8],
    list: &[u16],
    out: &mut [u8],
) -> Answer {
    // SAFETY: each pointer is good for the length beside it; `out` is borrowed alone.
    unsafe {
        call(
            set,
            key,
            z1.as_ptr(),
            z1.len(),
            z2_dagger.as_ptr(),
            z2_dagger.len(),
            list.as_ptr(),
            list.len(),
            out.as_mut_ptr(),
            out.len(),
        )
    }
}

pub fn read(record: &[u8], z1: &mut [i16], z2_dagger: &mut [i8], list: &mut [u16]) -> Reading {
    read_by(foreign::bursztok_read, record, z1, z2_dagger, list)
}

pub fn read_packed(
    record: &[u8],
    z1: &mut [i16],
    z2_dagger: &mut [i8],
    list: &mut [u16],
) -> Reading {
    read_by(foreign::bursztok_read_packed, record, z1, z2_dagger, list)
}

type ReadCall = unsafe extern "C" fn(
    *const u8,
    usize,
    *mut i16,
    usize,
    *mut i8,
    usize,
    *mut u16,
    usize,
) -> Reading;

fn read_by(
    call: ReadCall,
    record: &[u8],
    z1: &mut [i16],
    z2_dagger: &mut [i8],
    list: &mut [u16],
) -> Reading {
    // SAFETY: each pointer is good for the length beside it; the outputs are borrowed alone.
    unsafe {
        call(
            record.as_ptr(),
            record.len(),
            z1.as_mut_ptr(),
            z1.len(),
            z2_dagger.as_mut_ptr(),
            z2_dagger.len(),
            list.as_mut_ptr(),
            list.len(),
        )
    }
}

pub fn pack(record: &[u8], out: &mut [u8]) -> Answer {
    convert_by(foreign::bursztok_pack, record, out)
}

pub fn unpack(record: &[u8], out: &mut [u8]) -> Answer {
    convert_by(foreign::bursztok_unpack, record, out)
}

type ConvertCall = unsafe extern "C" fn(*const u8, usize, *mut u8, usize) -> Answer;

fn convert_by(call: ConvertCall, record: &[u8], out: &mut [u8]) -> Answer {
    // SAFETY: each pointer is good for the length beside it; `out` is borrowed alone.
    unsafe { call(record.as_ptr(), record.len(), out.as_mut_ptr(), out.len()) }
}

pub fn z1_section(record: &[u8]) -> (Answer, Part) {
    section(record, foreign::bursztok_z1_section)
}

pub fn z2_section(record: &[u8]) -> (Answer, Part) {
    section(record, foreign::bursztok_z2_section)
}

pub fn list_section(record: &[u8]) -> (Answer, Part) {
    section(record, foreign::bursztok_list_section)
}

type SectionCall = unsafe extern "C" fn(*const u8, usize, *mut u32, *mut u32) -> Part;

fn section(record: &[u8], call: SectionCall) -> (Answer, Part) {
    // A number that the library leaves as it is would be none of the paper's.
    let (mut number, mut place) = (u32::MAX, u32::MAX);
    // SAFETY: the pointer is good for the length beside it; the two numbers are borrowed alone.
    let part = unsafe { call(record.as_ptr(), record.len(), &mut number, &mut place) };
    (Answer { number, place }, part)
}

pub fn kappa(set: u32) -> u32 {
    // SAFETY: no pointer is passed.
    unsafe { foreign::bursztok_kappa(set) }
}

pub fn record_bytes(set: u32) -> u32 {
    // SAFETY: no pointer is passed.
    unsafe { foreign::bursztok_record_bytes(set) }
}

pub fn packed_bytes(set: u32) -> u32 {
    // SAFETY: no pointer is passed.
    unsafe { foreign::bursztok_packed_bytes(set) }
}
