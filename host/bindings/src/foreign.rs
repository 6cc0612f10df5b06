//! The declarations of `include/bursztok.h`.
//!
//! Slices are declared as a pointer and a length: a `&[T]` in an `extern "C"` declaration is not
//! passed as C passes the two.

#[repr(C)]
pub struct Answer {
    pub number: u32,
    pub place: u32,
}

#[repr(C)]
pub struct Response {
    pub number: u32,
    pub place: u32,
    pub words: u64,
    pub key: u32,
}

#[repr(C)]
pub struct Reading {
    pub number: u32,
    pub place: u32,
    pub set: u32,
    pub key: u32,
}

#[repr(C)]
pub struct Part {
    pub start: u64,
    pub length: u64,
}

#[cfg(target_arch = "x86_64")]
extern "C" {
    pub fn bursztok_key_test(
        set: u32,
        f: *const i8,
        f_len: usize,
        g: *const i8,
        g_len: usize,
        a: *const u16,
        a_len: usize,
    ) -> Answer;

    pub fn bursztok_commitment(
        set: u32,
        a: *const u16,
        a_len: usize,
        y1: *const i16,
        y1_len: usize,
        y2: *const i16,
        y2_len: usize,
        out: *mut u16,
        out_len: usize,
    ) -> Answer;

    pub fn bursztok_commitment_with_rests(
        set: u32,
        a: *const u16,
        a_len: usize,
        y1: *const i16,
        y1_len: usize,
        y2: *const i16,
        y2_len: usize,
        out: *mut u16,
        out_len: usize,
        rests: *mut i16,
        rests_len: usize,
    ) -> Answer;

    pub fn bursztok_respond(
        set: u32,
        key: u32,
        f: *const i8,
        f_len: usize,
        g: *const i8,
        g_len: usize,
        a: *const u16,
        a_len: usize,
        y1: *const i16,
        y1_len: usize,
        y2: *const i16,
        y2_len: usize,
        list: *const u16,
        list_len: usize,
        sign: bool,
        thresholds: *const u64,
        thresholds_len: usize,
        words: *const u64,
        words_len: usize,
        z1: *mut i16,
        z1_len: usize,
        z2: *mut i8,
        z2_len: usize,
    ) -> Response;

    pub fn bursztok_rebuild(
        set: u32,
        a: *const u16,
        a_len: usize,
        z1: *const i16,
        z1_len: usize,
        z2: *const i8,
        z2_len: usize,
        list: *const u16,
        list_len: usize,
        out: *mut u16,
        out_len: usize,
    ) -> Answer;

    pub fn bursztok_rebuild_default_one(
        set: u32,
        a: *const u16,
        a_len: usize,
        z1: *const i16,
        z1_len: usize,
        z2: *const i8,
        z2_len: usize,
        list: *const u16,
        list_len: usize,
        out: *mut u16,
        out_len: usize,
    ) -> Answer;

    pub fn bursztok_compare(
        set: u32,
        claimed: *const u16,
        claimed_len: usize,
        hashed: *const u16,
        hashed_len: usize,
    ) -> Answer;

    pub fn bursztok_compare_default_one(
        set: u32,
        claimed: *const u16,
        claimed_len: usize,
        hashed: *const u16,
        hashed_len: usize,
    ) -> Answer;

    pub fn bursztok_write(
        set: u32,
        key: u32,
        z1: *const i16,
        z1_len: usize,
        z2: *const i8,
        z2_len: usize,
        list: *const u16,
        list_len: usize,
        out: *mut u8,
        out_len: usize,
    ) -> Answer;

    pub fn bursztok_read(
        record: *const u8,
        record_len: usize,
        z1: *mut i16,
        z1_len: usize,
        z2: *mut i8,
        z2_len: usize,
        list: *mut u16,
        list_len: usize,
    ) -> Reading;

    pub fn bursztok_write_packed(
        set: u32,
        key: u32,
        z1: *const i16,
        z1_len: usize,
        z2: *const i8,
        z2_len: usize,
        list: *const u16,
        list_len: usize,
        out: *mut u8,
        out_len: usize,
    ) -> Answer;

    pub fn bursztok_read_packed(
        record: *const u8,
        record_len: usize,
        z1: *mut i16,
        z1_len: usize,
        z2: *mut i8,
        z2_len: usize,
        list: *mut u16,
        list_len: usize,
    ) -> Reading;

    pub fn bursztok_pack(
        record: *const u8,
        record_len: usize,
        out: *mut u8,
        out_len: usize,
    ) -> Answer;

    pub fn bursztok_unpack(
        record: *const u8,
        record_len: usize,
        out: *mut u8,
        out_len: usize,
    ) -> Answer;

    pub fn bursztok_z1_section(
        record: *const u8,
        record_len: usize,
        number: *mut u32,
        place: *mut u32,
    ) -> Part;

    pub fn bursztok_z2_section(
        record: *const u8,
        record_len: usize,
        number: *mut u32,
        place: *mut u32,
    ) -> Part;

    pub fn bursztok_list_section(
        record: *const u8,
        record_len: usize,
        number: *mut u32,
        place: *mut u32,
    ) -> Part;

    pub fn bursztok_kappa(set: u32) -> u32;

    pub fn bursztok_record_bytes(set: u32) -> u32;

    pub fn bursztok_packed_bytes(set: u32) -> u32;
}

#[cfg(test)]
mod tests {
    use super::{Answer, Part, Reading, Response};
    use std::mem::{offset_of, size_of};

    /// As C lays the header's structures out.
    #[test]
    fn the_answers_are_laid_out_as_in_c() {
        assert_eq!(size_of::<Answer>(), 8);
        assert_eq!(size_of::<Part>(), 16);
        assert_eq!(size_of::<Response>(), 24);
        let response = [
            offset_of!(Response, number),
            offset_of!(Response, place),
            offset_of!(Response, words),
            offset_of!(Response, key),
        ];
        assert_eq!(response, [0, 4, 8, 16]);
        assert_eq!(size_of::<Reading>(), 16);
        let reading = [
            offset_of!(Reading, number),
            offset_of!(Reading, place),
            offset_of!(Reading, set),
            offset_of!(Reading, key),
        ];
        assert_eq!(reading, [0, 4, 8, 12]);
    }

    /// The fields of a structure of the header, in its order.
    fn fields<'a>(header: &'a str, name: &str) -> Vec<&'a str> {
        let (before, _) = header.split_once(&format!("}} {name};")).unwrap();
        let body = before.rsplit("typedef struct {").next().unwrap();
        let declared = body.split([' ', ',', ';', '\n']);
        let words = declared.filter(|word| !word.is_empty());
        words.filter(|word| !word.starts_with("uint")).collect()
    }

    #[test]
    fn the_answers_are_those_of_the_header() {
        let header = include_str!("../../../include/bursztok.h");
        assert_eq!(fields(header, "bursztok_answer"), ["number", "place"]);
        let response = ["number", "place", "words", "key"];
        assert_eq!(fields(header, "bursztok_response"), response);
        let reading = ["number", "place", "set", "key"];
        assert_eq!(fields(header, "bursztok_reading"), reading);
        assert_eq!(fields(header, "bursztok_part"), ["start", "length"]);
    }
}
