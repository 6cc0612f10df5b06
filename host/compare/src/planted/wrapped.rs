//! The calls of the C library with the planted fault. `build.rs` has the linker send every call
//! here.

use crate::faults::{wrong_with, Buffer, Wrong};
use bursztok::foreign::{Answer, Part, Reading, Response};
use second::answers::number_and_place;
use second::form::{bit, key_in, turn_bit, Section, HEADER, KEY_FIELD};
use second::key::{counts_of, require_counts, require_key_length, require_relation};
use second::parameters::N;
use second::record::Held;
use second::testing::calls::Call;
use second::{pack, unpack, Edition, Form, Refusal, Set};
use std::slice::{from_raw_parts, from_raw_parts_mut};

/// A number with a lowest digit that can be turned.
trait Digit: Copy {
    fn turned(self) -> Self;
}

macro_rules! digit {
    ($($type:ty),*) => {
        $(impl Digit for $type {
            fn turned(self) -> Self {
                self ^ 1
            }
        })*
    };
}
digit!(i8, u8, i16, u16);

/// What the call answered, before anything is made wrong.
#[derive(Clone, Copy)]
struct Answered {
    wrong: Option<Wrong>,
    number: u32,
    call: Call,
}

impl Answered {
    fn new(call: Call, number: u32) -> Answered {
        Answered {
            wrong: wrong_with(call),
            number,
            call,
        }
    }

    fn is(self, wrong: Wrong) -> bool {
        self.wrong == Some(wrong)
    }

    fn spoil_answer(self, number: &mut u32, place: &mut u32) {
        let placed = |number| [10, 13].contains(&number);
        let has_places = self.call.numbers().iter().any(|&number| placed(number));
        let field = self.number == 13 && self.is(Wrong::Field(*place));
        if self.is(Wrong::Missed(self.number)) || field {
            (*number, *place) = (0, 0);
        }
        if self.is(Wrong::Place) && (placed(self.number) || !has_places && self.number != 0) {
            *place += 1;
        }
    }

    /// The key number that a library answers or writes in place of this one.
    fn other_key(self, key: u32) -> u32 {
        match self.wrong {
            Some(Wrong::KeyHighFirst) => key.swap_bytes(),
            Some(Wrong::KeyCleared) => 0,
            Some(Wrong::KeyHalf) => key & 0xffff,
            _ => key,
        }
    }

    /// Spoils the key number that the call answers, where this one went into it.
    fn spoil_key(self, answered: &mut u32, lent: u32) {
        if self.is(Wrong::KeptKey(self.number)) {
            *answered = lent;
        }
        if self.number == 0 {
            *answered = self.other_key(*answered);
            *answered = answered.wrapping_add(u32::from(self.is(Wrong::Key)));
        }
    }

    /// Whether a library refuses the call for the key number that it is given.
    fn refuses_key(self, key: u32) -> bool {
        self.number == 0 && key >> 31 == 1 && self.is(Wrong::KeyRefused)
    }

    /// Whether the call is done with a record of a set that the library does not know.
    fn is_unread(self, record: &[u8]) -> bool {
        self.number == 0 && self.is(Wrong::Unread(record[4].into()))
    }

    /// The number of a library with the wrong rule on counts, or with the rule at the wrong place of
    /// the order; none where that makes no difference. Of a key that the wrong rule lets pass, the
    /// first refusal after it is told, and done where there is none.
    fn number_by_counts(self, set: u32, f: &[i8], g: &[i8], a: &[u16]) -> Option<u32> {
        let set = Set::asked(set).ok()?;
        let right = set.key_counts();
        let counts = Refusal::COUNTS.number;
        let refused = self.number == counts;
        let later = || {
            let length = require_key_length(set, f, g);
            number_and_place(length.and_then(|()| require_relation(f, g, a))).0
        };
        match self.wrong? {
            Wrong::Counts(rule) if refused && rule.passes(counts_of(f), counts_of(g), right) => {
                Some(later())
            }
            Wrong::CountsFirst if [3, 4, 5].contains(&self.number) => {
                require_counts(set, f, g).is_err().then_some(counts)
            }
            Wrong::CountsLast if refused => {
                let broken = require_relation(f, g, a).is_err();
                broken.then_some(Refusal::RELATION.number)
            }
            _ => None,
        }
    }

    /// # Safety
    /// `at` is good for `length` entries and for one before them.
    unsafe fn spoil_buffer<T: Digit>(self, buffer: Buffer, at: *mut T, length: usize) {
        let done = self.number == 0;
        let place = match self.wrong {
            Some(Wrong::Entry(wrong)) if wrong == buffer && done => 0,
            Some(Wrong::Refused(wrong)) if wrong == buffer && !done && length > 0 => 0,
            Some(Wrong::Before(wrong)) if wrong == buffer && done => -1,
            Some(Wrong::Tail(wrong)) if wrong == buffer && done && self.has_tail(length) => {
                length as isize - 1
            }
            _ => return,
        };
        unsafe {
            let entry = at.offset(place);
            *entry = (*entry).turned();
        }
    }

    /// Whether a buffer of this length keeps a tail, whatever the set: a list does, and an output
    /// longer than any record.
    fn has_tail(self, length: usize) -> bool {
        self.call
            .writes()
            .is_none_or(|form| length > form.longest())
    }

    /// The record that the library takes the lent one for; none where that makes no difference.
    fn taken_for(self, lent: &[u8]) -> Option<Vec<u8>> {
        let form = self.call.takes()?;
        match self.wrong? {
            Wrong::OtherForm if self.number == 13 => converted(form.other(), lent),
            Wrong::SpareUntested => without_spare(lent).filter(|_| self.number == 13),
            Wrong::HighFirst | Wrong::TwelveBits if self.number == 0 && form == Form::Packed => {
                let mut record = lent.to_vec();
                self.spoil_packed(&mut record);
                Some(record)
            }
            _ => None,
        }
    }

    /// The number and place of a library that tests spare bits or the output at the wrong place of
    /// the order, or bytes 20-23; none where that makes no difference.
    fn by_order(self, lent: &[u8], place: u32, room: Option<usize>) -> Option<(u32, u32)> {
        match self.wrong? {
            Wrong::SpareFirst if self.number == 13 && place > 4 => {
                let set = Set::stated(lent[4].into())?;
                let last = Form::Packed.total(set) - 1;
                let mut spare = Form::Packed.spare_bits(set).into_iter();
                let found = last < lent.len() && spare.any(|place| bit(lent, place));
                found.then_some((13, last as u32))
            }
            Wrong::SpareLast if self.number == 13 => {
                let mut out = vec![0; bursztok::RECORD];
                let later = unpack(&without_spare(lent)?, &mut out);
                later.err().map(|refusal| (refusal.number, refusal.place))
            }
            Wrong::KeyTested => {
                // Lengths go before it, and the header's other fields; spare bits stand behind the header.
                let first = self.number == 2 || self.number == 13 && place < HEADER as u32;
                (key_stated(lent) != 0 && !first).then_some((13, KEY_FIELD.start as u32))
            }
            Wrong::RoomFirst => {
                let set = Set::stated(lent.get(4).copied()?.into())?;
                self.without_room(set, room?)
            }
            _ => None,
        }
    }

    /// 14 where a library that tests the output first refuses for it.
    fn without_room(self, set: Set, room: usize) -> Option<(u32, u32)> {
        let short = room < self.call.writes()?.total(set);
        let refused = self.is(Wrong::RoomFirst) && self.number != 0;
        (short && refused).then_some((Refusal::ROOM.number, 0))
    }

    /// Spoils the sections of a packed record that is done.
    fn spoil_packed(self, record: &mut [u8]) {
        let Some(set) = Set::stated(record[4].into()) else {
            return;
        };
        let total = Form::Packed.total(set);
        match self.wrong {
            Some(Wrong::HighFirst) => {
                for byte in &mut record[HEADER..total] {
                    *byte = byte.reverse_bits();
                }
            }
            Some(Wrong::TwelveBits) => {
                let mut held = Held::of(Form::Packed, set, record);
                for entry in &mut held.z1 {
                    *entry = (*entry + 2048).rem_euclid(4096) - 2048;
                }
                let z1 = Form::Packed.encoded(Section::Z1, &held.z1);
                record[Form::Packed.part(Section::Z1, set)].copy_from_slice(&z1);
            }
            Some(Wrong::SpareSet) => turn_bit(record, 8 * total - 1),
            _ => {}
        }
    }

    /// # Safety
    /// `out` is good for `length` bytes and for one before them.
    unsafe fn spoil_record(self, out: *mut u8, length: usize) {
        if self.number == 0 {
            let record = unsafe { from_raw_parts_mut(out, length) };
            let key = self.other_key(key_in(record));
            record[KEY_FIELD].copy_from_slice(&key.to_le_bytes());
            if self.call.writes() == Some(Form::Packed) {
                self.spoil_packed(record);
            }
        }
        unsafe { self.spoil_buffer(Buffer::Record, out, length) };
    }
}

/// The key number in a record, 0 where it has no header.
fn key_stated(record: &[u8]) -> u32 {
    record.get(KEY_FIELD).map_or(0, |_| key_in(record))
}

/// The record in the other form than this one, where it is a proper one of this form.
fn converted(form: Form, record: &[u8]) -> Option<Vec<u8>> {
    let set = Set::stated(record.get(4).copied()?.into())?;
    let mut out = vec![0; form.other().total(set)];
    let convert = match form {
        Form::Plain => pack,
        Form::Packed => unpack,
    };
    convert(record, &mut out).ok().map(|()| out)
}

/// A packed record without its spare bits, where one of them is set and its length is right.
fn without_spare(record: &[u8]) -> Option<Vec<u8>> {
    let set = Set::stated(record.get(4).copied()?.into())?;
    if record.len() != Form::Packed.total(set) {
        return None;
    }
    let mut without = record.to_vec();
    for place in Form::Packed.spare_bits(set) {
        if bit(record, place) {
            turn_bit(&mut without, place);
        }
    }
    (without != record).then_some(without)
}

/// The number that a library is asked with where this one stands for another set, or for none.
fn asked(call: Call, set: u32) -> u32 {
    match wrong_with(call) {
        Some(Wrong::Stands(number, other)) if number == set => other.unwrap_or(Set::ABOVE),
        _ => set,
    }
}

macro_rules! wrapped {
    (
        $call:ident, $wrap:ident, $real:ident, [$($set:ident)?],
        ($($name:ident: $type:ty),* $(,)?) -> $answer:ty,
        |$found:ident, $answered:ident| $spoil:expr
    ) => {
        extern "C" {
            fn $real($($name: $type),*) -> $answer;
        }

        /// # Safety
        /// As the call itself; and a buffer that it writes has an entry before it.
        #[no_mangle]
        #[allow(clippy::too_many_arguments)]
        pub unsafe extern "C" fn $wrap($($name: $type),*) -> $answer {
            $(let $set = asked(Call::$call, $set);)?
            let mut $found = unsafe { $real($($name),*) };
            let $answered = Answered::new(Call::$call, $found.number);
            $answered.spoil_answer(&mut $found.number, &mut $found.place);
            #[allow(unused_unsafe)]
            unsafe { $spoil }
            $found
        }
    };
}

wrapped!(
    KeyTest, __wrap_bursztok_key_test, __real_bursztok_key_test, [set],
    (set: u32, f: *const i8, f_len: usize, g: *const i8, g_len: usize, a: *const u16, a_len: usize) -> Answer,
    |found, answered| {
        let (f, g) = (from_raw_parts(f, f_len), from_raw_parts(g, g_len));
        if let Some(number) = answered.number_by_counts(set, f, g, from_raw_parts(a, a_len)) {
            found.number = number;
        }
    }
);

wrapped!(
    Commitment, __wrap_bursztok_commitment, __real_bursztok_commitment, [set],
    (
        set: u32, a: *const u16, a_len: usize, y1: *const i16, y1_len: usize, y2: *const i16,
        y2_len: usize, out: *mut u16, out_len: usize,
    ) -> Answer,
    |found, answered| answered.spoil_buffer(Buffer::Rounded, out, out_len)
);

wrapped!(
    CommitmentWithRests, __wrap_bursztok_commitment_with_rests,
    __real_bursztok_commitment_with_rests, [set],
    (
        set: u32, a: *const u16, a_len: usize, y1: *const i16, y1_len: usize, y2: *const i16,
        y2_len: usize, out: *mut u16, out_len: usize, rests: *mut i16, rests_len: usize,
    ) -> Answer,
    |found, answered| {
        answered.spoil_buffer(Buffer::Rounded, out, out_len);
        answered.spoil_buffer(Buffer::Rests, rests, rests_len);
    }
);

wrapped!(
    Respond, __wrap_bursztok_respond, __real_bursztok_respond, [set],
    (
        set: u32, key: u32, f: *const i8, f_len: usize, g: *const i8, g_len: usize, a: *const u16,
        a_len: usize, y1: *const i16, y1_len: usize, y2: *const i16, y2_len: usize,
        list: *const u16, list_len: usize, sign: bool, thresholds: *const u64,
        thresholds_len: usize, words: *const u64, words_len: usize, z1: *mut i16, z1_len: usize,
        z2: *mut i8, z2_len: usize,
    ) -> Response,
    |found, answered| {
        let (f, g) = (from_raw_parts(f, f_len), from_raw_parts(g, g_len));
        if let Some(number) = answered.number_by_counts(set, f, g, from_raw_parts(a, a_len)) {
            found.number = number;
        }
        if answered.is(Wrong::Words(answered.number)) {
            found.words += 1;
        }
        answered.spoil_key(&mut found.key, key);
        if answered.refuses_key(key) {
            (found.number, found.key) = (1, 0);
        }
        answered.spoil_buffer(Buffer::Z1, z1, z1_len);
        answered.spoil_buffer(Buffer::Z2, z2, z2_len);
    }
);

wrapped!(
    Rebuild, __wrap_bursztok_rebuild, __real_bursztok_rebuild, [set],
    (
        set: u32, a: *const u16, a_len: usize, z1: *const i16, z1_len: usize, z2: *const i8,
        z2_len: usize, list: *const u16, list_len: usize, out: *mut u16, out_len: usize,
    ) -> Answer,
    |found, answered| answered.spoil_buffer(Buffer::Rounded, out, out_len)
);

wrapped!(
    Compare, __wrap_bursztok_compare, __real_bursztok_compare, [set],
    (set: u32, claimed: *const u16, claimed_len: usize, hashed: *const u16, hashed_len: usize) -> Answer,
    |found, answered| {}
);

wrapped!(
    RebuildDefaultOne, __wrap_bursztok_rebuild_default_one, __real_bursztok_rebuild_default_one,
    [set],
    (
        set: u32, a: *const u16, a_len: usize, z1: *const i16, z1_len: usize, z2: *const i8,
        z2_len: usize, list: *const u16, list_len: usize, out: *mut u16, out_len: usize,
    ) -> Answer,
    |found, answered| answered.spoil_buffer(Buffer::Rounded, out, out_len)
);

wrapped!(
    CompareDefaultOne, __wrap_bursztok_compare_default_one, __real_bursztok_compare_default_one,
    [set],
    (set: u32, claimed: *const u16, claimed_len: usize, hashed: *const u16, hashed_len: usize) -> Answer,
    |found, answered| {}
);

macro_rules! wrapped_writer {
    ($call:ident, $wrap:ident, $real:ident) => {
        wrapped!(
            $call, $wrap, $real, [set],
            (
                set: u32, key: u32, z1: *const i16, z1_len: usize, z2: *const i8, z2_len: usize,
                list: *const u16, list_len: usize, out: *mut u8, out_len: usize,
            ) -> Answer,
            |found, answered| {
                let set = Set::asked(set).ok();
                if let Some(order) = set.and_then(|set| answered.without_room(set, out_len)) {
                    (found.number, found.place) = order;
                }
                if answered.refuses_key(key) {
                    found.number = 1;
                }
                answered.spoil_record(out, out_len);
            }
        );
    };
}

wrapped_writer!(Write, __wrap_bursztok_write, __real_bursztok_write);
wrapped_writer!(
    WritePacked,
    __wrap_bursztok_write_packed,
    __real_bursztok_write_packed
);

/// A reader's refusal.
fn refused(number: u32, place: u32) -> Reading {
    Reading {
        number,
        place,
        set: 0,
        key: 0,
    }
}

macro_rules! wrapped_reader {
    ($call:ident, $wrap:ident, $real:ident) => {
        wrapped!(
            $call, $wrap, $real, [],
            (
                record: *const u8, record_len: usize, z1: *mut i16, z1_len: usize, z2: *mut i8,
                z2_len: usize, list: *mut u16, list_len: usize,
            ) -> Reading,
            |found, answered| {
                let lent = from_raw_parts(record, record_len);
                if answered.is(Wrong::Set) && answered.number == 0 {
                    found.set += 1;
                }
                answered.spoil_key(&mut found.key, key_stated(lent));
                if answered.is_unread(lent) {
                    found = refused(13, 4);
                }
                let older = [z1_len, z2_len, list_len] == [N, N, Edition::OLDER.list_buffer()];
                if answered.is(Wrong::OlderList) && answered.number == 2 && older {
                    found.number = 0;
                }
                if let Some((number, place)) = answered.by_order(lent, found.place, None) {
                    found = refused(number, place);
                }
                if let Some(other) = answered.taken_for(lent) {
                    let (at, length) = (other.as_ptr(), other.len());
                    found = $real(at, length, z1, z1_len, z2, z2_len, list, list_len);
                }
                answered.spoil_buffer(Buffer::Z1, z1, z1_len);
                answered.spoil_buffer(Buffer::Z2, z2, z2_len);
                answered.spoil_buffer(Buffer::List, list, list_len);
            }
        );
    };
}

wrapped_reader!(Read, __wrap_bursztok_read, __real_bursztok_read);
wrapped_reader!(
    ReadPacked,
    __wrap_bursztok_read_packed,
    __real_bursztok_read_packed
);

macro_rules! wrapped_conversion {
    ($call:ident, $wrap:ident, $real:ident) => {
        wrapped!(
            $call, $wrap, $real, [],
            (record: *const u8, record_len: usize, out: *mut u8, out_len: usize) -> Answer,
            |found, answered| {
                let lent = from_raw_parts(record, record_len);
                if answered.is_unread(lent) {
                    (found.number, found.place) = (13, 4);
                }
                if let Some(order) = answered.by_order(lent, found.place, Some(out_len)) {
                    (found.number, found.place) = order;
                }
                if let Some(other) = answered.taken_for(lent) {
                    found = $real(other.as_ptr(), other.len(), out, out_len);
                }
                answered.spoil_record(out, out_len);
            }
        );
    };
}

wrapped_conversion!(Pack, __wrap_bursztok_pack, __real_bursztok_pack);
wrapped_conversion!(Unpack, __wrap_bursztok_unpack, __real_bursztok_unpack);

/// A section call.
type SectionCall = unsafe extern "C" fn(*const u8, usize, *mut u32, *mut u32) -> Part;

unsafe fn section(
    call: Call,
    real: SectionCall,
    record: *const u8,
    record_len: usize,
    number: *mut u32,
    place: *mut u32,
) -> Part {
    let mut part = unsafe { real(record, record_len, number, place) };
    let (number, place) = unsafe { (&mut *number, &mut *place) };
    let answered = Answered::new(call, *number);
    answered.spoil_answer(number, place);
    let lent = unsafe { from_raw_parts(record, record_len) };
    if answered.is(Wrong::OtherForm) && converted(Form::Packed, lent).is_some() {
        // Somewhere in the packed record.
        (*number, *place) = (0, 0);
        return Part {
            start: 24,
            length: 832,
        };
    }
    let unread = answered.is_unread(lent).then_some((13, 4));
    if let Some(order) = unread.or_else(|| answered.by_order(lent, *place, None)) {
        (*number, *place) = order;
        return Part {
            start: 0,
            length: 0,
        };
    }
    if answered.number == 0 {
        // The part stays within the record.
        part.start -= u64::from(answered.is(Wrong::Start));
        part.length -= u64::from(answered.is(Wrong::Length));
    }
    part
}

macro_rules! wrapped_section {
    ($call:ident, $wrap:ident, $real:ident) => {
        extern "C" {
            fn $real(record: *const u8, length: usize, number: *mut u32, place: *mut u32) -> Part;
        }

        /// # Safety
        /// As the call itself.
        #[no_mangle]
        pub unsafe extern "C" fn $wrap(
            record: *const u8,
            length: usize,
            number: *mut u32,
            place: *mut u32,
        ) -> Part {
            unsafe { section(Call::$call, $real, record, length, number, place) }
        }
    };
}

wrapped_section!(
    Z1Section,
    __wrap_bursztok_z1_section,
    __real_bursztok_z1_section
);
wrapped_section!(
    Z2Section,
    __wrap_bursztok_z2_section,
    __real_bursztok_z2_section
);
wrapped_section!(
    ListSection,
    __wrap_bursztok_list_section,
    __real_bursztok_list_section
);

macro_rules! wrapped_size {
    ($call:ident, $wrap:ident, $real:ident) => {
        extern "C" {
            fn $real(set: u32) -> u32;
        }

        /// # Safety
        /// None is needed: no pointer is passed.
        #[no_mangle]
        pub unsafe extern "C" fn $wrap(set: u32) -> u32 {
            let size = unsafe { $real(asked(Call::$call, set)) };
            match wrong_with(Call::$call) {
                Some(Wrong::Size) if size != 0 => size + 1,
                Some(Wrong::NoSet) if size == 0 => 1,
                _ => size,
            }
        }
    };
}

wrapped_size!(Kappa, __wrap_bursztok_kappa, __real_bursztok_kappa);
wrapped_size!(
    RecordBytes,
    __wrap_bursztok_record_bytes,
    __real_bursztok_record_bytes
);
wrapped_size!(
    PackedBytes,
    __wrap_bursztok_packed_bytes,
    __real_bursztok_packed_bytes
);
