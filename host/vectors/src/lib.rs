//! A file of test vectors: inputs of all seventeen calls, and what the second program leaves behind.
//!
//! # The file
//!
//! All numbers have the low byte first; signed ones are two's complement.
//!
//! ```text
//! bytes 0-7    the letters BLVECT05
//! bytes 8-11   the number of entries
//! bytes 12-15  the number of entries that are calls
//! then the entries, one after the other, to the end of the file
//! ```
//!
//! A replay holds eighteen slots, each an array and a length. At the start all entries of all
//! arrays are zero and all lengths are 0. An entry of the file is a head of eight bytes and then
//! `count` elements of `width` bytes (at most 1,800 bytes in all):
//!
//! ```text
//! 0    what: 1 load, 2 patch, 3 call
//! 1    the slot, or the call
//! 2    width of an element in bytes: 1, 2 or 8
//! 3    zero
//! 4-5  start
//! 6-7  count
//! ```
//!
//! Load: the elements go to the slot's entries from `start` on, and the slot's length becomes
//! `start + count`. (With count 0 this only sets the length; entries keep what they hold.)
//! Patch: the same, and the length stays.
//!
//! | slot | content | type | room |
//! |---|---|---|---|
//! | 1, 2 | f, g | i8 | 520 |
//! | 3 | a | u16 | 520 |
//! | 4, 5 | y1, y2 | i16 | 520 |
//! | 6, 7 | list, hashed list | u16 | 128 |
//! | 8 | thresholds | u64 | 40 |
//! | 9 | words | u64 | 64 |
//! | 10 | z1 | i16 | 520 |
//! | 11 | z2 dagger | i8 | 520 |
//! | 12 | record | u8 | 1800 |
//! | 13 | wanted: the rounded output | u16 | 520 |
//! | 14 | wanted: the z1 output | i16 | 520 |
//! | 15 | wanted: the z2 dagger output | i8 | 520 |
//! | 16 | wanted: the list output | u16 | 128 |
//! | 17 | wanted: the record output | u8 | 1800 |
//! | 18 | wanted: the rests output | i16 | 520 |
//!
//! Calls are 1 key test (f, g, a), 2 commitment (a, y1, y2), 3 response (f, g, a, y1, y2, list,
//! sign, thresholds, words), 4 rebuild (a, z1, z2 dagger, list), 5 comparison (list, hashed list),
//! 6 writer (z1, z2 dagger, list), 7 reader (record), 8, 9, 10 the z1, z2 dagger and list sections
//! (record), 11 commitment with rests (a, y1, y2), 12 and 13 rebuild and comparison with default one
//! (as 4 and 5), 14 packed writer (as 6), 15 packed reader (as 7), 16 packing and 17 unpacking
//! (record). A call takes its inputs from the slots, at their lengths; the record may be of either
//! form. Its elements are 36 bytes (width 1):
//!
//! ```text
//! 0-3    set asked for (0 with 16 and 17, which take none)
//! 4      wanted number
//! 5      wanted set (readers, else 0)
//! 6-7    wanted place
//! 8-9    wanted count of words (response, else 0)
//! 10-11  wanted start of the part (sections, else 0)
//! 12-13  wanted length of the part (sections, else 0)
//! 14-15  length of the rounded output that is lent (commitments and rebuilds)
//! 16-17  length of the z1 output (response, readers)
//! 18-19  length of the z2 dagger output (response, readers)
//! 20-21  length of the list output (readers)
//! 22-23  length of the record output (writers, packing, unpacking)
//! 24-25  length of the rests output (commitment with rests)
//! 26     sign bit
//! 27     fill
//! 28-31  key number that is lent (response, writers, else 0)
//! 32-35  wanted key number (response, readers, else 0; 0 where the wanted number is not 0)
//! ```
//!
//! Before a call every entry of its output arrays is the number `fill` (1 to 127). After it, where
//! the wanted number is 0, each output array of the call is exactly its wanted slot, at that slot's
//! length, which is the length lent. Where it is not 0, every entry is still `fill`.
//!
//! # The file of before the key number
//!
//! It has the letters BLVECT04 and calls of 28 bytes, those up to the fill; key numbers lent and wanted
//! are 0. Where it wants 13 at place 20, for a record with another byte than 0 among bytes 20-23, that is
//! no longer given (02, C-13): wanted is all that the call leaves behind where these four bytes are zero,
//! but for the key number that a reader answers, which they are, and for bytes 20-23 of a record that is
//! written, which are these.

pub mod cases;
pub mod recorder;
pub mod replay;
pub mod slots;

/// The letters that a file of vectors starts with.
pub const LETTERS: &[u8; 8] = b"BLVECT05";
/// Those of a file of before the key number.
pub const LETTERS_BEFORE_KEYS: &[u8; 8] = b"BLVECT04";

pub use cases::vectors;
pub use replay::{replay, Fault, Replayed};
