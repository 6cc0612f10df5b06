//! The independent second program: the seventeen calls of papers 01 and 02, written from the papers,
//! and the three that tell a set's sizes. `Edition::OLDER` has the calls on a record as they were
//! before the longer challenges, `Edition::BEFORE_KEYS` as they were before the key number.
//!
//! Every product is the plain signed-wrap sum over whole numbers. Nothing is shared with the
//! proved library: no code, no table, no transform. One module a section of the paper.
//!
//! No other number than 0 writes to any output buffer: each call works on vectors of its own
//! and copies them out as its last act.

pub mod answers;
pub mod commitment;
pub mod comparison;
pub mod draw;
pub mod form;
pub mod key;
pub mod length_rule;
pub mod parameters;
pub mod rebuild;
pub mod record;
pub mod response;
pub mod ring;
pub mod sizes;
pub mod testing;

pub use answers::{Reading, Refusal, Response};
pub use commitment::{commitment, commitment_with_rests};
pub use comparison::{compare, compare_default_one};
pub use form::Form;
pub use key::key_test;
pub use parameters::{Edition, Set};
pub use rebuild::{rebuild, rebuild_default_one};
pub use record::{list_section, read, write, z1_section, z2_section};
pub use record::{pack, read_packed, unpack, write_packed};
pub use response::respond;
pub use sizes::{kappa, packed_bytes, record_bytes};
