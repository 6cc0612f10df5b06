//! Key numbers (02, C-13). Every number is one; these show a wrong order of bytes, a byte that is lost and
//! a number that is cleared.

use super::noise::Noise;
use crate::form::KEY_NOT_STATED;

/// Not stated, each byte by itself, all bits, and four bytes that differ.
pub const NUMBERS: [u32; 8] = [
    KEY_NOT_STATED,
    1,
    255,
    256,
    65_536,
    16_777_216,
    u32::MAX,
    0x0403_0201,
];

/// Not stated, a small one, one of the above, or any.
pub fn any(noise: &mut Noise) -> u32 {
    match noise.below(4) {
        0 => KEY_NOT_STATED,
        1 => noise.below(256) as u32,
        2 => noise.one_of(&NUMBERS),
        _ => noise.word() as u32,
    }
}
