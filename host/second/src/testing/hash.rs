//! A hash for test lists. The hash stays with the caller; this one only has to be the same on
//! both sides.

use super::noise::Noise;
use crate::parameters::Set;

/// The list for a rounded vector and a message: FNV-1a over their bytes seeds the draw of
/// kappa places.
pub fn list_of(set: Set, rounded: &[u16], message: &[u8]) -> Vec<u16> {
    let bytes = rounded.iter().flat_map(|entry| entry.to_le_bytes());
    let mut state: u64 = 0xcbf2_9ce4_8422_2325;
    for byte in bytes.chain(message.iter().copied()) {
        state = (state ^ u64::from(byte)).wrapping_mul(0x0100_0000_01b3);
    }
    Noise::new(state).list(set)
}
