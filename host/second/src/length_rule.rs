//! "Length rule".

use crate::answers::Refusal;
use crate::parameters::{Set, N};

/// Refusals 10 and 11: every |z1| and every 2^d |z2 dagger| is at most "largest"; then the sum
/// of all squares of z1 plus 4^d times those of z2 dagger is at most B2 squared.
pub fn length_rule(set: Set, z1: &[i64], z2_dagger: &[i64]) -> Result<(), Refusal> {
    let lengthened: Vec<i64> = z2_dagger.iter().map(|entry| set.step() * entry).collect();
    let beyond = |&entry: &i64| entry.abs() > set.largest();
    if let Some(place) = z1.iter().position(beyond) {
        return Err(Refusal::entry(place));
    }
    if let Some(place) = lengthened.iter().position(beyond) {
        return Err(Refusal::entry(N + place));
    }
    let sum: i64 = z1
        .iter()
        .chain(&lengthened)
        .map(|entry| entry * entry)
        .sum();
    if sum <= set.b2_squared() {
        Ok(())
    } else {
        Err(Refusal::SUM)
    }
}
