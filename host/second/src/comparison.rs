//! "Comparison".

use crate::answers::Refusal;
use crate::parameters::Set;
use crate::response::require_list;

/// The comparison of the claimed list with the list that the caller hashed: 1, 5, 12.
pub fn compare(set: u32, claimed: &[u16], hashed: &[u16]) -> Result<(), Refusal> {
    compare_for(Set::asked(set)?, claimed, hashed)
}

/// The comparison that keeps the old default (02, C-17): 1, 5, 12.
pub fn compare_default_one(set: u32, claimed: &[u16], hashed: &[u16]) -> Result<(), Refusal> {
    compare_for(Set::asked_default_one(set)?, claimed, hashed)
}

fn compare_for(set: Set, claimed: &[u16], hashed: &[u16]) -> Result<(), Refusal> {
    require_list(set, claimed)?;
    require_list(set, hashed)?;
    if claimed == hashed {
        Ok(())
    } else {
        Err(Refusal::LISTS_DIFFER)
    }
}
