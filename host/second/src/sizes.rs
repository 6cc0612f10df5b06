//! What the number of a set says of its lists and its records: "Parameters" and "The record".

use crate::form::Form;
use crate::parameters::Set;

/// kappa of the set that a call's number asks for, 0 where there is none.
pub fn kappa(set: u32) -> u32 {
    Set::asked(set).map_or(0, |set| set.kappa() as u32)
}

/// The bytes of a record of that set, 0 where there is none.
pub fn record_bytes(set: u32) -> u32 {
    bytes_in(Form::Plain, set)
}

/// The bytes of a packed record of that set, 0 where there is none.
pub fn packed_bytes(set: u32) -> u32 {
    bytes_in(Form::Packed, set)
}

fn bytes_in(form: Form, set: u32) -> u32 {
    Set::asked(set).map_or(0, |set| form.total(set) as u32)
}
