//! Every call of the library against the second program: all that both leave behind is compared,
//! byte for byte.

pub mod buffers;
pub mod cases;
pub mod costs;
pub mod faults;
pub mod forms;
pub mod inputs;
pub mod key_numbers;
pub mod library;
pub mod program;
pub mod run;
pub mod tally;
pub mod walks;
