//! What the programs of host/ share that knows nothing of signatures: what they say, the files
//! that they read and write, and the options that they take.

pub mod console;
pub mod files;
pub mod numbers;
pub mod options;
