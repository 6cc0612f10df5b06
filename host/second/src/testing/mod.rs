//! What the tests need and paper 01 leaves to the caller: noise, keys, masks, thresholds and a
//! hash. All of it is seeded and for tests only; nothing here is fit to sign cargo with.

pub mod boundary;
pub mod calls;
pub mod edges;
pub mod euclid;
pub mod hash;
pub mod key_numbers;
pub mod keys;
pub mod noise;
pub mod sheet;
