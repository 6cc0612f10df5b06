//! Signing a sheet as a box does: new masks and a list from the test hash, until a signature is
//! given out.

use super::hash::list_of;
use super::keys::Key;
use super::noise::{thresholds, Noise};
use crate::form::KEY_NOT_STATED;
use crate::parameters::{Set, N};
use crate::{commitment, respond, Response};

/// What one try of signing takes beside the key.
#[derive(Clone, Debug, PartialEq, Eq)]
pub struct Try {
    pub y1: Vec<i16>,
    pub y2: Vec<i16>,
    pub list: Vec<u16>,
    pub sign: bool,
    pub thresholds: Vec<u64>,
    pub words: Vec<u64>,
}

#[derive(Clone, Debug, PartialEq, Eq)]
pub struct Signature {
    pub z1: Vec<i16>,
    pub z2_dagger: Vec<i8>,
    pub list: Vec<u16>,
}

/// A sheet's signature with the try that gave it out.
#[derive(Clone, Debug, PartialEq, Eq)]
pub struct Signed {
    pub committed: Vec<u16>,
    pub last_try: Try,
    pub tries: u32,
    pub signature: Signature,
}

/// More words than the walk of a sheet takes in practice.
pub const WORDS: usize = 512;

impl Try {
    /// New masks for the message, and the commitment to them.
    pub fn new(set: Set, key: &Key, message: &[u8], noise: &mut Noise) -> (Try, Vec<u16>) {
        let (y1, y2) = (noise.mask(set), noise.mask(set));
        let mut committed = vec![0; N];
        commitment(set.number(), &key.a, &y1, &y2, &mut committed).expect("masks are in range");
        let list = list_of(set, &committed, message);
        let (sign, thresholds, words) = (noise.bit(), thresholds(set), noise.words(WORDS));
        let new = Try {
            y1,
            y2,
            list,
            sign,
            thresholds,
            words,
        };
        (new, committed)
    }

    /// The response to this try, with no key number stated; z1 and z2 dagger are zeros where it
    /// refuses.
    pub fn respond(&self, set: Set, key: &Key) -> (Response, Signature) {
        let (mut z1, mut z2_dagger) = (vec![0; N], vec![0; N]);
        let response = respond(
            set.number(),
            KEY_NOT_STATED,
            &key.f,
            &key.g,
            &key.a,
            &self.y1,
            &self.y2,
            &self.list,
            self.sign,
            &self.thresholds,
            &self.words,
            &mut z1,
            &mut z2_dagger,
        );
        let list = self.list.clone();
        let signature = Signature {
            z1,
            z2_dagger,
            list,
        };
        (response, signature)
    }
}

/// Signs the message. The key must pass the key test of the set.
pub fn sign(set: Set, key: &Key, message: &[u8], noise: &mut Noise) -> Signed {
    let mut tries = 0;
    loop {
        tries += 1;
        let (last_try, committed) = Try::new(set, key, message, noise);
        let (response, signature) = last_try.respond(set, key);
        match response.outcome {
            Ok(()) => {
                return Signed {
                    committed,
                    last_try,
                    tries,
                    signature,
                }
            }
            Err(refusal) if [8, 10, 11].contains(&refusal.number) => {}
            Err(refusal) => panic!("the response refuses: {refusal:?}"),
        }
    }
}
