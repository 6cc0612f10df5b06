//! A seeded generator, and masks and thresholds for a set.

use crate::parameters::{Set, MASK_LIMIT, N, THRESHOLDS};

/// SplitMix64: one 64-bit state, stepped by a constant and mixed.
#[derive(Clone, Debug)]
pub struct Noise {
    state: u64,
}

impl Noise {
    pub fn new(seed: u64) -> Noise {
        Noise { state: seed }
    }

    /// A generator of its own for part `index` of the run with this seed.
    pub fn part(seed: u64, index: u64) -> Noise {
        let mut noise = Noise::new(seed);
        let start = noise.word() ^ index.wrapping_mul(0xd134_2543_de82_ef95);
        Noise::new(start)
    }

    pub fn word(&mut self) -> u64 {
        self.state = self.state.wrapping_add(0x9e37_79b9_7f4a_7c15);
        let mut mixed = self.state;
        mixed = (mixed ^ (mixed >> 30)).wrapping_mul(0xbf58_476d_1ce4_e5b9);
        mixed = (mixed ^ (mixed >> 27)).wrapping_mul(0x94d0_49bb_1331_11eb);
        mixed ^ (mixed >> 31)
    }

    /// One of 0 .. bound - 1.
    pub fn below(&mut self, bound: usize) -> usize {
        assert!(bound > 0);
        (self.word() % bound as u64) as usize
    }

    /// One of low .. high, both included.
    pub fn between(&mut self, low: i64, high: i64) -> i64 {
        low + self.below((high - low + 1) as usize) as i64
    }

    pub fn bit(&mut self) -> bool {
        self.word() >> 63 == 1
    }

    pub fn one_of<T: Copy>(&mut self, choices: &[T]) -> T {
        choices[self.below(choices.len())]
    }

    pub fn words(&mut self, count: usize) -> Vec<u64> {
        (0..count).map(|_| self.word()).collect()
    }

    /// `count` different places below `bound`, in the order drawn.
    pub fn places(&mut self, count: usize, bound: usize) -> Vec<usize> {
        let mut places: Vec<usize> = (0..bound).collect();
        for i in 0..count {
            let other = i + self.below(bound - i);
            places.swap(i, other);
        }
        places.truncate(count);
        places
    }

    /// A proper list of this set.
    pub fn list(&mut self, set: Set) -> Vec<u16> {
        let mut list: Vec<u16> = self
            .places(set.kappa(), N)
            .into_iter()
            .map(|place| place as u16)
            .collect();
        list.sort_unstable();
        list
    }

    /// A mask: rounded normal numbers of the set's sigma, kept within the masks' limit.
    pub fn mask(&mut self, set: Set) -> Vec<i16> {
        self.mask_of_deviation(set.sigma() as f64)
    }

    pub fn mask_of_deviation(&mut self, sigma: f64) -> Vec<i16> {
        let limit = MASK_LIMIT as f64;
        (0..N)
            .map(|_| (sigma * self.normal()).round().clamp(-limit, limit) as i16)
            .collect()
    }

    /// A normal number of deviation 1, by Box and Muller.
    fn normal(&mut self) -> f64 {
        let radius = (-2.0 * self.fraction().ln()).sqrt();
        let angle = std::f64::consts::TAU * self.fraction();
        radius * angle.cos()
    }

    /// A number above 0 and at most 1.
    fn fraction(&mut self) -> f64 {
        ((self.word() >> 11) + 1) as f64 / (1u64 << 53) as f64
    }
}

/// The Bernoulli thresholds of a set: entry i is 2^64 exp(-2^i / (2 sigma^2)), rounded down as
/// far as f64 tells.
pub fn thresholds(set: Set) -> Vec<u64> {
    let doubled_variance = (2 * set.sigma() * set.sigma()) as f64;
    (0..THRESHOLDS)
        .map(|place| {
            let chance = (-((1u64 << place) as f64) / doubled_variance).exp();
            (chance * 2f64.powi(64)) as u64
        })
        .collect()
}
