//! Keys whose counts are off by a little: refusal 15 (02, C-12). Each holds the relation.

use super::keys::{at_k, with_public, Key};
use super::noise::Noise;
use crate::parameters::{KeyCounts, Set};

/// How the counts of a polynomial are off.
#[derive(Debug)]
struct Off {
    name: &'static str,
    ones: isize,
    twos: isize,
}

const fn off(name: &'static str, ones: isize, twos: isize) -> Off {
    Off { name, ones, twos }
}

const MORE: Off = off("a 1 more", 1, 0);
const FEWER: Off = off("a 1 fewer", -1, 0);

const OFF: [Off; 10] = [
    MORE,
    FEWER,
    off("a 2 more", 0, 1),
    off("a 2 fewer", 0, -1),
    off("a 2 for a 1", -1, 1),
    off("a 1 for a 2", 1, -1),
    // The sum of the sizes stays.
    off("a 2 for two 1s", -2, 1),
    off("two 1s for a 2", 2, -1),
    // The sum of the squares stays.
    off("a 2 for four 1s", -4, 1),
    off("four 1s for a 2", 4, -1),
];

/// Which polynomials of a key have their counts off, and how.
#[derive(Clone, Copy, Debug)]
pub struct Edge {
    f: Option<&'static Off>,
    g: Option<&'static Off>,
}

/// A 1 more in f.
const F_MORE: Edge = Edge {
    f: Some(&MORE),
    g: None,
};

impl Edge {
    /// The edges of a set: f or g alone off in each way that the set's counts allow, and both so
    /// that together they have the right counts.
    pub fn all(set: Set) -> Vec<Edge> {
        let off = |f, g| Edge { f, g };
        let alone = OFF
            .iter()
            .flat_map(|how| [off(Some(how), None), off(None, Some(how))]);
        let both = off(Some(&MORE), Some(&FEWER));
        alone
            .chain([both])
            .filter(|edge| edge.counts(set).is_some())
            .collect()
    }

    pub fn name(self) -> String {
        let said = |polynomial: &str, how: Option<&Off>| {
            how.map(|how| format!("{polynomial} with {}", how.name))
        };
        let both = [said("f", self.f), said("g", self.g)];
        both.into_iter().flatten().collect::<Vec<_>>().join(", ")
    }

    /// The counts of f and of g; none where the set has too few to take away from.
    fn counts(self, set: Set) -> Option<[KeyCounts; 2]> {
        let KeyCounts { ones, twos } = set.key_counts();
        let counts = |how: Option<&Off>| {
            let (more_ones, more_twos) = how.map_or((0, 0), |how| (how.ones, how.twos));
            Some(KeyCounts {
                ones: ones.checked_add_signed(more_ones)?,
                twos: twos.checked_add_signed(more_twos)?,
            })
        };
        Some([counts(self.f)?, counts(self.g)?])
    }

    /// A key of the set, brought to this edge by as few changes as that takes. Its f has to have an
    /// inverse.
    pub fn of(self, set: Set, key: &Key, noise: &mut Noise) -> Key {
        let [of_f, of_g] = self.counts(set).expect("the set has this edge");
        loop {
            let (mut f, mut g) = (key.f.clone(), key.g.clone());
            recount(&mut f, of_f, noise);
            recount(&mut g, of_g, noise);
            if let Some(key) = with_public(f, g) {
                return key;
            }
        }
    }
}

/// A key one past K: one at K with a 1 more in f.
pub fn past_k(set: Set, noise: &mut Noise) -> Key {
    let key = at_k(set, noise);
    F_MORE.of(set, &key, noise)
}

/// Clears coefficients of a size that has too many, and puts some where it has too few.
fn recount(secret: &mut [i8], counts: KeyCounts, noise: &mut Noise) {
    let sizes = [(1, counts.ones), (2, counts.twos)];
    let places = |secret: &[i8], size: i8| -> Vec<usize> {
        let sized = |&place: &usize| secret[place].abs() == size;
        (0..secret.len()).filter(sized).collect()
    };
    for (size, wanted) in sizes {
        for _ in wanted..places(secret, size).len() {
            secret[noise.one_of(&places(secret, size))] = 0;
        }
    }
    for (size, wanted) in sizes {
        for _ in places(secret, size).len()..wanted {
            let place = noise.one_of(&places(secret, 0));
            secret[place] = if noise.bit() { size } else { -size };
        }
    }
}
