//! How much the dropped digits cost (02, C-24): 2^d times z2 dagger against z2, in responses that
//! were given out.

use crate::inputs::short_mask;
use second::commitment::sums;
use second::key::{s1, s2};
use second::parameters::N;
use second::response::{costs, shifted, sign_choices};
use second::ring::{whole, Whole};
use second::testing::calls::Input;
use second::testing::noise::Noise;
use second::Set;

/// What one response cost.
#[derive(Clone, Copy, Debug, PartialEq, Eq)]
pub struct Cost {
    pub set: Set,
    /// 2^d times z2 dagger less z2, where that is least.
    pub lowest: i64,
    /// The same where it is largest.
    pub highest: i64,
    /// Whether the masks were steered to the figure.
    pub steered: bool,
}

impl Cost {
    /// The cost of a response to this input, which gave out this z2 dagger.
    pub fn of(input: &Input, z2_dagger: &[i8]) -> Cost {
        let set = set_of(input);
        let z2 = shifted(&whole(&input.y2), &v2(input), input.sign);
        let costs = costs(set, &whole(z2_dagger), &z2);
        Cost {
            set,
            lowest: costs.iter().copied().min().expect("512 places"),
            highest: costs.iter().copied().max().expect("512 places"),
            steered: false,
        }
    }

    pub fn is_within_figure(&self) -> bool {
        let figure = self.set.figure();
        -figure <= self.lowest && self.highest <= figure
    }

    /// Whether it reaches the figure, up or down.
    pub fn reaches(&self, up: bool) -> bool {
        match up {
            true => self.highest == self.set.figure(),
            false => self.lowest == -self.set.figure(),
        }
    }
}

fn set_of(input: &Input) -> Set {
    Set::asked(input.set).expect("the response was given out")
}

fn v2(input: &Input) -> Whole {
    sign_choices(&s1(&input.f), &s2(&input.g), &input.list).1
}

/// Changes the masks so that the response costs the figure at one place, up or down. z2 is the
/// figure there, turned over on the way up, and u and u - z2 lie on either side of 24578, as far
/// from it as upper digits are 0: so is z2 dagger.
///
/// The key has to be one whose products take all values, as published keys are.
pub fn steer(input: &mut Input, up: bool, noise: &mut Noise) {
    let set = set_of(input);
    let (u, z2) = if up {
        (set.p() * set.step() - set.step() / 2, -set.figure())
    } else {
        (set.step() / 2 - 1, set.figure())
    };
    // The y2 that makes z2 at each place.
    let wanted = shifted(&vec![z2; N], &v2(input), !input.sign);
    let wanted: Vec<i16> = wanted.into_iter().map(|entry| entry as i16).collect();
    loop {
        let reached = sums(&input.a, &input.y1, &wanted);
        if let Some(place) = reached.iter().position(|&sum| sum == u) {
            input.y2[place] = wanted[place];
            return;
        }
        input.y1 = short_mask(set, noise);
    }
}

#[cfg(test)]
mod tests {
    use super::{steer, Cost};
    use crate::buffers::Left;
    use crate::inputs::right_input;
    use second::testing::calls::{run, Call, Input};
    use second::testing::keys;
    use second::testing::noise::Noise;
    use second::Set;

    /// An input, its response by the second program, and the cost of that.
    fn responded(set: Set, steered: Option<bool>, noise: &mut Noise) -> (Input, Vec<i8>, Cost) {
        let key = keys::published(set, noise);
        let mut input = right_input(set, &key, noise);
        if let Some(up) = steered {
            steer(&mut input, up, noise);
        }
        let left = Left::by(run, Call::Respond, &input, 7);
        assert_eq!(left.number(), 0);
        let z2_dagger = left.buffers.z2_dagger().to_vec();
        let cost = Cost::of(&input, &z2_dagger);
        (input, z2_dagger, cost)
    }

    #[test]
    fn steered_masks_reach_the_figure() {
        let mut noise = Noise::new(84);
        for set in Set::ALL {
            for up in [true, false] {
                let (input, z2_dagger, cost) = responded(set, Some(up), &mut noise);
                assert!(cost.reaches(up) && cost.is_within_figure(), "{cost:?}");
                assert!(!cost.reaches(!up), "{cost:?}");
                // With the other sign bit z2 is another, and the cost with it.
                let sign = !input.sign;
                assert_ne!(Cost::of(&Input { sign, ..input }, &z2_dagger), cost);
            }
            let (_, _, cost) = responded(set, None, &mut noise);
            assert!(cost.lowest < 0 && cost.highest > 0, "{cost:?}");
            assert!(cost.is_within_figure(), "{cost:?}");
        }
    }

    #[test]
    fn a_cost_above_the_figure_is_seen() {
        let mut noise = Noise::new(85);
        for set in Set::ALL {
            for change in [1, -1] {
                let (input, z2_dagger, _) = responded(set, Some(change > 0), &mut noise);
                // Every entry is off by a step, and one of them cost the figure already.
                let off: Vec<i8> = z2_dagger.iter().map(|entry| entry + change).collect();
                assert!(!Cost::of(&input, &off).is_within_figure());
            }
        }
    }
}
