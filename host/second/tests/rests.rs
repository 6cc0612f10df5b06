//! "The rest after rounding" of paper 02.

use second::parameters::{N, Q};
use second::ring::{modulo_2q, quotient, rest};
use second::testing::keys;
use second::testing::noise::Noise;
use second::{commitment, commitment_with_rests, Set};

/// Every set with every sum that can be rounded.
fn every_sum() -> impl Iterator<Item = (Set, i64)> {
    Set::ALL
        .into_iter()
        .flat_map(|set| (0..2 * Q).map(move |x| (set, x)))
}

#[test]
fn a_rest_lies_within_half_a_step() {
    for (set, x) in every_sum() {
        let half = set.step() / 2;
        assert!((-half..half).contains(&rest(set, x)), "{set:?} {x}");
    }
}

#[test]
fn quotient_and_rest_make_up_the_sum() {
    for (set, x) in every_sum() {
        assert_eq!(set.step() * quotient(set, x) + rest(set, x), x);
    }
}

#[test]
fn the_digits_are_those_of_the_commitment() {
    let mut noise = Noise::new(41);
    for set in Set::ALL {
        let key = keys::published(set, &mut noise);
        let (y1, y2) = (noise.mask(set), noise.mask(set));
        let (mut committed, mut digits, mut rests) = (vec![0; N], vec![7; N], vec![7; N]);
        commitment(set.number(), &key.a, &y1, &y2, &mut committed).unwrap();
        commitment_with_rests(set.number(), &key.a, &y1, &y2, &mut digits, &mut rests).unwrap();
        assert_eq!(digits, committed);
    }
}

#[test]
fn digits_and_rests_make_up_the_sums() {
    // With y1 = 0 the sums are y2 modulo 24578.
    let y2: Vec<i16> = (0..N as i16).map(|i| 16 * i - 4096).collect();
    for set in Set::ALL {
        let (mut digits, mut rests) = (vec![0; N], vec![0; N]);
        commitment_with_rests(set.number(), &[0; N], &[0; N], &y2, &mut digits, &mut rests)
            .unwrap();
        for i in 0..N {
            let sum = modulo_2q(i64::from(y2[i]));
            let made_up = set.step() * i64::from(digits[i]) + i64::from(rests[i]);
            // The remainder by p takes away p steps or none.
            assert_eq!((sum - made_up) % (set.p() * set.step()), 0);
        }
    }
}
