//! 02, C-22: sets 5 to 8 have longer challenges, and otherwise the numbers of sets 1 to 4.

use second::key::{s1, s2};
use second::parameters::{MASK_LIMIT, N, THRESHOLDS};
use second::response::{shifted, sign_choices, trials};
use second::ring::whole;
use second::testing::edges::{past_k, Edge};
use second::testing::keys::{self, Key};
use second::testing::noise::Noise;
use second::testing::sheet::{sign, Try};
use second::{commitment_with_rests, compare, key_test, rebuild, write, Form, Refusal, Set};

/// Each set with a longer challenge, and the set that it is like.
fn longer() -> impl Iterator<Item = (Set, Set)> {
    let pairs = Set::ALL.map(|set| (set, set.like()));
    pairs.into_iter().filter(|(set, like)| set != like)
}

#[test]
fn keys_are_those_of_the_set_that_it_is_like() {
    let mut noise = Noise::new(91);
    for (set, like) in longer() {
        let tested = |key: &Key| {
            let tested = [set, like].map(|set| key_test(set.number(), &key.f, &key.g, &key.a));
            assert_eq!(tested[0], tested[1]);
            tested[0]
        };
        for make in [keys::published, keys::at_k, keys::without_inverse] {
            assert_eq!(tested(&make(like, &mut noise)), Ok(()));
            let mut key = make(set, &mut noise);
            assert_eq!(tested(&key), Ok(()));
            key.a[7] = (key.a[7] + 1) % 12289;
            assert_eq!(tested(&key), Err(Refusal::RELATION));
        }
        let key = keys::published(set, &mut noise);
        for edge in Edge::all(like) {
            let off = edge.of(like, &key, &mut noise);
            assert_eq!(tested(&off), Err(Refusal::COUNTS), "{}", edge.name());
        }
        assert_eq!(tested(&past_k(like, &mut noise)), Err(Refusal::COUNTS));
    }
}

#[test]
fn commitments_are_those_of_the_set_that_it_is_like() {
    let mut noise = Noise::new(92);
    for (set, like) in longer() {
        let key = keys::published(set, &mut noise);
        let (y1, y2) = (noise.mask(set), noise.mask(set));
        let committed = [set, like].map(|set| {
            let (mut digits, mut rests) = (vec![0; N], vec![0; N]);
            commitment_with_rests(set.number(), &key.a, &y1, &y2, &mut digits, &mut rests).unwrap();
            (digits, rests)
        });
        assert_eq!(committed[0], committed[1]);
    }
}

#[test]
fn lists_are_not() {
    let mut noise = Noise::new(93);
    for (set, like) in longer() {
        let key = keys::published(set, &mut noise);
        for (set, other) in [(set, like), (like, set)] {
            let signature = sign(set, &key, b"sheet", &mut noise).signature;
            let (z1, z2_dagger, list) = (signature.z1, signature.z2_dagger, signature.list);
            let verdicts = |number: u32| {
                let (mut rebuilt, mut record) = (vec![0; N], vec![0; Form::Plain.total(set)]);
                [
                    compare(number, &list, &list),
                    rebuild(number, &key.a, &z1, &z2_dagger, &list, &mut rebuilt),
                    write(number, 0, &z1, &z2_dagger, &list, &mut record),
                ]
            };
            assert_eq!(verdicts(set.number()), [Ok(()); 3]);
            assert_eq!(verdicts(other.number()), [Err(Refusal::LIST); 3]);
        }
    }
}

/// Bounds of the two numbers that a draw of the set tries. An entry of v is made of kappa entries of
/// s1 or s2, each at most 5, so that no entry of z passes 4096 + 5 kappa; and the absolute values in
/// v sum up to no more than their squares do, kappa K.
fn most(set: Set) -> (i64, i64) {
    let kappa = set.kappa() as i64;
    let squares = kappa * set.k();
    (squares, 2 * (MASK_LIMIT + 5 * kappa) * squares)
}

#[test]
fn thirty_one_thresholds_suffice() {
    let largest = Set::ALL.map(|set| {
        let (first, second) = most(set);
        first.max(second)
    });
    let largest = largest.into_iter().max().unwrap();
    assert_eq!(largest, 1_879_240_624);
    assert!(largest < 1 << THRESHOLDS);
}

/// Every mask at its limit, on the side of v: no other masks make the second number larger.
#[test]
fn the_widest_masks_are_drawn_with_them() {
    let mut noise = Noise::new(94);
    for set in Set::ALL {
        let key = keys::at_k(set, &mut noise);
        let (attempt, _) = Try::new(set, &key, b"", &mut noise);
        let (v1, v2) = sign_choices(&s1(&key.f), &s2(&key.g), &attempt.list);
        let limit = MASK_LIMIT as i16;
        let beside = |v: &[i64]| -> Vec<i16> {
            let side = |&entry: &i64| if entry < 0 { -limit } else { limit };
            v.iter().map(side).collect()
        };
        let attempt = Try {
            y1: beside(&v1),
            y2: beside(&v2),
            sign: false,
            thresholds: vec![u64::MAX; THRESHOLDS],
            ..attempt
        };
        let z1 = shifted(&whole(&attempt.y1), &v1, false);
        let z2 = shifted(&whole(&attempt.y2), &v2, false);
        let (first, second) = trials(set, &v1, &v2, &z1, &z2);
        assert!(first <= most(set).0 && second <= most(set).1, "{set:?}");
        let (response, _) = attempt.respond(set, &key);
        // The walk takes a word for each set place, and the length rule refuses what it drew.
        let places = first.count_ones() + second.count_ones();
        assert_eq!(response.words, u64::from(places));
        assert_eq!(response.outcome, Err(Refusal::entry(0)));
    }
}
