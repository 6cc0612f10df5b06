//! "How much the dropped digits cost" of paper 02 (C-24).

use second::key::{s1, s2};
use second::parameters::Q;
use second::response::{costs, dropped_digits, shifted, sign_choices};
use second::ring::{whole, Whole};
use second::testing::keys;
use second::testing::noise::Noise;
use second::testing::sheet;
use second::Set;

/// What z2 costs at every u in 0 .. 24577.
fn costs_of(set: Set, z2: i64) -> Whole {
    let u: Whole = (0..2 * Q).collect();
    let z2 = vec![z2; u.len()];
    costs(set, &dropped_digits(set, &u, &z2), &z2)
}

/// The paper's limit on |z2|.
fn limit(set: Set) -> i64 {
    Q - set.step() - 3
}

#[test]
fn the_figures_of_the_data_sheet() {
    let (figures, limits) = ([1025, 1025, 513, 257], [11262, 11262, 11774, 12030]);
    assert_eq!(Set::ALL.map(Set::figure), *[figures; 2].as_flattened());
    assert_eq!(Set::ALL.map(limit), *[limits; 2].as_flattened());
}

#[test]
fn no_sum_costs_more_than_the_figure() {
    for set in Set::ALL {
        let (limit, figure) = (limit(set), set.figure());
        let spread = (-limit..=limit).step_by(101);
        let about = [-limit, -figure, -1, 0, 1, figure, limit];
        let mut found: Vec<i64> = Vec::new();
        for z2 in spread.chain(about) {
            let costs = costs_of(set, z2);
            found.extend([costs.iter().min().unwrap(), costs.iter().max().unwrap()]);
        }
        assert_eq!(found.iter().min(), Some(&-figure), "{set:?}");
        assert_eq!(found.iter().max(), Some(&figure), "{set:?}");
    }
}

#[test]
fn it_is_reached_where_the_difference_wraps() {
    let points = [
        (Set::I, 24064, 511),
        (Set::II, 24064, 511),
        (Set::III, 24320, 255),
        (Set::IV, 24448, 127),
    ];
    for (set, upper, lower) in points {
        let figure = set.figure();
        // From u to u - z2 and back: both have the upper digits 0.
        assert_eq!(upper + figure - 2 * Q, lower);
        assert_eq!(costs_of(set, -figure)[upper as usize], figure);
        assert_eq!(costs_of(set, figure)[lower as usize], -figure);
    }
}

#[test]
fn the_limit_on_z2_is_two_below_the_last_that_would_do() {
    for set in Set::ALL {
        let within = |z2: i64| {
            costs_of(set, z2)
                .iter()
                .all(|cost| cost.abs() <= set.figure())
        };
        let last = limit(set) + 2;
        assert!(within(last) && within(-last), "{set:?}");
        // p / 2 steps are centred to -p / 2.
        assert!(!within(last + 1), "{set:?}");
    }
}

#[test]
fn no_signature_costs_more_than_the_figure() {
    let mut noise = Noise::new(51);
    for set in Set::ALL {
        let key = keys::published(set, &mut noise);
        for _ in 0..8 {
            let signed = sheet::sign(set, &key, b"cargo sheet", &mut noise);
            let last_try = &signed.last_try;
            let (_, v2) = sign_choices(&s1(&key.f), &s2(&key.g), &last_try.list);
            let z2 = shifted(&whole(&last_try.y2), &v2, last_try.sign);
            let costs = costs(set, &whole(&signed.signature.z2_dagger), &z2);
            assert!(costs.iter().all(|cost| cost.abs() <= set.figure()));
        }
    }
}
