//! "Ways it has been got wrong": each way changes an answer here.

use second::key::{s1, s2};
use second::parameters::{N, Q};
use second::response::sign_choices;
use second::ring::{column, inner_product, modulo_2q, modulo_q, product, upper_digits, whole};
use second::testing::euclid::inverse;
use second::testing::keys::{self, Key};
use second::testing::noise::Noise;
use second::{commitment, rebuild, respond, Refusal, Set};

/// The public key a = 1.
fn one() -> Vec<u16> {
    let mut a = vec![0; N];
    a[0] = 1;
    a
}

/// With a = 1, u is 12288 y1 + y2 modulo 24578.
fn committed_to(set: Set, y1_first: i16, y2_first: i16) -> u16 {
    let (mut y1, mut y2) = (vec![0; N], vec![0; N]);
    y1[0] = y1_first;
    y2[0] = y2_first;
    let mut out = vec![0; N];
    commitment(set.number(), &one(), &y1, &y2, &mut out).unwrap();
    out[0]
}

/// The z1 and z2 dagger that set 1 gives out for y1 = 0 and sign bit 0, with thresholds that every
/// word passes.
fn given_out(key: &Key, y2: &[i16], list: &[u16]) -> (Vec<i16>, Vec<i8>) {
    let (mut z1, mut z2_dagger) = (vec![0; N], vec![0; N]);
    let response = respond(
        1,
        0,
        &key.f,
        &key.g,
        &key.a,
        &[0; N],
        y2,
        list,
        false,
        &[1; 31],
        &[0; 62],
        &mut z1,
        &mut z2_dagger,
    );
    assert_eq!(response.outcome, Ok(()));
    (z1, z2_dagger)
}

#[test]
fn rounding_comes_after_the_reduction() {
    assert_eq!(modulo_2q(25_089), 511);
    assert_eq!(upper_digits(Set::I, modulo_2q(25_089)), 0);
    // 12288 * 2 + 513 = 25089: rounded first it would give 1.
    assert_eq!(committed_to(Set::I, 2, 513), 0);
    assert_eq!(committed_to(Set::I, 2, 514), 1);
}

#[test]
fn a_negative_sum_is_reduced_before_it_is_rounded() {
    // -1 is 24577, whose upper digits are 0; -600 is 23978, whose upper digits are 23.
    assert_eq!(committed_to(Set::I, 0, -1), 0);
    assert_eq!(committed_to(Set::I, 0, -600), 23);
}

#[test]
fn a_zero_inner_product_still_chooses() {
    let mut noise = Noise::new(21);
    let key = keys::published(Set::I, &mut noise);
    let (s1, s2) = (s1(&key.f), s2(&key.g));
    // The places of a list at which the inner product is zero, beside its first.
    let zeros = |list: &[u16]| -> Vec<u16> {
        let zero = |&at: &usize| {
            let (v1, v2) = sign_choices(&s1, &s2, &list[..at]);
            let place = usize::from(list[at]);
            inner_product(&v1, &column(&s1, place)) + inner_product(&v2, &column(&s2, place)) == 0
        };
        let found = (1..list.len()).filter(zero);
        found.map(|at| list[at]).collect()
    };
    let (list, zeros) = loop {
        let list = noise.list(Set::I);
        let zeros = zeros(&list);
        if !zeros.is_empty() {
            break (list, zeros);
        }
    };
    // z1 is f times c', since the masks are zero.
    let (z1, _) = given_out(&key, &[0; N], &list);
    let signs = modulo_q(&product(&whole(&z1), &inverse(&s1).unwrap()));
    for (place, sign) in (0..).zip(&signs) {
        let admitted: &[i64] = if list.contains(&place) {
            &[1, Q - 1]
        } else {
            &[0]
        };
        assert!(admitted.contains(sign), "{sign} at {place}");
    }
    // The column is subtracted.
    for place in zeros {
        assert_eq!(signs[usize::from(place)], Q - 1);
    }
}

#[test]
fn the_parity_of_t_is_kept() {
    // t = 1 gives 12288, whose upper digits are 12; reduced by q, t = 2 would give 12287.
    assert_eq!(committed_to(Set::I, 1, 0), 12);
    assert_eq!(committed_to(Set::I, 2, 0), 0);
}

#[test]
fn z2_dagger_is_compared_after_the_factor() {
    let mut z2_dagger = vec![0; N];
    z2_dagger[0] = 3;
    let list: Vec<u16> = (0..23).collect();
    let mut out = vec![9; N];
    let outcome = rebuild(1, &[0; N], &[0; N], &z2_dagger, &list, &mut out);
    assert_eq!(outcome, Err(Refusal::entry(512)));
    assert_eq!(out, vec![9; N]);
}

#[test]
fn z2_dagger_is_compared_in_its_centred_form() {
    // u = 23978 has the upper digits 23, and u - z2, which is about 0, has 0: the difference is -1,
    // not 23.
    let key = keys::published(Set::I, &mut Noise::new(22));
    let mut y2 = vec![0; N];
    y2[100] = -600;
    let list: Vec<u16> = (0..23).collect();
    let (_, z2_dagger) = given_out(&key, &y2, &list);
    assert_eq!(z2_dagger[100], -1);
}

#[test]
fn a_listed_place_adds_q() {
    // With a = 1, z1 of -511 gives t = 11778, 12288 t = 12800 modulo 24578, and 12800 + 12289
    // reduces to 511; z1 of -513 leads to 513. Unlisted they lead to 12800 and 12802.
    let mut z1 = vec![0; N];
    (z1[0], z1[1], z1[400], z1[401]) = (-511, -513, -511, -513);
    let list: Vec<u16> = (0..23).collect();
    let mut out = vec![0; N];
    rebuild(1, &one(), &z1, &[0; N], &list, &mut out).unwrap();
    assert_eq!([out[0], out[1], out[400], out[401]], [0, 1, 13, 13]);
}

#[test]
fn p_steps_are_not_all_of_2q() {
    for set in Set::ALL {
        assert_eq!(set.p() * set.step(), 2 * Q - 2);
    }
    // The last two numbers below 2q lie past p steps and return to 0.
    assert_eq!(upper_digits(Set::IV, 24576), 0);
    assert_eq!(upper_digits(Set::IV, 24577), 0);
}

#[test]
fn a_term_past_the_top_returns_with_its_sign_turned() {
    let (mut left, mut right) = (vec![0; N], vec![0; N]);
    left[500] = 3;
    right[20] = 5;
    let mut expected = vec![0; N];
    expected[8] = -15;
    assert_eq!(product(&left, &right), expected);
}
