//! Keys: what the key test admits, and the counts of paper 02 (C-12).

use second::key::key_squared_length;
use second::parameters::{KeyCounts, N};
use second::ring::{modulo_q, product, whole};
use second::testing::edges::past_k;
use second::testing::euclid::{divided_by_root, inverse};
use second::testing::keys::{self, Key};
use second::testing::noise::Noise;
use second::{key_test, Refusal, Set};

fn tested(set: Set, key: &Key) -> Result<(), Refusal> {
    key_test(set.number(), &key.f, &key.g, &key.a)
}

#[test]
fn made_keys_pass_the_key_test() {
    let mut noise = Noise::new(31);
    let makers = [
        keys::published,
        keys::at_k,
        keys::without_inverse,
        keys::any,
    ];
    for set in Set::ALL {
        for make in makers {
            assert_eq!(tested(set, &make(set, &mut noise)), Ok(()));
        }
    }
}

#[test]
fn a_key_of_another_sets_counts_is_refused() {
    let mut noise = Noise::new(38);
    for set in Set::ALL {
        let key = keys::published(set, &mut noise);
        for other in Set::ALL {
            let alike = set.key_counts() == other.key_counts();
            let wanted = if alike { Ok(()) } else { Err(Refusal::COUNTS) };
            assert_eq!(tested(other, &key), wanted, "{set:?} as {other:?}");
        }
    }
}

#[test]
fn right_counts_reach_k_and_never_pass_it() {
    let mut noise = Noise::new(41);
    for set in Set::ALL {
        let KeyCounts { ones, twos } = set.key_counts();
        let Key { f, mut g, .. } = keys::published(set, &mut noise);
        let mut longest = 0;
        // Of g only the first coefficient matters: each that the counts have.
        for place in 0..N {
            g.swap(0, place);
            for _ in 0..2 {
                g[0] = -g[0];
                let length = key_squared_length(&f, &g);
                let squares = 5 * (ones + 4 * twos) as i64;
                assert_eq!(length, squares + 4 * i64::from(g[0]) + 1);
                longest = length.max(longest);
            }
        }
        assert_eq!(longest, set.k());
        let at_k = keys::at_k(set, &mut noise);
        assert_eq!(key_squared_length(&at_k.f, &at_k.g), set.k());
        let past_k = past_k(set, &mut noise);
        assert_eq!(key_squared_length(&past_k.f, &past_k.g), set.k() + 1);
    }
}

#[test]
fn an_inverse_is_one() {
    let mut noise = Noise::new(32);
    let key = keys::published(Set::IV, &mut noise);
    let f = whole(&key.f);
    let mut one = vec![0; N];
    one[0] = 1;
    assert_eq!(modulo_q(&product(&f, &inverse(&f).unwrap())), one);
    assert_eq!(inverse(&[0; N]), None);
}

#[test]
fn a_key_without_inverse_may_hold_the_relation() {
    let mut noise = Noise::new(33);
    for set in Set::ALL {
        let mut key = keys::without_inverse(set, &mut noise);
        assert_eq!(inverse(&whole(&key.f)), None);
        assert_eq!(tested(set, &key), Ok(()));
        key.a[3] = (key.a[3] + 1) % 12289;
        assert_eq!(tested(set, &key), Err(Refusal::RELATION));
    }
}

#[test]
fn a_polynomial_is_divided_by_a_root() {
    // (x - 5) (x^2 + 3x + 7) = x^3 - 2x^2 - 8x - 35.
    let (quotient, left) = divided_by_root(&[-35, -8, -2, 1], 5);
    assert_eq!((&quotient[..], left), (&[7, 3, 1, 0][..], 0));
    assert_eq!(divided_by_root(&[-34, -8, -2, 1], 5).1, 1);
}
