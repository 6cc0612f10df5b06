//! Demand 3: the squared length of v, and the rebuild of what the signer committed to.

use second::key::{key_squared_length, s1, s2};
use second::parameters::N;
use second::response::sign_choices;
use second::ring::{modulo_q, product, squared_length, whole};
use second::testing::keys::{self, Key};
use second::testing::noise::Noise;
use second::testing::sheet::{self, Signature, Try};
use second::{compare, rebuild, Set};

/// Keys of every kind that the key test admits.
fn keys_of(set: Set, noise: &mut Noise) -> Vec<Key> {
    let mut all = vec![keys::at_k(set, noise), keys::without_inverse(set, noise)];
    all.extend((0..8).map(|_| keys::published(set, noise)));
    all
}

fn require_rebuilt(set: Set, key: &Key, signature: &Signature, committed: &[u16]) {
    let Signature {
        z1,
        z2_dagger,
        list,
    } = signature;
    let mut rebuilt = vec![0; N];
    let outcome = rebuild(set.number(), &key.a, z1, z2_dagger, list, &mut rebuilt);
    assert_eq!(outcome, Ok(()));
    assert_eq!(rebuilt, committed);
}

#[test]
fn the_response_is_never_longer_than_kappa_times_the_key() {
    let mut noise = Noise::new(34);
    for set in Set::ALL {
        for key in keys_of(set, &mut noise) {
            let list = noise.list(set);
            let (v1, v2) = sign_choices(&s1(&key.f), &s2(&key.g), &list);
            let squared = squared_length(&v1) + squared_length(&v2);
            assert!(squared <= set.kappa() as i64 * key_squared_length(&key.f, &key.g));
        }
    }
}

#[test]
fn v_is_the_key_times_a_signed_list() {
    let mut noise = Noise::new(35);
    let key = keys::published(Set::III, &mut noise);
    let list = noise.list(Set::III);
    let (v1, v2) = sign_choices(&s1(&key.f), &s2(&key.g), &list);
    // a v1 = v2 modulo q, and v2 is odd exactly at the listed places.
    assert_eq!(modulo_q(&product(&whole(&key.a), &v1)), modulo_q(&v2));
    for (place, entry) in v2.iter().enumerate() {
        assert_eq!(entry.rem_euclid(2) == 1, list.contains(&(place as u16)));
    }
}

#[test]
fn what_is_given_out_rebuilds_the_commitment() {
    let mut noise = Noise::new(36);
    for set in Set::ALL {
        for key in keys_of(set, &mut noise) {
            let signed = sheet::sign(set, &key, b"cargo sheet", &mut noise);
            require_rebuilt(set, &key, &signed.signature, &signed.committed);
            let list = &signed.signature.list;
            assert_eq!(compare(set.number(), list, list), Ok(()));
        }
    }
}

/// Masks far wider than sigma, any list, any thresholds: demand 3 asks for no more than that a
/// signature is given out.
#[test]
fn it_does_so_for_any_masks_lists_thresholds_and_words() {
    let mut noise = Noise::new(37);
    for set in Set::ALL {
        let mut given_out = 0;
        for key in keys_of(set, &mut noise) {
            for deviation in [0.0, 20.0, 150.0, 300.0] {
                let (mut attempt, _) = Try::new(set, &key, b"", &mut noise);
                attempt.y1 = noise.mask_of_deviation(deviation);
                attempt.y2 = noise.mask_of_deviation(deviation);
                attempt.list = noise.list(set);
                attempt.thresholds = vec![u64::MAX; 31];
                let (response, signature) = attempt.respond(set, &key);
                if response.outcome == Ok(()) {
                    let mut committed = vec![0; N];
                    let Try { y1, y2, .. } = &attempt;
                    second::commitment(set.number(), &key.a, y1, y2, &mut committed).unwrap();
                    require_rebuilt(set, &key, &signature, &committed);
                    given_out += 1;
                }
            }
        }
        assert!(given_out > 20, "{set:?}: only {given_out} of 40");
    }
}
