//! "Reference points" and the tables of paper 01; what paper 02 makes of them, and the rests beside
//! them.

use second::commitment::{doubled_zeta_times, sums};
use second::draw::draw;
use second::key::{s1, s2};
use second::parameters::{KeyCounts, LIST_BUFFER, N};
use second::record::write_in;
use second::response::{dropped_digits, shifted, sign_choices, trials};
use second::ring::{centred, modulo_2q, rest, squared_length, upper_digits, Whole};
use second::testing::keys;
use second::{
    commitment, commitment_with_rests, key_test, rebuild, respond, Form, Refusal, Response, Set,
};

#[test]
fn the_table_of_parameters() {
    assert_eq!(Set::ALL.map(Set::number), [1, 2, 3, 4, 5, 6, 7, 8]);
    assert_eq!(Set::ALL.map(Set::kappa), [23, 23, 30, 39, 58, 58, 82, 113]);
    assert_eq!(LIST_BUFFER, 113);
    for (form, totals) in [
        (
            Form::Plain,
            [1606, 1606, 1620, 1638, 1676, 1676, 1724, 1786],
        ),
        (
            Form::Packed,
            [1138, 1138, 1146, 1156, 1178, 1178, 1205, 1240],
        ),
    ] {
        assert_eq!(Set::ALL.map(|set| form.total(set)), totals);
        assert_eq!(form.longest(), totals[7]);
    }
    let rows = Set::ALL.map(|set| {
        let KeyCounts { ones, twos } = set.key_counts();
        (
            set.sigma(),
            set.d(),
            set.p(),
            set.largest(),
            set.b2_squared(),
            set.k(),
            (ones, twos),
        )
    });
    let table = [
        (215, 10, 24, 2100, 165_688_384, 775, (154, 0)),
        (107, 10, 24, 1563, 122_633_476, 775, (154, 0)),
        (250, 9, 48, 1760, 104_162_436, 1409, (216, 16)),
        (271, 8, 96, 1613, 98_029_801, 1784, (231, 31)),
    ];
    // Sets 5 to 8 have otherwise the numbers of sets 1 to 4.
    assert_eq!(rows, *[table; 2].as_flattened());
    let like = [Set::I, Set::II, Set::III, Set::IV];
    assert_eq!(Set::ALL.map(Set::like), *[like; 2].as_flattened());
}

#[test]
fn zero_asks_for_set_four_or_by_the_old_default_for_set_one_and_nine_for_none() {
    assert_eq!(Set::asked(0), Ok(Set::IV));
    assert_eq!(Set::asked_default_one(0), Ok(Set::I));
    for asked in [Set::asked, Set::asked_default_one] {
        for set in Set::ALL {
            assert_eq!(asked(set.number()), Ok(set));
        }
        assert_eq!(asked(9), Err(Refusal::SET));
        assert_eq!(asked(u32::MAX), Err(Refusal::SET));
    }
    // A record states its set: 0 is none there.
    assert_eq!(Set::stated(0), None);
}

#[test]
fn upper_digits_of_the_table() {
    let points: [(Set, &[(i64, i64)]); 3] = [
        (
            Set::I,
            &[(511, 0), (512, 1), (24063, 23), (24064, 0), (24577, 0)],
        ),
        (Set::III, &[(255, 0), (256, 1), (24319, 47), (24320, 0)]),
        (Set::IV, &[(127, 0), (128, 1), (24447, 95), (24448, 0)]),
    ];
    for (set, row) in points {
        for &(x, digits) in row {
            assert_eq!(upper_digits(set, x), digits, "{set:?} {x}");
        }
    }
}

#[test]
fn rests_of_the_table() {
    let points = [
        (Set::I, [(511, 511), (512, -512), (24577, 1)]),
        (Set::III, [(255, 255), (256, -256), (24577, 1)]),
        (Set::IV, [(127, 127), (128, -128), (24577, 1)]),
    ];
    for (set, row) in points {
        for (x, wanted) in row {
            assert_eq!(rest(set, x), wanted, "{set:?} {x}");
        }
    }
    assert_eq!(rest(Set::I, modulo_2q(25_089)), 511);
}

#[test]
fn a_commitment_has_the_rests_of_the_table() {
    let mut a = vec![0; N];
    a[0] = 1;
    let (mut y1, mut y2) = (vec![0; N], vec![0; N]);
    // Sums 511, 512 and 24577; and 12288 * 2 + 513 = 25089, which reduces to 511.
    y2[..4].copy_from_slice(&[511, 512, -1, 513]);
    y1[3] = 2;
    let (mut digits, mut rests) = (vec![7; N], vec![7; N]);
    let outcome = commitment_with_rests(1, &a, &y1, &y2, &mut digits, &mut rests);
    assert_eq!(outcome, Ok(()));
    assert_eq!(digits[..5], [0, 1, 0, 0, 0]);
    assert_eq!(rests[..5], [511, -512, 1, 511, 0]);
}

#[test]
fn centring_modulo_p() {
    for set in Set::ALL {
        let half = set.p() / 2;
        for x in -half..half {
            assert_eq!(centred(set, x), x);
            assert_eq!(centred(set, x + set.p()), x);
        }
        assert_eq!(centred(set, half), -half);
    }
}

#[test]
fn twice_zeta_modulo_24578() {
    assert_eq!([0, 1, 2].map(doubled_zeta_times), [0, 12288, 24576]);
    assert_eq!((2 * 18433) % 24578, 12288);
    assert_eq!((18433 * (12289 - 2)) % 24578, 1);
}

/// The list of 01's reference point: set 1, f = 1, g = 0, a = 1, masks zero, list 0 .. 22, sign
/// bit 0.
fn first_places() -> Vec<u16> {
    (0..23).collect()
}

#[test]
fn the_thin_key_is_refused() {
    let key = keys::thin();
    // 0 stands for set 4, which has 39 places: its list is refused before its counts.
    for (set, words, refusal) in [
        (1, 12, Refusal::COUNTS),
        (1, 0, Refusal::COUNTS),
        (0, 12, Refusal::LIST),
    ] {
        let tested = key_test(set, &key.f, &key.g, &key.a);
        assert_eq!(tested, Err(Refusal::COUNTS));
        let (mut z1, mut z2_dagger) = (vec![77; N], vec![77; N]);
        let response = respond(
            set,
            11,
            &key.f,
            &key.g,
            &key.a,
            &[0; N],
            &[0; N],
            &first_places(),
            false,
            &[1; 31],
            &vec![0; words],
            &mut z1,
            &mut z2_dagger,
        );
        let refused = Response {
            outcome: Err(refusal),
            words: 0,
            key: 0,
        };
        assert_eq!(response, refused);
        assert_eq!((z1, z2_dagger), (vec![77; N], vec![77; N]));
    }
}

/// v1, v2, z1 and z2 of the reference point.
fn thin_sums() -> [Whole; 4] {
    let key = keys::thin();
    let (v1, v2) = sign_choices(&s1(&key.f), &s2(&key.g), &first_places());
    let (z1, z2) = (shifted(&[0; N], &v1, false), shifted(&[0; N], &v2, false));
    [v1, v2, z1, z2]
}

/// The numbers that its draw tries.
fn thin_trials() -> (i64, i64) {
    let [v1, v2, z1, z2] = thin_sums();
    trials(Set::I, &v1, &v2, &z1, &z2)
}

#[test]
fn the_thin_key_and_its_trials() {
    let expected: Whole = (0..N).map(|i| if i < 23 { -1 } else { 0 }).collect();
    for sums in thin_sums() {
        assert_eq!(sums, expected);
    }
    let [v1, v2, ..] = thin_sums();
    assert_eq!(squared_length(&v1) + squared_length(&v2), 46);
    let (first, second) = thin_trials();
    assert_eq!((first, first.count_ones()), (17_779, 8));
    assert_eq!((second, second.count_ones()), (92, 4));
}

#[test]
fn its_walk_is_a_point_of_the_draw() {
    let (first, second) = thin_trials();
    for (threshold, lent, outcome, taken) in [
        (1, 12, Ok(()), 12),
        (1, 11, Err(Refusal::WORDS), 11),
        (0, 1, Err(Refusal::DRAW), 1),
        (1, 0, Err(Refusal::WORDS), 0),
        (0, 0, Err(Refusal::WORDS), 0),
    ] {
        let drawn = draw(first, second, &[threshold; 31], &vec![0; lent]);
        assert_eq!(drawn, (outcome, taken), "{lent} words");
    }
}

#[test]
fn its_signature_rebuilds_its_commitment() {
    let a = keys::thin().a;
    let [_, _, z1, z2] = thin_sums();
    let z2_dagger = dropped_digits(Set::I, &sums(&a, &[0; N], &[0; N]), &z2);
    assert_eq!(z2_dagger, vec![0; N]);
    let z1: Vec<i16> = z1.into_iter().map(|entry| entry as i16).collect();
    let (mut committed, mut rebuilt) = (vec![7; N], vec![7; N]);
    let outcome = commitment(1, &a, &[0; N], &[0; N], &mut committed);
    assert_eq!(outcome, Ok(()));
    let outcome = rebuild(1, &a, &z1, &[0; N], &first_places(), &mut rebuilt);
    assert_eq!(outcome, Ok(()));
    assert_eq!(committed, vec![0; N]);
    assert_eq!(rebuilt, vec![0; N]);
}

#[test]
fn entries_at_and_beyond_largest() {
    let verdict = |set: Set, z1_entry: i16, z2_entry: i8| {
        let (mut z1, mut z2_dagger) = (vec![0; N], vec![0; N]);
        z1[5] = z1_entry;
        z2_dagger[7] = z2_entry;
        let list: Vec<u16> = (0..set.kappa() as u16).collect();
        let (mut rebuilt, mut record) = (vec![0; N], vec![0; Form::Plain.longest()]);
        let rebuilding = rebuild(set.number(), &[0; N], &z1, &z2_dagger, &list, &mut rebuilt);
        for form in Form::ALL {
            let number = set.number();
            let writing = write_in(form, number, 0, &z1, &z2_dagger, &list, &mut record);
            assert_eq!(rebuilding, writing);
        }
        rebuilding
    };
    for sign in [1, -1] {
        assert_eq!(verdict(Set::I, sign * 2100, 0), Ok(()));
        assert_eq!(verdict(Set::I, sign * 2101, 0), Err(Refusal::entry(5)));
    }
    for sign in [1, -1] {
        assert_eq!(verdict(Set::I, 0, sign * 2), Ok(()));
        assert_eq!(verdict(Set::I, 0, sign * 3), Err(Refusal::entry(519)));
        assert_eq!(verdict(Set::IV, 0, sign * 6), Ok(()));
        assert_eq!(verdict(Set::IV, 0, sign * 7), Err(Refusal::entry(519)));
    }
    assert_eq!(verdict(Set::I, i16::MIN, i8::MIN), Err(Refusal::entry(5)));
}
