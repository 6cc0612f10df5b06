//! "Numbers that come back": each call's order, with all later faults present at once, output buffers
//! that keep their contents, and no key number on a refusal.

use second::form::{turn_bit, Section};
use second::key::{require_key_length, require_relation};
use second::parameters::N;
use second::record::{write_in, Held};
use second::testing::calls::{run, Answered, Call, Input, OutputLengths, Outputs};
use second::testing::edges::{past_k, Edge};
use second::testing::key_numbers::NUMBERS;
use second::testing::keys::{self, Key};
use second::testing::noise::Noise;
use second::testing::sheet::sign;
use second::{commitment, compare, Form, Refusal, Set};

/// Refusals of a call, each with what brings it about.
type Faults<'a> = &'a [(Refusal, &'a dyn Fn(&mut Input))];

/// The key number of every right input: it is lent, and stands in the records.
const KEY: u32 = 0xd1c2_b3a4;

/// Runs a call on filled buffers, and sees that a refusal leaves them alone and answers no key number.
fn answer(call: Call, input: &Input) -> Answered {
    let answered = answer_of(call, input);
    if answered.number == 0 && call.answers_key() {
        assert_eq!(answered.key, KEY);
    }
    answered
}

/// The same whatever the key number.
fn answer_of(call: Call, input: &Input) -> Answered {
    let lengths = input.lengths;
    let mut rounded = vec![0xabcd; lengths.rounded];
    let mut rests = vec![-79; lengths.rests];
    let mut z1 = vec![-77; lengths.z1];
    let mut z2_dagger = vec![-78; lengths.z2_dagger];
    let mut list = vec![0xabce; lengths.list];
    let mut record = vec![0xab; lengths.record];
    let outputs = Outputs {
        rounded: &mut rounded,
        rests: &mut rests,
        z1: &mut z1,
        z2_dagger: &mut z2_dagger,
        list: &mut list,
        record: &mut record,
    };
    let answered = run(call, input, outputs);
    if answered.number != 0 {
        assert_eq!(rounded, vec![0xabcd; lengths.rounded]);
        assert_eq!(rests, vec![-79; lengths.rests]);
        assert_eq!(z1, vec![-77; lengths.z1]);
        assert_eq!(z2_dagger, vec![-78; lengths.z2_dagger]);
        assert_eq!(list, vec![0xabce; lengths.list]);
        assert_eq!(record, vec![0xab; lengths.record]);
        assert_eq!(answered.key, 0);
    }
    answered
}

fn refusal(call: Call, input: &Input) -> (u32, u32) {
    let answered = answer(call, input);
    (answered.number, answered.place)
}

/// Brings faults in from the last to the first: the newest fault must be the one that is named,
/// with all later ones present, and alone.
fn require_order(call: Call, right: &Input, order: Faults) {
    assert_eq!(refusal(call, right), (0, 0));
    let mut faulty = right.clone();
    for (wanted, fault) in order.iter().rev() {
        let wanted = (wanted.number, wanted.place);
        fault(&mut faulty);
        assert_eq!(refusal(call, &faulty), wanted, "with the faults after it");
        let mut alone = right.clone();
        fault(&mut alone);
        assert_eq!(refusal(call, &alone), wanted, "alone");
    }
}

/// Each fault alone brings its refusal.
fn require_each(call: Call, right: &Input, faults: Faults) {
    for (wanted, fault) in faults {
        let mut input = right.clone();
        fault(&mut input);
        assert_eq!(refusal(call, &input), (wanted.number, wanted.place));
    }
}

/// An input on which every call is done: a signed sheet and its records.
fn right_input(set: Set, seed: u64) -> Input {
    let mut noise = Noise::new(seed);
    let key = keys::published(set, &mut noise);
    let signed = sign(set, &key, b"sheet", &mut noise);
    let (last_try, signature) = (signed.last_try, signed.signature);
    let (z1, z2_dagger, list) = (signature.z1, signature.z2_dagger, signature.list);
    let [record, packed] = Form::ALL.map(|form| {
        let mut record = vec![0; form.total(set)];
        let number = set.number();
        write_in(form, number, KEY, &z1, &z2_dagger, &list, &mut record).unwrap();
        record
    });
    Input {
        set: set.number(),
        key: KEY,
        f: key.f,
        g: key.g,
        a: key.a,
        y1: last_try.y1,
        y2: last_try.y2,
        hashed: list.clone(),
        list,
        sign: last_try.sign,
        thresholds: last_try.thresholds,
        words: last_try.words,
        z1,
        z2_dagger,
        record,
        packed,
        lengths: OutputLengths::stated(set),
    }
}

/// Turns one coefficient of a by one: the relation breaks.
fn break_relation(input: &mut Input) {
    input.a[3] = (input.a[3] + 1) % 12289;
}

/// Wrong counts, past K too.
fn fill_g(input: &mut Input) {
    input.g.fill(2);
}

/// The same with another key.
fn with_key(input: &Input, key: &Key) -> Input {
    Input {
        f: key.f.clone(),
        g: key.g.clone(),
        a: key.a.clone(),
        ..input.clone()
    }
}

#[test]
fn key_test_order() {
    for set in Set::ALL {
        let order: Faults = &[
            (Refusal::SET, &|input| input.set = Set::ABOVE),
            (Refusal::LENGTH, &|input| input.g.push(0)),
            (Refusal::COEFFICIENT, &|input| input.a[511] = 12289),
            (Refusal::COUNTS, &fill_g),
            (Refusal::RELATION, &break_relation),
        ];
        require_order(Call::KeyTest, &right_input(set, 51), order);
    }
}

#[test]
fn each_vector_of_the_key_is_tested() {
    let faults: Faults = &[
        (Refusal::LENGTH, &|input| input.f.truncate(511)),
        (Refusal::LENGTH, &|input| input.g.clear()),
        (Refusal::LENGTH, &|input| input.a.push(0)),
        (Refusal::COEFFICIENT, &|input| input.f[0] = 3),
        (Refusal::COEFFICIENT, &|input| input.f[511] = -3),
        (Refusal::COEFFICIENT, &|input| input.g[0] = i8::MIN),
        (Refusal::COEFFICIENT, &|input| input.g[511] = i8::MAX),
        (Refusal::COEFFICIENT, &|input| input.a[0] = u16::MAX),
        (Refusal::COUNTS, &|input| input.f.fill(0)),
        (Refusal::COUNTS, &|input| input.g.fill(-1)),
        (Refusal::RELATION, &|input| input.f.reverse()),
    ];
    require_each(Call::KeyTest, &right_input(Set::III, 52), faults);
}

#[test]
fn every_edge_of_the_counts_is_refused() {
    let mut noise = Noise::new(53);
    let counts = [13, 13, 21, 21].into_iter().cycle();
    for (set, count) in Set::ALL.into_iter().zip(counts) {
        let right = right_input(set, 53);
        let key = keys::published(set, &mut noise);
        let edges = Edge::all(set);
        assert_eq!(edges.len(), count);
        for edge in edges {
            let off = edge.of(set, &key, &mut noise);
            assert_eq!(require_relation(&off.f, &off.g, &off.a), Ok(()));
            for call in [Call::KeyTest, Call::Respond] {
                let answered = answer(call, &with_key(&right, &off));
                assert_eq!(answered, Answered::new((15, 0)), "{}", edge.name());
            }
        }
    }
}

#[test]
fn the_counts_go_before_the_length_and_the_relation() {
    let mut noise = Noise::new(66);
    let (long, broken) = (Err(Refusal::KEY_LENGTH), Err(Refusal::RELATION));
    for set in Set::ALL {
        let right = right_input(set, 66);
        let past_k = past_k(set, &mut noise);
        for (key, breaks, length, relation) in [
            (keys::thin(), true, Ok(()), broken),
            (past_k.clone(), false, long, Ok(())),
            (past_k, true, long, broken),
        ] {
            let mut input = with_key(&right, &key);
            if breaks {
                break_relation(&mut input);
            }
            assert_eq!(require_key_length(set, &input.f, &input.g), length);
            assert_eq!(require_relation(&input.f, &input.g, &input.a), relation);
            for call in [Call::KeyTest, Call::Respond] {
                assert_eq!(answer(call, &input), Answered::new((15, 0)));
            }
        }
    }
}

#[test]
fn commitment_order() {
    for set in Set::ALL {
        let order: Faults = &[
            (Refusal::SET, &|input| input.set = u32::MAX),
            (Refusal::LENGTH, &|input| input.lengths.rounded = 511),
            (Refusal::COEFFICIENT, &|input| input.a[0] = 12289),
            (Refusal::MASK, &|input| input.y2[511] = -4097),
        ];
        require_order(Call::Commitment, &right_input(set, 54), order);
    }
}

#[test]
fn commitment_with_rests_order() {
    for set in Set::ALL {
        let order: Faults = &[
            (Refusal::SET, &|input| input.set = Set::ABOVE),
            (Refusal::LENGTH, &|input| input.lengths.rests = 511),
            (Refusal::COEFFICIENT, &|input| input.a[0] = 12289),
            (Refusal::MASK, &|input| input.y2[511] = -4097),
        ];
        require_order(Call::CommitmentWithRests, &right_input(set, 63), order);
    }
}

#[test]
fn each_vector_of_the_commitment_with_rests_is_tested() {
    let faults: Faults = &[
        (Refusal::LENGTH, &|input| input.a.push(0)),
        (Refusal::LENGTH, &|input| input.y1.truncate(511)),
        (Refusal::LENGTH, &|input| input.y2.clear()),
        (Refusal::COEFFICIENT, &|input| input.a[511] = 12289),
        (Refusal::MASK, &|input| input.y1[0] = 4097),
        (Refusal::MASK, &|input| input.y2[511] = 4097),
    ];
    require_each(Call::CommitmentWithRests, &right_input(Set::IV, 64), faults);
}

#[test]
fn each_output_of_the_commitment_with_rests_is_of_its_length() {
    let right = right_input(Set::II, 65);
    let faults: [fn(&mut OutputLengths, usize); 2] = [
        |lengths, length| lengths.rounded = length,
        |lengths, length| lengths.rests = length,
    ];
    for length in [0, 511, 513] {
        for fault in faults {
            let mut input = right.clone();
            fault(&mut input.lengths, length);
            // The length goes before the mask.
            input.y1[0] = 4097;
            assert_eq!(refusal(Call::CommitmentWithRests, &input), (2, 0));
        }
    }
}

#[test]
fn masks_at_their_limit() {
    let mut out = vec![0; N];
    let (mut y1, mut y2) = (vec![4096; N], vec![-4096; N]);
    assert_eq!(commitment(4, &[12288; N], &y1, &y2, &mut out), Ok(()));
    y1[17] = 4097;
    let outcome = commitment(4, &[12288; N], &y1, &y2, &mut out);
    assert_eq!(outcome, Err(Refusal::MASK));
    y1[17] = 0;
    y2[17] = i16::MIN;
    let outcome = commitment(4, &[12288; N], &y1, &y2, &mut out);
    assert_eq!(outcome, Err(Refusal::MASK));
}

#[test]
fn response_order() {
    for set in Set::ALL {
        let mut right = right_input(set, 55);
        // A walk that any words pass: the refusals of the length rule come after it.
        right.thresholds.fill(u64::MAX);
        let order: Faults = &[
            (Refusal::SET, &|input| input.set = Set::ABOVE),
            (Refusal::LENGTH, &|input| input.thresholds.push(0)),
            (Refusal::COEFFICIENT, &|input| input.f[100] = 3),
            (Refusal::MASK, &|input| input.y1[0] = 4097),
            (Refusal::LIST, &|input| input.list[1] = input.list[0]),
            (Refusal::COUNTS, &fill_g),
            (Refusal::RELATION, &break_relation),
            (Refusal::DRAW, &|input| input.thresholds.fill(0)),
            (Refusal::entry(6), &|input| input.y1[6] = 4000),
            (Refusal::SUM, &|input| {
                input.y1.fill(set.largest() as i16 - 300);
            }),
        ];
        require_order(Call::Respond, &right, order);
    }
}

#[test]
fn each_vector_of_the_response_is_of_its_length() {
    let right = right_input(Set::II, 56);
    let faults: [&dyn Fn(&mut Input); 5] = [
        &|input| input.lengths.z1 = 511,
        &|input| input.lengths.z2_dagger = 513,
        &|input| input.y1.clear(),
        &|input| input.y2.push(0),
        &|input| input.thresholds.truncate(30),
    ];
    for fault in faults {
        let mut input = right.clone();
        fault(&mut input);
        // The length goes before the coefficient.
        input.f[0] = 9;
        assert_eq!(refusal(Call::Respond, &input), (2, 0));
    }
}

#[test]
fn words_run_out_at_every_count() {
    for set in Set::ALL {
        let mut input = right_input(set, 57);
        let done = answer(Call::Respond, &input);
        assert_eq!(done.number, 0);
        let words = input.words.clone();
        for count in 0..done.words {
            input.words = words[..count as usize].to_vec();
            let answered = answer(Call::Respond, &input);
            assert_eq!((answered.number, answered.words), (9, count));
        }
        input.words = words[..done.words as usize].to_vec();
        assert_eq!(answer(Call::Respond, &input), done);
    }
}

#[test]
fn the_count_stands_beside_refusals_after_the_walk() {
    let mut input = right_input(Set::I, 58);
    input.thresholds.fill(u64::MAX);
    input.y1[200] = -4096;
    let answered = answer(Call::Respond, &input);
    assert_eq!((answered.number, answered.place), (10, 200));
    assert!(answered.words > 0);
    input.set = Set::ABOVE;
    let answered = answer(Call::Respond, &input);
    assert_eq!((answered.number, answered.words), (1, 0));
}

#[test]
fn rebuild_order() {
    for set in Set::ALL {
        let order: Faults = &[
            (Refusal::SET, &|input| input.set = Set::ABOVE),
            (Refusal::LENGTH, &|input| input.lengths.rounded = 513),
            (Refusal::COEFFICIENT, &|input| input.a[0] = 12289),
            (Refusal::LIST, &|input| {
                input.list.pop();
            }),
            (Refusal::entry(3), &|input| input.z1[3] = i16::MIN),
            (Refusal::entry(700), &|input| input.z2_dagger[188] = i8::MIN),
            (Refusal::SUM, &|input| input.z1.fill(1500)),
        ];
        for call in [Call::Rebuild, Call::RebuildDefaultOne] {
            require_order(call, &right_input(set, 59), order);
        }
    }
}

#[test]
fn comparison_order() {
    for set in Set::ALL {
        let differ = |input: &mut Input| {
            let kappa = input.hashed.len() as u16;
            input.hashed = (0..kappa).collect();
        };
        let claimed: Faults = &[
            (Refusal::SET, &|input| input.set = Set::ABOVE),
            (Refusal::LIST, &|input| input.list.push(511)),
            (Refusal::LISTS_DIFFER, &differ),
        ];
        let hashed: Faults = &[
            (Refusal::SET, &|input| input.set = Set::ABOVE),
            (Refusal::LIST, &|input| input.hashed.reverse()),
            (Refusal::LISTS_DIFFER, &differ),
        ];
        for call in [Call::Compare, Call::CompareDefaultOne] {
            for order in [claimed, hashed] {
                require_order(call, &right_input(set, 60), order);
            }
        }
    }
}

#[test]
fn the_form_of_a_list() {
    let right: Vec<u16> = (0..23).collect();
    let with = |place: usize, value: u16| {
        let mut list = right.clone();
        list[place] = value;
        compare(1, &list, &right)
    };
    assert_eq!(with(22, 22), Ok(()));
    assert_eq!(with(22, 511), Err(Refusal::LISTS_DIFFER));
    assert_eq!(with(22, 512), Err(Refusal::LIST));
    assert_eq!(with(22, 21), Err(Refusal::LIST));
    assert_eq!(with(0, 1), Err(Refusal::LIST));
    assert_eq!(with(5, u16::MAX), Err(Refusal::LIST));
    // Two lists that are alike and improper are refused for their form.
    assert_eq!(compare(1, &[], &[]), Err(Refusal::LIST));
    assert_eq!(compare(3, &right, &right), Err(Refusal::LIST));
}

#[test]
fn writer_order() {
    for set in Set::ALL {
        for (call, form) in [
            (Call::Write, Form::Plain),
            (Call::WritePacked, Form::Packed),
        ] {
            let short = form.total(set) - 1;
            let order: Faults = &[
                (Refusal::SET, &|input| input.set = Set::ABOVE),
                (Refusal::LENGTH, &|input| input.z2_dagger.truncate(511)),
                (Refusal::LIST, &|input| input.list[0] = 512),
                (Refusal::entry(0), &|input| input.z1[0] = -2101),
                (Refusal::entry(512), &|input| input.z2_dagger[0] = 7),
                (Refusal::SUM, &|input| input.z1.fill(-1500)),
                (Refusal::ROOM, &|input| input.lengths.record = short),
            ];
            require_order(call, &right_input(set, 61), order);
        }
    }
}

/// Changes what the record of this form holds. Its header is made anew.
fn change(input: &mut Input, form: Form, change: impl Fn(&mut Held)) {
    let set = Set::stated(input.set).expect("the record's set");
    let record = input.record_in(form);
    let mut held = Held::of(form, set, record);
    change(&mut held);
    *record = held.record(form);
}

#[test]
fn order_of_readers_and_conversions() {
    for set in Set::ALL {
        for call in [Call::Read, Call::ReadPacked, Call::Pack, Call::Unpack] {
            let form = call.takes().expect("it is lent a record");
            let last = form.total(set) - 1;
            // Nine bits hold no place past 511.
            let past = |held: &Held| match form {
                Form::Plain => 512,
                Form::Packed => held.list[1],
            };
            let least = -1 << (form.bits(Section::Z2Dagger) - 1);
            let short = form.other().total(set) - 1;
            let lengths: Faults = &[(Refusal::LENGTH, &|input| input.lengths.list -= 1)];
            let header: Faults = &[
                (Refusal::header(3), &|input| {
                    input.record_in(form).truncate(3)
                }),
                (Refusal::header(0), &|input| input.record_in(form)[3] = b'2'),
                (Refusal::header(4), &|input| {
                    input.record_in(form)[4] = Set::ABOVE as u8
                }),
                (Refusal::header(18), &|input| input.record_in(form).push(0)),
            ];
            let spare: Faults = &[(Refusal::header(last), &|input| {
                turn_bit(input.record_in(form), 8 * last + 7)
            })];
            let held: Faults = &[
                (Refusal::LIST, &|input| {
                    change(input, form, |held| held.list[0] = past(held))
                }),
                (Refusal::entry(511), &|input| {
                    change(input, form, |held| held.z1[511] = 2101)
                }),
                (Refusal::entry(1023), &|input| {
                    change(input, form, |held| held.z2_dagger[511] = least)
                }),
                (Refusal::SUM, &|input| {
                    change(input, form, |held| held.z1.fill(1500))
                }),
            ];
            let room: Faults = &[(Refusal::ROOM, &|input| input.lengths.record = short)];
            let order = [
                if call.writes().is_none() {
                    lengths
                } else {
                    &[]
                },
                header,
                if form == Form::Packed { spare } else { &[] },
                held,
                if call.writes().is_some() { room } else { &[] },
            ];
            require_order(call, &right_input(set, 62), &order.concat());
        }
    }
}

/// 02, C-13: no number is refused for being this one, and no other answer depends on it.
#[test]
fn any_key_number_is_taken() {
    for set in [Set::I, Set::VIII] {
        let right = right_input(set, 68);
        for call in Call::ALL {
            let outcome = |key: u32| {
                let mut input = right.clone();
                input.key = key;
                for form in Form::ALL {
                    input.record_in(form)[20..24].copy_from_slice(&key.to_le_bytes());
                }
                let answered = answer_of(call, &input);
                let wanted = if call.answers_key() { key } else { 0 };
                assert_eq!(answered.key, wanted, "{}, {key}", call.name());
                Answered { key: 0, ..answered }
            };
            let not_stated = outcome(0);
            assert_eq!((not_stated.number, not_stated.place), (0, 0));
            for key in NUMBERS {
                assert_eq!(outcome(key), not_stated, "{}, {key}", call.name());
            }
        }
    }
}

#[test]
fn the_readers_list_buffer_is_of_its_length() {
    for set in Set::ALL {
        let mut input = right_input(set, 67);
        // The set's own kappa and the largest of before among them.
        for length in [0, set.kappa(), 39, 112, 113, 114] {
            input.lengths.list = length;
            let wanted = if length == 113 { (0, 0) } else { (2, 0) };
            for call in [Call::Read, Call::ReadPacked] {
                assert_eq!(refusal(call, &input), wanted, "{set:?}, {length}");
            }
        }
    }
}
