//! The main job end to end: the ship signs, the shore checks.
//!
//! Key, noise and hash are the second program's; every call that signs or checks is the library's.

use crate::arguments::Arguments;
use crate::failure::{Failure, Named, Refused};
use crate::record::{bytes_of, key_name, rebuild, record_name, record_of, Record, Signature};
use crate::signer;
use bursztok::{Challenge, Response, VECTOR};
use second::testing::hash::list_of;
use second::testing::keys::{published, Key};
use second::testing::noise::{thresholds, Noise};
use second::testing::sheet::{Try, WORDS};
use second::{Form, Set};
use shell::console::print_error;
use shell::files::{make_folder, write_files};
use shell::numbers::{joined, text_of};
use shell::say;
use std::path::Path;
use std::process::ExitCode;
use std::time::{Duration, Instant};

/// The sheet, and the same with its figure changed.
const SHEET: &str = "Custody transfer 4711: 138,240.7 m3 of LNG at -161.2 C, berth 3, 06:40.";
const CHANGED_SHEET: &str =
    "Custody transfer 4711: 138,420.7 m3 of LNG at -161.2 C, berth 3, 06:40.";

/// The number that the ship's key has.
const KEY_NUMBER: u32 = 7;

pub fn demo(arguments: &Arguments) -> Result<ExitCode, Failure> {
    let number = arguments.number_or("set", 0)?;
    let last = Set::ALL.len();
    let set = u32::try_from(number)
        .ok()
        .and_then(|number| Set::asked(number).ok())
        .ok_or_else(|| arguments.fault(format!("--set is {number}, expected 0 to {last}")))?;
    let seed = arguments.number_or("seed", 1)?;
    let sheets = arguments.number_or("sheets", 0)?;
    let form = arguments.form();
    let folder = arguments.given("folder").map(Path::new);
    if let Some(folder) = folder {
        make_folder(folder)?;
    }
    let mut noise = Noise::new(seed);

    let number = set.number();
    say!("The main job end to end, with set {number} and seed {seed}.\n");
    let key = make_key(set, &mut noise)?;
    let signed = sign_aloud(set, &key, &mut noise)?;
    let record = hand_over(form, set, &signed)?;
    let signature = check_aloud(set, &key, &record, &signed.committed)?;
    show_damage(form, &record)?;
    let outcome = check(set, &key, &signature, CHANGED_SHEET).map(|_| ());
    show("the sheet's figure changed, the record whole", 12, outcome)?;
    if sheets > 0 {
        say!("\n6. {sheets} sheets more, each signed, written, read and checked.");
        let start = Instant::now();
        let sign = |sheet: &str| sign_one(form, set, &key, sheet, &mut noise);
        let tries = sign_and_check_many(set, &key, sheets, sign)?;
        let seconds = start.elapsed().as_secs_f64();
        say!("   All {sheets} hold; {tries} tries, {seconds:.1} seconds.");
    }
    if let Some(folder) = folder {
        keep(folder, &key, &signed, &record)?;
        let folder = folder.display();
        say!(
            "\nThe sheet (sheet.txt), its record (sheet.record), the key and what the signing took"
        );
        say!("are in {folder}. Sign it again, and check it, with:");
        let packed = match form {
            Form::Plain => "",
            Form::Packed => " --packed",
        };
        say!("  bursztok sign --set {number} --key {KEY_NUMBER} --folder {folder} \\");
        say!("    --record {folder}/again.record{packed}");
        say!("  bursztok check --a {folder}/a.txt --record {folder}/again.record \\");
        say!("    --hash 'bursztok-second hash {number}' --sheet {folder}/sheet.txt");
    }
    say!("\nDone: the sheet signed on the ship holds on the shore.");
    Ok(ExitCode::SUCCESS)
}

/// Everything that signing takes and gives, as 'bursztok sign --folder' takes it.
fn keep(folder: &Path, key: &Key, signed: &Signed, record: &[u8]) -> Result<(), Failure> {
    let text = |name: &str, bytes: Vec<u8>| (folder.join(name), bytes);
    let last = &signed.last_try;
    write_files(&[
        text("f.txt", text_of("f", &key.f)),
        text("g.txt", text_of("g", &key.g)),
        text("a.txt", text_of("a", &key.a)),
        text("y1.txt", text_of("y1", &last.y1)),
        text("y2.txt", text_of("y2", &last.y2)),
        text("list.txt", text_of("list", &last.list)),
        text("sign.txt", text_of("sign", &[u8::from(last.sign)])),
        text("thresholds.txt", text_of("thresholds", &last.thresholds)),
        text("words.txt", text_of("words", &last.words)),
        text("commitment.txt", text_of("commitment", &signed.committed)),
        text("sheet.txt", SHEET.into()),
        text("sheet.record", record.to_vec()),
    ])?;
    Ok(())
}

fn make_key(set: Set, noise: &mut Noise) -> Result<Key, Failure> {
    say!("1. A key. The second program's key maker makes one from the seed, for tests only:");
    say!("   f and g are secret and small, a = (2g + 1) / f modulo 12289 is public.");
    let key = published(set, noise);
    bursztok::key_test(set.number(), &key.f, &key.g, &key.a).named("key test")?;
    say!("   The library's key test gives 0: the key holds. It is key number {KEY_NUMBER}.\n");
    Ok(key)
}

struct Signed {
    committed: Vec<u16>,
    last_try: Try,
    /// The key number.
    key: u32,
    z1: Vec<i16>,
    z2_dagger: Vec<i8>,
}

/// One try of signing with new masks: the commitment and list, and the response to them.
fn try_to_sign(
    set: Set,
    key: &Key,
    sheet: &str,
    noise: &mut Noise,
) -> Result<(Signed, Response), Failure> {
    let (y1, y2) = (noise.mask(set), noise.mask(set));
    let mut committed = vec![0; VECTOR];
    bursztok::commitment(set.number(), &key.a, &y1, &y2, &mut committed).named("commitment")?;
    let list = list_of(set, &committed, sheet.as_bytes());
    let last_try = Try {
        y1,
        y2,
        list,
        sign: noise.bit(),
        thresholds: thresholds(set),
        words: noise.words(WORDS),
    };
    let (mut z1, mut z2_dagger) = (vec![0; VECTOR], vec![0; VECTOR]);
    let challenge = Challenge {
        f: &key.f,
        g: &key.g,
        a: &key.a,
        y1: &last_try.y1,
        y2: &last_try.y2,
        list: &last_try.list,
        sign: last_try.sign,
        thresholds: &last_try.thresholds,
        words: &last_try.words,
    };
    let number = set.number();
    let response = bursztok::respond(number, KEY_NUMBER, challenge, &mut z1, &mut z2_dagger);
    let signed = Signed {
        committed,
        last_try,
        key: response.key,
        z1,
        z2_dagger,
    };
    Ok((signed, response))
}

/// Whether the try was given out. 8, 10 and 11 ask for new masks; any other refusal is a failure.
fn given_out(response: Response) -> Result<bool, Failure> {
    match response.outcome {
        Ok(()) => Ok(true),
        Err(refusal) if [8, 10, 11].contains(&refusal.number()) => Ok(false),
        Err(_) => signer::given_out(response).map(|()| true),
    }
}

fn sign_aloud(set: Set, key: &Key, noise: &mut Noise) -> Result<Signed, Failure> {
    say!("2. The ship signs the sheet \"{SHEET}\"");
    for count in 1.. {
        say!("   Try {count}: new masks from the noise source, and the commitment to them;");
        let (signed, response) = try_to_sign(set, key, SHEET, noise)?;
        say!(
            "   the commitment starts {} ..",
            joined(&signed.committed[..12])
        );
        say!("   A test hash of commitment and sheet makes the list:");
        say!("   {}", joined(&signed.last_try.list));
        if given_out(response)? {
            say!(
                "   The response is given out; its draw took {} words.",
                response.words
            );
            say!("   z1 starts {} ..\n", joined(&signed.z1[..12]));
            return Ok(signed);
        }
        if let Err(refusal) = response.outcome {
            say!("   The response refuses with {refusal}. That is part of the scheme.");
        }
    }
    unreachable!("tries have no end")
}

fn hand_over(form: Form, set: Set, signed: &Signed) -> Result<Vec<u8>, Failure> {
    let record = record_of_try(form, set, signed)?;
    let (name, count) = (record_name(form), record.len());
    let than = match form {
        Form::Plain => String::new(),
        Form::Packed => {
            let plain = bytes_of(Form::Plain, set.number());
            format!(" where the plain one has {plain}")
        }
    };
    say!("3. The ship writes the {name}, {count} bytes{than}, and hands it to the shore.\n");
    Ok(record)
}

fn record_of_try(form: Form, set: Set, signed: &Signed) -> Result<Vec<u8>, Failure> {
    let (list, number) = (&signed.last_try.list, set.number());
    let Signed {
        key, z1, z2_dagger, ..
    } = signed;
    record_of(form, number, *key, z1, z2_dagger, list)
}

fn read_record(record: &[u8]) -> Result<Signature, Failure> {
    Record::of("the record", record.to_vec()).read()
}

/// The shore's check of a signature for a sheet.
fn check(set: Set, key: &Key, signature: &Signature, sheet: &str) -> Result<Vec<u16>, Failure> {
    let rebuilt = rebuild(&key.a, signature)?;
    let hashed = list_of(set, &rebuilt, sheet.as_bytes());
    bursztok::compare(signature.set, &signature.list, &hashed).named("comparison")?;
    Ok(rebuilt)
}

fn check_aloud(
    set: Set,
    key: &Key,
    record: &[u8],
    committed: &[u16],
) -> Result<Signature, Failure> {
    say!("4. The shore holds the public keys of its ships, the sheet and the record.");
    let signature = read_record(record)?;
    let stated = key_name(signature.key);
    say!(
        "   The reader gives 0: a signature of set {}, {stated}.",
        signature.set
    );
    if signature.key != KEY_NUMBER {
        let what = format!("the ship signed with key number {KEY_NUMBER}, and it is {stated}");
        return Err(Failure::Fault(what));
    }
    say!("   So the shore takes the public key of that number, and tries no other.");
    let rebuilt = check(set, key, &signature, SHEET)?;
    say!(
        "   The rebuild gives 0; it starts {} ..",
        joined(&rebuilt[..12])
    );
    if rebuilt != committed {
        let what = "the rebuilt vector is not the commitment";
        return Err(Failure::Fault(what.to_string()));
    }
    say!("   These are the 512 numbers that the ship committed to, every one.");
    say!("   Hashed with the sheet they make the list in the record: the comparison gives 0.");
    say!("   The sheet holds.\n");
    Ok(signature)
}

/// Damage to a record: what it is, the number that it must bring, and how it is done.
type Damage = (&'static str, u32, fn(&mut Vec<u8>));

const DAMAGE: [Damage; 3] = [
    ("a letter of the header changed", 13, |record| {
        record[2] = b'X'
    }),
    ("a byte of the list's count changed", 13, |record| {
        record[14] = 99
    }),
    ("the last byte lost", 13, |record| {
        record.pop();
    }),
];

const PLAIN_DAMAGE: [Damage; 2] = [
    ("entry 3 of z1 made far too large", 10, |record| {
        record[31] = 0x7f
    }),
    ("the list's last place sent past 511", 5, |record| {
        *last(record) = 0xff
    }),
];

const PACKED_DAMAGE: [Damage; 3] = [
    ("a spare bit of the last byte set", 13, |record| {
        *last(record) |= 0x80
    }),
    // Its four high bits are the low ones of this byte.
    ("entry 3 of z1 made far too large", 10, |record| {
        record[30] = record[30] & 0xf0 | 0x07
    }),
    ("the list's first places lost", 5, |record| {
        record[1112..1120].fill(0)
    }),
];

fn last(record: &mut [u8]) -> &mut u8 {
    record.last_mut().expect("a record has bytes")
}

fn show_damage(form: Form, record: &[u8]) -> Result<(), Failure> {
    say!("5. Damaged on the way, it is refused:");
    let of_form: &[Damage] = match form {
        Form::Plain => &PLAIN_DAMAGE,
        Form::Packed => &PACKED_DAMAGE,
    };
    for (damage, number, change) in DAMAGE.iter().chain(of_form) {
        let mut damaged = record.to_vec();
        change(&mut damaged);
        show(damage, *number, read_record(&damaged).map(|_| ()))?;
    }
    Ok(())
}

fn show(damage: &str, expected: u32, outcome: Result<(), Failure>) -> Result<(), Failure> {
    match outcome {
        Err(Failure::Refused(Refused { call, refusal, .. })) if refusal.number() == expected => {
            say!(
                "   - {damage}: the {call} refuses with number {expected}, place {}:",
                refusal.place()
            );
            say!("     {}.", refusal.meaning());
            Ok(())
        }
        Err(failure) => Err(failure),
        Ok(()) => Err(Failure::Fault(format!("{damage}, and it was not refused"))),
    }
}

/// Signs a sheet, with as many tries as it takes, and writes its record.
fn sign_one(
    form: Form,
    set: Set,
    key: &Key,
    sheet: &str,
    noise: &mut Noise,
) -> Result<(Vec<u8>, u64), Failure> {
    let mut tries = 0;
    loop {
        tries += 1;
        let (signed, response) = try_to_sign(set, key, sheet, noise)?;
        if given_out(response)? {
            return Ok((record_of_try(form, set, &signed)?, tries));
        }
    }
}

/// Has so many sheets signed, and checks each record. Gives the count of tries.
fn sign_and_check_many(
    set: Set,
    key: &Key,
    sheets: u64,
    mut sign: impl FnMut(&str) -> Result<(Vec<u8>, u64), Failure>,
) -> Result<u64, Failure> {
    let (mut shown, mut progress) = (Instant::now(), false);
    let mut tries = 0;
    for done in 0..sheets {
        let sheet = format!("{SHEET} Sheet {done}.");
        let (record, taken) = sign(&sheet)?;
        tries += taken;
        check(set, key, &read_record(&record)?, &sheet)?;
        if shown.elapsed() > Duration::from_millis(500) {
            (shown, progress) = (Instant::now(), true);
            print_error(format_args!("\r   {} of {sheets} ", done + 1));
        }
    }
    if progress {
        print_error(format_args!("\r{:30}\r", ""));
    }
    Ok(tries)
}

#[cfg(test)]
mod tests {
    use super::{show, sign_and_check_many, sign_one};
    use crate::failure::Failure;
    use second::testing::keys::published;
    use second::testing::noise::Noise;
    use second::{Form, Set};

    /// The number that many sheets end with, where the third record is made from the right one.
    fn ends_with(
        form: Form,
        change: impl Fn(&mut Vec<u8>),
        other_sheet: bool,
    ) -> (u64, Option<u32>) {
        let mut noise = Noise::new(5);
        let key = published(Set::II, &mut noise);
        let mut count = 0;
        let outcome = sign_and_check_many(Set::II, &key, 5, |sheet| {
            count += 1;
            let third = count == 3;
            let sheet = if third && other_sheet {
                "another"
            } else {
                sheet
            };
            let (mut record, tries) = sign_one(form, Set::II, &key, sheet, &mut noise)?;
            if third {
                change(&mut record);
            }
            Ok((record, tries))
        });
        let number = match outcome {
            Ok(_) => None,
            Err(Failure::Refused(refused)) => Some(refused.refusal.number()),
            Err(other) => panic!("{other}"),
        };
        (count, number)
    }

    #[test]
    fn every_sheet_of_many_is_checked() {
        for form in Form::ALL {
            assert_eq!(ends_with(form, |_| {}, false), (5, None));
            assert_eq!(ends_with(form, |_| {}, true), (3, Some(12)));
            let changed = ends_with(form, |record| record[2] ^= 1, false);
            assert_eq!(changed, (3, Some(13)));
        }
    }

    #[test]
    fn damage_that_is_not_refused_is_a_fault() {
        let outcome = show("nothing", 13, Ok(()));
        assert!(matches!(outcome, Err(Failure::Fault(_))));
        let other = bursztok::Refusal::List;
        let outcome = show("nothing", 13, Err(Failure::refused("reader", other)));
        assert!(matches!(outcome, Err(Failure::Refused(_))));
    }
}
