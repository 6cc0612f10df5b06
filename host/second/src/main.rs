//! Makes files for trying the desk's tool: test keys, a try of signing that is given out, and
//! the test hash; and the test key of the C example. Reads a record as an older reader does.

use second::answers::number_and_place;
use second::parameters::N;
use second::testing::hash::list_of;
use second::testing::keys::published;
use second::testing::noise::{thresholds, Noise};
use second::testing::sheet::sign;
use second::{Edition, Form as RecordForm, Set};
use shell::console::{arguments, shown};
use shell::files::{make_folder, read_file, write_files};
use shell::numbers::{joined, read_numbers, text_of};
use shell::options::{Form, Options};
use shell::{say, warn};
use std::fmt::Display;
use std::path::{Path, PathBuf};
use std::process::ExitCode;

const USAGE: &str = "\
bursztok-second: test files for the desk's tool, made by the second program

  bursztok-second try SET SEED MESSAGE FOLDER
      Makes a test key of the set from the seed and signs the file MESSAGE with it. Writes to
      FOLDER what the signing took and gave: f, g, a, y1, y2, list, thresholds, words,
      commitment, z1 and z2 (each with the ending .txt), and sign.txt with the sign bit.
  bursztok-second header SET SEED
      Prints a C header with a test key of the set and the set's thresholds, as
      examples/test_key.h has them.
  bursztok-second hash SET VECTOR MESSAGE
      Prints the list that the test hash makes of the rounded vector in the text file VECTOR,
      512 numbers, and the file MESSAGE.
  bursztok-second hash SET
      The same of standard input: the vector in two bytes an entry, low first, then the message,
      as 'bursztok check --hash' gives them.
  bursztok-second read RECORD
      Prints what the reader answers for the file RECORD: number, place, set and key number. A
      record that opens with the packed letters goes to the packed reader.
  bursztok-second read-older RECORD
      The same of the reader before the longer challenges, which knows sets 1 to 4, no packed
      record and no key number.

SET is 1 to 8, or 0 for set 4. '-' stands for standard input. Keys and hash are for tests only.
Exit status: 0 done, 1 the reader refuses, 2 bad usage or bad file.";

fn main() -> ExitCode {
    let words = arguments();
    if words.iter().any(|word| word == "--help" || word == "-h") {
        say!("{USAGE}");
        return ExitCode::SUCCESS;
    }
    match run(&words) {
        Ok(status) => status,
        Err(message) => {
            warn!("bursztok-second: {message}");
            ExitCode::from(2)
        }
    }
}

fn run(words: &[String]) -> Result<ExitCode, String> {
    let Some((name, rest)) = words.split_first() else {
        return Err("a subcommand is missing; try --help".to_string());
    };
    let taken = |words| {
        let form = Form {
            name,
            values: &[],
            flags: &[],
            words,
        };
        Options::parse(form, rest)
    };
    match name.as_str() {
        "try" => make_try(taken(&["SET", "SEED", "MESSAGE", "FOLDER"])?.words())?,
        "header" => print_header(taken(&["SET", "SEED"])?.words())?,
        "hash" if rest.len() < 2 => hash_stream(taken(&["SET"])?.words())?,
        "hash" => hash_files(taken(&["SET", "VECTOR", "MESSAGE"])?.words())?,
        "read" => return read(Edition::THIS, &RecordForm::ALL, taken(&["RECORD"])?.words()),
        "read-older" => {
            let forms = [RecordForm::Plain];
            return read(Edition::OLDER, &forms, taken(&["RECORD"])?.words());
        }
        _ => return Err(format!("'{}' is no subcommand; try --help", shown(name))),
    }
    Ok(ExitCode::SUCCESS)
}

fn make_try(words: &[String]) -> Result<(), String> {
    let (set, mut noise) = (set_named(&words[0])?, Noise::new(seed_named(&words[1])?));
    let message = read_file(Path::new(&words[2]))?;
    if words[3].is_empty() {
        return Err("try: the folder has no name".to_string());
    }
    let folder = PathBuf::from(&words[3]);
    let key = published(set, &mut noise);
    let signed = sign(set, &key, &message, &mut noise);
    let (last_try, signature) = (signed.last_try, signed.signature);
    make_folder(&folder)?;
    write_files(&[
        numbers_file(&folder, "f", &key.f),
        numbers_file(&folder, "g", &key.g),
        numbers_file(&folder, "a", &key.a),
        numbers_file(&folder, "y1", &last_try.y1),
        numbers_file(&folder, "y2", &last_try.y2),
        numbers_file(&folder, "list", &last_try.list),
        numbers_file(&folder, "sign", &[u8::from(last_try.sign)]),
        numbers_file(&folder, "thresholds", &last_try.thresholds),
        numbers_file(&folder, "words", &last_try.words),
        numbers_file(&folder, "commitment", &signed.committed),
        numbers_file(&folder, "z1", &signature.z1),
        numbers_file(&folder, "z2", &signature.z2_dagger),
    ])
}

fn print_header(words: &[String]) -> Result<(), String> {
    let (set, seed) = (set_named(&words[0])?, seed_named(&words[1])?);
    let key = published(set, &mut Noise::new(seed));
    say!(
        "/* A test key of set {}, made by the second program from seed {seed}, and the set's",
        set.number()
    );
    say!(" * thresholds. For tests only: everybody knows it. */");
    say!("#ifndef TEST_KEY_H\n#define TEST_KEY_H\n\n#include <stdint.h>\n");
    say!("#define TEST_KEY_SET {}\n", set.number());
    print_array("int8_t", "test_key_f", "", &key.f);
    print_array("int8_t", "test_key_g", "", &key.g);
    print_array("uint16_t", "test_key_a", "", &key.a);
    print_array("uint64_t", "test_thresholds", "u", &thresholds(set));
    say!("#endif");
    Ok(())
}

fn print_array<T: Display>(kind: &str, name: &str, suffix: &str, numbers: &[T]) {
    say!("static const {kind} {name}[{}] = {{", numbers.len());
    let width = if suffix.is_empty() { 16 } else { 4 };
    for line in numbers.chunks(width) {
        let words: Vec<String> = line
            .iter()
            .map(|number| format!("{number}{suffix},"))
            .collect();
        say!("    {}", words.join(" "));
    }
    say!("}};\n");
}

fn hash_files(words: &[String]) -> Result<(), String> {
    let (set, vector) = (set_named(&words[0])?, Path::new(&words[1]));
    let rounded: Vec<u16> = read_numbers(vector)?;
    if rounded.len() != N {
        let (count, vector) = (rounded.len(), vector.display());
        return Err(format!("{vector} holds {count} numbers, {N} expected"));
    }
    let message = read_file(Path::new(&words[2]))?;
    say!("{}", joined(&list_of(set, &rounded, &message)));
    Ok(())
}

fn hash_stream(words: &[String]) -> Result<(), String> {
    let set = set_named(&words[0])?;
    let bytes = read_file(Path::new("-"))?;
    let Some((vector, message)) = bytes.split_at_checked(2 * N) else {
        let count = bytes.len();
        let vector = 2 * N;
        return Err(format!(
            "hash: standard input has {count} bytes, the vector has {vector}"
        ));
    };
    let rounded: Vec<u16> = vector
        .chunks_exact(2)
        .map(|pair| u16::from_le_bytes([pair[0], pair[1]]))
        .collect();
    say!("{}", joined(&list_of(set, &rounded, message)));
    Ok(())
}

/// What the reader of an edition answers that knows these forms.
fn read(edition: Edition, forms: &[RecordForm], words: &[String]) -> Result<ExitCode, String> {
    let record = read_file(Path::new(&words[0]))?;
    let form = RecordForm::of(&record).filter(|form| forms.contains(form));
    let form = form.unwrap_or(RecordForm::Plain);
    let (mut z1, mut z2_dagger) = (vec![0; N], vec![0; N]);
    let mut list = vec![0; edition.list_buffer()];
    let reading = edition.read(form, &record, &mut z1, &mut z2_dagger, &mut list);
    let (number, place) = number_and_place(reading.outcome);
    let key = match edition.knows_keys() {
        true => format!(", key number {}", reading.key),
        false => String::new(),
    };
    say!("number {number}, place {place}, set {}{key}", reading.set);
    Ok(ExitCode::from(u8::from(number != 0)))
}

fn set_named(word: &str) -> Result<Set, String> {
    let set = word.parse().ok().and_then(|number| Set::asked(number).ok());
    let last = Set::ALL.len();
    set.ok_or_else(|| format!("'{}' is not a set from 1 to {last}", shown(word)))
}

fn seed_named(word: &str) -> Result<u64, String> {
    word.parse()
        .map_err(|_| format!("the seed '{}' is not a whole number", shown(word)))
}

/// A text file of numbers in the folder, under its name.
fn numbers_file<T: Display>(folder: &Path, name: &str, numbers: &[T]) -> (PathBuf, Vec<u8>) {
    let path = folder.join(name).with_extension("txt");
    (path, text_of(name, numbers))
}
