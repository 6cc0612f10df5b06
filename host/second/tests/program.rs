//! The program `bursztok-second`: what it writes and prints is what the calls make.

use second::parameters::N;
use second::record::write_in;
use second::testing::hash::list_of;
use second::{commitment, key_test, respond, Form, Set};
use shell::numbers::{joined, numbers_of, text_of, Number};
use std::io::Write;
use std::path::PathBuf;
use std::process::{Command, Output, Stdio};

const MESSAGE: &[u8] = b"138,240.7 m3 of LNG";

/// A folder of its own for a test, removed when the test ends.
struct Folder(PathBuf);

impl Folder {
    fn new(name: &str) -> Folder {
        let name = format!("bursztok-second-{}-{name}", std::process::id());
        let path = std::env::temp_dir().join(name);
        std::fs::create_dir_all(&path).unwrap();
        Folder(path)
    }

    fn path(&self, name: &str) -> String {
        self.0.join(name).display().to_string()
    }

    fn numbers<T: Number>(&self, name: &str) -> Vec<T> {
        let text = std::fs::read_to_string(self.path(name)).unwrap();
        assert!(text.starts_with(&format!("# {}\n", name.trim_end_matches(".txt"))));
        numbers_of(&text).unwrap()
    }
}

impl Drop for Folder {
    fn drop(&mut self) {
        let _ = std::fs::remove_dir_all(&self.0);
    }
}

fn run(words: &[&str], input: &[u8]) -> Output {
    let mut program = Command::new(env!("CARGO_BIN_EXE_bursztok-second"))
        .args(words)
        .stdin(Stdio::piped())
        .stdout(Stdio::piped())
        .stderr(Stdio::piped())
        .spawn()
        .unwrap();
    // A run that reads nothing may have ended already.
    let _ = program.stdin.take().unwrap().write_all(input);
    program.wait_with_output().unwrap()
}

fn done(words: &[&str], input: &[u8]) -> String {
    let output = run(words, input);
    let told = String::from_utf8(output.stderr).unwrap();
    assert_eq!(output.status.code(), Some(0), "{words:?}: {told}");
    String::from_utf8(output.stdout).unwrap()
}

fn refused(words: &[&str], input: &[u8], said: &str) {
    let output = run(words, input);
    assert_eq!(output.status.code(), Some(2), "{words:?}");
    let told = String::from_utf8(output.stderr).unwrap();
    assert!(told.contains(said), "{words:?}: '{said}' is not in: {told}");
}

#[test]
fn the_header_is_the_one_of_the_c_example() {
    let header = done(&["header", "1", "1"], b"");
    assert_eq!(header, include_str!("../../../examples/test_key.h"));
}

#[test]
fn a_try_is_one_that_the_calls_give_out() {
    for set in Set::ALL {
        let number = set.number();
        let folder = Folder::new(&format!("try-{number}"));
        let (message, out) = (folder.path("message"), folder.path("try"));
        std::fs::write(&message, MESSAGE).unwrap();
        done(&["try", &number.to_string(), "9", &message, &out], b"");
        let folder = Folder(PathBuf::from(out));
        assert_eq!(std::fs::read_dir(&folder.0).unwrap().count(), 12);

        let (f, g) = (folder.numbers("f.txt"), folder.numbers("g.txt"));
        let a = folder.numbers("a.txt");
        assert_eq!(key_test(number, &f, &g, &a), Ok(()));
        let (y1, y2) = (folder.numbers("y1.txt"), folder.numbers("y2.txt"));
        let mut committed = vec![0; N];
        commitment(number, &a, &y1, &y2, &mut committed).unwrap();
        assert_eq!(folder.numbers::<u16>("commitment.txt"), committed);
        let list = folder.numbers("list.txt");
        assert_eq!(list, list_of(set, &committed, MESSAGE));
        let sign: Vec<u8> = folder.numbers("sign.txt");
        let (mut z1, mut z2_dagger) = (vec![0; N], vec![0; N]);
        let response = respond(
            number,
            0,
            &f,
            &g,
            &a,
            &y1,
            &y2,
            &list,
            sign == [1],
            &folder.numbers::<u64>("thresholds.txt"),
            &folder.numbers::<u64>("words.txt"),
            &mut z1,
            &mut z2_dagger,
        );
        assert_eq!(response.outcome, Ok(()));
        assert!(sign == [0] || sign == [1]);
        assert_eq!(folder.numbers::<i16>("z1.txt"), z1);
        assert_eq!(folder.numbers::<i8>("z2.txt"), z2_dagger);
    }
}

#[test]
fn the_hash_is_the_same_from_files_and_from_the_stream() {
    let folder = Folder::new("hash");
    let (vector, message) = (folder.path("vector.txt"), folder.path("message"));
    let rounded: Vec<u16> = (0..N as u16).map(|entry| entry * 7 % 24).collect();
    std::fs::write(&vector, text_of("vector", &rounded)).unwrap();
    std::fs::write(&message, MESSAGE).unwrap();
    let mut stream: Vec<u8> = rounded.iter().flat_map(|e| e.to_le_bytes()).collect();
    stream.extend(MESSAGE);
    for set in Set::ALL {
        let number = set.number().to_string();
        let wanted = joined(&list_of(set, &rounded, MESSAGE)) + "\n";
        assert_eq!(done(&["hash", &number, &vector, &message], b""), wanted);
        assert_eq!(done(&["hash", &number], &stream), wanted);
    }
    assert_eq!(done(&["hash", "0"], &stream), done(&["hash", "4"], &stream));

    std::fs::write(&vector, "# nothing\n").unwrap();
    let hash = ["hash", "1", &vector, &message];
    refused(&hash, b"", "vector.txt holds 0 numbers, 512 expected");
    std::fs::write(&vector, "1\n2\n65536\n").unwrap();
    refused(&hash, b"", "vector.txt, line 3: found '65536'");
    let short = "standard input has 1023 bytes, the vector has 1024";
    refused(&["hash", "1"], &stream[..1023], short);
}

#[test]
fn a_record_of_either_form_is_read_and_a_new_one_refused_by_the_older_reader() {
    let folder = Folder::new("read");
    let path = folder.path("record");
    let answers = |subcommand: &str, status: i32, said: &str| {
        let output = run(&[subcommand, &path], b"");
        assert_eq!(output.status.code(), Some(status));
        let told = String::from_utf8(output.stdout).unwrap();
        assert_eq!(told, format!("{said}\n"));
    };
    for set in Set::ALL {
        let (number, list) = (set.number(), (0..set.kappa() as u16).collect::<Vec<_>>());
        let written = |form: Form, key: u32| {
            let mut record = vec![0; form.total(set)];
            write_in(form, number, key, &[0; N], &[0; N], &list, &mut record).unwrap();
            std::fs::write(&path, &record).unwrap();
        };
        let done = format!("number 0, place 0, set {number}");
        for key in [0, 67_305_985] {
            let with_key = format!("{done}, key number {key}");
            written(Form::Packed, key);
            answers("read", 0, &with_key);
            answers("read-older", 1, "number 13, place 0, set 0");
            written(Form::Plain, key);
            answers("read", 0, &with_key);
            match (set.like() == set, key) {
                (true, 0) => answers("read-older", 0, &done),
                (true, _) => answers("read-older", 1, "number 13, place 20, set 0"),
                (false, _) => answers("read-older", 1, "number 13, place 4, set 0"),
            }
        }
    }
    for letters in [b"BLB", b"BLP"] {
        std::fs::write(&path, letters).unwrap();
        answers("read", 1, "number 13, place 3, set 0, key number 0");
    }
}

#[test]
fn bad_usage_is_told() {
    refused(&[], b"", "a subcommand is missing");
    refused(&["tri"], b"", "'tri' is no subcommand");
    refused(&["try", "1", "2", "3"], b"", "try: FOLDER is missing");
    refused(&["header", "9", "1"], b"", "'9' is not a set from 1 to 8");
    refused(&["header", "1", "x"], b"", "the seed 'x'");
    refused(&["header", "1", "1", "1"], b"", "'1' is one word too many");
    refused(&["header", "--set", "1"], b"", "'--set' is no option");
    refused(&["hash", "1", "2"], b"", "hash: MESSAGE is missing");
    refused(&["read-older"], b"", "read-older: RECORD is missing");
    let help = done(&["--help"], b"");
    assert!(help.contains("bursztok-second try SET"));
    assert!(help.contains(&format!("SET is 1 to {}, or 0 for set 4.", Set::ALL.len())));
}
