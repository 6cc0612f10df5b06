//! The tool as a desk runs it: files in, files out, exit status.

mod setting;

use second::testing::hash::list_of;
use second::{Edition, Form, Refusal, Set};
use setting::{expect, files_of, numbers, run, Folder, HASH, SHEET};
use std::ffi::OsStr;
use std::fs::File;
use std::os::unix::ffi::OsStrExt;
use std::os::unix::fs::PermissionsExt;
use std::path::Path;
use std::process::Command;

#[test]
fn a_sheet_is_signed_and_checked_through_files() {
    for set in Set::ALL {
        let folder = Folder::new(&format!("sheet-{}", set.number()));
        let signed = files_of(set, &folder);
        let number = set.number().to_string();
        let set_and_folder = ["--set", &number, "--folder", &folder.path("")];
        let with = |name: &str, rest: &[&str]| {
            let words: Vec<&str> = [&[name], &set_and_folder[..], rest].concat();
            expect(&words, 0, "")
        };
        let (record, committed) = (folder.path("record"), folder.path("commitment.txt"));
        with("key-test", &[]);
        with("commit", &["--out", &committed]);
        assert_eq!(numbers(&committed), second::ring::whole(&signed.committed));
        with("sign", &["--record", &record]);

        let (a, rebuilt) = (folder.path("a.txt"), folder.path("rebuilt.txt"));
        let rebuild = ["rebuild", "--a", &a, "--record", &record, "--out", &rebuilt];
        expect(&rebuild, 0, "Nothing is said of any sheet");
        assert_eq!(numbers(&rebuilt), numbers(&committed));

        let (read, again) = (folder.path("read"), folder.path("again"));
        expect(
            &["read", "--record", &record, "--folder", &read],
            0,
            "list.txt",
        );
        let z1 = folder.path("read/z1.txt");
        assert_eq!(numbers(&z1), second::ring::whole(&signed.signature.z1));
        let write = [
            "write", "--set", &number, "--folder", &read, "--record", &again,
        ];
        expect(&write, 0, "bytes");
        assert_eq!(
            std::fs::read(&record).unwrap(),
            std::fs::read(&again).unwrap()
        );
    }
}

/// 02, C-22 and C-13: the second program's readers of before, on records that the library wrote.
#[test]
fn an_older_reader_refuses_a_new_set_at_byte_4_and_a_key_number_at_byte_20() {
    for set in Set::ALL {
        let folder = Folder::new(&format!("older-{}", set.number()));
        files_of(set, &folder);
        let (path, record) = (folder.path(""), folder.path("record"));
        let number = set.number().to_string();
        for key in ["0", "1"] {
            let sign = [
                "sign", "--set", &number, "--key", key, "--folder", &path, "--record", &record,
            ];
            expect(&sign, 0, "given out");
            let bytes = std::fs::read(&record).unwrap();
            let answer = |edition: Edition| {
                let (mut z1, mut z2_dagger) = (vec![0; 512], vec![0; 512]);
                let mut list = vec![0; edition.list_buffer()];
                let reading = edition.read(Form::Plain, &bytes, &mut z1, &mut z2_dagger, &mut list);
                (reading.outcome, reading.set)
            };
            let refused = |place: usize| (Err(Refusal::header(place)), 0);
            let done = (Ok(()), set.number());
            let older = match (set.like() == set, key) {
                (false, _) => refused(4),
                (true, "0") => done,
                (true, _) => refused(20),
            };
            assert_eq!(answer(Edition::OLDER), older, "{set:?}, {key}");
            let before = if key == "0" { done } else { refused(20) };
            assert_eq!(answer(Edition::BEFORE_KEYS), before, "{set:?}, {key}");
            assert_eq!(answer(Edition::THIS), done, "{set:?}, {key}");
        }
    }
}

#[test]
fn a_check_rests_on_the_hash_of_the_rebuilt_vector() {
    for set in Set::ALL {
        let folder = Folder::new(&format!("check-{}", set.number()));
        let signed = files_of(set, &folder);
        let number = set.number().to_string();
        let (path, record) = (folder.path(""), folder.path("record"));
        let (a, sheet) = (folder.path("a.txt"), folder.path("sheet"));
        let sign = [
            "sign", "--set", &number, "--folder", &path, "--record", &record,
        ];
        expect(&sign, 0, "given out");
        std::fs::write(&sheet, SHEET).unwrap();
        let hash = folder.hash_command(set, &signed);
        let check = |a: &str, record: &str, sheet: &str, status: i32, said: &str| {
            let files = ["--a", a, "--record", record, "--sheet", sheet];
            let words = [&["check"], &files[..], &["--hash", &hash]].concat();
            expect(&words, status, said);
        };
        check(&a, &record, &sheet, 0, "The signature holds for");

        // Another sheet, a damaged record and a foreign key are refused.
        let other = folder.path("other");
        std::fs::write(&other, b"another sheet").unwrap();
        check(&a, &record, &other, 1, "number 12, place 0");
        // The hash of another sheet starts 0, 1, 2.
        let mut pairs = (0..).zip(&signed.signature.list);
        let at = pairs.position(|(place, entry)| place != *entry).unwrap();
        check(&a, &record, &other, 1, &format!("differ: entry {at} is "));
        let mut bytes = std::fs::read(&record).unwrap();
        bytes[24] ^= 1;
        std::fs::write(&other, &bytes).unwrap();
        check(&a, &other, &sheet, 1, "number 12, place 0");
        let mut foreign = signed.key.a.clone();
        foreign[100] = (foreign[100] + 1) % 12289;
        folder.put("foreign", &foreign);
        check(&folder.path("foreign.txt"), &record, &sheet, 1, "number 12");
    }
}

#[test]
fn a_check_of_a_hashed_list_sees_that_the_file_is_todays_rebuild() {
    let folder = Folder::new("hashed");
    let signed = files_of(Set::III, &folder);
    let (path, record) = (folder.path(""), folder.path("record"));
    let sign = ["sign", "--set=3", "--folder", &path, "--record", &record];
    expect(&sign, 0, "given out");
    let (a, rebuilt) = (folder.path("a.txt"), folder.path("rebuilt.txt"));
    let rebuild = ["rebuild", "--a", &a, "--record", &record, "--out", &rebuilt];
    expect(&rebuild, 0, "");
    let hashed = folder.path("hashed.txt");
    folder.put("hashed", &list_of(Set::III, &signed.committed, SHEET));
    let check = |a: &str, record: &str, hashed: &str, rebuilt: &str, status: i32, said: &str| {
        let files = ["--a", a, "--record", record, "--hashed", hashed];
        let words = [&["check"], &files[..], &["--rebuilt", rebuilt]].concat();
        expect(&words, status, said);
    };
    check(&a, &record, &hashed, &rebuilt, 0, "The signature holds for");
    folder.put("hashed", &list_of(Set::III, &signed.committed, b"another"));
    check(&a, &record, &hashed, &rebuilt, 1, "number 12, place 0");
    folder.put("hashed", &list_of(Set::III, &signed.committed, SHEET));

    // A record whose z1 was damaged still reads, and claims the same list: its rebuild differs.
    let mut bytes = std::fs::read(&record).unwrap();
    bytes[24] ^= 1;
    let damaged = folder.path("damaged");
    std::fs::write(&damaged, &bytes).unwrap();
    let other = "rebuilt.txt is not what ";
    check(&a, &damaged, &hashed, &rebuilt, 1, other);
    let mut foreign = signed.key.a.clone();
    foreign[100] = (foreign[100] + 1) % 12289;
    folder.put("foreign", &foreign);
    let foreign = folder.path("foreign.txt");
    check(&foreign, &record, &hashed, &rebuilt, 1, other);
    folder.put("rebuilt", &[0; 511]);
    check(&a, &record, &hashed, &rebuilt, 1, other);
}

#[test]
fn a_check_without_a_hash_is_no_check() {
    let folder = Folder::new("no-hash");
    files_of(Set::I, &folder);
    let (path, record) = (folder.path(""), folder.path("record"));
    let sign = ["sign", "--set", "1", "--folder", &path, "--record", &record];
    expect(&sign, 0, "given out");
    let (a, list) = (folder.path("a.txt"), folder.path("list.txt"));
    let check = ["check", "--a", &a, "--record", &record];
    for more in [
        &[][..],
        &["--hashed", &list],
        &["--rebuilt", &list],
        &["--hash", HASH],
        &["--sheet", &list],
        &["--hash", HASH, "--sheet", &list, "--hashed", &list],
    ] {
        let words = [&check[..], more].concat();
        expect(&words, 2, "a check needs the sheet and the command");
    }
    let command = |command| [&check[..], &["--hash", command, "--sheet", &list]].concat();
    expect(&command("cat >/dev/null; exit 3"), 2, "exit status: 3");
    expect(&command("cat >/dev/null; echo x"), 2, "found 'x'");
    expect(&command("cat >/dev/null"), 1, "number 5, place 0");
    expect(
        &command("cat >/dev/null"),
        1,
        "a list of 0 places, set 1 has 23",
    );
}

#[test]
fn zero_is_set_four() {
    let folder = Folder::new("zero");
    files_of(Set::IV, &folder);
    let (path, record) = (folder.path(""), folder.path("record"));
    let key_test = ["key-test", "--set", "0", "--folder", &path];
    expect(&key_test, 0, "The key passes");
    let sign = ["sign", "--set", "0", "--folder", &path, "--record", &record];
    expect(&sign, 0, "The record of 1638 bytes");
    expect(&["inspect", &record], 0, "a signature of set 4");
    // A key of another set: the cause names the set that 0 stands for.
    files_of(Set::I, &folder);
    expect(&key_test, 1, "number 15, place 0");
    let wants = "set 0, which stands for set 4, wants 231 and 31";
    expect(&key_test, 1, wants);
}

#[test]
fn refusals_end_with_number_place_and_meaning() {
    let folder = Folder::new("refusals");
    let key = files_of(Set::II, &folder).key;
    let (path, record) = (folder.path(""), folder.path("record"));
    let key_test = |set: &str, said: &str| {
        expect(&["key-test", "--set", set, "--folder", &path], 1, said);
    };
    key_test("9", "number 1, place 0: set above 8");
    key_test("9", "set 9: sets are 1 to 8, and 0 stands for set 4");
    let sign = ["sign", "--set", "2", "--folder", &path, "--record", &record];
    expect(&sign, 0, "given out");
    folder.put("words", &[0; 0]);
    expect(
        &sign,
        1,
        "number 9, place 0: the walk needs a word and none is left (0 words taken)",
    );
    expect(&sign, 1, "words.txt holds 0 words");
    folder.put("list", &[7; 22]);
    expect(&sign, 1, "list.txt: a list of 22 places, set 2 has 23");
    folder.put("g", &[0; 511]);
    key_test("2", "number 2, place 0: a vector, read or written");
    key_test("2", "g.txt holds 511 numbers, 512 expected");
    expect(&sign, 1, "g.txt holds 511 numbers, 512 expected");
    folder.put("thresholds", &[0; 30]);
    expect(&sign, 1, "thresholds.txt holds 30 numbers, 31 expected");
    let mut g = [0; 512];
    g[500] = -3;
    folder.put("g", &g);
    key_test("2", "g.txt: place 500 is -3, -2 to 2 expected");
    let turned: Vec<i8> = key.g.iter().map(|entry| -entry).collect();
    folder.put("g", &turned);
    key_test("2", "a.txt is not the public key of ");
}

#[test]
fn wrong_counts_are_told_with_their_files() {
    let folder = Folder::new("counts");
    let key = files_of(Set::III, &folder).key;
    let (path, record) = (folder.path(""), folder.path("record"));
    let key_test = ["key-test", "--set", "3", "--folder", &path];
    let sign = ["sign", "--set", "3", "--folder", &path, "--record", &record];
    let counted = |name: &str, said: &str| {
        let file = folder.path(name);
        format!("{file}: {said} of 2 or -2, set 3 wants 216 and 16\n")
    };
    let of_g = counted("g.txt", "0 coefficients of 1 or -1 and 512");
    folder.put("g", &[2; 512]);
    for words in [&key_test[..], &sign] {
        expect(words, 1, "number 15, place 0: counts wrong");
        expect(words, 1, &of_g);
        assert!(!run(words).2.contains("f.txt"));
    }
    expect(&sign, 1, "counts wrong (0 words taken)");
    let mut f = key.f;
    let two = f.iter().position(|entry| entry.abs() == 2).unwrap();
    f[two] = 1;
    folder.put("f", &f);
    let of_f = counted("f.txt", "217 coefficients of 1 or -1 and 15");
    expect(&key_test, 1, &format!("{of_f}  {of_g}"));
    assert!(!Path::new(&record).exists());
}

#[test]
fn a_record_is_refused_with_its_file_and_its_fault() {
    let folder = Folder::new("record");
    files_of(Set::I, &folder);
    let (path, record) = (folder.path(""), folder.path("record"));
    let sign = ["sign", "--set", "1", "--folder", &path, "--record", &record];
    expect(&sign, 0, "given out");
    let right = std::fs::read(&record).unwrap();
    let (bad, out) = (folder.path("bad"), folder.path("out"));
    let refused = |bytes: &[u8], number: &str, cause: &str| {
        std::fs::write(&bad, bytes).unwrap();
        for words in [
            &["read", "--record", &bad, "--folder", &out][..],
            &["inspect", &bad],
            &[
                "rebuild",
                "--a",
                &folder.path("a.txt"),
                "--record",
                &bad,
                "--out",
                &out,
            ],
        ] {
            expect(words, 1, number);
            expect(words, 1, &format!("{bad}{cause}"));
        }
        assert!(!Path::new(&out).exists());
    };
    let with = |at: usize, byte: u8| {
        let mut bytes = right.clone();
        bytes[at] = byte;
        bytes
    };
    let longer = [&right[..], b"\r\n"].concat();
    refused(
        &longer,
        "number 13, place 18",
        ": 1608 bytes, set 1 has 1606",
    );
    refused(
        &right[..7],
        "number 13, place 7",
        ": 7 bytes, a header has 24",
    );
    refused(b"", "number 13, place 0", ": 0 bytes, a header has 24");
    let count = ": bytes 14-15, count of the list: 24, 23 expected";
    refused(
        &with(14, 24),
        "number 13, place 14: header malformed",
        count,
    );
    refused(&with(31, 0x7f), "number 10, place 3", ", z1: place 3 is 32");
    refused(
        &with(1049, 0x80),
        "number 10, place 513",
        ", z2 dagger: place 1 is -128",
    );
    let place = ": entry 22 of the list is ";
    refused(&with(1605, 0xff), "number 5, place 0", place);
    // A file of gigabytes is not read whole: half a gigabyte of memory is enough.
    let file = File::options().write(true).open(&bad).unwrap();
    std::fs::write(&bad, &right).unwrap();
    file.set_len(5 << 30).unwrap();
    let output = Command::new("sh")
        .args(["-c", "ulimit -v 500000; exec \"$0\" inspect \"$1\""])
        .arg(env!("CARGO_BIN_EXE_bursztok"))
        .arg(&bad)
        .output()
        .unwrap();
    assert_eq!(output.status.code(), Some(1));
    let said = String::from_utf8(output.stderr).unwrap();
    assert!(said.contains("5368709120 bytes, set 1 has 1606"), "{said}");
}

#[test]
fn bad_files_are_named_with_line_and_expectation() {
    let folder = Folder::new("files");
    files_of(Set::I, &folder);
    let path = folder.path("");
    let key_test = ["key-test", "--set", "1", "--folder", &path];
    std::fs::write(folder.path("g.txt"), "# g\n0 1\n0 seven\n").unwrap();
    let said = "g.txt, line 3: found 'seven', expected a whole number from -128 to 127";
    expect(&key_test, 2, said);
    std::fs::write(folder.path("g.txt"), [0xff, 0xfe]).unwrap();
    expect(&key_test, 2, "g.txt: not a text file");
    std::fs::remove_file(folder.path("f.txt")).unwrap();
    expect(&key_test, 2, "f.txt: ");

    let record = folder.path("record");
    let sign = ["sign", "--set", "1", "--folder", &path, "--record", &record];
    let with_bit = |bit| [&sign[..], &["--sign", bit]].concat();
    expect(&with_bit("2"), 2, "--sign is '2', expected 0 or 1");
    folder.put("sign", &[1, 0]);
    expect(&sign, 2, "sign.txt: found '1 0', expected the sign bit");
}

#[test]
fn an_output_is_none_of_the_inputs() {
    let folder = Folder::new("outputs");
    files_of(Set::I, &folder);
    let (path, record) = (folder.path(""), folder.path("record"));
    let sign = ["sign", "--set", "1", "--folder", &path, "--record"];
    expect(&[&sign[..], &[&record]].concat(), 0, "given out");
    let y1 = folder.path("y1.txt");
    expect(
        &[&sign[..], &[&y1]].concat(),
        2,
        "--record names the file of y1",
    );
    let a = folder.path("a.txt");
    let rebuild = ["rebuild", "--a", &a, "--record", &record, "--out"];
    for input in [&a, &record] {
        let words = [&rebuild[..], &[input]].concat();
        expect(&words, 2, "--out names the file of");
    }
    let commit = ["commit", "--set", "1", "--folder", &path, "--out", &y1];
    expect(&commit, 2, "--out names the file of y1");
    let read = folder.path("read");
    std::fs::create_dir(&read).unwrap();
    std::fs::copy(&record, folder.path("read/list.txt")).unwrap();
    let inside = folder.path("read/list.txt");
    let words = ["read", "--record", &inside, "--folder", &read];
    expect(
        &words,
        2,
        "list.txt, which --folder asks for, is the file of",
    );
}

#[test]
fn a_failed_write_leaves_what_was_there() {
    let folder = Folder::new("write");
    files_of(Set::I, &folder);
    let (path, record) = (folder.path(""), folder.path("record"));
    let sign = ["sign", "--set", "1", "--folder", &path, "--record", &record];
    expect(&sign, 0, "given out");
    let out = folder.path("read");
    let read = ["read", "--record", &record, "--folder", &out];
    std::fs::create_dir_all(folder.path("read/list.txt")).unwrap();
    std::fs::write(folder.path("read/z1.txt"), "old").unwrap();
    expect(&read, 2, "list.txt: ");
    assert_eq!(std::fs::read(folder.path("read/z1.txt")).unwrap(), b"old");
    assert_eq!(std::fs::read_dir(&out).unwrap().count(), 2);
    std::fs::write(folder.path("record.part"), "left over").unwrap();
    expect(&sign, 2, "record.part is there already");
    expect(&sign, 2, "remove ");
    std::fs::remove_file(folder.path("record.part")).unwrap();
    // A record that is written again keeps its permissions.
    std::fs::set_permissions(&record, PermissionsExt::from_mode(0o600)).unwrap();
    expect(&sign, 0, "given out");
    let mode = std::fs::metadata(&record).unwrap().permissions().mode();
    assert_eq!(mode & 0o777, 0o600);
}

#[test]
fn a_dash_is_standard_input_or_output() {
    let folder = Folder::new("dash");
    files_of(Set::IV, &folder);
    let (path, record) = (folder.path(""), folder.path("record"));
    let sign = ["sign", "--set", "4", "--folder", &path, "--record"];
    expect(&[&sign[..], &[&record]].concat(), 0, "given out");
    let output = Command::new(env!("CARGO_BIN_EXE_bursztok"))
        .args(sign)
        .arg("-")
        .output()
        .unwrap();
    assert_eq!(output.status.code(), Some(0));
    assert_eq!(output.stdout, std::fs::read(&record).unwrap());
    assert!(String::from_utf8(output.stderr)
        .unwrap()
        .contains("given out"));
    let output = Command::new(env!("CARGO_BIN_EXE_bursztok"))
        .args(["inspect", "-"])
        .stdin(File::open(&record).unwrap())
        .output()
        .unwrap();
    let said = String::from_utf8(output.stdout).unwrap();
    assert!(said.starts_with("standard input: 1638 bytes"), "{said}");
    assert!(said.contains("a signature of set 4"));
    let twice = [
        "key-test", "--set=4", "--folder", &path, "--f", "-", "--g", "-",
    ];
    expect(&twice, 2, "standard input is only one");
    let json = [&sign[..], &["-", "--json"]].concat();
    let (code, out, _) = run(&json);
    assert_eq!(code, 2);
    assert!(out.contains("do not go together"), "{out}");
    assert!(!Path::new("-").exists());
}

#[test]
fn full_output_is_told_and_a_closed_pipe_is_not() {
    let full = File::options().write(true).open("/dev/full").unwrap();
    let output = Command::new(env!("CARGO_BIN_EXE_bursztok"))
        .arg("--help")
        .stdout(full)
        .output()
        .unwrap();
    assert_eq!(output.status.code(), Some(2));
    let said = String::from_utf8(output.stderr).unwrap();
    assert!(
        said.contains("standard output cannot be written to"),
        "{said}"
    );
    let (reader, writer) = std::io::pipe().unwrap();
    drop(reader);
    let output = Command::new(env!("CARGO_BIN_EXE_bursztok"))
        .arg("--help")
        .stdout(writer)
        .output()
        .unwrap();
    assert_eq!(output.status.code(), Some(2));
    assert!(output.stderr.is_empty());
}

#[test]
fn a_word_that_is_not_utf8_is_told() {
    let output = Command::new(env!("CARGO_BIN_EXE_bursztok"))
        .arg(OsStr::from_bytes(b"key\xff"))
        .output()
        .unwrap();
    assert_eq!(output.status.code(), Some(2));
    let said = String::from_utf8(output.stderr).unwrap();
    assert!(said.contains("is not text in UTF-8"), "{said}");
}

const SUBCOMMANDS: [&str; 12] = [
    "demo",
    "key-test",
    "commit",
    "sign",
    "check",
    "rebuild",
    "write",
    "read",
    "pack",
    "unpack",
    "inspect",
    "completion",
];

#[test]
fn bad_usage_is_told() {
    expect(&[], 2, "a subcommand is missing");
    expect(&["sing"], 2, "'sing' is no subcommand");
    expect(&["help", "sing"], 2, "'sing' is no subcommand");
    expect(&["key-test"], 2, "--set is missing");
    expect(&["key-test", "--set"], 2, "--set wants a value");
    let word = "--set is 'one', expected a set number (1 to 8, or 0 for set 4)";
    expect(&["key-test", "--set", "one"], 2, word);
    expect(&["key-test", "--set", "1"], 2, "--f is missing");
    expect(
        &["key-test", "--set", "1", "--set=1"],
        2,
        "--set is given twice",
    );
    expect(
        &["key-test", "--set", "1", "--key", "x"],
        2,
        "'--key' is no option",
    );
    expect(&["key-test", "1"], 2, "'1' is one word too many");
    expect(&["inspect"], 2, "no record is named");
    expect(&["pack"], 2, "pack: --out is missing");
    expect(&["unpack", "--out", "x"], 2, "unpack: --record is missing");
    expect(&["read", "--packed"], 2, "'--packed' is no option");
    expect(&["completion", "fish"], 2, "the shell is bash");
    expect(&["demo", "--set", "9"], 2, "expected 0 to 8");
    expect(&["demo", "--folder", ""], 2, "--folder wants a value");
}

#[test]
fn every_subcommand_has_help_and_completion() {
    let overview = run(&["--help"]).1;
    let completion = run(&["completion", "bash"]).1;
    for subcommand in SUBCOMMANDS {
        let about = format!("bursztok {subcommand}");
        assert!(overview.contains(&about));
        expect(&[subcommand, "--help"], 0, &about);
        assert_eq!(run(&["help", subcommand]).1, run(&[subcommand, "--help"]).1);
        assert!(completion.contains(&format!("        {subcommand}) options='--")));
    }
    let check = run(&["check", "--help"]).1;
    for option in ["--hash", "--sheet", "--rebuilt", "--hashed", "--json"] {
        assert!(check.contains(option));
        assert!(completion.contains(option));
    }
    for (subcommand, option, form) in [
        ("sign", "packed", "[--packed]"),
        ("write", "packed", "[--packed]"),
        ("demo", "packed", "[--packed]"),
        ("sign", "key", "[--key N]"),
        ("write", "key", "[--key N]"),
    ] {
        assert!(run(&["help", subcommand]).1.contains(form));
        let case = format!("        {subcommand}) options='--");
        let mut cases = completion.lines();
        let case = cases.find(|line| line.starts_with(&case)).unwrap();
        assert!(case.contains(&format!(" --{option} ")), "{case}");
    }
    let read = Command::new("bash")
        .args(["-n", "-c", &completion])
        .status();
    assert!(read.unwrap().success());
}

#[test]
fn help_has_every_set() {
    let last = Set::ALL.len();
    let (overview, demo) = (run(&["--help"]).1, run(&["help", "demo"]).1);
    assert!(overview.contains(&format!("BLISS-B, sets 1 to {last}\n")));
    assert!(overview.contains(&format!("Sets are 1 to {last}; 0 stands for set 4.")));
    assert!(demo.contains(&format!("set, 1 to {last}, or 0 for set 4 (default 0)\n")));
    let sets_of = |d: u32| {
        let sets = Set::ALL.into_iter().filter(|set| set.d() == d);
        let numbers: Vec<String> = sets.map(|set| set.number().to_string()).collect();
        let (last, others) = numbers.split_last().unwrap();
        format!("{d} for sets {} and {last}", others.join(", "))
    };
    let commit: Vec<String> = run(&["help", "commit"])
        .1
        .lines()
        .map(str::to_string)
        .collect();
    let said = format!("d is {}.", [10, 9, 8].map(sets_of).join(", "));
    assert!(commit.join(" ").contains(&said), "{said}");
}

#[test]
fn the_version_is_the_headers() {
    let header = include_str!("../../../include/bursztok.h");
    let version = env!("CARGO_PKG_VERSION");
    assert!(header.contains(&format!("#define BURSZTOK_VERSION \"{version}\"\n")));
    expect(&["--version"], 0, &format!("bursztok {version}\n"));
    let page = include_str!("../../../docs/bursztok.1");
    assert!(page.contains(&format!("\"bursztok {version}\"")));
    for subcommand in SUBCOMMANDS {
        let line = format!("\n.B {}", subcommand.replace('-', "\\-"));
        assert!(page.contains(&line), "{subcommand}");
    }
}
