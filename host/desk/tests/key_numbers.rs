//! 02, C-13: which key signed, in the tool.

mod setting;

use second::record::Held;
use second::testing::key_numbers::NUMBERS;
use second::{Form, Set};
use setting::{expect, files_of, record_of, run, Folder, SHEET};

fn bytes(path: &str) -> Vec<u8> {
    std::fs::read(path).unwrap()
}

/// How the tool tells a key number as a sentence, and within one.
fn told(key: u32) -> (String, String) {
    let number = match key {
        0 => "not stated".to_string(),
        _ => key.to_string(),
    };
    (
        format!("Key number: {number}."),
        format!("key number {number}"),
    )
}

/// Sees that a record states this key number, by its bytes and by all that reads it.
fn require_told(folder: &Folder, record: &str, key: u32) {
    assert_eq!(bytes(record)[20..24], key.to_le_bytes());
    let (sentence, name) = told(key);
    let (read, a) = (folder.path("read"), folder.path("a.txt"));
    let rebuilt = folder.path("rebuilt");
    for words in [
        &["read", "--record", record, "--folder", &read][..],
        &["rebuild", "--a", &a, "--record", record, "--out", &rebuilt],
    ] {
        expect(words, 0, &sentence);
        let json = run(&[words, &["--json"]].concat()).1;
        assert!(json.contains(&format!("\"key\":{key},")), "{json}");
    }
    let field = match key {
        0 => "0, not stated".to_string(),
        _ => key.to_string(),
    };
    let (_, said, _) = run(&["inspect", record]);
    let lines: Vec<&str> = said.lines().collect();
    assert_eq!(
        lines[11],
        format!("header 20   key number           {field}")
    );
    let last = lines[lines.len() - 1];
    assert!(last.starts_with("reader      done, "), "{last}");
    assert!(last.ends_with(&format!(", {name}")), "{last}");
    let (_, said, _) = run(&["inspect", record, record]);
    assert_eq!(said.matches(&format!(", {name}, ")).count(), 2, "{said}");
    let (_, said, _) = run(&["inspect", "--json", record]);
    assert!(said.contains(&format!("\"key\":{key},")), "{said}");
}

#[test]
fn the_key_number_goes_from_sign_to_all_that_reads() {
    let folder = Folder::new("key-sign");
    files_of(Set::VI, &folder);
    let (path, record) = (folder.path(""), folder.path("record"));
    let sign = ["sign", "--set", "6", "--folder", &path, "--record", &record];
    for (form, more) in [(Form::Plain, &[][..]), (Form::Packed, &["--packed"])] {
        let mut records = Vec::new();
        for key in NUMBERS {
            let number = key.to_string();
            let words = [&sign[..], more, &["--key", &number]].concat();
            expect(&words, 0, &format!(" {}\n", told(key).0));
            require_told(&folder, &record, key);
            records.push(Held::of(form, Set::VI, &bytes(&record)));
        }
        // Nothing else of the record depends on it.
        for held in &mut records {
            held.key = 0;
        }
        records.dedup();
        assert_eq!(records.len(), 1);
        expect(&[&sign[..], more].concat(), 0, "Key number: not stated.\n");
        require_told(&folder, &record, 0);
        let json = run(&[&sign[..], more, &["--key", "258", "--json"]].concat()).1;
        assert!(json.contains("\"set\":6,\"key\":258,\"form\":"), "{json}");
    }
}

#[test]
fn the_key_number_is_written_and_converted() {
    let folder = Folder::new("key-write");
    let record = record_of(Set::III, &folder, &["--key", "9"]);
    let (read, again) = (folder.path("read"), folder.path("again"));
    let (packed, plain) = (folder.path("packed"), folder.path("plain"));
    expect(&["read", "--record", &record, "--folder", &read], 0, "");
    let write = ["write", "--set", "3", "--folder", &read, "--record", &again];
    for more in [&[][..], &["--packed"]] {
        expect(&[&write[..], more].concat(), 0, "Key number: not stated.\n");
        require_told(&folder, &again, 0);
        for key in NUMBERS {
            let number = key.to_string();
            let words = [&write[..], more, &["--key", &number]].concat();
            expect(&words, 0, &format!(" {}\n", told(key).0));
            require_told(&folder, &again, key);
            let json = run(&[&words[..], &["--json"]].concat()).1;
            assert!(json.contains(&format!("\"key\":{key},")), "{json}");
        }
    }
    for key in NUMBERS {
        let number = key.to_string();
        expect(&[&write[..], &["--key", &number]].concat(), 0, "");
        for (subcommand, from, to) in [("pack", &again, &packed), ("unpack", &packed, &plain)] {
            let words = [subcommand, "--record", from, "--out", to, "--json"];
            expect(&words, 0, &format!("\"set\":3,\"key\":{key},\"form\":"));
            require_told(&folder, to, key);
        }
        assert_eq!(bytes(&plain), bytes(&again));
    }
}

/// The verdict is on the public key; the key number is told beside it.
#[test]
fn a_check_tells_the_key_number() {
    let folder = Folder::new("key-check");
    let files = files_of(Set::I, &folder);
    let (a, sheet) = (folder.path("a.txt"), folder.path("sheet"));
    std::fs::write(&sheet, SHEET).unwrap();
    let hash = folder.hash_command(Set::I, &files);
    let mut foreign = files.key.a.clone();
    foreign[100] = (foreign[100] + 1) % 12289;
    folder.put("foreign", &foreign);
    let foreign = folder.path("foreign.txt");
    let rebuilt = folder.path("rebuilt.txt");
    for (key, form) in [(0, &[][..]), (7, &[]), (u32::MAX, &["--packed"])] {
        let number = key.to_string();
        let record = record_of(Set::I, &folder, &[&["--key", &number][..], form].concat());
        let check = |a: &str, more: &[&str]| {
            let words = ["check", "--a", a, "--record", &record, "--sheet", &sheet];
            run(&[&words[..], &["--hash", &hash], more].concat())
        };
        let (code, said, _) = check(&a, &[]);
        assert_eq!(code, 0);
        assert!(said.starts_with("The signature holds for "), "{said}");
        let last = format!("'. {}\n", told(key).0);
        assert!(said.ends_with(&last), "{said}");
        let (_, json, _) = check(&a, &["--json"]);
        assert!(
            json.contains(&format!("\"set\":1,\"key\":{key},\"form\":")),
            "{json}"
        );
        // With the public key of another number it does not hold.
        let (code, _, said) = check(&foreign, &[]);
        assert_eq!(code, 1);
        let states = format!("{record} states key number {key}; the public key was {foreign}\n");
        assert_eq!(said.contains(&states), key != 0, "{said}");
        assert!(
            said.contains("comparison refused with number 12, place 0"),
            "{said}"
        );
        let (_, json, _) = check(&foreign, &["--json"]);
        assert!(
            json.contains(&format!("\"set\":1,\"key\":{key},\"form\":")),
            "{json}"
        );
        // The other way of a check.
        expect(
            &["rebuild", "--a", &a, "--record", &record, "--out", &rebuilt],
            0,
            &told(key).0,
        );
        let list = folder.path("list.txt");
        let words = [
            "check",
            "--a",
            &a,
            "--record",
            &record,
            "--rebuilt",
            &rebuilt,
        ];
        let said = format!("rebuilds to. {}\n", told(key).0);
        expect(&[&words[..], &["--hashed", &list]].concat(), 0, &said);
    }
}

#[test]
fn a_refused_record_has_no_key_number() {
    let folder = Folder::new("key-refused");
    let record = record_of(Set::II, &folder, &["--key", "77"]);
    let mut wrong = bytes(&record);
    wrong[14] ^= 1;
    std::fs::write(&record, &wrong).unwrap();
    let out = folder.path("out");
    for words in [
        &["read", "--record", &record, "--folder", &out][..],
        &["pack", "--record", &record, "--out", &out],
        &["inspect", &record],
    ] {
        let (code, json, _) = run(&[words, &["--json"]].concat());
        assert_eq!(code, 1);
        assert!(
            json.contains("\"set\":2,\"key\":null,\"form\":\"plain\""),
            "{json}"
        );
        let (_, said, told) = run(words);
        assert!(!format!("{said}{told}").contains("Key number: "));
    }
    // Its header is shown all the same.
    expect(&["inspect", &record], 1, "number 13, place 14");
    let (_, said, _) = run(&["inspect", &record]);
    assert!(
        said.contains("header 20   key number           77\n"),
        "{said}"
    );
    assert!(!said.contains("reader      done"), "{said}");
}

#[test]
fn what_is_no_key_number_is_told() {
    for word in ["seven", "-1", "4294967296", "7.0", "0x7"] {
        let said =
            format!("--key is '{word}', expected a key number (1 to 4294967295, or 0 for none)");
        for subcommand in ["sign", "write"] {
            let words = [subcommand, "--set", "1", "--record", "x", "--key", word];
            expect(&words, 2, &said);
        }
    }
    expect(&["sign", "--set", "1", "--key"], 2, "--key wants a value");
    for subcommand in ["read", "check", "rebuild", "inspect", "pack", "demo"] {
        expect(&[subcommand, "--key", "1"], 2, "'--key' is no option");
    }
    for subcommand in ["sign", "write"] {
        let help = run(&["help", subcommand]).1;
        assert!(help.contains("the key number, 0 to 4294967295"), "{help}");
        let help = help.split_whitespace().collect::<Vec<_>>().join(" ");
        assert!(help.contains("(default 0, not stated)"), "{help}");
    }
    for subcommand in ["read", "check", "rebuild", "inspect"] {
        let help = run(&["help", subcommand]).1.replace('\n', " ");
        assert!(help.contains("key number"), "{help}");
    }
    let overview = run(&["--help"]).1.replace('\n', " ");
    assert!(overview.contains("key (the record's key number, 0 where it states none)"));
}

#[test]
fn the_manual_has_the_key_number() {
    let page = include_str!("../../../docs/bursztok.1");
    for (subcommand, next) in [("sign", "check"), ("write", "read")] {
        let (_, about) = page.split_once(&format!("\n.B {subcommand} ")).unwrap();
        let (about, _) = about.split_once(&format!("\n.B {next} ")).unwrap();
        assert!(about.contains("[\\fB\\-\\-key\\fR N]"), "{about}");
    }
    let fields = "words, set, key, form and cause";
    assert!(page.contains(fields), "{fields}");
}
