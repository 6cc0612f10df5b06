//! What `inspect` shows, what `--json` answers, and the demo.

mod setting;

use second::{Form, Set};
use setting::{expect, record_of, run, Folder, SHEET};
use std::path::Path;

#[test]
fn inspect_shows_every_field_and_section() {
    for set in Set::ALL {
        let folder = Folder::new(&format!("inspect-{}", set.number()));
        let record = record_of(set, &folder, &[]);
        let bytes = std::fs::read(&record).unwrap();
        let (kappa, total) = (set.kappa(), 1560 + 2 * set.kappa());
        let number = set.number();
        let (code, said, _) = run(&["inspect", &record]);
        assert_eq!(code, 0);
        let lines: Vec<&str> = said.lines().collect();
        let wanted = [
            format!("{record}: {total} bytes"),
            "header  0   letters              BLB1".to_string(),
            format!("header  4   set                  {number}"),
            "header  5   zero                 0".to_string(),
            "header  6   count of z1          512".to_string(),
            "header  8   offset of z1         24".to_string(),
            "header 10   count of z2 dagger   512".to_string(),
            "header 12   offset of z2 dagger  1048".to_string(),
            format!("header 14   count of the list    {kappa}"),
            "header 16   offset of the list   1560".to_string(),
            format!("header 18   total                {total}"),
            "header 20   key number           0, not stated".to_string(),
        ];
        assert_eq!(&lines[..12], wanted);
        let z1: Vec<i16> = bytes[24..1048]
            .chunks(2)
            .map(|pair| i16::from_le_bytes([pair[0], pair[1]]))
            .collect();
        let z2: Vec<i8> = bytes[1048..1560].iter().map(|&byte| byte as i8).collect();
        let list: Vec<u16> = bytes[1560..]
            .chunks(2)
            .map(|pair| u16::from_le_bytes([pair[0], pair[1]]))
            .collect();
        let section = |name: &str, start: usize, end: usize, bits: usize, entries: Vec<i64>| {
            let (least, most) = (entries.iter().min().unwrap(), entries.iter().max().unwrap());
            let count = entries.len();
            // The first of a vector, and all of a list.
            let (shown, more) = if count == 512 {
                (32, " ..")
            } else {
                (count, "")
            };
            let first: Vec<String> = entries.iter().take(shown).map(i64::to_string).collect();
            format!(
                "{name:<11} bytes {start} .. {end}, {count} entries of {bits} bits from {least} to \
                 {most}: {}{more}",
                first.join(" ")
            )
        };
        let z1 = section("z1", 24, 1047, 16, second::ring::whole(&z1));
        assert_eq!(lines[12], z1);
        let z2 = section("z2 dagger", 1048, 1559, 8, second::ring::whole(&z2));
        assert_eq!(lines[13], z2);
        let list = section("list", 1560, total - 1, 16, second::ring::whole(&list));
        assert_eq!(lines[14], list);
        let packed = Form::Packed.total(set);
        let saved = total - packed;
        let form = format!("form        plain; packed it has {packed} bytes, {saved} fewer");
        let done = format!("reader      done, a signature of set {number}, key number not stated");
        assert_eq!(lines[15..], [form, done]);
        assert_eq!(run(&["inspect", "--record", &record]).1, said);
    }
}

#[test]
fn inspect_marks_what_is_wrong() {
    let folder = Folder::new("marks");
    let record = record_of(Set::I, &folder, &[]);
    let right = std::fs::read(&record).unwrap();
    let marked = |at: usize, byte: u8| {
        let mut bytes = right.clone();
        bytes[at] = byte;
        std::fs::write(&record, bytes).unwrap();
        let (code, said, told) = run(&["inspect", &record]);
        assert_eq!(code, 1);
        assert!(told.contains("reader refused with number"), "{told}");
        let marked: Vec<String> = said
            .lines()
            .filter(|line| line.contains("<-- wrong"))
            .map(str::to_string)
            .collect();
        assert_eq!(marked.len(), 1, "{said}");
        marked[0].clone()
    };
    assert_eq!(
        marked(3, b'2'),
        "header  0   letters              BLB2  <-- wrong"
    );
    assert_eq!(
        marked(14, 24),
        "header 14   count of the list    24  <-- wrong"
    );
    assert_eq!(
        marked(18, 7),
        "header 18   total                1543  <-- wrong"
    );
    assert!(marked(31, 0x7f).contains("<-- wrong: entry 3 is 32"));
    assert_eq!(
        marked(1559, 0x80),
        "            <-- wrong: entry 511 is -128"
    );
    assert!(marked(1605, 0xff).contains("<-- wrong: not of the stated form"));
    std::fs::write(&record, &right[..7]).unwrap();
    let (_, said, _) = run(&["inspect", &record]);
    assert!(said.contains("7 bytes are there, a header has 24"));
}

#[test]
fn inspect_takes_many_records() {
    let folder = Folder::new("many");
    let record = record_of(Set::II, &folder, &[]);
    let (cut, missing) = (folder.path("cut"), folder.path("missing"));
    let bytes = std::fs::read(&record).unwrap();
    std::fs::write(&cut, &bytes[..1605]).unwrap();
    let (code, said, _) = run(&["inspect", &record, &record]);
    assert_eq!(code, 0);
    let line = format!("{record}: a signature of set 2, key number not stated, 1606 bytes");
    let total = "2 records: 2 read, 0 refused, 0 not opened";
    assert_eq!(said.lines().collect::<Vec<_>>(), [&line, &line, total]);
    let (code, said, _) = run(&["inspect", &record, &cut]);
    assert_eq!(code, 1);
    let refused = format!("{cut}: number 13, place 18: 1605 bytes, set 2 has 1606\n");
    assert!(said.contains(&refused), "{said}");
    assert!(said.ends_with("2 records: 1 read, 1 refused, 0 not opened\n"));
    let (code, said, told) = run(&["inspect", &record, &cut, &missing]);
    assert_eq!(code, 2);
    assert!(told.contains("missing: "), "{told}");
    assert!(said.ends_with("3 records: 1 read, 1 refused, 1 not opened\n"));
    let (code, said, _) = run(&["inspect", "--json", &record, &cut, &missing]);
    assert_eq!(code, 2);
    let lines: Vec<&str> = said.lines().collect();
    assert_eq!(lines.len(), 3);
    assert!(lines[0].starts_with(&format!("{{\"file\":\"{record}\",\"status\":0,")));
    assert!(lines[1].contains("\"number\":13,\"place\":18,"));
    assert!(lines[2].contains("\"status\":2,"));
}

#[test]
fn answers_are_given_as_json() {
    let folder = Folder::new("json");
    let record = record_of(Set::I, &folder, &[]);
    let (path, a, sheet) = (folder.path(""), folder.path("a.txt"), folder.path("sheet"));
    std::fs::write(&sheet, SHEET).unwrap();
    let answer = |words: &[&str], status: i32, line: &str| {
        let (code, out, err) = run(&[words, &["--json"]].concat());
        assert_eq!((code, err.as_str()), (status, ""), "{words:?}: {out}");
        assert_eq!(out, format!("{line}\n"));
    };
    let done = |call: &str, form: &str| {
        let key = if form == "null" { "null" } else { "0" };
        format!(
            "{{\"status\":0,\"call\":\"{call}\",\"number\":0,\"place\":0,\"meaning\":\"done\",\
             \"words\":null,\"set\":1,\"key\":{key},\"form\":{form},\"cause\":\"\"}}"
        )
    };
    let (plain, packed) = ("\"plain\"", "\"packed\"");
    let key_test = ["key-test", "--set", "1", "--folder", &path];
    answer(&key_test, 0, &done("key test", "null"));
    let out = folder.path("out");
    let commit = ["commit", "--set", "1", "--folder", &path, "--out", &out];
    answer(&commit, 0, &done("commitment", "null"));
    let rebuild = ["rebuild", "--a", &a, "--record", &record, "--out", &out];
    answer(&rebuild, 0, &done("rebuild", plain));
    let read = folder.path("read");
    let words = ["read", "--record", &record, "--folder", &read];
    answer(&words, 0, &done("reader", plain));
    let words = ["write", "--set", "1", "--folder", &read, "--record", &out];
    answer(&words, 0, &done("writer", plain));
    let with_flag = [&words[..], &["--packed"]].concat();
    answer(&with_flag, 0, &done("packed writer", packed));
    let words = ["read", "--record", &out, "--folder", &read];
    answer(&words, 0, &done("packed reader", packed));
    let words = ["rebuild", "--a", &a, "--record", &out, "--out", &read];
    let (_, told, _) = run(&[&words[..], &["--json"]].concat());
    assert!(told.contains("\"status\":2,"), "{told}");
    let unpacked = folder.path("unpacked");
    let words = ["unpack", "--record", &out, "--out", &unpacked];
    answer(&words, 0, &done("unpacking", plain));
    let words = ["pack", "--record", &unpacked, "--out", &out];
    answer(&words, 0, &done("packing", packed));
    let check = ["check", "--a", &a, "--record", &record, "--sheet", &sheet];
    let refused = |call: &str, number: u32, meaning: &str, words: &str, cause: &str| {
        let (key, form) = match call {
            "comparison" => ("0", plain),
            _ => ("null", "null"),
        };
        format!(
            "{{\"status\":1,\"call\":\"{call}\",\"number\":{number},\"place\":0,\
             \"meaning\":\"{meaning}\",\"words\":{words},\"set\":1,\"key\":{key},\"form\":{form},\
             \"cause\":\"{cause}\"}}"
        )
    };
    let short = [&check[..], &["--hash", "cat >/dev/null; echo 7"]].concat();
    let form = "list not of the stated form, its count included";
    let cause = format!("the hash of {sheet}: a list of 1 places, set 1 has 23");
    answer(&short, 1, &refused("comparison", 5, form, "null", &cause));
    folder.put("words", &[0; 0]);
    let sign = ["sign", "--set", "1", "--folder", &path, "--record", &out];
    let none = "the walk needs a word and none is left";
    let cause = format!("{} holds 0 words", folder.path("words.txt"));
    answer(&sign, 1, &refused("response", 9, none, "0", &cause));
    let usage = "{\"status\":2,\"call\":null,\"number\":null,\"place\":null,\"meaning\":null,\
                 \"words\":null,\"set\":null,\"key\":null,\"form\":null,\
                 \"cause\":\"key-test: --set is missing; try --help\"}";
    answer(&["key-test"], 2, usage);
    // The other way of a check, where it fails without a number.
    folder.put("rebuilt", &[0; 512]);
    let (rebuilt, list) = (folder.path("rebuilt.txt"), folder.path("list.txt"));
    let words = [
        "check",
        "--a",
        &a,
        "--record",
        &record,
        "--rebuilt",
        &rebuilt,
    ];
    let (code, out, _) = run(&[&words[..], &["--hashed", &list, "--json"]].concat());
    assert_eq!(code, 1);
    assert!(
        out.contains("\"status\":1,\"call\":null,\"number\":null"),
        "{out}"
    );
    assert!(out.contains("is not what"), "{out}");
}

#[test]
fn the_demo_runs_for_every_set() {
    for number in 0..Set::ABOVE {
        let set = number.to_string();
        let words = ["demo", "--set", &set, "--seed", "3", "--sheets", "3"];
        let (code, said, _) = run(&words);
        assert_eq!(code, 0);
        for line in [
            "number 13, place 0:",
            "number 13, place 14:",
            "number 13, place 18:",
            "number 10, place 3:",
            "number 5, place 0:",
            "number 12, place 0:",
            "All 3 hold;",
            "holds on the shore",
            "It is key number 7.",
            &format!(
                "a signature of set {}, key number 7.",
                Set::asked(number).unwrap() as u32
            ),
        ] {
            assert!(said.contains(line), "{line}: {said}");
        }
        assert!(!said.contains("/tmp"), "{said}");
    }
}

#[test]
fn the_demo_hands_packed_records_over() {
    for set in Set::ALL {
        let number = set.number().to_string();
        let words = ["demo", "--set", &number, "--sheets", "3", "--packed"];
        let (code, said, _) = run(&words);
        assert_eq!(code, 0);
        let [plain, packed] = Form::ALL.map(|form| form.total(set));
        for line in [
            &format!("the packed record, {packed} bytes where the plain one has {plain}, and"),
            "number 13, place 0:",
            "number 13, place 14:",
            "number 13, place 18:",
            &format!("number 13, place {}:", packed - 1),
            "number 10, place 3:",
            "number 5, place 0:",
            "number 12, place 0:",
            "All 3 hold;",
            "holds on the shore",
        ] {
            assert!(said.contains(line), "{line}: {said}");
        }
    }
}

#[test]
fn the_demo_takes_the_default_of_a_call() {
    expect(&["demo"], 0, "with set 4 and seed 1");
    expect(&["demo", "--set", "0"], 0, "with set 4 and seed 1");
    expect(&["demo", "--set", "1"], 0, "with set 1 and seed 1");
    expect(&["demo", "--set", "8"], 0, "with set 8 and seed 1");
}

#[test]
fn the_demo_keeps_all_that_signing_takes() {
    let folder = Folder::new("demo");
    let kept = folder.path("kept");
    expect(&["demo", "--set=3", "--folder", &kept], 0, "sheet.record");
    let (record, again) = (folder.path("kept/sheet.record"), folder.path("again"));
    let sign = [
        "sign", "--set", "3", "--key", "7", "--folder", &kept, "--record", &again,
    ];
    expect(&sign, 0, "given out");
    assert_eq!(
        std::fs::read(&record).unwrap(),
        std::fs::read(&again).unwrap()
    );
    let demo = ["demo", "--set=3", "--seed=1", "--packed", "--folder", &kept];
    expect(&demo, 0, "/again.record --packed\n");
    expect(&demo, 0, "bursztok sign --set 3 --key 7 --folder ");
    let packed = [&sign[..], &["--packed"]].concat();
    expect(&packed, 0, "The packed record of 1146 bytes");
    assert_eq!(
        std::fs::read(&record).unwrap(),
        std::fs::read(&again).unwrap()
    );
    let out = folder.path("commitment");
    let commit = ["commit", "--set", "3", "--folder", &kept, "--out", &out];
    expect(&commit, 0, "");
    let stored = std::fs::read(Path::new(&kept).join("commitment.txt")).unwrap();
    assert_eq!(stored, std::fs::read(&out).unwrap());
    assert!(Path::new(&kept).join("sheet.txt").exists());
}
