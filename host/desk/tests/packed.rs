//! 02, C-11: packed records in the tool.

mod setting;

use second::form::{turn_bit, Section};
use second::record::Held;
use second::{Form, Set};
use setting::{expect, record_of, run, Folder, HASH, SHEET};
use std::path::Path;

fn bytes(path: &str) -> Vec<u8> {
    std::fs::read(path).unwrap()
}

#[test]
fn a_sheet_goes_through_both_forms() {
    for set in Set::ALL {
        let folder = Folder::new(&format!("forms-{}", set.number()));
        let number = set.number().to_string();
        let [plain_bytes, packed_bytes] = Form::ALL.map(|form| form.total(set));
        let saved = plain_bytes - packed_bytes;
        let plain = record_of(set, &folder, &[]);
        let right = bytes(&plain);
        assert_eq!(right.len(), plain_bytes);

        let (packed, unpacked) = (folder.path("packed"), folder.path("unpacked"));
        let said = format!(
            "The packed record of {packed_bytes} bytes is in {packed}, {saved} fewer than it had."
        );
        expect(&["pack", "--record", &plain, "--out", &packed], 0, &said);
        // What the second program makes of it.
        let held = Held::of(Form::Plain, set, &right);
        assert_eq!(bytes(&packed), held.record(Form::Packed));
        let said = format!(
            "The record of {plain_bytes} bytes is in {unpacked}, {saved} more than it had."
        );
        let unpack = ["unpack", "--record", &packed, "--out", &unpacked];
        expect(&unpack, 0, &said);
        assert_eq!(bytes(&unpacked), right);

        // Each reads as the same signature, and is written from it again.
        let (read, again) = (folder.path("read"), folder.path("again"));
        for (record, more) in [(&plain, &[][..]), (&packed, &["--packed"])] {
            let words = ["read", "--record", record, "--folder", &read];
            expect(&words, 0, &format!("A signature of set {number};"));
            let write = [
                "write", "--set", &number, "--folder", &read, "--record", &again,
            ];
            expect(&[&write[..], more].concat(), 0, "bytes");
            assert_eq!(bytes(&again), bytes(record));
        }
        let said = format!("The packed record of {packed_bytes} bytes is in ");
        let path = folder.path("");
        let sign = [
            "sign", "--set", &number, "--folder", &path, "--record", &again,
        ];
        expect(&[&sign[..], &["--packed"]].concat(), 0, &said);
        assert_eq!(bytes(&again), bytes(&packed));
    }
}

#[test]
fn a_packed_record_is_checked_and_rebuilt_as_a_plain_one() {
    let folder = Folder::new("packed-check");
    let record = record_of(Set::II, &folder, &["--packed"]);
    assert_eq!(bytes(&record)[..4], *b"BLP1");
    let files = setting::files_of(Set::II, &folder);
    let (a, sheet) = (folder.path("a.txt"), folder.path("sheet"));
    std::fs::write(&sheet, SHEET).unwrap();
    let hash = folder.hash_command(Set::II, &files);
    let check = |sheet: &str, status: i32, said: &str| {
        let files = ["--a", &a, "--record", &record, "--sheet", sheet];
        let words = [&["check"], &files[..], &["--hash", &hash]].concat();
        expect(&words, status, said);
    };
    check(&sheet, 0, "The signature holds for");
    let other = folder.path("other");
    std::fs::write(&other, b"another sheet").unwrap();
    check(&other, 1, "comparison refused with number 12, place 0");
    check(&other, 1, &format!("the list in {record} and the hash of"));
    let rebuilt = folder.path("rebuilt");
    let rebuild = ["rebuild", "--a", &a, "--record", &record, "--out", &rebuilt];
    expect(&rebuild, 0, "The record reads as one of set 2");
    let committed: Vec<i64> = second::ring::whole(&files.committed);
    assert_eq!(setting::numbers(&rebuilt), committed);
    // The packed reader's refusal ends a check before the hash is run.
    let mut wrong = bytes(&record);
    wrong[24] = 0xff;
    wrong[25] |= 0x0f;
    std::fs::write(&record, &wrong).unwrap();
    let words = ["check", "--a", &a, "--record", &record, "--sheet", &sheet];
    let words = [&words[..], &["--hash", HASH]].concat();
    expect(&words, 1, "packed reader refused with number 10, place 0");
}

#[test]
fn inspect_shows_bits_and_bytes_saved() {
    for set in Set::ALL {
        let folder = Folder::new(&format!("packed-inspect-{}", set.number()));
        let record = record_of(set, &folder, &["--packed"]);
        let held = Held::of(Form::Packed, set, &bytes(&record));
        let [plain, packed] = Form::ALL.map(|form| form.total(set));
        let (number, kappa) = (set.number(), set.kappa());
        let (code, said, _) = run(&["inspect", &record]);
        assert_eq!(code, 0);
        let lines: Vec<&str> = said.lines().collect();
        assert_eq!(lines[0], format!("{record}: {packed} bytes"));
        assert_eq!(lines[1], "header  0   letters              BLP1");
        assert_eq!(lines[7], "header 12   offset of z2 dagger  856");
        assert_eq!(lines[9], "header 16   offset of the list   1112");
        let range = |entries: &[i64]| {
            let (least, most) = (entries.iter().min().unwrap(), entries.iter().max().unwrap());
            format!("from {least} to {most}: {} {} ", entries[0], entries[1])
        };
        for (line, wanted) in [
            (12, "z1          bytes 24 .. 855, 512 entries of 13 bits "),
            (13, "z2 dagger   bytes 856 .. 1111, 512 entries of 4 bits "),
        ] {
            assert!(lines[line].starts_with(wanted), "{}", lines[line]);
        }
        assert!(lines[12].contains(&range(&held.z1)), "{}", lines[12]);
        assert!(lines[13].contains(&range(&held.z2_dagger)), "{}", lines[13]);
        let last = packed - 1;
        let list = format!("list        bytes 1112 .. {last}, {kappa} entries of 9 bits ");
        assert!(lines[14].starts_with(&list), "{}", lines[14]);
        assert!(lines[14].contains(&range(&held.list)), "{}", lines[14]);
        let spare = Form::Packed.spare_bits(set).len();
        let bits = if spare == 1 { "bit" } else { "bits" };
        let saved = plain - packed;
        let wanted = [
            format!("spare       {spare} {bits} of byte {last}: 0"),
            format!("form        packed; plain it has {plain} bytes, {saved} are saved"),
            format!("reader      done, a signature of set {number}, key number not stated"),
        ];
        assert_eq!(lines[15..], wanted);
    }
}

#[test]
fn inspect_tells_the_form_of_many() {
    let folder = Folder::new("packed-many");
    let plain = record_of(Set::VIII, &folder, &[]);
    let packed = folder.path("packed");
    expect(&["pack", "--record", &plain, "--out", &packed], 0, "");
    let (code, said, _) = run(&["inspect", &plain, &packed]);
    assert_eq!(code, 0);
    let wanted = [
        format!("{plain}: a signature of set 8, key number not stated, 1786 bytes"),
        format!(
            "{packed}: a packed signature of set 8, key number not stated, 1240 bytes, 546 saved"
        ),
        "2 records: 2 read, 0 refused, 0 not opened".to_string(),
    ];
    assert_eq!(said.lines().collect::<Vec<_>>(), wanted);
    let (_, said, _) = run(&["inspect", "--json", &plain, &packed]);
    let lines: Vec<&str> = said.lines().collect();
    assert!(lines[0].contains("\"call\":\"reader\",") && lines[0].contains("\"form\":\"plain\""));
    let read = "\"call\":\"packed reader\",";
    assert!(lines[1].contains(read) && lines[1].contains("\"form\":\"packed\""));
}

#[test]
fn a_packed_record_is_refused_with_its_file_and_its_fault() {
    let folder = Folder::new("packed-refused");
    let record = record_of(Set::III, &folder, &["--packed"]);
    let right = bytes(&record);
    let held = Held::of(Form::Packed, Set::III, &right);
    let (bad, out) = (folder.path("bad"), folder.path("out"));
    let refused = |record: &[u8], number: &str, cause: &str, mark: &str| {
        std::fs::write(&bad, record).unwrap();
        let cause = format!("{bad}{cause}");
        for words in [
            &["read", "--record", &bad, "--folder", &out][..],
            &["unpack", "--record", &bad, "--out", &out],
            &["inspect", &bad],
        ] {
            expect(words, 1, number);
            expect(words, 1, &cause);
        }
        assert!(!Path::new(&out).exists());
        let (_, said, _) = run(&["inspect", &bad]);
        let marked: Vec<&str> = said.lines().filter(|line| line.contains(" <-- ")).collect();
        assert_eq!(marked, [mark], "{said}");
    };
    let mut spare = right.clone();
    turn_bit(&mut spare, 8 * 1145 + 6);
    refused(
        &spare,
        "number 13, place 1145",
        ": byte 1145, spare bits: 64, 0 expected",
        "spare       2 bits of byte 1145: 64  <-- wrong",
    );
    let mut offset = right.clone();
    offset[13] = 4;
    refused(
        &offset,
        "number 13, place 12",
        ": bytes 12-13, offset of z2 dagger: 1112, 856 expected",
        "header 12   offset of z2 dagger  1112  <-- wrong",
    );
    let mut far = held.clone();
    far.z1[3] = -4096;
    refused(
        &far.record(Form::Packed),
        "number 10, place 3",
        ", z1: place 3 is -4096",
        "            <-- wrong: entry 3 is -4096",
    );
    let mut far = held.clone();
    far.z2_dagger[511] = 7;
    refused(
        &far.record(Form::Packed),
        "number 10, place 1023",
        ", z2 dagger: place 511 is 7",
        "            <-- wrong: entry 511 is 7",
    );
    let mut falling = held.clone();
    falling.list[1] = falling.list[0];
    refused(
        &falling.record(Form::Packed),
        "number 5, place 0",
        ": entry 1 of the list is ",
        "            <-- wrong: not of the stated form",
    );
    refused(
        &right[..1145],
        "number 13, place 18",
        ": 1145 bytes, set 3 has 1146",
        "header 18   total                1146  <-- wrong",
    );
}

#[test]
fn a_conversion_says_that_the_record_is_one_of_the_other_form() {
    let folder = Folder::new("other-form");
    let plain = record_of(Set::I, &folder, &[]);
    let (packed, out) = (folder.path("packed"), folder.path("out"));
    expect(&["pack", "--record", &plain, "--out", &packed], 0, "");
    for (words, said, call) in [
        (
            ["pack", "--record", &packed, "--out", &out],
            "packed: a packed record already, with the letters BLP1\n",
            "packing refused with number 13, place 0",
        ),
        (
            ["unpack", "--record", &plain, "--out", &out],
            "record: a plain record already, with the letters BLB1\n",
            "unpacking refused with number 13, place 0",
        ),
    ] {
        expect(&words, 1, said);
        expect(&words, 1, call);
        assert!(!Path::new(&out).exists());
    }
    // Letters of neither form.
    let mut neither = bytes(&plain);
    neither[2] = b'X';
    std::fs::write(&plain, &neither).unwrap();
    for (words, letters) in [
        (&["inspect", &plain][..], "BLB1 or BLP1"),
        (&["pack", "--record", &plain, "--out", &out], "BLB1"),
        (&["unpack", "--record", &plain, "--out", &out], "BLP1"),
    ] {
        let said = format!("bytes 0-3, letters: BLX1, {letters} expected\n");
        expect(words, 1, &said);
    }
    let same = ["pack", "--record", &packed, "--out", &packed];
    expect(&same, 2, "pack: --out names the file of record");
}

#[test]
fn help_has_the_bits_and_what_they_save() {
    let saved = Set::ALL.map(|set| Form::Plain.total(set) - Form::Packed.total(set));
    let (least, most) = (saved.iter().min().unwrap(), saved.iter().max().unwrap());
    let pack = run(&["help", "pack"]).1;
    assert!(
        pack.contains(&format!("in {least} to {most} bytes fewer")),
        "{pack}"
    );
    let [z1, z2_dagger, list] = Section::ALL.map(|section| Form::Packed.bits(section));
    let pack = pack.replace('\n', " ");
    let bits =
        format!("z1 takes {z1} bits, one of z2 dagger {z2_dagger}, a place of the list {list}.");
    assert!(pack.contains(&bits), "{pack}");
    let overview = run(&["--help"]).1;
    assert!(overview.contains("plain (letters BLB1) or packed (BLP1)"));
}
