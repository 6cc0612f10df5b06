//! What the tests of the tool share: folders, files of a signed sheet, and the tool itself.

use second::testing::keys::{published, Key};
use second::testing::noise::Noise;
use second::testing::sheet::{sign, Signature, Try};
use second::Set;
use std::fmt::Display;
use std::path::{Path, PathBuf};
use std::process::Command;

pub const SHEET: &[u8] = b"a cargo sheet";

/// A command that reads its input and hashes nothing.
#[allow(dead_code)]
pub const HASH: &str = "cat >/dev/null; echo 1";

/// A folder of its own for a test, removed when the test ends.
pub struct Folder(pub PathBuf);

impl Folder {
    pub fn new(name: &str) -> Folder {
        let path = std::env::temp_dir().join(format!("bursztok-{}-{name}", std::process::id()));
        std::fs::create_dir_all(&path).unwrap();
        Folder(path)
    }

    pub fn path(&self, name: &str) -> String {
        self.0.join(name).display().to_string()
    }

    pub fn put<T: Display>(&self, name: &str, numbers: &[T]) {
        let words: Vec<String> = numbers.iter().map(T::to_string).collect();
        std::fs::write(self.0.join(name).with_extension("txt"), words.join("\n")).unwrap();
    }

    /// A hash as a command: of the commitment and the sheet it answers with the list of the try, of
    /// anything else with another list.
    #[allow(dead_code)]
    pub fn hash_command(&self, set: Set, files: &Files) -> String {
        let entries = files.committed.iter().flat_map(|entry| entry.to_le_bytes());
        let known: Vec<u8> = entries.chain(SHEET.iter().copied()).collect();
        std::fs::write(self.path("known"), known).unwrap();
        let (known, given, list) = (
            self.path("known"),
            self.path("given"),
            self.path("list.txt"),
        );
        let (number, last) = (set.number(), set.kappa() - 1);
        format!(
            "test $BURSZTOK_SET = {number} && cat >{given} && \
             if cmp -s {given} {known}; then cat {list}; else seq 0 {last}; fi"
        )
    }
}

impl Drop for Folder {
    fn drop(&mut self) {
        let _ = std::fs::remove_dir_all(&self.0);
    }
}

/// Exit status, standard output and standard error.
pub fn run(words: &[&str]) -> (i32, String, String) {
    let output = Command::new(env!("CARGO_BIN_EXE_bursztok"))
        .args(words)
        .output()
        .unwrap();
    (
        output.status.code().unwrap(),
        String::from_utf8(output.stdout).unwrap(),
        String::from_utf8(output.stderr).unwrap(),
    )
}

/// Runs to an exit status, and sees the words in what the tool said.
pub fn expect(words: &[&str], status: i32, said: &str) {
    let (code, out, err) = run(words);
    assert_eq!(code, status, "{words:?}: {out}{err}");
    let text = if status == 0 { &out } else { &err };
    assert!(text.contains(said), "{words:?}: '{said}' is not in: {text}");
}

/// A sheet that the second program signed.
#[allow(dead_code)]
pub struct Files {
    pub key: Key,
    pub committed: Vec<u16>,
    pub last_try: Try,
    pub signature: Signature,
}

/// Signs the sheet with a test key, and puts all that signing takes into the folder.
pub fn files_of(set: Set, folder: &Folder) -> Files {
    let mut noise = Noise::new(70);
    let key = published(set, &mut noise);
    let signed = sign(set, &key, SHEET, &mut noise);
    folder.put("f", &key.f);
    folder.put("g", &key.g);
    folder.put("a", &key.a);
    folder.put("y1", &signed.last_try.y1);
    folder.put("y2", &signed.last_try.y2);
    folder.put("list", &signed.last_try.list);
    folder.put("sign", &[i8::from(signed.last_try.sign)]);
    folder.put("thresholds", &signed.last_try.thresholds);
    folder.put("words", &signed.last_try.words);
    Files {
        key,
        committed: signed.committed,
        last_try: signed.last_try,
        signature: signed.signature,
    }
}

/// The record of a sheet that the tool signs with these words more.
#[allow(dead_code)]
pub fn record_of(set: Set, folder: &Folder, more: &[&str]) -> String {
    files_of(set, folder);
    let (path, record) = (folder.path(""), folder.path("record"));
    let number = set.number().to_string();
    let sign = [
        "sign", "--set", &number, "--folder", &path, "--record", &record,
    ];
    expect(&[&sign[..], more].concat(), 0, "given out");
    record
}

#[allow(dead_code)]
pub fn numbers(path: &str) -> Vec<i64> {
    let text = std::fs::read_to_string(Path::new(path)).unwrap();
    text.lines()
        .filter(|line| !line.starts_with('#'))
        .flat_map(str::split_whitespace)
        .map(|word| word.parse().unwrap())
        .collect()
}
