//! The desk's own hash: a command that gets the rebuilt vector and the sheet on its standard input
//! and answers with a list.

use crate::failure::Failure;
use shell::console::shown;
use shell::numbers::numbers_of;
use std::io::{Read, Write};
use std::process::{Child, Command, Stdio};

/// More than any list takes as text.
const MOST: u64 = 65_536;

/// The list that the command answers with, or a failure that says what the command did.
pub fn hashed_by(
    command: &str,
    set: u32,
    rebuilt: &[u16],
    sheet: &[u8],
) -> Result<Vec<u16>, Failure> {
    let bad = |what: String| Failure::usage(format!("--hash '{}' {what}", shown(command)));
    let mut child = Command::new("sh")
        .args(["-c", command])
        .env("BURSZTOK_SET", set.to_string())
        .stdin(Stdio::piped())
        .stdout(Stdio::piped())
        .spawn()
        .map_err(|error| bad(format!("cannot be run: {error}")))?;
    let entries = rebuilt.iter().flat_map(|entry| entry.to_le_bytes());
    let input: Vec<u8> = entries.chain(sheet.iter().copied()).collect();
    let (taken, answer) = exchange(&mut child, &input);
    let ended = child.wait().map_err(|error| bad(error.to_string()))?;
    if !ended.success() {
        return Err(bad(format!("failed, with {ended}")));
    }
    // A hash of less than all that it was given is a hash of something else.
    taken.map_err(|_| bad("did not read all of the vector and the sheet".to_string()))?;
    let answer = answer.map_err(|error| bad(error.to_string()))?;
    let text = String::from_utf8(answer).map_err(|_| bad("answers with no text".to_string()))?;
    numbers_of(&text).map_err(|(line, what)| bad(format!("answers, in line {line}: {what}")))
}

/// Gives the command its input and takes its output, both at once.
fn exchange(child: &mut Child, input: &[u8]) -> (std::io::Result<()>, std::io::Result<Vec<u8>>) {
    let mut stdin = child.stdin.take().expect("it is piped");
    let stdout = child.stdout.take().expect("it is piped");
    std::thread::scope(|scope| {
        let written = scope.spawn(move || stdin.write_all(input));
        let mut answer = Vec::new();
        let read = stdout.take(MOST).read_to_end(&mut answer);
        let written = written.join().expect("a write does not panic");
        (written, read.map(|_| answer))
    })
}

#[cfg(test)]
mod tests {
    use super::hashed_by;
    use crate::failure::Failure;

    fn told(command: &str, sheet: &[u8]) -> String {
        match hashed_by(command, 3, &[1, 258], sheet) {
            Err(Failure::Usage(message)) => message,
            other => panic!("{other:?}"),
        }
    }

    #[test]
    fn the_command_gets_the_vector_low_bytes_first_and_the_sheet() {
        let bytes = "od -An -v -tu1";
        let list = hashed_by(bytes, 3, &[1, 258], b"AB").unwrap();
        assert_eq!(list, [1, 0, 2, 1, 65, 66]);
        let set = hashed_by("cat >&2; echo $BURSZTOK_SET", 3, &[], b"").unwrap();
        assert_eq!(set, [3]);
    }

    #[test]
    fn a_command_that_does_not_hash_is_told() {
        assert!(told("cat >/dev/null; exit 7", b"").contains("failed, with exit status: 7"));
        assert!(told("cat >/dev/null; echo one", b"").contains("found 'one'"));
        assert!(told("cat >/dev/null; printf '\\377'", b"").contains("no text"));
        let large = vec![0; 1 << 20];
        let unread = told("echo 1 2 3", &large);
        assert!(unread.contains("did not read all"), "{unread}");
    }
}
