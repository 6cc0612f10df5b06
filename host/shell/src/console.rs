//! What the programs say, and the words that they are given. Nothing here panics.

use std::fmt::Arguments;
use std::io::{self, Write};

/// Says a line on standard output.
#[macro_export]
macro_rules! say {
    ($($words:tt)*) => {
        $crate::console::print(format_args!("{}\n", format_args!($($words)*)))
    };
}

/// Says a line on standard error.
#[macro_export]
macro_rules! warn {
    ($($words:tt)*) => {
        $crate::console::print_error(format_args!("{}\n", format_args!($($words)*)))
    };
}

/// Writes to standard output. Where that cannot be written to the run ends, with status 2, and
/// says why; a reader that has closed its pipe wants to hear nothing.
pub fn print(text: Arguments) {
    let mut out = io::stdout().lock();
    if let Err(error) = out.write_fmt(text).and_then(|()| out.flush()) {
        // The lock is let go, for the run's end takes it again.
        drop(out);
        if error.kind() != io::ErrorKind::BrokenPipe {
            warn!("standard output cannot be written to: {error}");
        }
        std::process::exit(2);
    }
}

/// Writes to standard error, if it can be written to.
pub fn print_error(text: Arguments) {
    let mut out = io::stderr().lock();
    let _ = out.write_fmt(text).and_then(|()| out.flush());
}

/// The words after the program's name. One that is not UTF-8 ends the run, with status 2.
pub fn arguments() -> Vec<String> {
    let words = std::env::args_os().skip(1);
    words
        .map(|word| {
            word.into_string().unwrap_or_else(|word| {
                warn!("the argument {word:?} is not text in UTF-8");
                std::process::exit(2)
            })
        })
        .collect()
}

/// A word as a message shows it: at most 40 characters, with control characters escaped.
pub fn shown(word: &str) -> String {
    const MOST: usize = 40;
    let mut shown: String = word.chars().take(MOST).flat_map(escaped).collect();
    if word.chars().count() > MOST {
        shown.push_str("..");
    }
    shown
}

fn escaped(character: char) -> Vec<char> {
    if character.is_ascii_graphic() || character.is_alphanumeric() || character == ' ' {
        vec![character]
    } else {
        character.escape_default().collect()
    }
}

#[cfg(test)]
mod tests {
    use super::shown;

    #[test]
    fn words_are_shown_short_and_escaped() {
        assert_eq!(shown("sieben"), "sieben");
        assert_eq!(shown("\u{1b}[2J"), "\\u{1b}[2J");
        assert_eq!(shown(&"9".repeat(41)), format!("{}..", "9".repeat(40)));
    }
}
