//! Text files of numbers: whole numbers between white space; '#' starts a comment that ends with
//! its line. A byte order mark is skipped; a line ends with LF, CR or both.

use crate::console::shown;
use crate::files::read_file;
use std::fmt::Display;
use std::path::Path;
use std::str::FromStr;

/// A type of numbers, with its range for messages.
pub trait Number: FromStr + Display {
    const RANGE: (i128, i128);
}

macro_rules! number {
    ($($type:ty),*) => {
        $(impl Number for $type {
            const RANGE: (i128, i128) = (<$type>::MIN as i128, <$type>::MAX as i128);
        })*
    };
}
number!(i8, u8, i16, u16, u64);

/// The numbers of a text file. A number has to fit its type; count and range are for others to
/// judge.
pub fn read_numbers<T: Number>(path: &Path) -> Result<Vec<T>, String> {
    let name = path.display();
    let text =
        String::from_utf8(read_file(path)?).map_err(|_| format!("{name}: not a text file"))?;
    numbers_of(&text).map_err(|(line, what)| format!("{name}, line {line}: {what}"))
}

/// The numbers of a text, or the first line at fault and what stands there.
pub fn numbers_of<T: Number>(text: &str) -> Result<Vec<T>, (usize, String)> {
    let mut numbers = Vec::new();
    for (number, line) in lines_of(text) {
        for word in line.split_whitespace() {
            numbers.push(word.parse().map_err(|_| (number, misfit::<T>(word)))?);
        }
    }
    Ok(numbers)
}

/// The lines of a text, numbered from 1, without their comments.
fn lines_of(text: &str) -> Vec<(usize, String)> {
    let text = text.strip_prefix('\u{feff}').unwrap_or(text);
    let text = text.replace("\r\n", "\n");
    let lines = text.split(['\n', '\r']).enumerate();
    let content = |line: &str| line.split('#').next().unwrap_or_default().to_string();
    lines
        .map(|(index, line)| (index + 1, content(line)))
        .collect()
}

fn misfit<T: Number>(word: &str) -> String {
    let ((least, most), word) = (T::RANGE, shown(word));
    format!("found '{word}', expected a whole number from {least} to {most}")
}

/// A text of numbers, sixteen to a line, under a line that names them.
pub fn text_of<T: Display>(name: &str, numbers: &[T]) -> Vec<u8> {
    let mut text = format!("# {name}\n");
    for line in numbers.chunks(16) {
        text.push_str(&joined(line));
        text.push('\n');
    }
    text.into_bytes()
}

/// The numbers with a space between.
pub fn joined<T: Display>(numbers: &[T]) -> String {
    let words: Vec<String> = numbers.iter().map(T::to_string).collect();
    words.join(" ")
}

#[cfg(test)]
mod tests {
    use super::{joined, lines_of, numbers_of, text_of};

    #[test]
    fn lines_end_with_lf_cr_or_both() {
        let lines = lines_of("\u{feff}1 # one\r\n2\r3\n");
        let lines: Vec<(usize, &str)> = lines
            .iter()
            .map(|(number, line)| (*number, line.as_str()))
            .collect();
        assert_eq!(lines, [(1, "1 "), (2, "2"), (3, "3"), (4, "")]);
    }

    #[test]
    fn numbers_stand_between_white_space_and_comments() {
        let text = "# masks\n1 -2\t3\n\n  4 # five 5\n";
        assert_eq!(numbers_of::<i8>(text), Ok(vec![1, -2, 3, 4]));
        assert_eq!(numbers_of::<u64>("# nothing"), Ok(vec![]));
        assert_eq!(numbers_of::<u16>("\u{feff}1\r# one\r2"), Ok(vec![1, 2]));
        assert_eq!(joined(&[1, -2]), "1 -2");
        let text = String::from_utf8(text_of("z1", &[7i16; 17])).unwrap();
        assert_eq!(numbers_of::<i16>(&text), Ok(vec![7; 17]));
    }

    #[test]
    fn a_word_that_does_not_fit_is_named_with_its_line() {
        let fault = numbers_of::<i8>("1\n2 128\n").unwrap_err();
        let what = "found '128', expected a whole number from -128 to 127";
        assert_eq!(fault, (2, what.to_string()));
        assert_eq!(numbers_of::<u16>("\n\n-1").unwrap_err().0, 3);
        assert_eq!(numbers_of::<u64>("1 2 1.5").unwrap_err().0, 1);
        let (line, what) = numbers_of::<i8>("1\r2\r\x1b7").unwrap_err();
        assert_eq!(line, 3);
        assert!(what.starts_with("found '\\u{1b}7'"), "{what}");
    }
}
