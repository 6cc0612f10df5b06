//! "Numbers that come back".

use std::fmt;

/// Why a call refused: one case for each number of papers 01 and 02 beside 0.
#[derive(Clone, Copy, Debug, PartialEq, Eq)]
pub enum Refusal {
    /// 1
    NoSuchSet,
    /// 2
    Length,
    /// 3
    Coefficient,
    /// 4
    Mask,
    /// 5
    List,
    /// 6
    Relation,
    /// 7, which can't occur
    KeyLength,
    /// 8
    Draw,
    /// 9
    Words,
    /// 10
    Entry { place: u32 },
    /// 11
    Sum,
    /// 12
    ListsDiffer,
    /// 13
    Header { place: u32 },
    /// 14
    Room,
    /// 15
    KeyCounts,
    /// No answer of the papers: another number, or a place where they have none.
    Unlisted { number: u32, place: u32 },
}

impl Refusal {
    /// The outcome that a call's number and place stand for.
    pub fn outcome(number: u32, place: u32) -> Result<(), Refusal> {
        Err(match (number, place) {
            (0, 0) => return Ok(()),
            (1, 0) => Refusal::NoSuchSet,
            (2, 0) => Refusal::Length,
            (3, 0) => Refusal::Coefficient,
            (4, 0) => Refusal::Mask,
            (5, 0) => Refusal::List,
            (6, 0) => Refusal::Relation,
            (7, 0) => Refusal::KeyLength,
            (8, 0) => Refusal::Draw,
            (9, 0) => Refusal::Words,
            (10, place) => Refusal::Entry { place },
            (11, 0) => Refusal::Sum,
            (12, 0) => Refusal::ListsDiffer,
            (13, place) => Refusal::Header { place },
            (14, 0) => Refusal::Room,
            (15, 0) => Refusal::KeyCounts,
            (number, place) => Refusal::Unlisted { number, place },
        })
    }

    pub fn number(self) -> u32 {
        match self {
            Refusal::NoSuchSet => 1,
            Refusal::Length => 2,
            Refusal::Coefficient => 3,
            Refusal::Mask => 4,
            Refusal::List => 5,
            Refusal::Relation => 6,
            Refusal::KeyLength => 7,
            Refusal::Draw => 8,
            Refusal::Words => 9,
            Refusal::Entry { .. } => 10,
            Refusal::Sum => 11,
            Refusal::ListsDiffer => 12,
            Refusal::Header { .. } => 13,
            Refusal::Room => 14,
            Refusal::KeyCounts => 15,
            Refusal::Unlisted { number, .. } => number,
        }
    }

    /// The place: 0 except with 10 and 13.
    pub fn place(self) -> u32 {
        match self {
            Refusal::Entry { place }
            | Refusal::Header { place }
            | Refusal::Unlisted { place, .. } => place,
            _ => 0,
        }
    }

    /// The papers' words for the number.
    pub fn meaning(self) -> &'static str {
        match self {
            Refusal::NoSuchSet => "set above 8",
            Refusal::Length => {
                "a vector, read or written, isn't 512 long, thresholds not 31, or the reader's \
                 list buffer not 113"
            }
            Refusal::Coefficient => "coefficient of f, g or a outside its range",
            Refusal::Mask => "mask coefficient outside -4,096 .. 4,096",
            Refusal::List => "list not of the stated form, its count included",
            Refusal::Relation => "key relation doesn't hold",
            Refusal::KeyLength => "key longer than K: can't occur",
            Refusal::Draw => "rejected by the draw",
            Refusal::Words => "the walk needs a word and none is left",
            Refusal::Entry { .. } => {
                "entry beyond \"largest\", with the first place: z1 is 0 .. 511, z2 dagger \
                 512 .. 1023"
            }
            Refusal::Sum => "sum of squares above B2 squared",
            Refusal::ListsDiffer => "both lists are proper and differ",
            Refusal::Header { .. } => {
                "header malformed, with the first byte of the first wrong field; shorter than \
                 24, its length; a spare bit set, its byte"
            }
            Refusal::Room => "output of a writer or a conversion shorter than the total",
            Refusal::KeyCounts => "counts wrong",
            Refusal::Unlisted { .. } => "no answer of the papers",
        }
    }
}

impl fmt::Display for Refusal {
    fn fmt(&self, out: &mut fmt::Formatter<'_>) -> fmt::Result {
        let (number, place) = (self.number(), self.place());
        write!(out, "number {number}, place {place}: {}", self.meaning())
    }
}

impl std::error::Error for Refusal {}

#[cfg(test)]
mod tests {
    use super::Refusal;

    #[test]
    fn number_and_place_survive() {
        for number in 1..20 {
            for place in [0, 1, 512, 1023, u32::MAX] {
                let refusal = Refusal::outcome(number, place).unwrap_err();
                assert_eq!((refusal.number(), refusal.place()), (number, place));
            }
        }
        assert_eq!(Refusal::outcome(0, 0), Ok(()));
        let unlisted = Refusal::Unlisted {
            number: 0,
            place: 7,
        };
        assert_eq!(Refusal::outcome(0, 7), Err(unlisted));
    }

    #[test]
    fn the_headers_numbers_are_the_papers() {
        let header = include_str!("../../../include/bursztok.h");
        let numbers = header.split("enum bursztok_number {").nth(1).unwrap();
        let numbers = numbers.split("};").next().unwrap();
        let values: Vec<&str> = numbers
            .lines()
            .filter_map(|line| line.split_once(" = "))
            .map(|(_, value)| value.trim_end_matches(','))
            .collect();
        let mut wanted: Vec<String> = (0..=15).map(|number| number.to_string()).collect();
        // 1 has an older name too.
        wanted.push("BURSZTOK_NO_SUCH_SET".to_string());
        assert_eq!(values, wanted);
        for (name, number) in [
            ("DONE", 0),
            ("NO_SUCH_SET", 1),
            ("KEY_RELATION", 6),
            ("REJECTED", 8),
            ("ENTRY", 10),
            ("HEADER", 13),
            ("KEY_COUNTS", 15),
        ] {
            assert!(numbers.contains(&format!("BURSZTOK_{name} = {number}")));
        }
    }

    /// "Numbers that come back", word for word, with what paper 02 makes of them.
    const WORDS: [&str; 15] = [
        "set above 8",
        "a vector, read or written, isn't 512 long, thresholds not 31, or the reader's list \
         buffer not 113",
        "coefficient of f, g or a outside its range",
        "mask coefficient outside -4,096 .. 4,096",
        "list not of the stated form, its count included",
        "key relation doesn't hold",
        "key longer than K: can't occur",
        "rejected by the draw",
        "the walk needs a word and none is left",
        "entry beyond \"largest\", with the first place: z1 is 0 .. 511, z2 dagger 512 .. 1023",
        "sum of squares above B2 squared",
        "both lists are proper and differ",
        "header malformed, with the first byte of the first wrong field; shorter than 24, its \
         length; a spare bit set, its byte",
        "output of a writer or a conversion shorter than the total",
        "counts wrong",
    ];

    #[test]
    fn the_papers_numbers_have_the_papers_words() {
        for (number, words) in (1..).zip(WORDS) {
            let refusal = Refusal::outcome(number, 0).unwrap_err();
            assert_eq!(refusal.meaning(), words);
        }
        assert_eq!(
            Refusal::outcome(16, 0).unwrap_err().meaning(),
            "no answer of the papers"
        );
        let entry = Refusal::Entry { place: 700 };
        assert_eq!(
            entry.to_string(),
            format!("number 10, place 700: {}", WORDS[9])
        );
    }
}
