//! The faults that are planted, and the one that is in the library now.

#[cfg(target_arch = "x86_64")]
use second::parameters::KeyCounts;
use second::testing::calls::Call::{self, *};
use second::{Edition, Form, Set};
use std::cell::Cell;
use std::fmt;

/// One fault of one call.
#[derive(Clone, Copy, Debug, PartialEq, Eq)]
pub struct Planted {
    pub call: Call,
    pub wrong: Wrong,
}

#[derive(Clone, Copy, Debug, PartialEq, Eq)]
pub enum Wrong {
    /// A refusal with this number is told as done.
    Missed(u32),
    /// A place is off by one.
    Place,
    /// The count of words is off by one, beside this number.
    Words(u32),
    /// The reader's set is off by one.
    Set,
    /// A part's start is off by one.
    Start,
    /// A part's length is off by one.
    Length,
    /// A set's size is off by one.
    Size,
    /// A number that is no set has a size.
    NoSet,
    /// A number stands for another set, or for none.
    Stands(u32, Option<u32>),
    /// A record that states this set is refused at byte 4.
    Unread(u32),
    /// The reader takes the list buffer of an older one.
    OlderList,
    /// One entry of what is written is off by one.
    Entry(Buffer),
    /// One entry is written on a refusal.
    Refused(Buffer),
    /// One entry that has to keep its contents is written: after the record, after the list.
    Tail(Buffer),
    /// The entry before the buffer is written.
    Before(Buffer),
    /// A key whose counts are wrong passes by this rule.
    Counts(Rule),
    /// The counts are tested before the coefficients' ranges, the masks and the list.
    CountsFirst,
    /// The counts are tested after the relation.
    CountsLast,
    /// A header whose field at this byte is wrong passes.
    Field(u32),
    /// A record of the other form is taken.
    OtherForm,
    /// Bits of a packed record go high first within a byte.
    HighFirst,
    /// The thirteenth bit of an entry of z1 is the twelfth.
    TwelveBits,
    /// A spare bit that is set passes.
    SpareUntested,
    /// Spare bits are tested before the header's fields after the set.
    SpareFirst,
    /// Spare bits are tested after the list and the limits.
    SpareLast,
    /// A spare bit is written as one.
    SpareSet,
    /// The output for a record is tested first.
    RoomFirst,
    /// The key number that is answered is off by one.
    Key,
    /// A refusal with this number answers the key number that was lent or stands in the record.
    KeptKey(u32),
    /// The key number that is answered or written has its high byte first.
    KeyHighFirst,
    /// The key number that is answered or written is 0.
    KeyCleared,
    /// The key number that is answered or written has its low two bytes alone.
    KeyHalf,
    /// A record with another byte than 0 among bytes 20-23 is refused.
    KeyTested,
    /// A key number whose highest bit is set is refused.
    KeyRefused,
}

/// A rule on the counts of f and of g that lets more keys pass than the paper's.
#[derive(Clone, Copy, Debug, PartialEq, Eq)]
pub enum Rule {
    /// There is none.
    Untested,
    OfFAlone,
    OfGAlone,
    /// f and g have the counts together.
    Together,
    AtMost,
    AtLeast,
    /// Only coefficients of 1 or -1 are counted.
    Ones,
    /// Only coefficients of 2 or -2 are counted.
    Twos,
    /// All are counted in one, those of 2 or -2 so many times.
    Weighed(usize),
}

impl Rule {
    const ALL: [Rule; 11] = [
        Rule::Untested,
        Rule::OfFAlone,
        Rule::OfGAlone,
        Rule::Together,
        Rule::AtMost,
        Rule::AtLeast,
        Rule::Ones,
        Rule::Twos,
        Rule::Weighed(1),
        Rule::Weighed(2),
        Rule::Weighed(4),
    ];

    /// Whether a key passes whose f and g have these counts.
    #[cfg(target_arch = "x86_64")]
    pub fn passes(self, f: KeyCounts, g: KeyCounts, right: KeyCounts) -> bool {
        let each = |passes: fn(KeyCounts, KeyCounts) -> bool| passes(f, right) && passes(g, right);
        match self {
            Rule::Untested => true,
            Rule::OfFAlone => f == right,
            Rule::OfGAlone => g == right,
            Rule::Together => {
                (f.ones + g.ones, f.twos + g.twos) == (2 * right.ones, 2 * right.twos)
            }
            Rule::AtMost => each(|of, right| of.ones <= right.ones && of.twos <= right.twos),
            Rule::AtLeast => each(|of, right| of.ones >= right.ones && of.twos >= right.twos),
            Rule::Ones => each(|of, right| of.ones == right.ones),
            Rule::Twos => each(|of, right| of.twos == right.twos),
            Rule::Weighed(weight) => {
                let sum = |of: KeyCounts| of.ones + weight * of.twos;
                sum(f) == sum(right) && sum(g) == sum(right)
            }
        }
    }
}

impl fmt::Display for Rule {
    fn fmt(&self, out: &mut fmt::Formatter<'_>) -> fmt::Result {
        match self {
            Rule::Untested => write!(out, "not tested"),
            Rule::OfFAlone => write!(out, "tested of f alone"),
            Rule::OfGAlone => write!(out, "tested of g alone"),
            Rule::Together => write!(out, "tested of f and g together"),
            Rule::AtMost => write!(out, "tested as at most"),
            Rule::AtLeast => write!(out, "tested as at least"),
            Rule::Ones => write!(out, "tested of 1 and -1 alone"),
            Rule::Twos => write!(out, "tested of 2 and -2 alone"),
            Rule::Weighed(weight) => write!(out, "tested in one, a 2 as {weight}"),
        }
    }
}

#[derive(Clone, Copy, Debug, PartialEq, Eq)]
pub enum Buffer {
    Rounded,
    Rests,
    Z1,
    Z2,
    List,
    Record,
}

use Buffer::{List, Record, Rests, Rounded, Z1, Z2};

impl Planted {
    pub fn name(&self) -> String {
        format!("{}: {}", self.call.name(), self.wrong)
    }
}

impl Wrong {
    /// The number of a set that is wrong alone.
    pub fn number(self) -> Option<u32> {
        match self {
            Wrong::Stands(number, _) | Wrong::Unread(number) => Some(number),
            _ => None,
        }
    }
}

impl fmt::Display for Wrong {
    fn fmt(&self, out: &mut fmt::Formatter<'_>) -> fmt::Result {
        match self {
            Wrong::Missed(number) => write!(out, "refusal {number} told as done"),
            Wrong::Place => write!(out, "place off by one"),
            Wrong::Words(number) => write!(out, "count of words off by one with {number}"),
            Wrong::Set => write!(out, "set off by one"),
            Wrong::Start => write!(out, "start of the part off by one"),
            Wrong::Length => write!(out, "length of the part off by one"),
            Wrong::Size => write!(out, "off by one"),
            Wrong::NoSet => write!(out, "told for a number that is no set"),
            Wrong::Stands(number, Some(set)) => write!(out, "{number} stands for set {set}"),
            Wrong::Stands(number, None) => write!(out, "{number} stands for no set"),
            Wrong::Unread(set) => write!(out, "a record of set {set} refused at byte 4"),
            Wrong::OlderList => write!(out, "a list buffer of an older reader taken"),
            Wrong::Entry(buffer) => write!(out, "an entry of {buffer} off"),
            Wrong::Refused(buffer) => write!(out, "an entry of {buffer} written on a refusal"),
            Wrong::Tail(buffer) => write!(out, "the tail of {buffer} written"),
            Wrong::Before(buffer) => write!(out, "the entry before {buffer} written"),
            Wrong::Counts(rule) => write!(out, "counts {rule}"),
            Wrong::CountsFirst => write!(out, "counts tested before 3, 4 and 5"),
            Wrong::CountsLast => write!(out, "counts tested after 6"),
            Wrong::Field(place) => write!(out, "header field at byte {place} not tested"),
            Wrong::OtherForm => write!(out, "a record of the other form taken"),
            Wrong::HighFirst => write!(out, "bits go high first"),
            Wrong::TwelveBits => write!(out, "z1 has twelve bits an entry"),
            Wrong::SpareUntested => write!(out, "spare bits not tested"),
            Wrong::SpareFirst => write!(out, "spare bits tested before the fields after the set"),
            Wrong::SpareLast => write!(out, "spare bits tested after 5, 10 and 11"),
            Wrong::SpareSet => write!(out, "a spare bit written as one"),
            Wrong::RoomFirst => write!(out, "14 tested before the other refusals"),
            Wrong::Key => write!(out, "key number off by one"),
            Wrong::KeptKey(number) => write!(out, "key number kept with {number}"),
            Wrong::KeyHighFirst => write!(out, "key number high byte first"),
            Wrong::KeyCleared => write!(out, "key number cleared"),
            Wrong::KeyHalf => write!(out, "high half of the key number lost"),
            Wrong::KeyTested => write!(out, "bytes 20-23 still tested"),
            Wrong::KeyRefused => write!(out, "a key number of 2^31 or more refused"),
        }
    }
}

impl fmt::Display for Buffer {
    fn fmt(&self, out: &mut fmt::Formatter<'_>) -> fmt::Result {
        out.write_str(match self {
            Rounded => "the rounded vector",
            Rests => "the rests",
            Z1 => "z1",
            Z2 => "z2 dagger",
            List => "the list",
            Record => "the record",
        })
    }
}

/// The buffers that a call writes.
fn written(call: Call) -> &'static [Buffer] {
    match call {
        Commitment | Rebuild | RebuildDefaultOne => &[Rounded],
        CommitmentWithRests => &[Rounded, Rests],
        Respond => &[Z1, Z2],
        Write | WritePacked | Pack | Unpack => &[Record],
        Read | ReadPacked => &[Z1, Z2, List],
        _ => &[],
    }
}

/// What can be wrong with the set that a call is asked for, or that a record states. A set is taken
/// for the one that it is like where that makes a difference: where kappa counts.
fn wrong_sets(call: Call) -> Vec<Wrong> {
    let longer = Set::ALL.into_iter().filter(|set| set.like() != *set);
    if !call.takes_set() {
        return longer.map(|set| Wrong::Unread(set.number())).collect();
    }
    // The other default of the two.
    let old = call.asked(0) == Ok(Set::I);
    let mut wrongs = vec![
        Wrong::Stands(0, None),
        Wrong::Stands(0, Some(if old { 4 } else { 1 })),
    ];
    for set in longer {
        wrongs.push(Wrong::Stands(set.number(), None));
        if !matches!(call, KeyTest | Commitment | CommitmentWithRests) {
            let like = set.like().number();
            wrongs.push(Wrong::Stands(set.number(), Some(like)));
        }
    }
    wrongs
}

/// What can be wrong with the record that a call is lent, or writes.
fn wrong_records(call: Call) -> Vec<Wrong> {
    let (takes, writes) = (call.takes(), call.writes());
    let mut wrongs = Vec::new();
    if takes.is_some() {
        wrongs.push(Wrong::OtherForm);
        let fields = Edition::THIS.fields();
        wrongs.extend(fields.map(|field| Wrong::Field(field.start as u32)));
    }
    if writes.is_some() {
        wrongs.extend([Wrong::Tail(Record), Wrong::RoomFirst]);
    }
    if [takes, writes].contains(&Some(Form::Packed)) {
        wrongs.extend([Wrong::HighFirst, Wrong::TwelveBits]);
    }
    if takes == Some(Form::Packed) {
        wrongs.extend([Wrong::SpareUntested, Wrong::SpareFirst, Wrong::SpareLast]);
    }
    if writes == Some(Form::Packed) {
        wrongs.push(Wrong::SpareSet);
    }
    wrongs
}

/// What can be wrong with the key number that a call is given, answers, reads or writes.
fn wrong_keys(call: Call) -> Vec<Wrong> {
    let mut wrongs = Vec::new();
    if call.answers_key() {
        wrongs.push(Wrong::Key);
        let refusals = call.numbers().iter().filter(|number| **number != 0);
        wrongs.extend(refusals.map(|&number| Wrong::KeptKey(number)));
    }
    if call.answers_key() || call.writes().is_some() {
        wrongs.extend([Wrong::KeyHighFirst, Wrong::KeyCleared, Wrong::KeyHalf]);
    }
    if call.takes().is_some() {
        wrongs.push(Wrong::KeyTested);
    }
    if call.takes_key() {
        wrongs.push(Wrong::KeyRefused);
    }
    wrongs
}

/// What can be wrong with a call.
fn wrongs(call: Call) -> Vec<Wrong> {
    let mut wrongs = wrong_sets(call);
    if !call.has_number() {
        wrongs.extend([Wrong::Size, Wrong::NoSet]);
        return wrongs;
    }
    for &number in call.numbers() {
        if number != 0 {
            wrongs.push(Wrong::Missed(number));
        }
    }
    wrongs.push(Wrong::Place);
    wrongs.extend(wrong_records(call));
    wrongs.extend(wrong_keys(call));
    match call {
        Respond => wrongs.extend([0, 15, 8, 9, 10, 11].map(Wrong::Words)),
        Read | ReadPacked => wrongs.extend([Wrong::Set, Wrong::Tail(List), Wrong::OlderList]),
        Z1Section | Z2Section | ListSection => wrongs.extend([Wrong::Start, Wrong::Length]),
        _ => {}
    }
    if call.numbers().contains(&15) {
        wrongs.extend(Rule::ALL.map(Wrong::Counts));
        wrongs.extend([Wrong::CountsFirst, Wrong::CountsLast]);
    }
    for &buffer in written(call) {
        wrongs.push(Wrong::Entry(buffer));
        wrongs.push(Wrong::Refused(buffer));
        wrongs.push(Wrong::Before(buffer));
    }
    wrongs
}

/// All faults, by call.
pub fn all() -> Vec<Planted> {
    let of = |call| {
        wrongs(call)
            .into_iter()
            .map(move |wrong| Planted { call, wrong })
    };
    Call::ALL.into_iter().flat_map(of).collect()
}

thread_local! {
    static NOW: Cell<Option<Planted>> = const { Cell::new(None) };
}

/// Puts a fault into the library, or takes it out again.
pub fn plant(fault: Option<Planted>) {
    NOW.set(fault);
}

/// What is wrong with the call now.
#[cfg(target_arch = "x86_64")]
pub fn wrong_with(call: Call) -> Option<Wrong> {
    let fault = NOW.get()?;
    (fault.call == call).then_some(fault.wrong)
}
