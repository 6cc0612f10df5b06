//! Replays a file of vectors against the second program, from its bytes alone.

use crate::recorder::{CALL, LOAD, PATCH};
use crate::slots::{Asked, Output, Slot, Slots, RECORD};
use crate::{LETTERS, LETTERS_BEFORE_KEYS};
use second::form::{key_in, KEY_FIELD, KEY_NOT_STATED};
use second::testing::calls::{Answered, Call, OutputLengths};
use std::collections::BTreeMap;
use std::fmt;

/// How often each call (1 to 17) gave each number.
pub type Counts = BTreeMap<(u8, u32), u32>;

/// What a replay comes to.
#[derive(Debug, PartialEq, Eq)]
pub struct Replayed {
    /// The calls that answered as the file has it.
    pub counts: Counts,
    /// Those of a file of before the key number that had 13 at 20, which is no longer given; none for
    /// a file of today.
    pub taken_back: Option<u32>,
}

impl Replayed {
    /// All calls of the file.
    pub fn calls(&self) -> u32 {
        self.counts.values().sum::<u32>() + self.taken_back.unwrap_or(0)
    }
}

/// What a file is, by its letters.
#[derive(Clone, Copy, Debug, PartialEq, Eq)]
enum Kind {
    Today,
    BeforeKeys,
}

impl Kind {
    fn of(letters: &[u8]) -> Option<Kind> {
        let kinds = [
            (LETTERS, Kind::Today),
            (LETTERS_BEFORE_KEYS, Kind::BeforeKeys),
        ];
        let found = kinds.into_iter().find(|(own, _)| *own == letters);
        found.map(|(_, kind)| kind)
    }

    /// The bytes of a call.
    fn call_bytes(self) -> usize {
        match self {
            Kind::Today => 36,
            Kind::BeforeKeys => 28,
        }
    }
}

/// Why a replay ends early.
#[derive(Debug, PartialEq, Eq)]
pub enum Fault {
    /// The file is not of the stated form.
    Malformed(String),
    /// The second program answers otherwise.
    Differs(String),
}

impl Fault {
    fn malformed(what: impl Into<String>) -> Fault {
        Fault::Malformed(what.into())
    }

    fn at(self, entry: u64) -> Fault {
        match self {
            Fault::Malformed(what) => Fault::Malformed(format!("entry {entry}: {what}")),
            Fault::Differs(what) => Fault::Differs(format!("entry {entry}: {what}")),
        }
    }
}

impl fmt::Display for Fault {
    fn fmt(&self, out: &mut fmt::Formatter<'_>) -> fmt::Result {
        let (Fault::Malformed(what) | Fault::Differs(what)) = self;
        out.write_str(what)
    }
}

/// Replays a file, of today or of before the key number; the first fault is told with its entry.
pub fn replay(file: &[u8]) -> Result<Replayed, Fault> {
    let mut rest = file;
    let kind = Kind::of(take(&mut rest, 8)?).ok_or_else(|| {
        let (letters, before) = (LETTERS.escape_ascii(), LETTERS_BEFORE_KEYS.escape_ascii());
        Fault::Malformed(format!("the letters are not {letters} or {before}"))
    })?;
    let entries = number(take(&mut rest, 4)?);
    let calls = number(take(&mut rest, 4)?);
    let mut slots = Slots::default();
    let mut replayed = Replayed {
        counts: Counts::new(),
        taken_back: (kind == Kind::BeforeKeys).then_some(0),
    };
    for entry in 0..entries {
        let told = one_entry(kind, &mut rest, &mut slots, &mut replayed);
        told.map_err(|fault| fault.at(entry))?;
    }
    if !rest.is_empty() {
        let what = format!("{} bytes after the last entry", rest.len());
        return Err(Fault::Malformed(what));
    }
    match replayed.calls() {
        counted if u64::from(counted) == calls => Ok(replayed),
        counted => Err(Fault::Malformed(format!("{counted} calls, {calls} stated"))),
    }
}

fn one_entry(
    kind: Kind,
    rest: &mut &[u8],
    slots: &mut Slots,
    replayed: &mut Replayed,
) -> Result<(), Fault> {
    let head = take(rest, 8)?;
    let (what, which, width) = (head[0], head[1], usize::from(head[2]));
    let (start, count) = (number(&head[4..6]), number(&head[6..8]));
    let elements = take(rest, width * count as usize)?;
    if head[3] != 0 {
        return Err(Fault::malformed("byte 3 of its head is not zero"));
    }
    match what {
        LOAD | PATCH => {
            let slot = slot_with_room(slots, which, width, start + count)?;
            if what == LOAD {
                slot.load(start as usize, elements);
            } else {
                slot.patch(start as usize, elements);
            }
            Ok(())
        }
        CALL => {
            let call = Call::ALL
                .into_iter()
                .find(|&call| call as u8 == which && call.has_number())
                .ok_or_else(|| Fault::Malformed(format!("no call {which}")))?;
            let (asked, wanted) = stated(kind, call, elements)?;
            match &mut replayed.taken_back {
                Some(count) if (wanted.number, wanted.place) == NO_LONGER_GIVEN => {
                    require_taken_back(Slots::call, call, &asked, slots)?;
                    *count += 1;
                }
                _ => {
                    require_wanted(call, &asked, &wanted, slots)?;
                    *replayed.counts.entry((which, wanted.number)).or_default() += 1;
                }
            }
            Ok(())
        }
        _ => Err(Fault::Malformed(format!("no entry of kind {what}"))),
    }
}

/// The slot of this number, if its elements are so wide and there is room for `end` of them.
fn slot_with_room(
    slots: &mut Slots,
    which: u8,
    width: usize,
    end: u64,
) -> Result<&mut Slot, Fault> {
    let slot = slots
        .find(usize::from(which))
        .ok_or_else(|| Fault::Malformed(format!("no slot {which}")))?;
    let fault = if slot.width() != width {
        format!("slot {which} has another width than {width}")
    } else if end > slot.room() as u64 {
        format!("slot {which} has room for {}, not {end}", slot.room())
    } else {
        return Ok(slot);
    };
    Err(Fault::Malformed(fault))
}

/// What a call of the file asks, and what it wants.
fn stated(kind: Kind, call: Call, elements: &[u8]) -> Result<(Asked, Answered), Fault> {
    if elements.len() != kind.call_bytes() {
        let what = format!("a call of {} bytes", elements.len());
        return Err(Fault::Malformed(what));
    }
    if elements[26] > 1 || !(1..=127).contains(&elements[27]) {
        let what = "a sign bit not 0 or 1, or a fill not 1 to 127";
        return Err(Fault::malformed(what));
    }
    let short = |at: usize| number(&elements[at..at + 2]) as usize;
    let long = |at: usize| number(&elements[at..at + 4]) as u32;
    let (lent_key, wanted_key) = match kind {
        Kind::Today => (long(28), long(32)),
        Kind::BeforeKeys => (KEY_NOT_STATED, KEY_NOT_STATED),
    };
    if lent_key != KEY_NOT_STATED && !call.takes_key() {
        let what = "a key number for a call that takes none";
        return Err(Fault::malformed(what));
    }
    let asked = Asked {
        set: long(0),
        key: lent_key,
        lengths: OutputLengths {
            rounded: short(14),
            rests: short(24),
            z1: short(16),
            z2_dagger: short(18),
            list: short(20),
            record: short(22),
        },
        sign: elements[26] == 1,
        fill: elements[27],
    };
    let wanted = Answered {
        number: u32::from(elements[4]),
        set: u32::from(elements[5]),
        key: wanted_key,
        place: short(6) as u32,
        words: short(8) as u64,
        part: (short(10), short(12)),
        size: 0,
    };
    Ok((asked, wanted))
}

/// The call leaves behind what the file has.
fn require_wanted(
    call: Call,
    asked: &Asked,
    wanted: &Answered,
    slots: &Slots,
) -> Result<(), Fault> {
    let (answered, outputs) = slots.call(call, asked);
    if answered != *wanted {
        let what = format!("{call:?}: {answered:?}, wanted {wanted:?}");
        return Err(Fault::Differs(what));
    }
    for (slot, bytes) in outputs {
        let held = match wanted.number {
            0 => slots.get(slot).content() == bytes,
            // A filled entry is the fill and then zeros.
            _ => bytes
                .chunks(slots.get(slot).width())
                .all(|entry| number(entry) == u64::from(asked.fill)),
        };
        if !held {
            let what = format!("{call:?}: slot {slot} is not what was wanted");
            return Err(Fault::Differs(what));
        }
    }
    Ok(())
}

/// Number and place that the calls on a record gave for bytes 20-23 before the key number.
const NO_LONGER_GIVEN: (u32, u32) = (13, 20);

/// Who runs a call.
type Side = fn(&Slots, Call, &Asked) -> (Answered, Vec<Output>);

/// 02, C-13: 13 at 20 is no longer given. The call leaves behind what it does where bytes 20-23 of the
/// record are zero, but for the key number, which they are.
fn require_taken_back(side: Side, call: Call, asked: &Asked, slots: &Slots) -> Result<(), Fault> {
    let differs = |what: String| Err(Fault::Differs(format!("{call:?}: {what}")));
    let record = slots.get(RECORD).content();
    let key = record.get(KEY_FIELD).map_or(0, |_| key_in(record));
    if key == KEY_NOT_STATED || call.takes().is_none() {
        return differs("13 at 20, and bytes 20-23 of no record are at fault".to_string());
    }
    let mut without = slots.clone();
    without.get_mut(RECORD).patch(KEY_FIELD.start, &[0; 4]);
    let (mut wanted, mut outputs) = side(&without, call, asked);
    if wanted.number == 0 {
        if call.answers_key() {
            wanted.key = key;
        }
        if call.writes().is_some() {
            outputs[0].1[KEY_FIELD].copy_from_slice(&record[KEY_FIELD]);
        }
    }
    let (answered, left) = side(slots, call, asked);
    if (answered.number, answered.place) == NO_LONGER_GIVEN {
        return differs("13 at 20, which is no longer given".to_string());
    }
    if answered != wanted || left != outputs {
        let what =
            format!("{answered:?}, wanted {wanted:?} with all outputs, but for the key number");
        return differs(what);
    }
    Ok(())
}

fn take<'a>(rest: &mut &'a [u8], count: usize) -> Result<&'a [u8], Fault> {
    let (taken, left) = rest
        .split_at_checked(count)
        .ok_or_else(|| Fault::malformed("the file ends too soon"))?;
    *rest = left;
    Ok(taken)
}

/// The number that the bytes stand for, low byte first.
fn number(bytes: &[u8]) -> u64 {
    bytes
        .iter()
        .rev()
        .fold(0, |number, &byte| number << 8 | u64::from(byte))
}

#[cfg(test)]
mod tests {
    use super::{require_taken_back, Side, NO_LONGER_GIVEN};
    use crate::slots::{Asked, Slots, RECORD};
    use second::form::KEY_FIELD;
    use second::record::Held;
    use second::testing::calls::{Answered, Call, OutputLengths};
    use second::{Form, Set};

    /// A record of this key number, and the lengths that every call on it wants.
    fn lent(form: Form, key: u32) -> (Slots, Asked) {
        let list: Vec<u16> = (0..30).collect();
        let record = Held::new(Set::III, key, &[0; 512], &[0; 512], &list).record(form);
        let mut slots = Slots::default();
        slots.get_mut(RECORD).load(0, &record);
        let asked = Asked {
            set: 0,
            key: 0,
            sign: false,
            lengths: OutputLengths::stated(Set::III),
            fill: 9,
        };
        (slots, asked)
    }

    /// The calls on a record by which a side is found out, with this key number in it.
    fn found_out(side: Side, key: u32) -> Vec<Call> {
        let mut calls = Vec::new();
        for form in Form::ALL {
            let (slots, asked) = lent(form, key);
            let lent = Call::lent(form).iter().copied();
            calls.extend(
                lent.filter(|&call| require_taken_back(side, call, &asked, &slots).is_err()),
            );
        }
        calls
    }

    #[test]
    fn a_side_that_still_gives_13_at_20_is_found_out() {
        let every = Form::ALL.map(Call::lent).concat();
        for key in [1, 256, 65_536, 16_777_216, u32::MAX] {
            assert_eq!(found_out(Slots::call, key), []);
            let tests_it: Side = |slots, call, asked| match slots.get(RECORD).content()[KEY_FIELD] {
                [0, 0, 0, 0] => slots.call(call, asked),
                _ => (Answered::new(NO_LONGER_GIVEN), Vec::new()),
            };
            assert_eq!(found_out(tests_it, key), every);
            // One that takes the record, and loses the number.
            let clears_it: Side = |slots, call, asked| {
                let mut slots = slots.clone();
                slots.get_mut(RECORD).patch(KEY_FIELD.start, &[0; 4]);
                slots.call(call, asked)
            };
            let keeping = [Call::Read, Call::Pack, Call::ReadPacked, Call::Unpack];
            assert_eq!(found_out(clears_it, key), keeping);
        }
        // Where no byte was at fault, 13 at 20 was wrong before.
        assert_eq!(found_out(Slots::call, 0), every);
    }
}
