//! The cases of a run. Case numbers below `Plan::planned()` go through every edge of a key's counts,
//! every call, set and pair of faults, every header bit and pair of fields, every bit of a key number,
//! every length of a record, every spare bit, every bit of an entry in both forms of a record, every
//! count of words and every step of the draw, masks that make the dropped digits cost their figure, and
//! what 0 stands for on each call; those above are drawn at random. A case is made from the run's seed
//! and its number alone.

use crate::buffers::{difference, Buffers, Left};
use crate::costs::{steer, Cost};
use crate::faults::{faults_of, Fault};
use crate::inputs::right_input;
use crate::key_numbers::{key_of, wrong_key};
use crate::{library, walks};
use second::form::HEADER;
use second::testing::calls::{self, Answered, Call, Input, Outputs};
use second::testing::edges::Edge;
use second::testing::keys::{self, Key};
use second::testing::noise::Noise;
use second::{Form, Set};
use std::collections::HashMap;
use std::ops::Range;

/// The set numbers that calls take: 0 stands for one of the sets.
const SET_NUMBERS: Range<u32> = 0..Set::ABOVE;
/// So many cases share a key.
const CASES_PER_KEY: u64 = 16;

#[derive(Clone, Copy, Debug)]
enum Planned {
    /// A call with a key whose counts are off, and which holds the relation.
    Counts { call: Call, set: u32, edge: Edge },
    /// A call with two faults, or one where both are the same.
    Pair {
        call: Call,
        set: u32,
        faults: (usize, usize),
    },
    /// Each bit of one header byte turned.
    HeaderByte { set: u32, byte: usize },
    /// Each field of the header wrong, alone and with each other one.
    HeaderFields { set: u32 },
    /// Each bit of a key number, lent and in a record, and each byte beside faults of the record.
    KeyNumbers { set: u32 },
    /// Every length of the record up to two past its total.
    RecordLengths { set: u32 },
    /// A record of the other form, as it is and with what it takes to look like one of this form.
    OtherForm { set: u32 },
    /// Each spare bit set, alone and with faults that go before and after it.
    SpareBits { set: u32 },
    /// Each bit of an entry set, at places that start at every bit of a byte.
    EntryBits { set: u32 },
    /// Outputs for a record from none to some bytes too long.
    RecordOutputs { set: u32 },
    /// Signatures there and back through both forms.
    BothForms { set: u32 },
    /// A walk with every count of words, from none to all that it takes.
    WordCounts { set: u32 },
    /// Walks through the draw's four steps that fail at every place in turn.
    Walks { set: u32 },
    /// A response at which the dropped digits cost the figure, up or down.
    Figure { set: u32, up: bool },
    /// A sheet of this set with every number on every call that takes one.
    Defaults { set: Set },
    /// The sizes of every number from 0 to 300, and of numbers about powers of two.
    Sizes,
}

impl Planned {
    /// The number that its calls ask with, where it is planned for one.
    fn number(self) -> Option<u32> {
        match self {
            Planned::Counts { set, .. }
            | Planned::Pair { set, .. }
            | Planned::HeaderByte { set, .. }
            | Planned::HeaderFields { set }
            | Planned::KeyNumbers { set }
            | Planned::RecordLengths { set }
            | Planned::OtherForm { set }
            | Planned::SpareBits { set }
            | Planned::EntryBits { set }
            | Planned::RecordOutputs { set }
            | Planned::BothForms { set }
            | Planned::WordCounts { set }
            | Planned::Walks { set }
            | Planned::Figure { set, .. } => Some(set),
            Planned::Defaults { .. } | Planned::Sizes => None,
        }
    }

    /// Whether it runs the call.
    fn runs(self, call: Call) -> bool {
        let (takes, writes) = (call.takes(), call.writes());
        match self {
            Planned::Counts { call: run, .. } | Planned::Pair { call: run, .. } => run == call,
            Planned::HeaderByte { .. }
            | Planned::HeaderFields { .. }
            | Planned::RecordLengths { .. }
            | Planned::OtherForm { .. } => takes.is_some(),
            Planned::KeyNumbers { .. } => call.has_key(),
            Planned::SpareBits { .. } => takes == Some(Form::Packed),
            Planned::RecordOutputs { .. } => writes.is_some(),
            Planned::EntryBits { .. } | Planned::BothForms { .. } => {
                writes.is_some() || matches!(call, Call::Read | Call::ReadPacked)
            }
            Planned::WordCounts { .. } | Planned::Walks { .. } | Planned::Figure { .. } => {
                call == Call::Respond
            }
            Planned::Defaults { .. } => call.takes_set(),
            Planned::Sizes => !call.has_number(),
        }
    }
}

/// Who runs a call: the library or the second program.
type Side = fn(Call, &Input, Outputs) -> Answered;

/// What a case found: the answers, the costs and the key numbers, for the tally, and the failures.
#[derive(Default)]
pub struct Found {
    pub answers: Vec<(Call, u32)>,
    /// What each response that was given out cost.
    pub costs: Vec<Cost>,
    /// The key number of each call that was done and has one.
    pub keys: Vec<(Call, u32)>,
    pub failures: Vec<String>,
    /// The case in words.
    pub story: String,
}

pub struct Plan {
    seed: u64,
    planned: Vec<Planned>,
    keys: HashMap<(u32, u64), Key>,
}

impl Plan {
    pub fn new(seed: u64) -> Plan {
        let mut planned = Vec::new();
        for set in SET_NUMBERS {
            for call in [Call::KeyTest, Call::Respond] {
                let edges = Edge::all(asked(call, set)).into_iter();
                planned.extend(edges.map(|edge| Planned::Counts { call, set, edge }));
            }
            for call in Call::ALL {
                let count = faults_of(call).len();
                for first in 0..count {
                    for second in first..count {
                        let faults = (first, second);
                        planned.push(Planned::Pair { call, set, faults });
                    }
                }
            }
            planned.extend((0..HEADER).map(|byte| Planned::HeaderByte { set, byte }));
            planned.push(Planned::HeaderFields { set });
            planned.push(Planned::KeyNumbers { set });
            planned.push(Planned::RecordLengths { set });
            planned.push(Planned::OtherForm { set });
            planned.push(Planned::SpareBits { set });
            planned.push(Planned::EntryBits { set });
            planned.push(Planned::RecordOutputs { set });
            planned.push(Planned::BothForms { set });
            planned.extend((0..3).map(|_| Planned::WordCounts { set }));
            planned.push(Planned::Walks { set });
            planned.extend([true, false].map(|up| Planned::Figure { set, up }));
        }
        planned.extend(Set::ALL.map(|set| Planned::Defaults { set }));
        planned.push(Planned::Sizes);
        Plan {
            seed,
            planned,
            keys: HashMap::new(),
        }
    }

    /// The number of cases that are not drawn at random.
    pub fn planned(&self) -> u64 {
        self.planned.len() as u64
    }

    /// The planned cases that run this call; of those for one number, where one is given, only its
    /// own.
    pub fn about(&self, call: Call, number: Option<u32>) -> Vec<u64> {
        let asks = |planned: &Planned| match (planned.number(), number) {
            (Some(own), Some(wanted)) => own == wanted,
            _ => true,
        };
        let numbered = self.planned.iter().zip(0..);
        numbered
            .filter_map(|(planned, case)| (planned.runs(call) && asks(planned)).then_some(case))
            .collect()
    }

    /// Runs the case of this number.
    pub fn run(&mut self, number: u64) -> Found {
        let mut noise = Noise::part(self.seed, number);
        match self.planned.get(number as usize) {
            Some(&planned) => self.run_planned(number, planned, &mut noise),
            None => self.run_random(number, &mut noise),
        }
    }

    fn run_planned(&mut self, number: u64, planned: Planned, noise: &mut Noise) -> Found {
        let mut found = Found::default();
        match planned {
            Planned::Counts { call, set, edge } => {
                found.story = format!("{}, set {set}: {}", call.name(), edge.name());
                let of = asked(call, set);
                let key = edge.of(of, &keys::published(of, noise), noise);
                let right = right_input(of, &key, noise);
                found.compare(call, &Input { set, ..right });
            }
            Planned::Pair { call, set, faults } => {
                let all = faults_of(call);
                let mut both = vec![all[faults.0], all[faults.1]];
                both.truncate(if faults.0 == faults.1 { 1 } else { 2 });
                let names: Vec<&str> = both.iter().map(|fault| fault.name).collect();
                found.story = format!("{}, set {set}: {}", call.name(), names.join(" and "));
                found.compare(call, &self.input(number, call, set, &both, noise));
            }
            Planned::HeaderByte { set, byte } => {
                found.story = format!("header byte {byte}, set {set}");
                let right = self.input(number, Call::Read, set, &[], noise);
                for bit in 0..8 {
                    found.compare_records(&right, |_, record| record[byte] ^= 1 << bit);
                }
            }
            Planned::HeaderFields { set } => {
                found.story = format!("fields of a header, set {set}");
                found.compare_fields(&self.input(number, Call::Read, set, &[], noise));
            }
            Planned::KeyNumbers { set } => {
                found.story = format!("key numbers, set {set}");
                found.compare_key_numbers(&self.input(number, Call::Write, set, &[], noise));
            }
            Planned::RecordLengths { set } => {
                found.story = format!("lengths of a record, set {set}");
                found.compare_lengths(&self.input(number, Call::Read, set, &[], noise));
            }
            Planned::OtherForm { set } => {
                found.story = format!("records of the other form, set {set}");
                found.compare_other_form(self.input(number, Call::Read, set, &[], noise));
            }
            Planned::SpareBits { set } => {
                found.story = format!("spare bits, set {set}");
                found.compare_spare_bits(&self.input(number, Call::Unpack, set, &[], noise));
            }
            Planned::EntryBits { set } => {
                found.story = format!("bits of an entry, set {set}");
                found.compare_entry_bits(&self.input(number, Call::Read, set, &[], noise));
            }
            Planned::RecordOutputs { set } => {
                found.story = format!("outputs for a record, set {set}");
                found.compare_outputs(self.input(number, Call::Write, set, &[], noise));
            }
            Planned::BothForms { set } => {
                found.story = format!("both forms of a record, set {set}");
                for _ in 0..4 {
                    found.both_forms(&self.input(number, Call::Write, set, &[], noise));
                }
                found.both_forms_of_ones(self.input(number, Call::Write, set, &[], noise));
            }
            Planned::WordCounts { set } => {
                found.story = format!("counts of words, set {set}");
                let mut input = self.input(number, Call::Respond, set, &[], noise);
                // Thresholds that fail now and then, so that walks go through all four steps.
                input.thresholds.fill(noise.word() | 7 << 61);
                input.words = noise.words(300);
                let taken = Left::by(calls::run, Call::Respond, &input, 0)
                    .answered
                    .words;
                let words = input.words.clone();
                for count in 0..=taken as usize {
                    input.words = words[..count].to_vec();
                    found.compare(Call::Respond, &input);
                }
            }
            Planned::Walks { set } => {
                found.story = format!("walks of the draw, set {set}");
                let mut input = self.input(number, Call::Respond, set, &[], noise);
                input.thresholds.fill(walks::THRESHOLD);
                for words in walks::walks(&input, noise) {
                    // All of the walk, and all but its last word.
                    input.words.clone_from(&words);
                    found.compare(Call::Respond, &input);
                    input.words.pop();
                    found.compare(Call::Respond, &input);
                }
            }
            Planned::Figure { set, up } => {
                let way = if up { "up" } else { "down" };
                found.story = format!("masks steered {way} to the figure, set {set}");
                let of = asked(Call::Respond, set);
                let mut input = right_input(of, &keys::published(of, noise), noise);
                steer(&mut input, up, noise);
                found.compare(Call::Respond, &Input { set, ..input });
                found.require_figure(up);
            }
            Planned::Defaults { set } => {
                found.story = format!("a sheet of set {} with every number", set.number());
                let right = right_input(set, self.key(number, set), noise);
                for call in Call::ALL.into_iter().filter(|call| call.takes_set()) {
                    for set in 0..=Set::ABOVE {
                        let right = right.clone();
                        found.compare(call, &Input { set, ..right });
                    }
                    found.require_default(library::run, call, &right);
                }
            }
            Planned::Sizes => {
                found.story = "sizes of sets".to_string();
                let powers = (8..32).map(|place| 1u32 << place);
                let about = powers.flat_map(|power| power - 1..=power + 4);
                for set in (0..=300).chain(about).chain([u32::MAX]) {
                    let input = Input {
                        set,
                        ..Input::default()
                    };
                    for call in Call::ALL.into_iter().filter(|call| !call.has_number()) {
                        found.compare(call, &input);
                    }
                }
            }
        }
        found
    }

    /// A call at random with up to three faults; a signature given out is followed to its end.
    fn run_random(&mut self, number: u64, noise: &mut Noise) -> Found {
        let mut found = Found::default();
        let call = match noise.below(3) {
            0 => Call::Respond,
            _ => noise.one_of(&Call::ALL),
        };
        let set = noise.below(SET_NUMBERS.len()) as u32;
        found.story = format!("{}, set {set}", call.name());
        let all = faults_of(call);
        let mut faults = Vec::new();
        for _ in 0..noise.below(4) {
            let fault = noise.one_of(&all);
            found.story += &format!(", {}", fault.name);
            faults.push(fault);
        }
        let input = self.input(number, call, set, &faults, noise);
        let left = found.compare(call, &input);
        if call == Call::Respond && left.number() == 0 {
            found.follow(&input, &left);
        }
        if left.number() == 0 {
            match call.takes() {
                Some(form) if call.writes().is_some() => found.convert_back(form, &input, &left),
                Some(form) if left.answered.set != 0 => found.write_again(form, &input, &left),
                _ => {}
            }
        }
        found
    }

    /// A right input for the call, with these faults. It is made and spoilt with its set named, and
    /// asked for with this number where no fault changed the set.
    fn input(
        &mut self,
        number: u64,
        call: Call,
        set: u32,
        faults: &[&Fault],
        noise: &mut Noise,
    ) -> Input {
        let of = asked(call, set);
        let mut input = right_input(of, self.key(number, of), noise);
        if let Some(form) = call.writes() {
            input.lengths.record = form.total(of);
        }
        for fault in faults {
            fault.apply(call, &mut input, noise);
        }
        if input.set == of.number() {
            input.set = set;
        }
        input
    }

    fn key(&mut self, number: u64, set: Set) -> &Key {
        let slot = number / CASES_PER_KEY;
        if self.keys.len() > 64 {
            self.keys.clear();
        }
        let seed = self.seed;
        self.keys.entry((set.number(), slot)).or_insert_with(|| {
            let mut noise = Noise::part(seed ^ u64::from(set.number()), u64::MAX - slot);
            keys::any(set, &mut noise)
        })
    }
}

/// The set that one of `SET_NUMBERS` asks the call for.
fn asked(call: Call, number: u32) -> Set {
    call.asked(number).expect("a set number")
}

impl Found {
    /// Runs the call on both sides and compares all that they leave behind.
    pub fn compare(&mut self, call: Call, input: &Input) -> Left {
        // Another fill for each call of a case.
        let fill = self.answers.len() as u64;
        let library = Left::by(library::run, call, input, fill);
        let second = Left::by(calls::run, call, input, fill);
        let number = library.number();
        self.answer(call, second.number());
        if let Some(what) = difference(&library, &second) {
            self.fail(call, what);
        } else if number != 0 && library.buffers != Buffers::new(input, fill) {
            self.fail(call, "a refusal wrote to an output buffer");
        } else if let Some(what) = wrong_key(call, input, &library) {
            self.fail(call, what);
        }
        if let (0, Some(key)) = (second.number(), key_of(call, input)) {
            self.keys.push((call, key));
        }
        if call == Call::Respond && (number, second.number()) == (0, 0) {
            self.weigh(Cost::of(input, library.buffers.z2_dagger()));
        }
        library
    }

    /// Counts an answer. A number that the call can't give, 7 among them, is a failure.
    pub fn answer(&mut self, call: Call, number: u32) {
        self.answers.push((call, number));
        if !call.numbers().contains(&number) {
            self.fail(call, format!("{number} came back, which can't occur"));
        }
    }

    /// What a response cost, which is at most the figure.
    fn weigh(&mut self, cost: Cost) {
        if !cost.is_within_figure() {
            self.fail(Call::Respond, format!("above the figure: {cost:?}"));
        }
        self.costs.push(cost);
    }

    /// The masks were steered up or down to the figure: the one response was given out and cost it.
    fn require_figure(&mut self, up: bool) {
        for cost in &mut self.costs {
            cost.steered = true;
        }
        if !matches!(self.costs[..], [cost] if cost.reaches(up)) {
            let what = format!("steered to the figure, it costs {:?}", self.costs);
            self.fail(Call::Respond, what);
        }
    }

    /// 02, C-17: with 0 the call of a side leaves behind what it does with set 4 named; a call that
    /// keeps the old default, what the other does with set 1 named, and with any other number what
    /// that does with it.
    fn require_default(&mut self, side: Side, call: Call, right: &Input) {
        let (plain, default, numbers) = match call {
            Call::RebuildDefaultOne => (Call::Rebuild, 1, 0..=Set::ABOVE),
            Call::CompareDefaultOne => (Call::Compare, 1, 0..=Set::ABOVE),
            _ => (call, 4, 0..=0),
        };
        let left = |call: Call, set: u32| {
            let right = right.clone();
            Left::by(side, call, &Input { set, ..right }, 0)
        };
        for number in numbers {
            let named = if number == 0 { default } else { number };
            if left(call, number) != left(plain, named) {
                let what = format!("with {number} it is not the {} with {named}", plain.name());
                self.fail(call, what);
            }
        }
    }

    /// Demands 2 and 3 for a signature that was given out: it is written and read back in both
    /// forms, rebuilt to the commitment, which is the same with rests, and compared. A checker with
    /// the old default says the same.
    fn follow(&mut self, input: &Input, given_out: &Left) {
        let mut next = input.clone();
        next.key = given_out.answered.key;
        next.z1 = given_out.buffers.z1().to_vec();
        next.z2_dagger = given_out.buffers.z2_dagger().to_vec();
        next.hashed.clone_from(&next.list);
        let set = Set::asked(next.set).expect("it was signed");
        let old = Input {
            set: if set == Set::I { 0 } else { set.number() },
            ..next.clone()
        };
        let committed = self.compare(Call::Commitment, &next);
        for (call, input) in [
            (Call::CommitmentWithRests, &next),
            (Call::Rebuild, &next),
            (Call::RebuildDefaultOne, &old),
        ] {
            let again = self.compare(call, input);
            if again.number() != 0 || again.buffers.rounded() != committed.buffers.rounded() {
                self.fail(call, "it is not the commitment");
            }
        }
        for (call, input) in [(Call::Compare, &next), (Call::CompareDefaultOne, &old)] {
            if self.compare(call, input).number() != 0 {
                self.fail(call, "a list differs from itself");
            }
        }
        self.both_forms(&next);
    }

    pub fn fail(&mut self, call: Call, what: impl std::fmt::Display) {
        self.failures.push(format!("{}: {what}", call.name()));
    }
}

#[cfg(test)]
mod tests {
    use super::{Found, Plan, Planned, Side};
    use crate::costs::Cost;
    use crate::inputs::right_input;
    use second::testing::calls::{run, Call, Input};
    use second::testing::keys;
    use second::testing::noise::Noise;
    use second::Set;
    use std::collections::BTreeSet;

    #[test]
    fn every_call_is_planned_with_every_number() {
        let pair = |planned: Planned| match planned {
            Planned::Pair { call, set, .. } => Some((call, set)),
            _ => None,
        };
        let planned = Plan::new(1).planned.into_iter();
        let planned: BTreeSet<(Call, u32)> = planned.filter_map(pair).collect();
        for call in Call::ALL {
            for number in 0..Set::ABOVE {
                let name = call.name();
                assert!(planned.contains(&(call, number)), "{name}, set {number}");
            }
        }
    }

    #[test]
    fn every_number_has_the_cases_of_both_forms() {
        let planned = Plan::new(1).planned;
        let kinds: [fn(&Planned) -> bool; 8] = [
            |planned| matches!(planned, Planned::HeaderFields { .. }),
            |planned| matches!(planned, Planned::KeyNumbers { .. }),
            |planned| matches!(planned, Planned::RecordLengths { .. }),
            |planned| matches!(planned, Planned::OtherForm { .. }),
            |planned| matches!(planned, Planned::SpareBits { .. }),
            |planned| matches!(planned, Planned::EntryBits { .. }),
            |planned| matches!(planned, Planned::RecordOutputs { .. }),
            |planned| matches!(planned, Planned::BothForms { .. }),
        ];
        for kind in kinds {
            let numbers = planned.iter().filter(|planned| kind(planned));
            let numbers: Vec<u32> = numbers.filter_map(|planned| planned.number()).collect();
            assert_eq!(numbers, (0..Set::ABOVE).collect::<Vec<u32>>());
        }
    }

    #[test]
    fn the_cases_of_a_set_reach_every_number_of_the_packed_calls() {
        let calls = [
            Call::WritePacked,
            Call::ReadPacked,
            Call::Pack,
            Call::Unpack,
        ];
        let mut plan = Plan::new(1);
        let cases = calls.into_iter().flat_map(|call| plan.about(call, Some(7)));
        let cases: BTreeSet<u64> = cases.collect();
        let mut reached = BTreeSet::new();
        for case in cases {
            let found = plan.run(case);
            assert_eq!(found.failures, [""; 0], "{}", found.story);
            reached.extend(found.answers);
        }
        for call in calls {
            for &number in call.numbers() {
                let name = call.name();
                assert!(reached.contains(&(call, number)), "{name}, {number}");
            }
        }
    }

    /// The calls that a side with a wrong default is found out by, on a sheet of this set.
    fn found_out(set: Set, side: Side) -> Vec<Call> {
        let mut noise = Noise::new(85);
        let key = keys::published(set, &mut noise);
        let right = right_input(set, &key, &mut noise);
        let mut calls: Vec<Call> = Call::ALL.to_vec();
        calls.retain(|&call| {
            let mut found = Found::default();
            found.require_default(side, call, &right);
            call.takes_set() && !found.failures.is_empty()
        });
        calls
    }

    #[test]
    fn a_wrong_default_is_found_out() {
        let old_default = [Call::RebuildDefaultOne, Call::CompareDefaultOne];
        for set in Set::ALL {
            assert_eq!(found_out(set, run), []);
        }
        // 0 taken for one set by every call, and no other number changed.
        fn zero_as(set: u32, input: &Input) -> Input {
            let set = if input.set == 0 { set } else { input.set };
            let input = input.clone();
            Input { set, ..input }
        }
        let one = found_out(Set::I, |call, input, out| {
            run(call, &zero_as(1, input), out)
        });
        let plain = Call::ALL.into_iter().filter(|call| call.takes_set());
        let plain: Vec<Call> = plain.filter(|call| !old_default.contains(call)).collect();
        assert_eq!(one, plain);
        let four = found_out(Set::I, |call, input, out| {
            run(call, &zero_as(4, input), out)
        });
        assert_eq!(four, old_default);
    }

    fn weighed(lowest: i64, highest: i64) -> Found {
        let mut found = Found::default();
        found.weigh(Cost {
            set: Set::III,
            lowest,
            highest,
            steered: false,
        });
        found
    }

    #[test]
    fn a_response_above_the_figure_fails() {
        assert!(weighed(-513, 513).failures.is_empty());
        assert_eq!(weighed(-500, 514).failures.len(), 1);
        assert_eq!(weighed(-514, 500).failures.len(), 1);
    }

    #[test]
    fn a_steered_response_below_the_figure_fails() {
        let failures = |mut found: Found, up: bool| {
            found.require_figure(up);
            found.failures.len()
        };
        for (up, reached, other) in [
            (true, (-500, 513), (-513, 512)),
            (false, (-513, 500), (-512, 513)),
        ] {
            assert_eq!(failures(weighed(reached.0, reached.1), up), 0);
            assert_eq!(failures(weighed(other.0, other.1), up), 1);
            assert_eq!(failures(Found::default(), up), 1);
        }
    }
}
