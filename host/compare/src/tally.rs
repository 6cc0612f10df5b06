//! Counts of compared calls, by call and by number, and the verdict on them.

use crate::cases::Found;
use second::form::KEY_NOT_STATED;
use second::testing::calls::Call;
use second::Set;
use std::collections::BTreeMap;

#[derive(Default)]
pub struct Tally {
    /// Compared calls that agreed.
    passed: u64,
    /// Comparisons that failed.
    wrong: u64,
    failing_cases: u64,
    counts: BTreeMap<(Call, u32), u64>,
    /// What the responses cost that were given out, by the number of their set.
    costs: BTreeMap<u32, Seen>,
    /// The same where the masks were steered to the figure.
    steered: BTreeMap<u32, Seen>,
    /// The key numbers of the calls that were done.
    keys: BTreeMap<Call, SeenKeys>,
}

/// Responses of one set, and how far down and up they cost.
#[derive(Clone, Copy, Default)]
struct Seen {
    responses: u64,
    lowest: i64,
    highest: i64,
}

/// Key numbers of one call.
#[derive(Clone, Copy, Default)]
struct SeenKeys {
    not_stated: bool,
    /// All bits that were set in some.
    bits: u32,
}

impl SeenKeys {
    fn add(&mut self, key: u32) {
        self.not_stated |= key == KEY_NOT_STATED;
        self.bits |= key;
    }

    /// What was not seen, in words.
    fn missing(self) -> Vec<String> {
        let bytes = self.bits.to_le_bytes().into_iter().zip(0..);
        let bytes = bytes.filter(|(byte, _)| *byte == 0);
        let mut missing: Vec<String> = bytes
            .map(|(_, place)| format!("byte {place} of a key number"))
            .collect();
        if !self.not_stated {
            missing.push("no key number".to_string());
        }
        missing
    }
}

/// What a run comes to.
#[derive(Debug, PartialEq, Eq)]
pub struct Verdict {
    /// Compared calls that agreed.
    pub passed: u64,
    /// Comparisons that failed, and what was never reached.
    pub failed: u64,
    /// The numbers that a call should have given and did not, the figures that no response reached,
    /// and the bytes of a key number that a call was never done with.
    pub missing: Vec<String>,
}

impl Tally {
    pub fn add(&mut self, found: &Found) {
        for &answer in &found.answers {
            *self.counts.entry(answer).or_default() += 1;
        }
        for cost in &found.costs {
            let costs = match cost.steered {
                true => &mut self.steered,
                false => &mut self.costs,
            };
            let seen = costs.entry(cost.set.number()).or_default();
            seen.responses += 1;
            seen.lowest = cost.lowest.min(seen.lowest);
            seen.highest = cost.highest.max(seen.highest);
        }
        for &(call, key) in &found.keys {
            self.keys.entry(call).or_default().add(key);
        }
        let wrong = found.failures.len() as u64;
        self.wrong += wrong;
        self.passed += (found.answers.len() as u64).saturating_sub(wrong);
        self.failing_cases += u64::from(wrong > 0);
    }

    pub fn compared(&self) -> u64 {
        self.passed + self.wrong
    }

    pub fn wrong(&self) -> u64 {
        self.wrong
    }

    pub fn failing_cases(&self) -> u64 {
        self.failing_cases
    }

    /// The verdict on a whole run. A number that a call never gave leaves its refusal untested, a
    /// figure that no response reached, up and down, may be too large, and a byte of a key number that
    /// a call was never done with may be lost: that fails the run.
    pub fn verdict(&self) -> Verdict {
        let mut missing = Vec::new();
        for call in Call::ALL {
            for &number in call.numbers() {
                if !self.counts.contains_key(&(call, number)) {
                    missing.push(format!("{}, {number}", call.name()));
                }
            }
        }
        for set in Set::ALL {
            let seen = self.steered.get(&set.number()).copied().unwrap_or_default();
            if seen.lowest > -set.figure() || seen.highest < set.figure() {
                missing.push(format!("response, figure of set {}", set.number()));
            }
        }
        for call in Call::ALL.into_iter().filter(|call| call.has_key()) {
            let seen = self.keys.get(&call).copied().unwrap_or_default();
            let unseen = seen.missing().into_iter();
            missing.extend(unseen.map(|what| format!("{}, {what}", call.name())));
        }
        Verdict {
            passed: self.passed,
            failed: self.wrong + missing.len() as u64,
            missing,
        }
    }

    /// What responses cost, a line a set, beside the figure (02, C-24).
    pub fn costs(&self) -> String {
        let range = |costs: &BTreeMap<u32, Seen>, set: Set| {
            let seen = costs.get(&set.number()).copied().unwrap_or_default();
            let (lowest, highest) = (seen.lowest, seen.highest);
            format!("{lowest} .. {highest} ({} responses)", seen.responses)
        };
        let mut lines = String::from("2^d times z2 dagger, less z2:\n");
        for set in Set::ALL {
            lines += &format!(
                "  set {}, figure {}: random masks {}, masks steered to it {}\n",
                set.number(),
                set.figure(),
                range(&self.costs, set),
                range(&self.steered, set)
            );
        }
        lines
    }

    /// The counts, a line a call.
    pub fn table(&self) -> String {
        let mut table = String::from("numbers that came back, with their counts:\n");
        for call in Call::ALL {
            let counts: Vec<String> = self
                .counts
                .iter()
                .filter(|((counted, _), _)| *counted == call)
                .map(|((_, number), count)| format!("{number}: {count}"))
                .collect();
            table += &format!("  {:<27} {}\n", call.name(), counts.join(", "));
        }
        table
    }
}

#[cfg(test)]
mod tests {
    use super::Tally;
    use crate::cases::Found;
    use crate::costs::Cost;
    use second::testing::calls::Call;
    use second::Set;

    fn cost(set: Set, (lowest, highest): (i64, i64), steered: bool) -> Found {
        Found {
            costs: vec![Cost {
                set,
                lowest,
                highest,
                steered,
            }],
            ..Found::default()
        }
    }

    /// A tally in which every call gave every number of its own but these, every figure was reached,
    /// and key numbers went into every call that has one.
    fn without(left_out: Option<(Call, u32)>) -> Tally {
        let mut tally = Tally::default();
        for set in Set::ALL {
            tally.add(&cost(set, (-set.figure(), set.figure()), true));
        }
        for call in Call::ALL {
            let numbers = call.numbers().iter().map(|&number| (call, number));
            tally.add(&Found {
                answers: numbers.filter(|&answer| Some(answer) != left_out).collect(),
                keys: keys(call, &[0, u32::MAX]),
                ..Found::default()
            });
        }
        tally
    }

    /// These key numbers of a call, where it has one.
    fn keys(call: Call, numbers: &[u32]) -> Vec<(Call, u32)> {
        let numbers = numbers.iter().filter(|_| call.has_key());
        numbers.map(|&number| (call, number)).collect()
    }

    #[test]
    fn a_byte_of_a_key_number_that_is_never_seen_fails_the_run() {
        for call in Call::ALL.into_iter().filter(|call| call.has_key()) {
            for (numbers, missing) in [
                (&[0, 0x0101_0101][..], &[][..]),
                (&[0, 1, 256, 65_536, 16_777_216], &[]),
                (&[0, 0xff_ffff], &["byte 3 of a key number"]),
                (&[0, 0xff00_00ff, 0xff00], &["byte 2 of a key number"]),
                (&[u32::MAX], &["no key number"]),
            ] {
                let mut tally = without(None);
                tally.keys.remove(&call);
                tally.add(&Found {
                    keys: keys(call, numbers),
                    ..Found::default()
                });
                let name = call.name();
                let missing: Vec<String> = missing
                    .iter()
                    .map(|what| format!("{name}, {what}"))
                    .collect();
                let verdict = tally.verdict();
                assert_eq!(verdict.missing, missing);
                assert_eq!(verdict.failed, missing.len() as u64);
            }
        }
    }

    #[test]
    fn a_number_that_is_never_given_fails_the_run() {
        assert_eq!(without(None).verdict().failed, 0);
        for call in Call::ALL {
            for &number in call.numbers() {
                let verdict = without(Some((call, number))).verdict();
                assert_eq!(verdict.failed, 1);
                assert_eq!(verdict.missing, [format!("{}, {number}", call.name())]);
            }
        }
    }

    #[test]
    fn a_number_that_cannot_occur_fails_the_run() {
        for call in [Call::KeyTest, Call::Respond] {
            let mut tally = without(None);
            let mut found = Found::default();
            found.answer(call, 7);
            tally.add(&found);
            let verdict = tally.verdict();
            assert_eq!((verdict.failed, tally.failing_cases()), (1, 1));
            assert_eq!(verdict.passed, without(None).verdict().passed);
        }
    }

    #[test]
    fn the_costs_are_told_for_each_set() {
        let mut tally = Tally::default();
        for range in [(-400, 17), (-3, 511), (-511, 500)] {
            tally.add(&cost(Set::III, range, false));
        }
        tally.add(&cost(Set::III, (-80, 513), true));
        tally.add(&cost(Set::III, (-513, 90), true));
        let told = tally.costs();
        let line = told.lines().find(|line| line.starts_with("  set 3, "));
        let wanted = "  set 3, figure 513: random masks -511 .. 511 (3 responses), masks steered \
                      to it -513 .. 513 (2 responses)";
        assert_eq!(line, Some(wanted));
        assert_eq!(told.lines().count(), 1 + Set::ALL.len());
    }

    #[test]
    fn a_figure_that_is_never_reached_fails_the_run() {
        for short in [(-512, 513), (-513, 512), (0, 0)] {
            let mut tally = without(None);
            tally.steered.remove(&Set::III.number());
            tally.add(&cost(Set::III, short, true));
            // One of random masks does not count.
            tally.add(&cost(Set::III, (-513, 513), false));
            let verdict = tally.verdict();
            assert_eq!(verdict.missing, ["response, figure of set 3"]);
            assert_eq!(verdict.failed, 1);
        }
    }

    #[test]
    fn a_failure_is_counted() {
        let mut tally = without(None);
        let before = tally.verdict();
        tally.add(&Found {
            answers: vec![(Call::Read, 0), (Call::Read, 0)],
            failures: vec!["reader: off".to_string()],
            ..Found::default()
        });
        let verdict = tally.verdict();
        assert_eq!(verdict.passed, before.passed + 1);
        assert_eq!((verdict.failed, tally.failing_cases()), (1, 1));
    }
}
