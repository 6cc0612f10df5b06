//! Which file a call refused, and why, as far as its number and place tell it. The verdict is the
//! library's; what is said here only points at what it judged.

use crate::failure::Refused;
use crate::header::wrong_field;
use crate::lent::Vector;
use crate::record::Record;
use bursztok::{Refusal, KEY_NOT_STATED};
use second::parameters::KeyCounts;
use second::{Form, Set};
use std::ops::RangeInclusive;

/// Adds the causes of a refusal that the lent vectors show.
pub fn explain(refused: &mut Refused, set: u32, vectors: &[Vector]) {
    refused.set = set;
    let named = |names: &[&str]| -> Vec<&Vector> {
        let mut found = Vec::new();
        for name in names {
            found.extend(vectors.iter().filter(|vector| vector.name == *name));
        }
        found
    };
    let sources = |names: &[&str]| -> String {
        let sources: Vec<&str> = named(names).iter().map(|v| v.source.as_str()).collect();
        sources.join(", ")
    };
    let stated = refused.key.filter(|key| *key != KEY_NOT_STATED);
    let causes = &mut refused.causes;
    match refused.refusal {
        Refusal::NoSuchSet => {
            let last = Set::ALL.len();
            causes.push(format!(
                "set {set}: sets are 1 to {last}, and 0 stands for set 4"
            ));
        }
        Refusal::Length => causes.extend(vectors.iter().filter_map(wrong_count)),
        Refusal::Coefficient => {
            causes.extend(outside(&named(&["f", "g"]), -2..=2));
            causes.extend(outside(&named(&["a"]), 0..=12288));
        }
        Refusal::Mask => causes.extend(outside(&named(&["y1", "y2"]), -4096..=4096)),
        Refusal::List => {
            let lists = named(&["list", "hashed"]);
            causes.extend(lists.iter().filter_map(|list| list_fault(list, set)));
        }
        Refusal::Relation => {
            let (a, secret) = (sources(&["a"]), sources(&["f", "g"]));
            causes.push(format!("{a} is not the public key of {secret}"));
        }
        Refusal::KeyCounts => {
            let secrets = named(&["f", "g"]);
            causes.extend(
                secrets
                    .iter()
                    .filter_map(|secret| wrong_counts(secret, set)),
            );
        }
        Refusal::Words => {
            for words in named(&["words"]) {
                let count = words.numbers.len();
                causes.push(format!("{} holds {count} words", words.source));
            }
        }
        Refusal::Entry { place } => {
            let (name, place) = match place {
                0..512 => ("z1", place),
                _ => ("z2", place - 512),
            };
            for vector in named(&[name]) {
                let entry = vector.numbers.get(place as usize);
                let entry = entry.map_or(String::new(), |entry| format!(" is {entry}"));
                causes.push(format!("{}: place {place}{entry}", vector.source));
            }
        }
        Refusal::Sum => {
            let sources = sources(&["z1", "z2"]);
            if !sources.is_empty() {
                causes.push(format!("{sources}: too long together"));
            }
        }
        Refusal::ListsDiffer => {
            if let [list, hashed] = named(&["list", "hashed"])[..] {
                causes.extend(difference(list, hashed));
                // A public key of another number would do this.
                if let (Some(key), [a]) = (stated, &named(&["a"])[..]) {
                    let (list, a) = (&list.source, &a.source);
                    causes.push(format!(
                        "{list} states key number {key}; the public key was {a}"
                    ));
                }
            }
        }
        _ => {}
    }
}

/// The cause of refusal 13, where records of these forms are taken.
pub fn explain_header(refused: &mut Refused, record: &Record, forms: &[Form]) {
    if matches!(refused.refusal, Refusal::Header { .. }) {
        let what = wrong_field(record, forms, refused.refusal.place());
        refused.causes.push(format!("{}: {what}", record.source));
    }
}

fn wrong_count(vector: &Vector) -> Option<String> {
    let (count, expected) = (vector.numbers.len(), vector.expected?);
    let ending = if count == 1 { "" } else { "s" };
    let source = &vector.source;
    (count != expected)
        .then(|| format!("{source} holds {count} number{ending}, {expected} expected"))
}

/// The first number of each vector that lies outside.
fn outside(vectors: &[&Vector], range: RangeInclusive<i128>) -> Vec<String> {
    let (least, most) = (range.start(), range.end());
    let fault = |vector: &&Vector| {
        let mut numbered = vector.numbers.iter().enumerate();
        let (place, number) = numbered.find(|(_, number)| !range.contains(number))?;
        let source = &vector.source;
        Some(format!(
            "{source}: place {place} is {number}, {least} to {most} expected"
        ))
    };
    vectors.iter().filter_map(fault).collect()
}

/// The set that was asked for; of 0 also the one that it stands for.
fn named_set(set: u32) -> String {
    match Set::asked(set) {
        Ok(other) if other.number() != set => {
            format!("set {set}, which stands for set {},", other.number())
        }
        _ => format!("set {set}"),
    }
}

/// How a list is not of the stated form.
fn list_fault(list: &Vector, set: u32) -> Option<String> {
    let (source, numbers) = (&list.source, &list.numbers);
    let kappa = bursztok::kappa(set);
    if numbers.len() != kappa {
        let count = numbers.len();
        return Some(format!(
            "{source}: a list of {count} places, {} has {kappa}",
            named_set(set)
        ));
    }
    for (at, number) in numbers.iter().enumerate() {
        if !(0..512).contains(number) {
            return Some(format!(
                "{source}: entry {at} of the list is {number}, 0 to 511 expected"
            ));
        }
        if at > 0 && numbers[at - 1] >= *number {
            let before = numbers[at - 1];
            return Some(format!(
                "{source}: entry {at} of the list is {number}, after {before}; it has to rise"
            ));
        }
    }
    None
}

fn difference(list: &Vector, hashed: &Vector) -> Option<String> {
    let mut pairs = list.numbers.iter().zip(&hashed.numbers).enumerate();
    let (at, (claimed, found)) = pairs.find(|(_, (claimed, found))| claimed != found)?;
    Some(format!(
        "the list in {} and {} differ: entry {at} is {claimed} and {found}",
        list.source, hashed.source
    ))
}

/// The counts of f or g, where they are not the set's. No call tells those, so the second program's
/// sets are asked for them.
fn wrong_counts(secret: &Vector, set: u32) -> Option<String> {
    let count = |size: u128| {
        let sized = secret.numbers.iter().filter(|n| n.unsigned_abs() == size);
        sized.count()
    };
    let (ones, twos) = (count(1), count(2));
    let wanted = Set::asked(set).ok()?.key_counts();
    let ending = if ones == 1 { "" } else { "s" };
    (KeyCounts { ones, twos } != wanted).then(|| {
        format!(
            "{}: {ones} coefficient{ending} of 1 or -1 and {twos} of 2 or -2, {} wants {} and {}",
            secret.source,
            named_set(set),
            wanted.ones,
            wanted.twos
        )
    })
}

#[cfg(test)]
mod tests {
    use super::explain;
    use crate::failure::Refused;
    use crate::lent::Lent;
    use bursztok::Refusal;

    fn causes(number: u32, place: u32, lent: &Lent) -> Vec<String> {
        causes_of(1, number, place, lent)
    }

    fn causes_of(set: u32, number: u32, place: u32, lent: &Lent) -> Vec<String> {
        let mut refused = Refused {
            call: "test",
            refusal: Refusal::outcome(number, place).unwrap_err(),
            set: 0,
            key: lent.key,
            form: None,
            words: None,
            causes: Vec::new(),
        };
        explain(&mut refused, set, &lent.vectors);
        assert_eq!(refused.set, set);
        refused.causes
    }

    fn lent(name: &'static str, numbers: &[i16]) -> Lent {
        let mut lent = Lent::default();
        lent.add(name, format!("{name}.txt"), numbers, Some(512));
        lent
    }

    #[test]
    fn the_file_and_the_place_are_named() {
        let short = causes(2, 0, &lent("g", &[0; 511]));
        assert_eq!(short, ["g.txt holds 511 numbers, 512 expected"]);
        assert!(causes(2, 0, &lent("g", &[0; 512])).is_empty());
        let wide = causes(3, 0, &lent("g", &[2, -2, 3]));
        assert_eq!(wide, ["g.txt: place 2 is 3, -2 to 2 expected"]);
        let large = causes(3, 0, &lent("a", &[12288, 12289]));
        assert_eq!(large, ["a.txt: place 1 is 12289, 0 to 12288 expected"]);
        let mask = causes(4, 0, &lent("y2", &[-4097]));
        assert_eq!(mask, ["y2.txt: place 0 is -4097, -4096 to 4096 expected"]);
        assert_eq!(
            causes(9, 0, &lent("words", &[])),
            ["words.txt holds 0 words"]
        );
        assert_eq!(
            causes(10, 1, &lent("z1", &[0, 2101])),
            ["z1.txt: place 1 is 2101"]
        );
        assert_eq!(causes(10, 512, &lent("z2", &[3])), ["z2.txt: place 0 is 3"]);
        assert!(causes(10, 512, &lent("z1", &[3])).is_empty());
    }

    #[test]
    fn the_polynomial_with_wrong_counts_is_named() {
        let right: Vec<i16> = (0..512).map(|i| i16::from(i < 154)).collect();
        let mut other = right.clone();
        other[0] = 0;
        let both = |f: &[i16], g: &[i16]| {
            let mut lent = lent("f", f);
            lent.add("g", "g.txt".to_string(), g, Some(512));
            causes(15, 0, &lent)
        };
        let fewer = "153 coefficients of 1 or -1 and 0 of 2 or -2, set 1 wants 154 and 0";
        let wanted = ["f", "g"].map(|name| format!("{name}.txt: {fewer}"));
        assert_eq!(both(&other, &right), wanted[..1]);
        assert_eq!(both(&right, &other), wanted[1..]);
        assert_eq!(both(&other, &other), wanted);
        other[0] = -2;
        let two = "g.txt: 153 coefficients of 1 or -1 and 1 of 2 or -2, set 1 wants 154 and 0";
        assert_eq!(both(&right, &other), [two]);
        let one = "f.txt: 1 coefficient of 1 or -1 and 0 of 2 or -2, set 1 wants 154 and 0";
        assert_eq!(causes(15, 0, &lent("f", &[0, -1])), [one]);
    }

    #[test]
    fn what_zero_stands_for_is_told() {
        let places: Vec<i16> = (0..23).collect();
        let list = "list.txt: a list of 23 places, set 0, which stands for set 4, has 39";
        assert_eq!(causes_of(0, 5, 0, &lent("list", &places)), [list]);
        let f = "f.txt: 1 coefficient of 1 or -1 and 0 of 2 or -2, set 0, which stands for set 4, \
                 wants 231 and 31";
        assert_eq!(causes_of(0, 15, 0, &lent("f", &[1])), [f]);
        let above = "set 9: sets are 1 to 8, and 0 stands for set 4";
        assert_eq!(causes_of(9, 1, 0, &Lent::default()), [above]);
    }

    #[test]
    fn the_list_at_fault_is_named() {
        let mut places: Vec<i16> = (0..23).collect();
        let mut lent = lent("list", &places);
        lent.add("hashed", "hashed.txt".to_string(), &places[..22], None);
        let count = "hashed.txt: a list of 22 places, set 1 has 23";
        assert_eq!(causes(5, 0, &lent), [count]);
        places[22] = 512;
        lent.vectors.pop();
        lent.add("hashed", "hashed.txt".to_string(), &places, None);
        let large = "hashed.txt: entry 22 of the list is 512, 0 to 511 expected";
        assert_eq!(causes(5, 0, &lent), [large]);
        places[22] = 21;
        lent.vectors.pop();
        lent.add("hashed", "hashed.txt".to_string(), &places, None);
        let falls = "hashed.txt: entry 22 of the list is 21, after 21; it has to rise";
        assert_eq!(causes(5, 0, &lent), [falls]);
        let differ = "the list in list.txt and hashed.txt differ: entry 22 is 22 and 21";
        assert_eq!(causes(12, 0, &lent), [differ]);
        // The key number that the record states, beside the key that was taken.
        lent.add("a", "a.txt".to_string(), &[0; 512], Some(512));
        lent.key = Some(0);
        assert_eq!(causes(12, 0, &lent), [differ]);
        lent.key = Some(u32::MAX);
        let states = "list.txt states key number 4294967295; the public key was a.txt";
        assert_eq!(causes(12, 0, &lent), [differ, states]);
    }
}
