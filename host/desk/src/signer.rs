//! The signer's subcommands: key test, commitment, response.

use crate::answer::Done;
use crate::arguments::Arguments;
use crate::causes::explain;
use crate::failure::{Failure, Named, Refused};
use crate::histogram::histogram;
use crate::lent::{source_of, Lent};
use crate::record::{key_sentence, record_name, record_of};
use bursztok::{Challenge, Response, THRESHOLDS, VECTOR};
use shell::console::shown;
use shell::files::{is_stream, write_file, write_files};
use shell::numbers::{joined, read_numbers, text_of};

pub fn key_test(arguments: &Arguments) -> Result<Done, Failure> {
    let set = arguments.set()?;
    let mut lent = Lent::default();
    let f: Vec<i8> = lent.read(arguments, "f", Some(VECTOR))?;
    let g: Vec<i8> = lent.read(arguments, "g", Some(VECTOR))?;
    let a: Vec<u16> = lent.read(arguments, "a", Some(VECTOR))?;
    let outcome = bursztok::key_test(set, &f, &g, &a).named("key test");
    explained(outcome, set, &lent)?;
    Ok(Done {
        call: "key test",
        set,
        said: "The key passes the key test.".to_string(),
        ..Done::default()
    })
}

/// An outcome with the causes of its refusal.
pub fn explained<T>(outcome: Result<T, Failure>, set: u32, lent: &Lent) -> Result<T, Failure> {
    let causes = |refused: &mut Refused| {
        (refused.key, refused.form) = (lent.key, lent.form);
        explain(refused, set, &lent.vectors);
    };
    outcome.map_err(|failure| failure.with(causes))
}

pub fn commit(arguments: &Arguments) -> Result<Done, Failure> {
    let set = arguments.set()?;
    let inputs = ["a", "y1", "y2"];
    let out = arguments.output("out", &inputs)?;
    let rests_out = arguments.output_if_given("rests", &inputs)?;
    let plot_out = arguments.output_if_given("plot", &inputs)?;
    let mut lent = Lent::default();
    let a: Vec<u16> = lent.read(arguments, "a", Some(VECTOR))?;
    let y1: Vec<i16> = lent.read(arguments, "y1", Some(VECTOR))?;
    let y2: Vec<i16> = lent.read(arguments, "y2", Some(VECTOR))?;
    let (mut committed, mut rests) = ([0; VECTOR], [0; VECTOR]);
    let (call, outcome) = if rests_out.is_some() || plot_out.is_some() {
        let outcome =
            bursztok::commitment_with_rests(set, &a, &y1, &y2, &mut committed, &mut rests);
        ("commitment with rests", outcome)
    } else {
        let outcome = bursztok::commitment(set, &a, &y1, &y2, &mut committed);
        ("commitment", outcome)
    };
    explained(outcome.named(call), set, &lent)?;

    let mut said = format!(
        "The commitment is in {}. Hash it with the sheet to make the list.",
        out.display()
    );
    let mut files = vec![(out, text_of("commitment", &committed))];
    if let Some(out) = rests_out {
        said += &format!(" The rests are in {}.", out.display());
        files.push((out, text_of("rests", &rests)));
    }
    if let Some(out) = plot_out {
        said += &format!(" The histogram of the rests is in {}.", out.display());
        files.push((out, histogram(set, &rests)?));
    }
    // Standard output cannot be taken back: it comes last.
    files.sort_by_key(|(file, _)| is_stream(file));
    write_files(&files)?;
    Ok(Done {
        call,
        set,
        said,
        ..Done::default()
    })
}

pub fn sign(arguments: &Arguments) -> Result<Done, Failure> {
    let (set, key) = (arguments.set()?, arguments.key()?);
    let sign = read_sign(arguments)?;
    let mut inputs = vec!["f", "g", "a", "y1", "y2", "list", "thresholds", "words"];
    if arguments.given("sign").is_none() {
        inputs.push("sign");
    }
    let out = arguments.output("record", &inputs)?;
    let mut lent = Lent::default();
    let challenge = Challenge {
        f: &lent.read::<i8>(arguments, "f", Some(VECTOR))?,
        g: &lent.read::<i8>(arguments, "g", Some(VECTOR))?,
        a: &lent.read::<u16>(arguments, "a", Some(VECTOR))?,
        y1: &lent.read::<i16>(arguments, "y1", Some(VECTOR))?,
        y2: &lent.read::<i16>(arguments, "y2", Some(VECTOR))?,
        list: &lent.read::<u16>(arguments, "list", None)?,
        sign,
        thresholds: &lent.read::<u64>(arguments, "thresholds", Some(THRESHOLDS))?,
        words: &lent.read::<u64>(arguments, "words", None)?,
    };
    let (mut z1, mut z2_dagger) = ([0; VECTOR], [0; VECTOR]);
    let response = bursztok::respond(set, key, challenge, &mut z1, &mut z2_dagger);
    explained(given_out(response), set, &lent)?;
    let form = arguments.form();
    let key = response.key;
    let record = record_of(form, set, key, &z1, &z2_dagger, challenge.list)?;
    write_file(&out, &record)?;
    let (words, count, out) = (response.words, record.len(), out.display());
    let (name, stated) = (record_name(form), key_sentence(key));
    Ok(Done {
        call: "response",
        set,
        key: Some(key),
        form: Some(form),
        words: Some(words),
        said: format!(
            "The signature is given out, {words} words taken. The {name} of {count} bytes is in \
             {out}. {stated}"
        ),
    })
}

/// The outcome of a response, with its words where it refuses.
pub fn given_out(response: Response) -> Result<(), Failure> {
    let outcome = response.outcome.named("response");
    outcome.map_err(|failure| failure.with(|refused| refused.words = Some(response.words)))
}

/// The sign bit: --sign 0 or 1, else the one number in sign.txt of --folder.
fn read_sign(arguments: &Arguments) -> Result<bool, Failure> {
    if let Some(word) = arguments.given("sign") {
        let numbers: Vec<i8> = word.parse().into_iter().collect();
        let found = shown(word);
        return sign_bit(&numbers)
            .ok_or_else(|| arguments.fault(format!("--sign is '{found}', expected 0 or 1")));
    }
    let path = arguments.input("sign")?;
    let numbers: Vec<i8> = read_numbers(&path)?;
    sign_bit(&numbers).ok_or_else(|| {
        let (source, found) = (source_of(&path), shown(&joined(&numbers)));
        Failure::usage(format!(
            "{source}: found '{found}', expected the sign bit, 0 or 1"
        ))
    })
}

fn sign_bit(numbers: &[i8]) -> Option<bool> {
    match numbers {
        [0] => Some(false),
        [1] => Some(true),
        _ => None,
    }
}
