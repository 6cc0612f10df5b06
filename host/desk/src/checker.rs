//! The checker's subcommands: check and rebuild.
//!
//! A check ends well only where its verdict rests on the vector that is rebuilt in the same run: the
//! list is hashed from it here, or the file that the list was hashed from is seen to be it.

use crate::answer::Done;
use crate::arguments::Arguments;
use crate::failure::{Failure, Named};
use crate::hash::hashed_by;
use crate::lent::{source_of, Lent};
use crate::record::{key_sentence, rebuild, Record, Signature};
use crate::signer::explained;
use bursztok::VECTOR;
use shell::console::shown;
use shell::files::{read_file, write_file};
use shell::numbers::{read_numbers, text_of};

/// A record that was read and rebuilt, with its vectors for the causes of what follows.
struct Rebuilt {
    record: Record,
    signature: Signature,
    vector: Vec<u16>,
    lent: Lent,
}

fn read_and_rebuild(arguments: &Arguments) -> Result<Rebuilt, Failure> {
    let mut lent = Lent::default();
    let a: Vec<u16> = lent.read(arguments, "a", Some(VECTOR))?;
    let record = Record::open(&arguments.input("record")?)?;
    let signature = record.read()?;
    record.lend(&mut lent, signature.entries());
    lent.key = Some(signature.key);
    let vector = explained(rebuild(&a, &signature), signature.set, &lent)?;
    Ok(Rebuilt {
        record,
        signature,
        vector,
        lent,
    })
}

pub fn rebuild_alone(arguments: &Arguments) -> Result<Done, Failure> {
    let out = arguments.output("out", &["a", "record"])?;
    let rebuilt = read_and_rebuild(arguments)?;
    write_file(&out, &text_of("rebuilt", &rebuilt.vector))?;
    let Signature { set, key, form, .. } = rebuilt.signature;
    let (out, stated) = (out.display(), key_sentence(key));
    Ok(Done {
        call: "rebuild",
        set,
        key: Some(key),
        form: Some(form),
        said: format!(
            "The record reads as one of set {set}, and its rebuilt vector is in {out}. {stated} \
             Nothing is said of any sheet: 'bursztok check' does that."
        ),
        ..Done::default()
    })
}

pub fn check(arguments: &Arguments) -> Result<Done, Failure> {
    let given = |name: &str| arguments.given(name).is_some();
    match (
        given("hash"),
        given("sheet"),
        given("hashed"),
        given("rebuilt"),
    ) {
        (true, true, false, false) => check_by_hash(arguments),
        (false, false, true, true) => check_hashed(arguments),
        _ => Err(arguments.fault(
            "a check needs the sheet and the command that hashes (--hash COMMAND --sheet FILE), \
             or the rebuilt file and the list that was hashed from it (--rebuilt FILE --hashed \
             FILE)",
        )),
    }
}

/// The list is hashed here, from the rebuilt vector and the sheet.
fn check_by_hash(arguments: &Arguments) -> Result<Done, Failure> {
    let command = arguments.required("hash")?;
    let path = arguments.input("sheet")?;
    let sheet = read_file(&path)?;
    let rebuilt = read_and_rebuild(arguments)?;
    let hashed = hashed_by(command, rebuilt.signature.set, &rebuilt.vector, &sheet)?;
    let (sheet, command) = (source_of(&path), shown(command));
    let said =
        format!("The signature holds for {sheet}, hashed with the rebuilt vector by '{command}'.");
    compare(rebuilt, hashed, format!("the hash of {sheet}"), said)
}

/// The list was hashed elsewhere, from a file that has to be what the record rebuilds to.
fn check_hashed(arguments: &Arguments) -> Result<Done, Failure> {
    let (list, file) = (arguments.input("hashed")?, arguments.input("rebuilt")?);
    let hashed = read_numbers(&list)?;
    let stored: Vec<u16> = read_numbers(&file)?;
    let rebuilt = read_and_rebuild(arguments)?;
    let (list, file) = (source_of(&list), source_of(&file));
    if stored != rebuilt.vector {
        let record = &rebuilt.record.source;
        return Err(Failure::Differs(format!(
            "{file} is not what {record} rebuilds to, so a list hashed from it says nothing of \
             the record"
        )));
    }
    let record = &rebuilt.record.source;
    let said = format!(
        "The signature holds for the sheet that {list} was hashed from: {file} is what {record} \
         rebuilds to."
    );
    compare(rebuilt, hashed, list, said)
}

fn compare(
    mut rebuilt: Rebuilt,
    hashed: Vec<u16>,
    source: String,
    said: String,
) -> Result<Done, Failure> {
    let Signature { set, key, form, .. } = rebuilt.signature;
    rebuilt.lent.add("hashed", source, &hashed, None);
    let outcome = bursztok::compare(set, &rebuilt.signature.list, &hashed).named("comparison");
    explained(outcome, set, &rebuilt.lent)?;
    Ok(Done {
        call: "comparison",
        set,
        key: Some(key),
        form: Some(form),
        said: format!("{said} {}", key_sentence(key)),
        ..Done::default()
    })
}
