//! Records with their headers, their sections and the reader's verdict.

use crate::answer::{json_of, Done};
use crate::arguments::Arguments;
use crate::failure::Failure;
use crate::header::{fields, spare_bits, HEADER};
use crate::record::{bytes_of, key_name, reader_name, saved, Part, Record, Signature};
use bursztok::{Refusal, VECTOR};
use second::form::Section;
use second::{Form, Set};
use shell::console::print;
use shell::numbers::joined;
use shell::{say, warn};
use std::path::{Path, PathBuf};
use std::process::ExitCode;

/// One record in full, or many with a line each.
pub fn inspect(arguments: &Arguments) -> Result<ExitCode, Failure> {
    let mut paths: Vec<PathBuf> = arguments.words().iter().map(PathBuf::from).collect();
    if let Some(path) = arguments.given("record") {
        paths.push(PathBuf::from(path));
    }
    match &paths[..] {
        [] => Err(arguments.fault("no record is named")),
        [path] if !arguments.has("json") => {
            let record = Record::open(path)?;
            let outcome = record.read();
            print(format_args!("{}", in_full(&record, &outcome)));
            outcome.map(|_| ExitCode::SUCCESS)
        }
        paths => Ok(in_lines(paths, arguments.has("json"))),
    }
}

/// A line for each record, and how many were refused. The status is that of the worst.
fn in_lines(paths: &[PathBuf], json: bool) -> ExitCode {
    let (mut refused, mut unread) = (0, 0);
    for path in paths {
        let outcome = one(path);
        match &outcome {
            Ok(_) => {}
            Err(failure) if failure.status() == 1 => refused += 1,
            Err(_) => unread += 1,
        }
        if json {
            let file = crate::json::object(&[(
                "file",
                crate::json::Value::Text(path.display().to_string()),
            )]);
            // The file's name before the answer's fields.
            let answer = json_of(&outcome);
            say!("{},{}", &file[..file.len() - 1], &answer[1..]);
            continue;
        }
        match outcome {
            Ok(done) => say!("{}: {}", path.display(), done.said),
            Err(Failure::Refused(refused)) => {
                let number = refused.refusal.number();
                let place = refused.refusal.place();
                let cause = refused.causes.first().cloned();
                let cause = cause.unwrap_or_else(|| refused.refusal.meaning().to_string());
                let cause = cause.trim_start_matches(&format!("{}: ", path.display()));
                say!(
                    "{}: number {number}, place {place}: {cause}",
                    path.display()
                );
            }
            Err(failure) => warn!("bursztok: {failure}"),
        }
    }
    if !json {
        let count = paths.len();
        let read = count - refused - unread;
        say!("{count} records: {read} read, {refused} refused, {unread} not opened");
    }
    ExitCode::from(match (refused, unread) {
        (0, 0) => 0,
        (_, 0) => 1,
        _ => 2,
    })
}

fn one(path: &Path) -> Result<Done, Failure> {
    let record = Record::open(path)?;
    let signature = record.read()?;
    let Signature { set, key, form, .. } = signature;
    let (stated, size, saved) = (key_name(key), record.size(), saved(set));
    let said = format!("signature of set {set}, {stated}, {size}");
    Ok(Done {
        call: reader_name(form),
        set,
        key: Some(key),
        form: Some(form),
        said: match form {
            Form::Plain => format!("a {said}"),
            Form::Packed => format!("a packed {said}, {saved} saved"),
        },
        ..Done::default()
    })
}

/// The header field by field, the sections, what packing saves, and the reader's verdict.
fn in_full(record: &Record, outcome: &Result<Signature, Failure>) -> String {
    let mut text = format!("{}: {}\n", record.source, record.size());
    let verdict = match outcome {
        Err(Failure::Refused(refused)) => Err(refused.refusal),
        _ => Ok(()),
    };
    text += &header(&record.bytes, verdict);
    let parts = Section::ALL.map(|section| record.part(section, verdict));
    for (section, part) in Section::ALL.into_iter().zip(&parts) {
        text += &section_line(record.form(), section, part, verdict);
    }
    if parts.iter().all(Result::is_ok) {
        text += &form_lines(record, verdict);
    }
    if let Ok(Signature { set, key, .. }) = outcome {
        let stated = key_name(*key);
        text += &format!("reader      done, a signature of set {set}, {stated}\n");
    }
    text
}

/// The fields of the header, as far as the bytes go, with a mark at the one that was refused.
fn header(bytes: &[u8], verdict: Result<(), Refusal>) -> String {
    let mut text = String::new();
    for field in fields() {
        let start = field.bytes.start;
        if bytes.len() < field.bytes.end {
            let count = bytes.len();
            text += &format!("header      {count} bytes are there, a header has {HEADER}\n");
            break;
        }
        let place = start as u32;
        let wrong = verdict == Err(Refusal::Header { place }) && bytes.len() >= HEADER;
        let (name, content, mark) = (field.name, field.content(bytes), mark(wrong));
        text += &format!("header {start:>2}   {name:<20} {content}{mark}\n");
    }
    text
}

/// What stands behind a field that was refused.
fn mark(wrong: bool) -> &'static str {
    match wrong {
        true => "  <-- wrong",
        false => "",
    }
}

/// Where a section lies, the bits of its entries, their range and the first ones; with a mark at the
/// entry or the list that was refused.
fn section_line(
    form: Form,
    section: Section,
    part: &Result<Part, Refusal>,
    verdict: Result<(), Refusal>,
) -> String {
    let (name, first) = match section {
        Section::Z1 => ("z1", 0),
        Section::Z2Dagger => ("z2 dagger", VECTOR),
        Section::List => ("list", 2 * VECTOR),
    };
    let Part { bytes, entries } = match part {
        Ok(part) => part,
        Err(refusal) => return format!("{name:<11} refused with {refusal}\n"),
    };
    let (Some(least), Some(most)) = (entries.iter().min(), entries.iter().max()) else {
        return String::new();
    };
    let (shown, more) = match section {
        Section::List => (entries.len(), ""),
        _ => (SHOWN, " .."),
    };
    let mut text = format!(
        "{name:<11} bytes {} .. {}, {} entries of {} bits from {least} to {most}: {}{more}\n",
        bytes.start,
        bytes.end - 1,
        entries.len(),
        form.bits(section),
        joined(&entries[..shown]),
    );
    let wrong = match verdict {
        Err(Refusal::Entry { place }) => {
            let place = (place as usize).checked_sub(first);
            let entry = place.and_then(|place| Some((place, entries.get(place)?)));
            entry.map(|(place, entry)| format!("entry {place} is {entry}"))
        }
        Err(Refusal::List) if section == Section::List => {
            Some("not of the stated form".to_string())
        }
        _ => None,
    };
    if let Some(wrong) = wrong {
        text += &format!("            <-- wrong: {wrong}\n");
    }
    text
}

/// The spare bits of a packed record, with a mark where they were refused; the form, and what packing
/// saves.
fn form_lines(record: &Record, verdict: Result<(), Refusal>) -> String {
    let number = record.stated_set();
    let [plain, packed] = Form::ALL.map(|form| bytes_of(form, number));
    let saved = saved(number);
    let spare = match Set::stated(number) {
        Some(set) if record.form() == Form::Packed => {
            let (byte, bits) = spare_bits(set);
            let place = byte as u32;
            let mark = mark(verdict == Err(Refusal::Header { place }));
            let (count, content) = (bits.count_ones(), record.bytes[byte] & bits);
            let ending = if count == 1 { "" } else { "s" };
            format!("spare       {count} bit{ending} of byte {byte}: {content}{mark}\n")
        }
        _ => String::new(),
    };
    let form = match record.form() {
        Form::Plain => format!("plain; packed it has {packed} bytes, {saved} fewer"),
        Form::Packed => format!("packed; plain it has {plain} bytes, {saved} are saved"),
    };
    format!("{spare}form        {form}\n")
}

/// The entries that are shown of a vector. A list is shown whole.
const SHOWN: usize = 32;
