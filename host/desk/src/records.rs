//! The subcommands that write and read records, and those that convert them.

use crate::answer::Done;
use crate::arguments::Arguments;
use crate::failure::Failure;
use crate::lent::Lent;
use crate::record::{key_sentence, reader_name, writer_name, Record};
use crate::record::{record_name, record_of, saved};
use crate::signer::explained;
use bursztok::VECTOR;
use second::form::key_in;
use second::Form;
use shell::files::{make_folder, same_file, write_file, write_files};
use shell::numbers::{joined, text_of};
use std::path::{Path, PathBuf};

pub fn write(arguments: &Arguments) -> Result<Done, Failure> {
    let (set, key) = (arguments.set()?, arguments.key()?);
    let out = arguments.output("record", &["z1", "z2", "list"])?;
    let mut lent = Lent::default();
    let z1: Vec<i16> = lent.read(arguments, "z1", Some(VECTOR))?;
    let z2_dagger: Vec<i8> = lent.read(arguments, "z2", Some(VECTOR))?;
    let list: Vec<u16> = lent.read(arguments, "list", None)?;
    let form = arguments.form();
    let record = record_of(form, set, key, &z1, &z2_dagger, &list);
    let record = explained(record, set, &lent)?;
    write_file(&out, &record)?;
    let (name, count, out) = (record_name(form), record.len(), out.display());
    let stated = key_sentence(key);
    Ok(Done {
        call: writer_name(form),
        set,
        key: Some(key),
        form: Some(form),
        said: format!("The {name} of {count} bytes is in {out}. {stated}"),
        ..Done::default()
    })
}

pub fn pack(arguments: &Arguments) -> Result<Done, Failure> {
    convert(arguments, Form::Plain, "packing", "fewer than it had")
}

pub fn unpack(arguments: &Arguments) -> Result<Done, Failure> {
    convert(arguments, Form::Packed, "unpacking", "more than it had")
}

/// Converts a record of this form.
fn convert(
    arguments: &Arguments,
    form: Form,
    call: &'static str,
    than: &str,
) -> Result<Done, Failure> {
    let out = arguments.output("out", &["record"])?;
    let record = Record::open(&arguments.input("record")?)?;
    let converted = record.converted(form)?;
    write_file(&out, &converted)?;
    let (set, other) = (record.stated_set(), form.other());
    let (name, count, out) = (record_name(other), converted.len(), out.display());
    let saved = saved(set);
    Ok(Done {
        call,
        set,
        key: Some(key_in(&converted)),
        form: Some(other),
        said: format!("The {name} of {count} bytes is in {out}, {saved} {than}."),
        ..Done::default()
    })
}

pub fn read(arguments: &Arguments) -> Result<Done, Failure> {
    let folder = Path::new(arguments.required("folder")?);
    let path = PathBuf::from(arguments.required("record")?);
    let signature = Record::open(&path)?.read()?;
    let files = [
        (folder.join("z1.txt"), text_of("z1", &signature.z1)),
        (
            folder.join("z2.txt"),
            text_of("z2 dagger", &signature.z2_dagger),
        ),
        (folder.join("list.txt"), text_of("list", &signature.list)),
    ];
    if let Some((file, _)) = files.iter().find(|(file, _)| same_file(&path, file)) {
        let file = file.display();
        return Err(Failure::usage(format!(
            "read: {file}, which --folder asks for, is the file of --record"
        )));
    }
    make_folder(folder)?;
    write_files(&files)?;
    Ok(Done {
        call: reader_name(signature.form),
        set: signature.set,
        key: Some(signature.key),
        form: Some(signature.form),
        said: format!(
            "A signature of set {}; z1.txt, z2.txt and list.txt are in {}. {} The list: {}",
            signature.set,
            folder.display(),
            key_sentence(signature.key),
            joined(&signature.list)
        ),
        ..Done::default()
    })
}
