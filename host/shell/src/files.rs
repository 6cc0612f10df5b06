//! Files as the programs read and write them. A file is written whole or not at all. The name '-'
//! is standard input where a file is read, and standard output where it is written.

use std::ffi::OsString;
use std::fs::{File, OpenOptions};
use std::io::{self, Read, Write};
use std::path::{Path, PathBuf};

/// Whether a name stands for standard input or output.
pub fn is_stream(path: &Path) -> bool {
    path.as_os_str() == "-"
}

/// Whether two paths lead to one file.
pub fn same_file(one: &Path, other: &Path) -> bool {
    let found = (one.canonicalize(), other.canonicalize());
    one == other || matches!(found, (Ok(one), Ok(other)) if one == other)
}

/// All bytes of a file.
pub fn read_file(path: &Path) -> Result<Vec<u8>, String> {
    read_some(path, u64::MAX)
}

/// The first bytes of a file, at most so many.
pub fn read_some(path: &Path, most: u64) -> Result<Vec<u8>, String> {
    let mut bytes = Vec::new();
    let read = if is_stream(path) {
        io::stdin().lock().take(most).read_to_end(&mut bytes)
    } else {
        File::open(path).and_then(|file| file.take(most).read_to_end(&mut bytes))
    };
    read.map(|_| bytes).map_err(told(path))
}

/// Makes a folder, with those above it, where it is not there.
pub fn make_folder(folder: &Path) -> Result<(), String> {
    std::fs::create_dir_all(folder).map_err(told(folder))
}

/// Writes a file whole or not at all.
pub fn write_file(path: &Path, bytes: &[u8]) -> Result<(), String> {
    write_files(&[(path.to_path_buf(), bytes.to_vec())])
}

/// Writes files, each first to a part beside it; no part takes its place before all are written.
pub fn write_files(files: &[(PathBuf, Vec<u8>)]) -> Result<(), String> {
    let mut parts = Vec::new();
    let outcome = write_parts(files, &mut parts).and_then(|()| put_in_place(&parts));
    if outcome.is_err() {
        for (part, _) in &parts {
            // One that is in its place already is not there.
            let _ = std::fs::remove_file(part);
        }
    }
    outcome
}

/// A part and the file whose place it takes.
type Part = (PathBuf, PathBuf);

fn write_parts(files: &[(PathBuf, Vec<u8>)], parts: &mut Vec<Part>) -> Result<(), String> {
    for (path, bytes) in files {
        if is_stream(path) {
            write_stream(bytes).map_err(told(path))?;
            continue;
        }
        match replaceable(path) {
            Some(file) => write_part(file, bytes, parts),
            None => std::fs::write(path, bytes).map_err(told(path)),
        }?;
    }
    Ok(())
}

fn write_stream(bytes: &[u8]) -> io::Result<()> {
    let mut out = io::stdout().lock();
    out.write_all(bytes).and_then(|()| out.flush())
}

/// The file that a part can take the place of; none where a device, a pipe or a folder stands. A
/// link stays, and the file that it leads to is replaced.
fn replaceable(path: &Path) -> Option<PathBuf> {
    match path.symlink_metadata() {
        Ok(_) => path.canonicalize().ok().filter(|file| file.is_file()),
        Err(_) => Some(path.to_path_buf()),
    }
}

fn write_part(file: PathBuf, bytes: &[u8], parts: &mut Vec<Part>) -> Result<(), String> {
    let mut name = OsString::from(&file);
    name.push(".part");
    let part = PathBuf::from(name);
    let permissions = match OpenOptions::new().write(true).open(&file) {
        Ok(old) => Some(old.metadata().map_err(told(&file))?.permissions()),
        Err(error) if error.kind() == io::ErrorKind::NotFound => None,
        Err(error) => return Err(told(&file)(error)),
    };
    // A part that is there already may be another's: it stays.
    let mut out = File::create_new(&part).map_err(|error| match error.kind() {
        io::ErrorKind::AlreadyExists => left_over(&part, &file),
        _ => told(&file)(error),
    })?;
    parts.push((part, file.clone()));
    let permitted = permissions.map_or(Ok(()), |permissions| out.set_permissions(permissions));
    permitted
        .and_then(|()| out.write_all(bytes))
        .and_then(|()| out.sync_all())
        .map_err(told(&file))
}

fn left_over(part: &Path, file: &Path) -> String {
    let (part, file) = (part.display(), file.display());
    format!(
        "{part} is there already: another run is writing {file}, or one was cut short; if none \
         is writing, remove {part} and run again"
    )
}

fn put_in_place(parts: &[Part]) -> Result<(), String> {
    for (part, file) in parts {
        if parts.iter().any(|(_, other)| same_file(part, other)) {
            let (part, file) = (part.display(), file.display());
            return Err(format!(
                "{part} is to be written, and {file} beside it, whose part has that name"
            ));
        }
    }
    for (part, file) in parts {
        std::fs::rename(part, file).map_err(told(file))?;
    }
    Ok(())
}

/// An error with the file's name before it.
pub fn told(path: &Path) -> impl Fn(io::Error) -> String + '_ {
    let stream = is_stream(path);
    move |error| match stream {
        true => format!("'-': {error}"),
        false => format!("{}: {error}", path.display()),
    }
}

#[cfg(test)]
mod tests {
    use super::{read_some, same_file, write_file, write_files};
    use std::os::unix::fs::{symlink, PermissionsExt};
    use std::path::PathBuf;

    /// A folder of its own for a test, removed when the test ends.
    struct Folder(PathBuf);

    impl Folder {
        fn new(name: &str) -> Folder {
            let name = format!("bursztok-shell-{}-{name}", std::process::id());
            let path = std::env::temp_dir().join(name);
            std::fs::create_dir_all(&path).unwrap();
            Folder(path)
        }
    }

    impl Drop for Folder {
        fn drop(&mut self) {
            let _ = std::fs::remove_dir_all(&self.0);
        }
    }

    #[test]
    fn a_failed_write_leaves_every_old_file() {
        let folder = Folder::new("whole");
        let (first, second) = (folder.0.join("first"), folder.0.join("second"));
        std::fs::create_dir(&second).unwrap();
        std::fs::write(&first, "old").unwrap();
        let files = [(first.clone(), b"new".to_vec()), (second, b"new".to_vec())];
        assert!(write_files(&files).unwrap_err().contains("second: "));
        assert_eq!(std::fs::read(&first).unwrap(), b"old");
        assert!(!folder.0.join("first.part").exists());
        write_files(&files[..1]).unwrap();
        assert_eq!(std::fs::read(&first).unwrap(), b"new");
        assert!(!folder.0.join("first.part").exists());
    }

    #[test]
    fn a_part_that_is_there_stays_and_is_told() {
        let folder = Folder::new("part");
        let (file, part) = (folder.0.join("file"), folder.0.join("file.part"));
        std::fs::write(&part, "another's").unwrap();
        let said = write_file(&file, b"new").unwrap_err();
        assert!(said.contains("file.part is there already"), "{said}");
        assert!(said.contains("remove"), "{said}");
        assert_eq!(std::fs::read(&part).unwrap(), b"another's");
        assert!(!file.exists());
    }

    #[test]
    fn no_file_is_written_that_is_the_part_of_another() {
        let folder = Folder::new("both");
        let (file, part) = (folder.0.join("file"), folder.0.join("file.part"));
        let files = [
            (part.clone(), b"one".to_vec()),
            (file.clone(), b"two".to_vec()),
        ];
        let said = write_files(&files).unwrap_err();
        assert!(said.contains("file.part is to be written"), "{said}");
        assert!(!file.exists() && !part.exists());
    }

    #[test]
    fn a_file_keeps_its_permissions_and_a_link_stays() {
        let folder = Folder::new("permissions");
        let (file, link) = (folder.0.join("file"), folder.0.join("link"));
        std::fs::write(&file, "old").unwrap();
        std::fs::set_permissions(&file, PermissionsExt::from_mode(0o640)).unwrap();
        symlink(&file, &link).unwrap();
        assert!(same_file(&file, &link));
        write_file(&link, b"new").unwrap();
        assert_eq!(std::fs::read(&file).unwrap(), b"new");
        let mode = std::fs::metadata(&file).unwrap().permissions().mode();
        assert_eq!(mode & 0o777, 0o640);
        let kept = std::fs::symlink_metadata(&link).unwrap();
        assert!(kept.file_type().is_symlink());
    }

    #[test]
    fn no_more_is_read_than_asked_for() {
        let zeros = read_some("/dev/zero".as_ref(), 10).unwrap();
        assert_eq!(zeros, [0; 10]);
    }
}
