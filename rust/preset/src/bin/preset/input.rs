//! A preset's bytes and the name that its board has by default.
use preset::{TEXT_MAX, board_name, shown};
use std::ffi::OsStr;
use std::fs::{File, Metadata};
use std::io::{Error, ErrorKind, Read, Write, stdin};
use std::os::fd::AsFd;
use std::os::unix::fs::{FileTypeExt, MetadataExt};
use std::path::Path;

pub struct Input {
    pub text: Vec<u8>,
    /// The file's stem; `board` for standard input, as the program `listing` lends it.
    pub board: String,
    /// The file as messages name it.
    pub file: String,
}

/// Reads a file, or standard input for `-`; or says why it cannot.
pub fn read(file: &OsStr) -> Result<Input, String> {
    let shown = shown::file(file);
    let text = match file.to_str() {
        Some("-") => standard(),
        _ => opened(Path::new(file)),
    };
    match text {
        Ok(text) => Ok(Input {
            text,
            board: match file.to_str() {
                Some("-") => "board".into(),
                _ => board_name(Path::new(file)).into(),
            },
            file: shown,
        }),
        Err(why) => Err(format!("{shown}: cannot be read: {why}")),
    }
}

// An input that is closed, or not open for reading, is an empty one to the standard library; here it is a fault.
fn standard() -> Result<Vec<u8>, String> {
    let own = stdin().as_fd().try_clone_to_owned();
    let own = File::from(own.map_err(|why| said(&why))?);
    if stands_in(&own) {
        Err(said(&Error::from_raw_os_error(BAD_DESCRIPTOR)))
    } else {
        limited(own)
    }
}

// What the standard library opens where there is no input: the null device, for writing too.
fn stands_in(mut own: &File) -> bool {
    let device = |found: Metadata| (found.file_type().is_char_device()).then_some(found.rdev());
    let own_device = own.metadata().ok().and_then(device);
    let null = std::fs::metadata("/dev/null").ok().and_then(device);
    own_device.is_some() && own_device == null && own.write(&[]).is_ok()
}

fn opened(path: &Path) -> Result<Vec<u8>, String> {
    let file = File::open(path).map_err(|why| said(&why))?;
    match file.metadata() {
        Ok(what) if what.is_dir() => Err(said(&ErrorKind::IsADirectory.into())),
        _ => limited(file),
    }
}

/// A fault of reading or writing in plain words; the system's own, without its number, where there are none here.
pub fn said(why: &Error) -> String {
    let words = match (why.kind(), why.raw_os_error()) {
        (ErrorKind::NotFound, _) => "there is no such file",
        (ErrorKind::PermissionDenied, _) => "permission is denied",
        (ErrorKind::IsADirectory, _) => "it is a directory",
        (ErrorKind::NotADirectory, _) => "a part of its path is no directory",
        (ErrorKind::StorageFull, _) => "no space is left",
        (ErrorKind::QuotaExceeded, _) => "no more space is allowed",
        (ErrorKind::ReadOnlyFilesystem, _) => "its file system is read-only",
        (ErrorKind::InvalidFilename, _) => "its name is too long",
        (ErrorKind::FileTooLarge, _) => "it is too large",
        (ErrorKind::ResourceBusy | ErrorKind::ExecutableFileBusy, _) => "it is in use",
        (ErrorKind::InvalidInput, None) => "its name has a zero byte",
        (_, Some(BAD_DESCRIPTOR)) => "it is not open for this",
        (_, Some(LOOP)) => "its links lead in a circle, or are too many",
        (_, Some(FILES_OF_PROCESS | FILES_OF_SYSTEM)) => "too many files are open",
        (_, Some(DEVICE)) => "the device fails",
        (_, Some(NO_DEVICE | NOTHING_BEHIND)) => "there is no such device",
        _ => return unnumbered(&why.to_string()),
    };
    words.into()
}

// Numbers of Linux for what has no kind of its own.
const DEVICE: i32 = 5;
const NOTHING_BEHIND: i32 = 6;
const BAD_DESCRIPTOR: i32 = 9;
const NO_DEVICE: i32 = 19;
const FILES_OF_SYSTEM: i32 = 23;
const FILES_OF_PROCESS: i32 = 24;
const LOOP: i32 = 40;

fn unnumbered(words: &str) -> String {
    let own = words.split_once(" (os error ");
    own.map_or(words, |(own, _)| own).into()
}

// One byte more than a preset may have tells that it is too long; the rest is not read.
fn limited(from: impl Read) -> Result<Vec<u8>, String> {
    let mut text = Vec::new();
    let read = from.take(TEXT_MAX as u64 + 1).read_to_end(&mut text);
    read.map_err(|why| said(&why))?;
    Ok(text)
}

#[cfg(test)]
mod tests {
    use super::said;
    use std::io::{Error, ErrorKind};

    // Every number that Linux has: none is told by its number alone, and those that people meet are told in words.
    #[test]
    fn faults_of_files_are_told_in_words() {
        for number in 1..=133 {
            let own = said(&Error::from_raw_os_error(number));
            assert!(
                !own.contains("os error") && own.len() > 5,
                "{number}: {own}"
            );
        }
        let words = |number| said(&Error::from_raw_os_error(number));
        assert_eq!(words(2), "there is no such file");
        assert_eq!(words(13), "permission is denied");
        assert_eq!(words(21), "it is a directory");
        assert_eq!(words(20), "a part of its path is no directory");
        assert_eq!(words(28), "no space is left");
        assert_eq!(words(30), "its file system is read-only");
        assert_eq!(words(9), "it is not open for this");
        assert_eq!(words(36), "its name is too long");
        assert_eq!(words(40), "its links lead in a circle, or are too many");
        assert_eq!(words(71), "Protocol error");
        assert_eq!(said(&ErrorKind::NotFound.into()), "there is no such file");
        assert_eq!(said(&Error::other("odd")), "odd");
    }
}
