//! Files, read whole and written beside their place. `-` is standard input or standard output.

use crate::failure::Failure;
use lihambozy::text::Mistake;
use lihambozy::{BLOCK_BYTES, MAX_BLOCKS, MAX_ROWS, ROW_WORDS};
use std::ffi::OsStr;
use std::fs::{self, File, OpenOptions};
use std::io::{self, Read, Write};
use std::path::{Path, PathBuf};
use std::process;

/// Mebibytes of the longest texts that are read.
const MAX_LISTS_TEXT: usize = 64;
const MAX_PLAN_TEXT: usize = 1;

/// A file as its argument names it, for a person.
pub fn name(path: &OsStr) -> String {
    match path.to_str() {
        Some("-") => "standard input".into(),
        _ => path.to_string_lossy().into_owned(),
    }
}

/// The bytes of a volume file. Of one that is longer than any volume they are the first, one more
/// than a volume may have, and so are refused as the whole is.
pub fn volume(path: &OsStr) -> Result<Vec<u8>, Failure> {
    read(path, MAX_BLOCKS * BLOCK_BYTES + 1)
}

/// The bytes of a plan file. Of one that is longer than any plan they are the first, one more than
/// a plan may have, and so are refused as the whole is.
pub fn plan(path: &OsStr) -> Result<Vec<u8>, Failure> {
    read(path, MAX_ROWS * ROW_WORDS * 4 + 1)
}

/// The text of lists.
pub fn lists_text(path: &OsStr) -> Result<String, Failure> {
    text(path, MAX_LISTS_TEXT)
}

/// The text of a plan.
pub fn plan_text(path: &OsStr) -> Result<String, Failure> {
    text(path, MAX_PLAN_TEXT)
}

/// A text file of so many mebibytes at most.
fn text(path: &OsStr, most: usize) -> Result<String, Failure> {
    let mut bytes = read(path, (most << 20) + 1)?;
    if bytes.len() > most << 20 {
        return Err(Failure::File {
            file: name(path),
            why: format!("the text is over {most} MiB"),
        });
    }
    // Some editors put this mark in front of a text.
    if bytes.starts_with("\u{feff}".as_bytes()) {
        bytes.drain(.."\u{feff}".len());
    }
    String::from_utf8(bytes).map_err(|error| {
        let valid = error.utf8_error().valid_up_to();
        let before = String::from_utf8_lossy(&error.as_bytes()[..valid]);
        let last = before.rsplit('\n').next().unwrap_or_default();
        let mistake = Mistake {
            line: 1 + before.matches('\n').count(),
            column: 1 + last.chars().count(),
            what: "the text is not in UTF-8".into(),
        };
        Failure::Text { file: name(path), mistake, refusal: None }
    })
}

/// The first bytes of a file, up to `most`.
fn read(path: &OsStr, most: usize) -> Result<Vec<u8>, Failure> {
    let mut bytes = Vec::new();
    let read = if path == "-" {
        io::stdin().lock().take(most as u64).read_to_end(&mut bytes)
    } else {
        File::open(path).and_then(|file| file.take(most as u64).read_to_end(&mut bytes))
    };
    match read {
        Ok(_) => Ok(bytes),
        Err(error) => Err(Failure::file(name(path), &error)),
    }
}

/// Writes a file: beside its place under another name, and then renamed, so that the file is the
/// old one until it is wholly the new one.
pub fn write(path: &OsStr, bytes: &[u8], out: &mut impl Write) -> Result<(), Failure> {
    if path == "-" {
        return out.write_all(bytes).map_err(Failure::output);
    }
    replace(Path::new(path), bytes).map_err(|error| Failure::file(name(path), &error))
}

fn replace(path: &Path, bytes: &[u8]) -> io::Result<()> {
    // A link stays a link: the file that it leads to is replaced.
    let place = match fs::canonicalize(path) {
        Err(error) if error.kind() == io::ErrorKind::NotFound => {
            if path.is_symlink() {
                return Err(io::Error::other("it is a link that leads to no file"));
            }
            path.to_path_buf()
        }
        found => found?,
    };
    let old = match fs::metadata(&place) {
        Err(error) if error.kind() == io::ErrorKind::NotFound => None,
        found => Some(found?),
    };
    if old.as_ref().is_some_and(|old| !old.is_file()) {
        return Err(io::Error::other("it is there already and is no file"));
    }
    let (mut file, beside) = create_beside(&place)?;
    // Who may not read the old file may not read the new one while it is written.
    let replaced = old
        .map_or(Ok(()), |old| file.set_permissions(old.permissions()))
        .and_then(|()| file.write_all(bytes))
        .and_then(|()| file.sync_all())
        .and_then(|()| fs::rename(&beside, &place));
    if replaced.is_err() {
        // The first error is the one to tell.
        let _ = fs::remove_file(&beside);
    }
    replaced
}

/// A new file in the folder of `place`. Its name is short, however long that of `place` is.
fn create_beside(place: &Path) -> io::Result<(File, PathBuf)> {
    if place.file_name().is_none() {
        return Err(io::Error::other("it names no file"));
    }
    for attempt in 0..100 {
        let beside = place.with_file_name(format!(".lhz-{}-{attempt}", process::id()));
        match OpenOptions::new().write(true).create_new(true).open(&beside) {
            Err(error) if error.kind() == io::ErrorKind::AlreadyExists => {}
            opened => return Ok((opened?, beside)),
        }
    }
    Err(io::Error::other("no name beside it is free"))
}

/// Whether two arguments name one file. `-` names none, also where a file has that name.
pub fn same(one: &OsStr, other: &OsStr) -> bool {
    if one == "-" || other == "-" {
        return false;
    }
    match (fs::canonicalize(one), fs::canonicalize(other)) {
        (Ok(one), Ok(other)) => one == other,
        _ => false,
    }
}
