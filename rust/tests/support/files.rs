//! Files: those of the repository, fresh folders, the plan files of the programs that print a
//! listing, and what document 01 says that is printed.

use super::plans::Row;
use crate::plain::search::Searcher;
use std::ffi::OsString;
use std::fs::{self, DirEntry};
use std::path::{Path, PathBuf};
use std::sync::atomic::{AtomicU32, Ordering};
use std::{io, process};

/// A path in the repository.
pub fn repository(path: impl AsRef<Path>) -> PathBuf {
    Path::new(env!("CARGO_MANIFEST_DIR")).join("..").join(path)
}

/// The names of what a folder holds, in order; none where there is no folder.
pub fn names(folder: impl AsRef<Path>) -> Vec<String> {
    let names = in_order(fs::read_dir(folder).into_iter().flatten());
    names.into_iter().map(|name| name.into_string().unwrap()).collect()
}

fn in_order(entries: impl Iterator<Item = io::Result<DirEntry>>) -> Vec<OsString> {
    let mut names: Vec<OsString> = entries.map(|entry| entry.unwrap().file_name()).collect();
    names.sort();
    names
}

/// The files below a folder, by their paths from it, in order.
pub fn files(folder: impl AsRef<Path>) -> Vec<String> {
    let mut found = Vec::new();
    for name in names(&folder) {
        let path = folder.as_ref().join(&name);
        match path.is_dir() {
            true => found.extend(files(path).iter().map(|below| format!("{name}/{below}"))),
            false => found.push(name),
        }
    }
    found.sort();
    found
}

#[track_caller]
pub fn bytes(path: impl AsRef<Path>) -> Vec<u8> {
    let path = path.as_ref();
    fs::read(path).unwrap_or_else(|error| panic!("{}: {error}", path.display()))
}

#[track_caller]
pub fn text(path: impl AsRef<Path>) -> String {
    let text = String::from_utf8(bytes(&path));
    text.unwrap_or_else(|_| panic!("{} is no text", path.as_ref().display()))
}

/// The program `lister`, which `make` and the gate leave in the folder `out` of its crate.
pub fn lister() -> PathBuf {
    let path = repository("crates/lister/out/lister");
    assert!(path.is_file(), "{} is absent: run `make` in the repository first", path.display());
    path
}

/// A fresh folder, which is removed at the end.
pub struct Folder(pub PathBuf);

impl Folder {
    pub fn new() -> Folder {
        static MADE: AtomicU32 = AtomicU32::new(0);
        let number = MADE.fetch_add(1, Ordering::Relaxed);
        let name = format!("{}-{number}", process::id());
        let path = Path::new(env!("CARGO_TARGET_TMPDIR")).join(name);
        // A run that was stopped may have left one.
        let _ = fs::remove_dir_all(&path);
        fs::create_dir(&path).unwrap_or_else(|error| panic!("{}: {error}", path.display()));
        Folder(path)
    }

    pub fn path(&self, name: impl AsRef<Path>) -> PathBuf {
        self.0.join(name)
    }

    pub fn write(&self, name: impl AsRef<Path>, bytes: impl AsRef<[u8]>) {
        fs::write(self.path(name), bytes).unwrap();
    }

    #[track_caller]
    pub fn read(&self, name: impl AsRef<Path>) -> Vec<u8> {
        bytes(self.path(name))
    }

    /// The names of all that stands in the folder, in order.
    pub fn names(&self) -> Vec<OsString> {
        in_order(fs::read_dir(&self.0).unwrap())
    }
}

impl Drop for Folder {
    fn drop(&mut self) {
        let _ = fs::remove_dir_all(&self.0);
    }
}

/// The bytes of a plan file.
pub fn plan_bytes(rows: &[Row]) -> Vec<u8> {
    word_bytes(&rows.concat())
}

/// Words as bytes.
pub fn word_bytes(words: &[u32]) -> Vec<u8> {
    words.iter().flat_map(|word| word.to_le_bytes()).collect()
}

/// What document 01 says is printed of the bytes of two files, a volume of any length and a plan.
pub fn listing(volume: &[u8], plan: &[u8]) -> String {
    let fits = (1..=1_024).contains(&plan.len()) && plan.len().is_multiple_of(16);
    let plan: Vec<u32> = match fits {
        true => plan.chunks(4).map(|word| u32::from_le_bytes(word.try_into().unwrap())).collect(),
        false => vec![],
    };
    match Searcher::new(volume, &plan) {
        Err((number, at)) => format!("refused {number} {at}\n"),
        Ok(searcher) => searcher.printed(),
    }
}

/// The output is what is expected. A failure names the first line that is not.
#[track_caller]
pub fn assert_printed(case: &str, output: &str, expected: &str) {
    let line = output.lines().zip(expected.lines()).position(|(line, other)| line != other);
    if let Some(line) = line {
        let at = |text: &str| text.lines().nth(line).unwrap().to_string();
        panic!("{case}: line {} is {:?}, not {:?}", line + 1, at(output), at(expected));
    }
    assert!(
        output == expected,
        "{case}: {} bytes in {} lines, not {} in {}",
        output.len(),
        output.lines().count(),
        expected.len(),
        expected.lines().count()
    );
}
