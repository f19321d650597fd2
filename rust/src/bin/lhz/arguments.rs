//! The arguments behind a command's name.

use crate::failure::Failure;
use std::ffi::{OsStr, OsString};
use std::{fmt, mem};

/// A number in an argument. It is shown as it stands there.
#[derive(Clone, Copy)]
pub struct Number<'a> {
    digits: &'a str,
    /// The number, or the largest of 32 bits where it is over them: what is asked about it, scenes,
    /// places, lists or figures, is refused for both alike, and scenes are raised by neither.
    pub value: u32,
}

impl fmt::Display for Number<'_> {
    fn fmt(&self, f: &mut fmt::Formatter<'_>) -> fmt::Result {
        f.write_str(self.digits)
    }
}

/// The number that an argument is.
pub fn number<'a>(what: &str, argument: &'a OsStr) -> Result<Number<'a>, Failure> {
    match argument.to_str() {
        Some(digits) if !digits.is_empty() && digits.bytes().all(|byte| byte.is_ascii_digit()) => {
            Ok(Number { digits, value: digits.parse().unwrap_or(u32::MAX) })
        }
        _ => Err(Failure::Usage(format!("{what} `{}` is no number", argument.to_string_lossy()))),
    }
}

/// An argument that is no option, or a typed line, which stands in place of a plan.
#[derive(Clone, Copy)]
pub enum Argument<'a> {
    Word(&'a OsStr),
    Line(&'a OsStr),
}

use Argument::{Line, Word};

/// The arguments behind a command's name.
#[derive(Default)]
pub struct Arguments {
    words: Vec<OsString>,
    line: Option<OsString>,
    /// Whether a plan is to be shown as a line.
    pub as_line: bool,
    /// The file that tells the words of lists.
    pub names: Option<OsString>,
    /// Whether a listing is to be printed as JSON.
    pub json: bool,
    /// Whether help is asked for.
    pub help: bool,
}

impl Arguments {
    /// The arguments of a command. Its options may stand anywhere among them, in front of `--`. In
    /// `lhz show`, `--line` in front of an argument that starts as a line takes it, and in front of
    /// any other, or at the end, asks for the line of a plan.
    pub fn new(
        command: &str,
        arguments: impl Iterator<Item = OsString>,
    ) -> Result<Arguments, Failure> {
        let takes_line = matches!(command, "check" | "list" | "matches" | "test" | "plan" | "show");
        let (shows, lists) = (command == "show", command == "list");
        let mut split = Arguments::default();
        let mut only_words = false;
        let mut arguments = arguments.peekable();
        while let Some(argument) = arguments.next() {
            match argument.to_str().filter(|_| !only_words) {
                Some("--") => only_words = true,
                Some("--help" | "-h") => split.help = true,
                Some("--line") if shows && !arguments.peek().is_some_and(starts_line) => {
                    ask(&mut split.as_line, "--line")?;
                }
                Some("--line") if takes_line => {
                    set(&mut split.line, "--line", "LINE", arguments.next())?;
                }
                Some("--names") if shows || lists => {
                    set(&mut split.names, "--names", "FILE", arguments.next())?;
                }
                Some("--json") if lists => ask(&mut split.json, "--json")?,
                Some(option) if option.len() > 1 && option.starts_with('-') => {
                    return Err(Failure::Usage(format!("there is no option `{option}`")));
                }
                _ => split.words.push(argument),
            }
        }
        Ok(split)
    }

    /// The arguments that are no options, with a typed line at the place of the plan that it stands
    /// for: behind the volume, or in front where there is none or the plan is to be written.
    pub fn in_place(&self, command: &str) -> Vec<Argument<'_>> {
        let mut words: Vec<Argument<'_>> = self.words.iter().map(|word| Word(word)).collect();
        if let Some(line) = &self.line {
            let place = if command == "plan" { 0 } else { words.len().min(1) };
            words.insert(place, Line(line));
        }
        words
    }
}

/// Whether an argument starts as every line does.
fn starts_line(argument: &OsString) -> bool {
    matches!(argument.as_encoded_bytes(), [b'[' | b'(' | b'<', ..])
}

/// Sets an option that takes nothing.
fn ask(option: &mut bool, name: &str) -> Result<(), Failure> {
    match mem::replace(option, true) {
        true => Err(twice(name)),
        false => Ok(()),
    }
}

/// Sets what an option takes.
fn set(
    option: &mut Option<OsString>,
    name: &str,
    takes: &str,
    value: Option<OsString>,
) -> Result<(), Failure> {
    match (&option, value) {
        (Some(_), _) => Err(twice(name)),
        (None, None) => Err(Failure::Usage(format!("{takes} is missing behind {name}"))),
        (None, value) => {
            *option = value;
            Ok(())
        }
    }
}

fn twice(name: &str) -> Failure {
    Failure::Usage(format!("{name} is given twice"))
}
