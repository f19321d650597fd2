//! Why the command does not answer, and how that is told.

use lihambozy::text::Mistake;
use lihambozy::Refusal;
use std::io::{self, Write};
use std::process::ExitCode;

/// What a typed line is called where a file would be named.
pub const TYPED: &str = "--line";

/// Why the command does not answer.
pub enum Failure {
    /// Document 01 refuses what a file holds, or what is asked of it: the file, the refusal, and a
    /// sentence.
    Refused { file: String, refusal: Refusal, sentence: String },
    /// A typed line is refused at one of its bytes: the refusal, a sentence, and the line with the
    /// byte marked.
    Line { refusal: Refusal, sentence: String, marked: String },
    /// A text has a mistake, and the refusal that document 01 has for it, if it has one.
    Text { file: String, mistake: Mistake, refusal: Option<Refusal> },
    /// A file cannot be read or written, and why.
    File { file: String, why: String },
    /// Nobody reads the standard output any longer.
    Unread,
    /// The arguments are not as they should be.
    Usage(String),
}

impl Failure {
    /// A refusal of what a file holds, with the sentence that each refusal has.
    pub fn refused(file: impl Into<String>, refusal: Refusal) -> Failure {
        Failure::Refused { file: file.into(), refusal, sentence: refusal.to_string() }
    }

    /// A file that the system does not let us read or write.
    pub fn file(file: impl Into<String>, error: &io::Error) -> Failure {
        let why = error.to_string();
        let why = why.split(" (os error").next().unwrap_or_default();
        Failure::File { file: file.into(), why: why.to_string() }
    }

    /// Standard output that cannot be written.
    pub fn output(error: io::Error) -> Failure {
        match error.kind() {
            io::ErrorKind::BrokenPipe => Failure::Unread,
            _ => Failure::file("standard output", &error),
        }
    }

    /// The refusal, the sentence and the exit status: 1 for what was refused, 2 for all else.
    pub fn tell(self, out: &mut impl Write) -> ExitCode {
        let refusal = match &self {
            Failure::Refused { refusal, .. } | Failure::Line { refusal, .. } => Some(*refusal),
            Failure::Text { refusal, .. } => *refusal,
            _ => None,
        };
        let unprinted = refusal.and_then(|Refusal { number, at }| {
            let printed = writeln!(out, "refused {number} {at}").and_then(|()| out.flush());
            printed.err().map(Failure::output)
        });
        let mut below = String::new();
        let (status, sentence) = match self {
            Failure::Refused { file, sentence, .. } => (1, format!("{file}: {sentence}")),
            Failure::Line { sentence, marked, .. } => {
                below.extend(marked.lines().map(|line| format!("  {line}\n")));
                (1, format!("{TYPED}: {sentence}"))
            }
            Failure::Text { file, mistake, .. } => (1, format!("{file}:{mistake}")),
            Failure::File { file, why } => (2, format!("{file}: {why}")),
            Failure::Unread => return ExitCode::from(2),
            Failure::Usage(why) => (2, format!("{why} (lhz --help shows how it is used)")),
        };
        // A sentence that standard error does not take has nowhere else to go.
        let _ = write!(io::stderr(), "lhz: {}\n{below}", on_one_line(&sentence));
        match unprinted {
            Some(failure) => failure.tell(&mut io::sink()),
            None => ExitCode::from(status),
        }
    }
}

/// A sentence on one line. A file's name or a word of a text may hold signs that break the line,
/// that a terminal obeys, or that cannot be seen: they are told as `\n` or `\u{200b}`.
fn on_one_line(sentence: &str) -> String {
    let mut line = String::new();
    for sign in sentence.chars() {
        let no_width =
            matches!(sign, '\u{200b}'..='\u{200f}' | '\u{202a}'..='\u{202e}' | '\u{feff}');
        if no_width || sign.is_control() || (sign.is_whitespace() && sign != ' ') {
            line.extend(sign.escape_default());
        } else {
            line.push(sign);
        }
    }
    line
}
