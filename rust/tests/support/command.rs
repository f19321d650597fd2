//! The command `lhz`, other programs and the shell, run in fresh folders.

use super::files::plan_bytes;
pub use super::files::Folder;
use super::plans::SAMPLE;
use super::sample;
use std::ffi::OsStr;
use std::fs::{self, Permissions};
use std::io::{self, ErrorKind, Write};
use std::os::unix::fs::{MetadataExt, PermissionsExt};
use std::os::unix::process::CommandExt;
use std::path::Path;
use std::process::{self, Command, Stdio};
use std::{env, thread};

/// The command `lhz`.
pub const LHZ: &str = env!("CARGO_BIN_EXE_lhz");

/// The text of the sample volume's lists in document 01.
pub const SAMPLE_LISTS: &str = "1:0 1:6\n1:2 1:8 2:4\n1:5 1:7 2:9\n";
/// The text of the sample plan in document 01.
pub const SAMPLE_PLAN: &str = "VOICE 1\nVOICE 2\nBEFORE 0 1\nSAME TITLE 0 1\nEND\n";
/// The listing of the sample, as request N8 of document 02 has it.
pub const SAMPLE_LISTING: &str = "scene 1 1 2 0 5 0\ndone 6\n";

impl Folder {
    /// A folder with the sample of document 01: `titles.vol` and `sample.plan`, and their texts
    /// `lists.txt` and `sample.txt`.
    pub fn with_sample() -> Folder {
        let folder = Folder::new();
        folder.write("titles.vol", sample().volume());
        folder.write("sample.plan", plan_bytes(&SAMPLE));
        folder.write("lists.txt", SAMPLE_LISTS);
        folder.write("sample.txt", SAMPLE_PLAN);
        folder
    }

    /// A program that is to run in the folder, with nothing on standard input.
    pub fn command(&self, program: impl AsRef<OsStr>) -> Command {
        let mut command = Command::new(program);
        command.current_dir(&self.0).stdin(Stdio::null());
        command
    }

    /// Runs `lhz` with the arguments that stand in `line` with a space between them.
    pub fn lhz(&self, line: &str) -> Ended {
        self.lhz_given(line, b"")
    }

    /// Runs `lhz` with this on standard input.
    pub fn lhz_given(&self, line: &str, stdin: &[u8]) -> Ended {
        let mut command = self.command(LHZ);
        command.args(line.split(' ').filter(|argument| !argument.is_empty()));
        run_given(&mut command, stdin)
    }

    /// Runs `lhz` as someone who may not do all: as another user where this one is the superuser.
    /// `None` where that user does not get as far as to start it; standard error says so.
    pub fn lhz_as_other(&self, line: &str) -> Option<Ended> {
        let mut command = self.command(LHZ);
        command.args(line.split(' '));
        if fs::metadata(&self.0).unwrap().uid() == 0 {
            fs::set_permissions(&self.0, Permissions::from_mode(0o777)).unwrap();
            command.uid(65_534).gid(65_534);
        }
        match command.output() {
            Err(error) if error.kind() == ErrorKind::PermissionDenied => {
                notice(&format!("not tried: lhz {line}, by user 65534, who cannot start it here"));
                None
            }
            output => Some(ended(output.expect("the program starts"))),
        }
    }

    /// Runs a line of the shell, which finds `lhz` by its name.
    pub fn sh(&self, line: &str) -> Ended {
        let own = Path::new(LHZ).parent().unwrap().to_path_buf();
        let others = env::var_os("PATH").unwrap_or_default();
        let path = env::join_paths([own].into_iter().chain(env::split_paths(&others))).unwrap();
        let mut command = self.command("sh");
        run(command.args(["-c", line]).env("PATH", path))
    }
}

/// Tells what is not tried here, on standard error. Not by eprintln!, which the harness holds back
/// where a test passes.
pub fn notice(what: &str) {
    io::stderr().write_all(format!("{what}\n").as_bytes()).unwrap();
}

/// How a program ended, and what it printed.
#[derive(Debug)]
pub struct Ended {
    /// The exit status; −1 for a signal.
    pub status: i32,
    pub stdout: Vec<u8>,
    pub stderr: String,
}

impl Ended {
    /// The status, what stands on standard output, and what on standard error.
    #[track_caller]
    pub fn told(&self) -> (i32, &str, &str) {
        let stdout = std::str::from_utf8(&self.stdout).expect("standard output is text");
        (self.status, stdout, &self.stderr)
    }

    /// The command answered: what it printed.
    #[track_caller]
    pub fn answer(&self) -> &str {
        let (status, stdout, stderr) = self.told();
        assert_eq!((status, stderr), (0, ""), "it printed {stdout:?}");
        stdout
    }

    /// The command ended with this status and this on standard output, and told why in one line:
    /// what stands there behind `lhz: `.
    #[track_caller]
    pub fn failure(&self, status: i32, stdout: &str) -> &str {
        let told = self.told();
        assert_eq!((told.0, told.1), (status, stdout), "{}", self.stderr);
        let sentence = self.stderr.strip_prefix("lhz: ").and_then(|line| line.strip_suffix('\n'));
        let sentence = sentence.unwrap_or_else(|| panic!("no sentence of lhz: {:?}", self.stderr));
        assert!(!sentence.contains(char::is_control), "not one line: {:?}", self.stderr);
        sentence
    }
}

/// Runs a program.
pub fn run(command: &mut Command) -> Ended {
    ended(command.output().expect("the program starts"))
}

/// Runs a program with this on standard input, of which it need not take all.
pub fn run_given(command: &mut Command, stdin: &[u8]) -> Ended {
    command.stdin(Stdio::piped()).stdout(Stdio::piped()).stderr(Stdio::piped());
    let mut child = command.spawn().expect("the program starts");
    let mut pipe = child.stdin.take().unwrap();
    thread::scope(|scope| {
        scope.spawn(move || pipe.write_all(stdin));
        ended(child.wait_with_output().unwrap())
    })
}

fn ended(output: process::Output) -> Ended {
    Ended {
        status: output.status.code().unwrap_or(-1),
        stdout: output.stdout,
        stderr: String::from_utf8_lossy(&output.stderr).into_owned(),
    }
}
