//! The process that watches a run. The cases run in a process of their own, which notes the number
//! of each in a file before it begins: so a fault of memory and a call that does not return are
//! told with seed and case too.

use crate::options::Options;
use std::fs::{self, File};
use std::io::{self, Seek, Write};
use std::path::Path;
use std::process::{Command, ExitCode, Stdio};
use std::time::{Duration, Instant};
use std::{env, process, thread};

/// A case that takes longer does not end.
const LONGEST: Duration = Duration::from_secs(120);
/// How often the worker is looked at.
const LOOK: Duration = Duration::from_millis(20);
/// The worker's status where all cases agreed and a refusal was never met.
pub const TAME: u8 = 2;
/// A program's status after a panic.
const PANICKED: i32 = 101;

/// The file in which a worker notes its case.
pub struct Note(File);

impl Note {
    pub fn new(path: &Path) -> io::Result<Note> {
        File::create(path).map(Note)
    }

    /// Notes a case, higher than those before.
    pub fn case(&mut self, case: u64) -> io::Result<()> {
        self.0.rewind()?;
        write!(self.0, "{case}")
    }
}

/// Runs the cases in a process of their own.
pub fn watch(options: &Options) -> io::Result<ExitCode> {
    let Options { seconds, seed, .. } = options;
    println!("soak: seed {seed}, {seconds} s");
    let note = Path::new(env!("CARGO_TARGET_TMPDIR")).join(format!("soak-{}.case", process::id()));
    let mut worker = Command::new(env::current_exe()?)
        .args(["--seed", &seed.to_string(), "--seconds", &seconds.to_string(), "--note"])
        .arg(&note)
        .stdin(Stdio::null())
        .spawn()?;
    let mut case = String::new();
    let mut since = Instant::now();
    let (status, is_hung) = loop {
        if let Some(status) = worker.try_wait()? {
            break (status, false);
        }
        let noted = fs::read_to_string(&note).unwrap_or_default();
        if noted != case {
            (case, since) = (noted, Instant::now());
        } else if since.elapsed() > LONGEST {
            worker.kill()?;
            break (worker.wait()?, true);
        }
        thread::sleep(LOOK);
    };
    case = fs::read_to_string(&note).unwrap_or_default();
    let _ = fs::remove_file(&note);

    if status.success() {
        return Ok(ExitCode::SUCCESS);
    }
    if status.code() == Some(TAME.into()) {
        return Ok(ExitCode::from(TAME));
    }
    let what = match status.code() {
        _ if is_hung => format!("no end in {} s", LONGEST.as_secs()),
        Some(PANICKED) => "a difference, told above".to_string(),
        _ => status.to_string(),
    };
    println!("soak: FAILED in case {case} of seed {seed}: {what}. The case again:");
    println!(
        "cargo test --release --manifest-path rust/Cargo.toml --offline --locked --test soak -- \
         --seed {seed} --case {case}"
    );
    Ok(ExitCode::FAILURE)
}
