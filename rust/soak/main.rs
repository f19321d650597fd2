//! The soak: random and mutated volumes, plans, buffers, texts and typed lines go to the library
//! and to the Rust package, and to the plain reader, the plain writer and the naive searcher beside
//! them, for a given time. Every answer and every lent element is compared, and the first
//! difference ends the run.
//!
//! ```text
//! cargo test --release --test soak -- --seconds 600
//! ```
//!
//! A case follows from the seed and its number alone: `--seed S --case N` runs it again.

#[path = "../tests/plain/mod.rs"]
mod plain;
#[path = "../tests/support/mod.rs"]
mod support;

#[path = "../tests/line/inputs.rs"]
mod line_inputs;
#[path = "../tests/line/trial.rs"]
mod line_trial;

mod case;
mod inputs;
mod joins;
mod kinds;
mod large;
mod lines;
mod options;
mod package;
mod plans;
mod report;
mod searches;
mod texts;
mod volumes;
mod watch;

use case::Case;
use kinds::{pick, KINDS};
use options::Options;
use report::Counts;
use std::io;
use std::process::ExitCode;
use std::time::{Duration, Instant};
use support::Rng;
use watch::Note;

/// A run at least so long, in seconds, meets every refusal, every sort of title start, and every
/// sort of what an AT LEAST counts.
const WHOLE: u64 = 60;
/// After so much time a run tells how far it is.
const TOLD: Duration = Duration::from_secs(30);

fn main() -> ExitCode {
    let options = match Options::parse(std::env::args().skip(1)) {
        Ok(options) => options,
        Err(wrong) => {
            eprintln!("soak: {wrong}");
            return ExitCode::FAILURE;
        }
    };
    if options.list {
        println!("soak: test");
        return ExitCode::SUCCESS;
    }
    if !options.ignored.is_empty() {
        println!("soak: ignored: {}", options.ignored.join(" "));
    }
    let ended = match (options.case, &options.note) {
        (Some(case), _) => {
            let (mut counts, start) = (Counts::default(), Instant::now());
            run(&mut counts, options.seed, case);
            println!("{}", counts.last_line(start.elapsed()));
            Ok(ExitCode::SUCCESS)
        }
        (None, Some(note)) => Note::new(note).and_then(|note| work(&options, note)),
        (None, None) => watch::watch(&options),
    };
    ended.unwrap_or_else(|error| {
        eprintln!("soak: {error}");
        ExitCode::FAILURE
    })
}

/// Runs cases until the time is up.
fn work(options: &Options, mut note: Note) -> io::Result<ExitCode> {
    let mut counts = Counts::default();
    let (start, time) = (Instant::now(), Duration::from_secs(options.seconds));
    let mut told = Duration::ZERO;
    for case in 0.. {
        note.case(case)?;
        run(&mut counts, options.seed, case);
        let elapsed = start.elapsed();
        if elapsed >= time {
            break;
        }
        if elapsed - told >= TOLD {
            told = elapsed;
            println!("{}", counts.line(elapsed));
        }
    }
    counts.print(KINDS.iter().map(|kind| kind.name));
    let missed = counts.missed();
    if options.seconds >= WHOLE && !missed.is_empty() {
        missed.iter().for_each(|missed| println!("soak: FAILED: {missed}"));
        return Ok(ExitCode::from(watch::TAME));
    }
    println!("{}", counts.last_line(start.elapsed()));
    Ok(ExitCode::SUCCESS)
}

/// Runs one case.
fn run(counts: &mut Counts, seed: u64, case: u64) {
    let start = Instant::now();
    let of_seed = Rng::new(seed).next();
    let mut rng = Rng::new(Rng::new(of_seed ^ case).next());
    let kind = match case {
        0 => &KINDS[0],
        _ => pick(&mut rng),
    };
    counts.trial.case = format!("seed {seed}, case {case}, {}", kind.name);
    (kind.run)(&mut Case { rng, counts });
    counts.case(kind.name, start.elapsed());
}
