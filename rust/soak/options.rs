//! The options of a run.

use std::path::PathBuf;
use std::time::{SystemTime, UNIX_EPOCH};

/// How long a run lasts where nothing says otherwise, in seconds.
const SECONDS: u64 = 3;
/// The seed of a run for which neither seed nor time is given.
const SEED: u64 = 1;

pub struct Options {
    pub seconds: u64,
    pub seed: u64,
    /// The one case to run.
    pub case: Option<u64>,
    /// The file in which to note the case, where this process runs the cases and another one
    /// watches it.
    pub note: Option<PathBuf>,
    /// Whether only the name of the test is asked for.
    pub list: bool,
    /// What else was given: cargo hands a filter or `--nocapture` to every test target.
    pub ignored: Vec<String>,
}

impl Options {
    /// `--seconds N`, `--seed N`, `--case N`, `--note FILE`, each also with `=`, and `--list`.
    pub fn parse(mut given: impl Iterator<Item = String>) -> Result<Options, String> {
        let (mut seconds, mut seed, mut case, mut note) = (None, None, None, None);
        let (mut list, mut ignored) = (false, vec![]);
        while let Some(word) = given.next() {
            let (name, behind) = match word.split_once('=') {
                Some((name, behind)) => (name, Some(behind.to_string())),
                None => (&word[..], None),
            };
            let mut value = || {
                let value = behind.clone().or_else(|| given.next());
                value.ok_or_else(|| format!("{name} takes a value"))
            };
            match name {
                "--seconds" => seconds = Some(number(name, value()?)?),
                "--seed" => seed = Some(number(name, value()?)?),
                "--case" => case = Some(number(name, value()?)?),
                "--note" => note = Some(value()?.into()),
                "--list" => list = true,
                _ => ignored.push(word),
            }
        }
        let seed = match (seed, seconds) {
            (Some(seed), _) => seed,
            (None, None) => SEED,
            (None, Some(_)) => from_clock(),
        };
        let seconds = seconds.unwrap_or(SECONDS);
        Ok(Options { seconds, seed, case, note, list, ignored })
    }
}

fn number(name: &str, value: String) -> Result<u64, String> {
    value.parse().map_err(|_| format!("{name} takes a whole number, not `{value}`"))
}

/// A seed of at most twelve digits.
fn from_clock() -> u64 {
    let since = SystemTime::now().duration_since(UNIX_EPOCH).unwrap_or_default();
    (since.as_nanos() % 1_000_000_000_000) as u64
}
