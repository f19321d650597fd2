//! The C program `examples/c/listing.c`: what it prints, what it tells a person, and its exit
//! status. Rows and tallies come from the naive searcher. Each case is run as it is and with the
//! sanitizers of the C compiler, some under valgrind too, so that an error of memory, a leak or
//! undefined behaviour fails the test.

use crate::plain::Refused;
use crate::support::cc::compile;
use crate::support::command::notice;
use crate::support::files::{assert_printed, listing, plan_bytes, repository, word_bytes, Folder};
use crate::support::plans::*;
use crate::support::searches::{random_positions, random_room, random_subject};
use crate::support::*;
use lihambozy::Refusal;
use std::collections::BTreeMap;
use std::fs::{self, File};
use std::path::{Path, PathBuf};
use std::process::{Command, Output, Stdio};
use std::sync::{Mutex, OnceLock};

/// A way to run a C program. The last two report faults of memory.
#[derive(Clone, Copy, Debug, PartialEq)]
enum Way {
    Direct,
    Sanitized,
    Valgrind,
}
use Way::{Direct, Sanitized, Valgrind};

const SANITIZERS: [&str; 3] = ["-g", "-fsanitize=address,undefined", "-fno-sanitize-recover=all"];

/// The exit status of a program with a fault that is reported.
const REPORTED: i32 = 99;

impl Way {
    /// The program of a C file of the repository, compiled once, or what the compiler says.
    fn program(self, source: &'static str) -> Result<PathBuf, String> {
        type Compiled = BTreeMap<(&'static str, bool), Result<PathBuf, String>>;
        static COMPILED: Mutex<Compiled> = Mutex::new(BTreeMap::new());
        let sanitized = self == Sanitized;
        let compiled = || {
            let name = Path::new(source).file_stem().unwrap().to_str().unwrap();
            match sanitized {
                true => compile(source, &format!("{name}-sanitized"), &SANITIZERS),
                false => compile(source, name, &[]),
            }
        };
        COMPILED.lock().unwrap().entry((source, sanitized)).or_insert_with(compiled).clone()
    }

    /// The command that runs a program in this way.
    fn command(self, program: &Path) -> Command {
        match self {
            Valgrind => {
                let mut command = Command::new("valgrind");
                command.args(["-q", "--leak-check=full", "--errors-for-leak-kinds=all"]);
                command.arg(format!("--error-exitcode={REPORTED}")).arg(program);
                command
            }
            Direct | Sanitized => {
                let mut command = Command::new(program);
                for options in ["ASAN_OPTIONS", "UBSAN_OPTIONS"] {
                    command.env(options, format!("exitcode={REPORTED}"));
                }
                command
            }
        }
    }

    /// Runs the program without fault: whether it ends well, and nothing is reported.
    fn try_out(self) -> Result<(), String> {
        let program = self.program(MEMORY)?;
        let ended = self.command(&program).output().map_err(|error| error.to_string())?;
        let told = String::from_utf8_lossy(&ended.stderr).into_owned();
        match ended.status.success() && told.is_empty() {
            true => Ok(()),
            false => Err(format!("{}: {told}", ended.status)),
        }
    }

    /// Whether programs can be run in this way here. Standard error says so where they cannot.
    fn is_there(self) -> bool {
        static THERE: [OnceLock<bool>; 3] = [OnceLock::new(), OnceLock::new(), OnceLock::new()];
        *THERE[self as usize].get_or_init(|| match self.try_out() {
            Ok(()) => true,
            Err(why) => {
                let what = match self {
                    Direct => panic!("{why}"),
                    Sanitized => "the C compiler's sanitizers, which are not here",
                    Valgrind => "valgrind, which is not here",
                };
                let why = why.lines().next().unwrap_or_default();
                notice(&format!("memory is not checked by {what}: {why}"));
                false
            }
        })
    }
}

/// The program that is tested.
const LISTING: &str = "examples/c/listing.c";
/// A program that does nothing wrong, unless a fault is named to it.
const MEMORY: &str = "rust/tests/c/memory.c";

/// Every way, and those that take little time.
const EVERY: [Way; 3] = [Direct, Sanitized, Valgrind];
const QUICK: [Way; 2] = [Direct, Sanitized];

/// Runs `listing` in a folder.
fn run(way: Way, folder: &Path, args: &[&str], stdout: Stdio) -> Output {
    let program = way.program(LISTING).unwrap_or_else(|told| panic!("{told}"));
    way.command(&program)
        .args(args)
        .current_dir(folder)
        .stdin(Stdio::null())
        .stdout(stdout)
        .output()
        .expect("the program runs")
}

/// `listing` ends with this status, prints this and tells this, in each way that is there.
#[track_caller]
fn ends(ways: &[Way], folder: &Path, args: &[&str], status: i32, printed: &str, told: &str) {
    for &way in ways.iter().filter(|way| way.is_there()) {
        let case = format!("listing {}, {way:?}", args.join(" "));
        let ended = run(way, folder, args, Stdio::piped());
        assert_eq!(String::from_utf8_lossy(&ended.stderr), told, "{case}: standard error");
        assert_printed(&case, &String::from_utf8_lossy(&ended.stdout), printed);
        assert_eq!(ended.status.code(), Some(status), "{case}: exit status");
    }
}

/// A folder with a volume and a plan.
fn folder_with(volume: &[u8], plan: &[u8]) -> Folder {
    let folder = Folder::new();
    folder.write("titles.vol", volume);
    folder.write("titles.plan", plan);
    folder
}

const TITLES: [&str; 2] = ["titles.vol", "titles.plan"];

/// The listing is refused, and a person is told why.
#[track_caller]
fn refused(ways: &[Way], volume: &[u8], plan: &[u8], refused: Refused) {
    let folder = folder_with(volume, plan);
    let printed = format!("refused {} {}\n", refused.0, refused.1);
    ends(ways, &folder.0, &TITLES, 1, &printed, &sentence(refused));
}

/// What a person is told of a refusal of `titles.vol`, `titles.plan` or the number of words: the
/// sentence that the Rust package has for it, as far as it is about listings.
fn sentence((number, at): Refused) -> String {
    let what = match number {
        1..=8 => "titles.vol",
        9..=14 => "titles.plan",
        _ => "WORDS",
    };
    let whole = Refusal { number, at }.to_string();
    let sentence = whole.strip_suffix(&format!(" (refused {number} {at})")).unwrap();
    format!("listing: {what}: {}\n", sentence.split(", than one choice").next().unwrap())
}

/// A volume of 8,192 blocks, the largest. The words that a plan is to name stand in lists 1 and 3;
/// list 2 fills the volume.
fn largest() -> Lists {
    let mut rng = Rng::new(1);
    let docs: Vec<u32> = (0..65_536).step_by(31).collect();
    let window: Vec<u32> = (65_500..65_536).collect();
    let [starts, word, other] =
        [2, 3, 3].map(|most| random_positions(&mut rng, &docs, &window, most));
    let left = 1_032_192 - 2 - 4 - starts.len() - word.len() - other.len();
    let all = docs.iter().flat_map(|doc| (0..500).map(move |pos| doc * 65_536 + pos));
    Lists::new(&[starts, word, all.take(left).collect(), other])
}

/// What reports faults does report them: the other tests would not notice if it did not.
#[test]
fn faults_are_reported() {
    for (way, faults) in
        [(Sanitized, ["overrun", "leak", "overflow"]), (Valgrind, ["overrun", "leak", "unset"])]
    {
        if way.is_there() {
            let program = way.program(MEMORY).unwrap();
            for fault in faults {
                let ended = way.command(&program).arg(fault).output().unwrap();
                assert_eq!(ended.status.code(), Some(REPORTED), "{way:?}: {fault}");
                assert!(!ended.stderr.is_empty(), "{way:?}: {fault}");
            }
        }
    }
}

/// The sample listing, as request N8 of document 02 has it, through buffers of one row, a row and a
/// word, two rows, and more than that; and through buffers shorter than a row.
#[test]
fn the_sample() {
    let data = repository("crates/lister/data");
    let printed = "scene 1 1 2 0 5 0\ndone 6\n";
    ends(&EVERY, &data, &TITLES, 0, printed, "");
    for words in ["6", "7", "12", "100", "7864320", "0006"] {
        ends(&QUICK, &data, &["titles.vol", "titles.plan", words], 0, printed, "");
    }
    for words in ["5", "4", "0"] {
        let args = ["titles.vol", "titles.plan", words];
        ends(&EVERY, &data, &args, 1, "refused 16 0\n", &sentence((16, 0)));
    }
}

#[test]
fn usage() {
    let folder = folder_with(&sample().volume(), &plan_bytes(&SAMPLE));
    let usage = "usage: listing VOLUME PLAN [WORDS], WORDS being 0 to 7864320\n";
    let with = |words| vec!["titles.vol", "titles.plan", words];
    let mut cases = vec![vec![], vec!["titles.vol"], [with("6"), vec!["6"]].concat()];
    cases.extend(
        ["", "x", "-1", "+6", " 6", "6 ", "6x", "7864321", "18446744073709551622"].map(with),
    );
    for args in cases {
        ends(&QUICK, &folder.0, &args, 2, "", usage);
    }
}

/// A file that is absent, or a folder in its place, is no empty file here.
#[test]
fn files_that_cannot_be_read() {
    let folder = folder_with(&sample().volume(), &plan_bytes(&SAMPLE));
    fs::create_dir(folder.0.join("folder")).unwrap();
    for (name, why) in [("absent", "No such file or directory"), ("folder", "Is a directory")] {
        let told = format!("listing: {name}: {why}\n");
        ends(&QUICK, &folder.0, &[name, "titles.plan"], 2, "", &told);
        ends(&EVERY, &folder.0, &["titles.vol", name], 2, "", &told);
        ends(&QUICK, &folder.0, &[name, "nor this"], 2, "", &told);
    }
}

/// 1 to 8, whatever is wrong with the plan.
#[test]
fn refusals_of_a_volume() {
    let plan = plan_bytes(&SAMPLE);
    for (volume, why) in refused::volumes() {
        for plan in [&plan[..], &plan[..15], &[]] {
            refused(&QUICK, &volume, plan, why);
        }
    }
}

/// 10 to 14.
#[test]
fn refusals_of_a_plan() {
    let volume = sample().volume();
    for (rows, why) in refused::plans() {
        refused(&QUICK, &volume, &plan_bytes(&rows), why);
    }
}

/// 9, for each length that is no plan's, whatever the bytes are.
#[test]
fn lengths_of_a_plan() {
    let volume = sample().volume();
    let mut plan = plan_bytes(&widest_plan());
    let folder = folder_with(&volume, &plan);
    ends(&EVERY, &folder.0, &TITLES, 0, &listing(&volume, &plan), "");
    plan.resize(70_000, 0);
    for length in [0, 1, 4, 15, 17, 1_008 + 4, 1_023, 1_025, 1_028, 1_040, 65_536, 70_000] {
        refused(&QUICK, &volume, &plan[..length], (9, 0));
    }
}

/// The largest volume, row by row, by a hundred rows and some words, and at once; a byte more; and
/// one byte of it changed.
#[test]
fn the_largest_volume() {
    let rows = [
        voice(1),
        voice(3),
        before(0, 1),
        same_title(0, 1),
        END,
        voice(3),
        voice(1),
        near(0, 1, 0),
    ];
    let plan = plan_bytes(&[&rows[..], &[END, EITHER]].concat());
    let mut volume = largest().volume();
    assert_eq!(volume.len(), 4_194_304);

    let printed = listing(&volume, &plan);
    let scenes = printed.lines().count() - 1;
    assert!((800..1_800).contains(&scenes), "{scenes} of 2,115 scenes are true");
    assert!(printed.contains(" 0 0 0 0 0\n"), "both figures are found in each of them");
    assert!(printed.contains(" 65536 "), "each place is in a title");
    let folder = folder_with(&volume, &plan);
    ends(&QUICK, &folder.0, &TITLES, 0, &printed, "");
    ends(&QUICK, &folder.0, &["titles.vol", "titles.plan", "1103"], 0, &printed, "");
    ends(&EVERY, &folder.0, &["titles.vol", "titles.plan", "720896"], 0, &printed, "");
    ends(
        &QUICK,
        &folder.0,
        &["titles.vol", "titles.plan", "10"],
        1,
        "refused 16 0\n",
        &sentence((16, 0)),
    );

    refused(&QUICK, &volume[..4_194_303], &plan, (1, 0));
    volume.push(0);
    refused(&EVERY, &volume, &plan, (1, 0));
    refused(&QUICK, &volume, &[], (1, 0));
    volume.resize(4_194_304 + 512, 0);
    refused(&QUICK, &volume, &plan, (1, 0));
    volume.truncate(4_194_304);
    volume[4_194_000] ^= 1;
    refused(&QUICK, &volume, &plan, (3, 8_191));
}

/// A file without end is too long.
#[test]
fn files_without_end() {
    let zero = "/dev/zero";
    if Path::new(zero).exists() {
        let folder = folder_with(&sample().volume(), &plan_bytes(&SAMPLE));
        let told = sentence((1, 0)).replace("titles.vol", zero);
        ends(&EVERY, &folder.0, &[zero, "titles.plan"], 1, "refused 1 0\n", &told);
        ends(&QUICK, &folder.0, &[zero, zero], 1, "refused 1 0\n", &told);
        let told = sentence((9, 0)).replace("titles.plan", zero);
        ends(&QUICK, &folder.0, &["titles.vol", zero], 1, "refused 9 0\n", &told);
    }
}

/// What cannot be written is noticed: a listing shorter than any buffer of the C library, a long
/// one, and a refusal.
#[test]
fn a_full_disk() {
    let full = Path::new("/dev/full");
    if full.exists() {
        let word: Vec<u32> = (0..9_000).map(|doc| doc * 65_536).collect();
        let long =
            folder_with(&Lists::new(&[vec![], word]).volume(), &plan_bytes(&[voice(1), END]));
        let short = folder_with(&sample().volume(), &plan_bytes(&SAMPLE));
        let told = "listing: standard output: No space left on device\n";
        let too_few = ["titles.vol", "titles.plan", "3"];
        for (folder, args, told) in [
            (&short, &TITLES[..], told.to_string()),
            (&long, &["titles.vol", "titles.plan", "3000"], told.to_string()),
            (&short, &too_few, sentence((16, 0)) + told),
        ] {
            for way in QUICK.into_iter().filter(|way| way.is_there()) {
                let stdout = File::options().write(true).open(full).unwrap();
                let ended = run(way, &folder.0, args, stdout.into());
                assert_eq!(String::from_utf8_lossy(&ended.stderr), told, "{args:?}, {way:?}");
                assert_eq!(ended.status.code(), Some(2), "{args:?}, {way:?}");
            }
        }
    }
}

/// Volumes and plans as they come, through buffers of every length, some too short for a row.
#[test]
fn random_runs() {
    let seed = 509;
    let mut rng = Rng::new(seed);
    let [mut listed, mut short] = [0; 2];
    for _ in 0..60 {
        let subject = random_subject(&mut rng);
        let (volume, plan) = (subject.volume(), word_bytes(subject.plan()));
        let width = subject.searcher().width();
        let words = random_room(&mut rng, width);
        let folder = folder_with(volume, &plan);
        let words_arg = words.to_string();
        let args = ["titles.vol", "titles.plan", &words_arg];
        match words < width {
            true => {
                ends(&QUICK, &folder.0, &args, 1, "refused 16 0\n", &sentence((16, 0)));
                short += 1;
            }
            false => {
                ends(&QUICK, &folder.0, &args, 0, &listing(volume, &plan), "");
                listed += 1;
            }
        }
    }
    assert!(listed > 36 && short > 3, "seed {seed}: {listed} {short}");
}
