//! Typed lines, read and written beside the yardstick: typical ones, the longest, and those with
//! many brackets or `<..>`; and how the time grows with the length of a line.

use super::support::Times;
use super::verdict;
use super::yardstick::{late, line as yardstick};
use lihambozy::calls::{check_plan, line_to_plan, plan_to_line};
use lihambozy::{BLOCK_BYTES, MAX_LINE_BYTES, MAX_ROWS, ROW_WORDS};
use std::hint::black_box;

const ROUNDS: usize = 101;
/// The calls that are timed together.
const CALLS: usize = 100;
/// The time of a call, as a part of the yardstick's, at most.
const TARGET: f64 = 10.0;
/// How many times as long a line takes that is twice as long, at most. For a time that grows with
/// the bytes it is 2, for one that grows with their square it is 4.
const DOUBLING_TARGET: f64 = 3.0;
/// The bytes of the lines that grow.
const SIZES: [usize; 4] = [256, 512, 1_024, MAX_LINE_BYTES];
/// The lists of the volume over which plans are written, all of them empty.
const LISTS: usize = 100;

/// Lines over so many lists that are plans, each with what it is.
fn plans() -> [(&'static str, String); 8] {
    [
        ("a word", "[17]".to_string()),
        ("two words in order", "[1 2;b 0 1]".to_string()),
        ("document 02's", "[1 2;b 0 1]|([3]&[4])".to_string()),
        ("three figures", "[17 20;n 0 1 2;t 0 1]&([31 8;b 0 1]|[5 77 99;s 12])".to_string()),
        ("eight figures, nested", nested("[12 45;n 0 1 6]", 8)),
        ("some of several", "<2:[17],[20 31;b 0 1],[8]&[5],[77]>".to_string()),
        ("some of several, nested", nested_some("[12 45;n 0 1 6]", 8)),
        ("one figure of 64 rows", format!("[7{}]", ";a 0 0 65535 65535".repeat(62))),
    ]
}

/// A sort of line that can have any length: a front, which ends with a list number, a piece that is
/// repeated, and what closes it.
struct Sort {
    name: &'static str,
    front: &'static str,
    piece: &'static str,
    behind: &'static str,
}

const SORTS: [Sort; 5] = [
    Sort { name: "lists", front: "[1", piece: " 65536", behind: "]" },
    Sort { name: "conditions", front: "[1", piece: ";a 65536 65536 65535 65535", behind: "]" },
    Sort { name: "figures", front: "[1", piece: "]&[1", behind: "]" },
    Sort {
        name: "brackets",
        front: "(((((((([1",
        piece: "]))))))))|(((((((([1",
        behind: "]))))))))",
    },
    Sort { name: "some of several", front: "<1:[1],[1", piece: "]>|<1:[1],[1", behind: "]>" },
];

impl Sort {
    /// The line of so many bytes. What is left over is made of lists of the first figure.
    fn line(&self, bytes: usize) -> String {
        let room = bytes - self.front.len() - self.behind.len();
        let left = room % self.piece.len();
        let digit = if left % 2 == 1 { "0" } else { "" };
        let lists = format!("{digit}{}", " 1".repeat(left / 2));
        let pieces = self.piece.repeat(room / self.piece.len());
        format!("{}{lists}{pieces}{}", self.front, self.behind)
    }
}

/// Figures, each in a bracket more than the one before it, but for the last.
fn nested(figure: &str, count: usize) -> String {
    let mut line = figure.to_string();
    for (behind, sign) in (1..count).zip("&|!".chars().cycle()) {
        let inside = if behind == 1 { line } else { format!("({line})") };
        line = format!("{figure}{sign}{inside}");
    }
    line
}

/// Figures, each in a `<..>` more than the one before it, but for the last.
fn nested_some(figure: &str, count: usize) -> String {
    (1..count).fold(figure.to_string(), |line, _| format!("<1:{figure},{line}>"))
}

/// Makes the calls that are timed together.
fn all<R>(mut call: impl FnMut() -> R) {
    for _ in 0..CALLS {
        black_box(call());
    }
}

/// The nanoseconds of a call.
fn nanoseconds(times: &Times) -> f64 {
    times.minimum() * 1e6 / CALLS as f64
}

/// Times a line read by the library and by the yardstick, in odd rounds the yardstick first. The
/// answers and every word of the buffers are compared before.
fn time_reading(line: &str, rounds: usize) -> [Times; 2] {
    let mut out: [u32; MAX_ROWS * ROW_WORDS] = std::array::from_fn(|i| !(i as u32));
    let mut yardstick_out = out;
    let library = line_to_plan(line.as_bytes(), &mut out);
    let library = library.map(|read| read.words).map_err(|refusal| (refusal.number, refusal.at));
    assert_eq!(library, yardstick::read(line.as_bytes(), &mut yardstick_out), "{line}");
    assert_eq!(out, yardstick_out, "{line}");

    let [mut ours, mut theirs] = [(); 2].map(|()| Times::default());
    for side in (0..rounds).flat_map(|round| [round, round + 1]) {
        let line = black_box(line.as_bytes());
        if side % 2 == 0 {
            ours.time(|| all(|| line_to_plan(line, &mut out)));
        } else {
            theirs.time(|| all(|| yardstick::read(line, &mut out)));
        }
    }
    [ours, theirs]
}

/// Runs the lines: whether a target is missed.
pub fn time(timed: bool) -> bool {
    let rounds = if timed { ROUNDS } else { 1 };
    if timed {
        println!("\n# Typed lines\n");
        println!(
            "{ROUNDS} rounds of {CALLS} calls, minima. A line of {MAX_LINE_BYTES} bytes has too \
             many rows, which is told when all of it has been read."
        );
    }
    let reading = time_lines(rounds, timed);
    let growth = time_growth(rounds, timed);
    let writing = time_writing(rounds, timed);
    reading || growth || writing
}

/// Lines read beside the yardstick.
fn time_lines(rounds: usize, timed: bool) -> bool {
    let long = SORTS.iter().map(|sort| (sort.name, sort.line(MAX_LINE_BYTES)));
    let broken = |sort: &Sort| sort.line(MAX_LINE_BYTES - 1) + "x";
    let lines = plans().into_iter().chain(long).chain([("broken at its end", broken(&SORTS[3]))]);
    if timed {
        println!("\n| line read | bytes | library ns | yardstick ns | ratio | target | |");
        println!("|---|---|---|---|---|---|---|");
    }
    let mut missed = false;
    for (name, line) in lines {
        let [ours, theirs] = time_reading(&line, rounds).map(|times| nanoseconds(&times));
        if timed {
            let (ratio, bytes) = (ours / theirs, line.len());
            missed |= ratio > TARGET;
            println!(
                "| {name} | {bytes} | {ours:.0} | {theirs:.0} | {ratio:.2} | {TARGET:.0} | {} |",
                verdict(ratio > TARGET)
            );
        }
    }
    missed
}

/// How the time grows with the bytes of a line.
fn time_growth(rounds: usize, timed: bool) -> bool {
    if timed {
        println!("\n| line of | bytes | library ns | of the row above | target | |");
        println!("|---|---|---|---|---|---|");
    }
    let mut missed = false;
    for sort in &SORTS {
        let mut before = None;
        for bytes in SIZES {
            let line = sort.line(bytes);
            assert_eq!(line.len(), bytes, "{}", sort.name);
            let [ours, _] = time_reading(&line, rounds).map(|times| nanoseconds(&times));
            if timed {
                let ratio = before.map(|before| ours / before);
                let is_missed = ratio.is_some_and(|ratio| ratio > DOUBLING_TARGET);
                missed |= is_missed;
                let (shown, target, met) = match ratio {
                    Some(ratio) => {
                        (format!("{ratio:.2}"), format!("{DOUBLING_TARGET:.1}"), verdict(is_missed))
                    }
                    None => Default::default(),
                };
                println!("| {} | {bytes} | {ours:.0} | {shown} | {target} | {met} |", sort.name);
            }
            before = Some(ours);
        }
    }
    missed
}

/// Plans written beside the yardstick, which does not check them: the check is taken off.
fn time_writing(rounds: usize, timed: bool) -> bool {
    let mut volume = [0; BLOCK_BYTES];
    late::write_volume(&[0; LISTS], &[], &mut volume).expect("the lists fit a block");
    if timed {
        println!(
            "\n| plan written | bytes | check ns | library ns | yardstick ns | ratio without the \
             check | target | |"
        );
        println!("|---|---|---|---|---|---|---|---|");
    }
    let mut missed = false;
    for (name, line) in plans() {
        let mut words = [0; MAX_ROWS * ROW_WORDS];
        let read = line_to_plan(line.as_bytes(), &mut words).expect("it is a line");
        let plan = &words[..read.words as usize];
        let (mut out, mut yardstick_out) = ([7; MAX_LINE_BYTES], [7; MAX_LINE_BYTES]);
        let written = plan_to_line(&volume, plan, &mut out).expect("the plan is accepted").bytes;
        assert_eq!(yardstick::write(plan, &mut yardstick_out), Ok(written), "{name}");
        assert_eq!(out, yardstick_out, "{name}");

        let [mut check, mut ours, mut theirs] = [(); 3].map(|()| Times::default());
        for _ in 0..rounds {
            let (volume, plan) = (black_box(&volume[..]), black_box(plan));
            check.time(|| all(|| check_plan(volume, plan)));
            ours.time(|| all(|| plan_to_line(volume, plan, &mut out)));
            theirs.time(|| all(|| yardstick::write(plan, &mut out)));
        }
        if timed {
            let [check, ours, theirs] = [check, ours, theirs].map(|times| nanoseconds(&times));
            let ratio = (ours - check) / theirs;
            missed |= ratio > TARGET;
            println!(
                "| {name} | {written} | {check:.0} | {ours:.0} | {theirs:.0} | {ratio:.2} \
                 | {TARGET:.0} | {} |",
                verdict(ratio > TARGET)
            );
        }
    }
    missed
}
