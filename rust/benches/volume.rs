//! Times the library's check and writer on the largest volume, beside a copy of the same bytes and
//! beside the yardstick, its check of the largest plan beside its check of the volume, and its join
//! of two volumes beside the yardstick's. Every shape runs once a round, the joins in rounds of
//! their own, so that a slow moment of the machine falls on all of them. Run as a test, it makes
//! one round, to compare the results, and prints no times.

mod support;
mod yardstick;

use lihambozy::calls::{check_plan, check_volume, join_volumes, volume_len, write_volume};
use lihambozy::kind;
use std::hint::black_box;
use support::{Rng, Times};
use yardstick::{join, late};

const SEED: u64 = 1;
const ROUNDS: usize = 101;
const LISTS: usize = 1_000;
const WORDS: usize = lihambozy::MAX_WORDS;
/// The joins of short lists that are timed together.
const JOINS: usize = 20;

/// So many lists with so many postings in all, none above `most`: their counts, and the postings
/// back to back.
fn lists(seed: u64, lists: usize, postings: usize, most: u32) -> (Vec<u32>, Vec<u32>) {
    let mut rng = Rng::new(seed);
    let mut left = postings;
    let mut counts = Vec::new();
    let mut postings = Vec::new();
    for behind in (0..lists).rev() {
        let count = match behind {
            0 => left,
            _ => rng.below(2 * left as u64 / (behind as u64 + 1)) as usize,
        };
        left -= count;
        counts.push(count as u32);
        let gap = u64::from(most) / (count as u64 + 1);
        let mut posting = 0;
        postings.extend((0..count).map(|_| {
            posting += 1 + rng.below(gap);
            posting as u32
        }));
    }
    (counts, postings)
}

/// A plan of 64 rows with the most variables, 56: seven patterns of eight, joined.
fn plan() -> Vec<u32> {
    let mut rows = Vec::new();
    for _ in 0..7 {
        rows.extend((1..=8).map(|list| [kind::VOICE, list, 0, 0]));
        rows.push([kind::END, 0, 0, 0]);
    }
    rows.push([kind::AT_LEAST, 1, 7, 0]);
    rows.concat()
}

/// Two volumes and the buffers of both joins.
struct Join {
    first: Vec<u8>,
    second: Vec<u8>,
    ours: Vec<u8>,
    theirs: Vec<u8>,
}

impl Join {
    /// What is added to the documents of the second volume. Those of the first are below it.
    const RAISE: u32 = 32_768;

    /// Two volumes of so many lists, with so many postings each. Both joins give the same bytes.
    fn new(seed: u64, count: usize, postings: usize) -> Join {
        let volume = |seed| {
            let (counts, postings) = lists(seed, count, postings, Join::RAISE * 65_536 - 1);
            let length = volume_len(counts.len(), postings.len()).expect("the lists fit a volume");
            let mut volume = vec![0; length];
            write_volume(&counts, &postings, &mut volume).expect("the lists make a volume");
            volume
        };
        let length = volume_len(count, 2 * postings).expect("the joined lists fit a volume");
        let (ours, theirs) = (vec![0; length], vec![1; length]);
        let mut join = Join { first: volume(seed), second: volume(seed + 1), ours, theirs };
        assert_eq!((join.library(), join.yardstick()), (length / 512, length / 512));
        assert!(join.agree(), "the two joins differ");
        join
    }

    fn library(&mut self) -> usize {
        let (first, second) = (black_box(&self.first), black_box(&self.second));
        let joined = join_volumes(first, second, Join::RAISE, &mut self.ours);
        joined.expect("the volumes join").blocks as usize
    }

    fn yardstick(&mut self) -> usize {
        let (first, second) = (black_box(&self.first), black_box(&self.second));
        let joined = join::join_volumes(first, second, Join::RAISE, &mut self.theirs);
        joined.expect("the volumes join") as usize
    }

    fn agree(&self) -> bool {
        self.ours == self.theirs
    }
}

fn main() {
    // cargo passes --bench to a benchmark that it runs as one, and nothing where it tests it.
    let timed = std::env::args().any(|word| word == "--bench");
    let rounds = if timed { ROUNDS } else { 1 };

    let (counts, postings) = lists(SEED, LISTS, WORDS - 2 - LISTS, u32::MAX);
    let length = volume_len(counts.len(), postings.len()).expect("the lists fill a volume");
    let (mut ours, mut theirs, mut copy) = (vec![0; length], vec![1; length], vec![2; length]);

    // The results, before anything is timed.
    let written = write_volume(&counts, &postings, &mut ours).map(|written| written.blocks);
    assert_eq!(written.ok(), late::write_volume(&counts, &postings, &mut theirs).ok());
    assert_eq!(written, Ok(8_192));
    assert!(ours == theirs, "the two writers differ");
    let volume = ours.clone();
    let checked = check_volume(&volume).map(|checked| (checked.lists, checked.postings));
    assert_eq!(checked.ok(), late::check_volume(&volume).ok());
    assert_eq!(checked, Ok((counts.len() as u32, postings.len() as u32)));

    let plan = plan();
    let checked = check_plan(&volume, &plan).map(|checked| (checked.patterns, checked.vars));
    assert_eq!((plan.len(), checked), (256, Ok((7, 56))));

    let mut long = Join::new(SEED + 1, LISTS, 500_000);
    let mut short = Join::new(SEED + 3, lihambozy::MAX_LISTS, 3_000);

    let names = [
        "copy",
        "check, library",
        "check, yardstick",
        "write, library",
        "write, yardstick",
        "check of a plan, library",
        "join, library",
        "join, yardstick",
        "join of short lists, library",
        "join of short lists, yardstick",
    ];
    let mut shapes = names.map(|_| Times::default());
    let [copied, check, yardstick_check, write, yardstick_write, check_rows, joins @ ..] =
        &mut shapes;
    let [join, yardstick_join, short_join, yardstick_short_join] = joins;
    for _ in 0..rounds {
        copied.time(|| {
            copy.copy_from_slice(black_box(&volume));
            black_box(&mut copy);
        });
        check.time(|| check_volume(black_box(&volume)));
        yardstick_check.time(|| late::check_volume(black_box(&volume)));
        write.time(|| write_volume(black_box(&counts), black_box(&postings), &mut ours));
        yardstick_write
            .time(|| late::write_volume(black_box(&counts), black_box(&postings), &mut theirs));
        check_rows.time(|| check_plan(black_box(&volume), black_box(&plan)));
    }
    // Apart from the others, which find the volume as the shape before them has left it.
    for _ in 0..rounds {
        join.time(|| long.library());
        yardstick_join.time(|| long.yardstick());
        short_join.time(|| (0..JOINS).map(|_| short.library()).sum::<usize>());
        yardstick_short_join.time(|| (0..JOINS).map(|_| short.yardstick()).sum::<usize>());
    }
    assert!(ours == volume && theirs == volume && copy == volume);
    assert!(long.agree() && short.agree());
    if !timed {
        println!("the library and the yardstick agree on the largest volume and on both joins");
        return;
    }

    let (lists, postings) = (counts.len(), postings.len());
    println!("A volume of 8,192 blocks, {lists} lists, {postings} postings, seed {SEED}.");
    println!(
        "Joins: two volumes of {LISTS} lists and 500000 postings each; of short lists, two of"
    );
    println!("{} lists and 3000 postings each, {JOINS} joins.", lihambozy::MAX_LISTS);
    println!(
        "Release build, {rounds} rounds, every shape once a round; buffers not cleared before."
    );
    println!();
    println!("| | median ms | minimum ms |");
    println!("|---|---|---|");
    for (name, times) in names.iter().zip(&shapes) {
        println!("| {name} | {:.3} | {:.3} |", times.median(), times.minimum());
    }
    println!("\n| ratio | of medians | of minima | target | |");
    println!("|---|---|---|---|---|");
    let mut missed = false;
    for (name, over, under, target) in [
        ("check / copy", 1, 0, 1.5),
        ("check / yardstick check", 1, 2, 1.0),
        ("write / yardstick write", 3, 4, 1.25),
        ("check of a plan / check", 5, 1, 1.25),
        ("join / yardstick join", 6, 7, 1.25),
        ("join of short lists / yardstick join", 8, 9, 1.25),
    ] {
        let (over, under) = (&shapes[over], &shapes[under]);
        let medians = over.median() / under.median();
        let minima = over.minimum() / under.minimum();
        let verdict = if medians <= target { "met" } else { "MISSED" };
        missed |= medians > target;
        println!("| {name} | {medians:.2} | {minima:.2} | {target:.2} | {verdict} |");
    }
    if missed {
        println!("\nA check of over 3 copies is one that the compiler no longer vectorises.");
        std::process::exit(1);
    }
}
