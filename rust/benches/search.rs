//! Times the library's listing beside the yardstick's: twelve plans over each of two made-up
//! archives (`time_plans`), and how the time grows with the positions of one document
//! (`time_growth`). The results are compared before anything is timed. Then it times what a listing
//! does before its walk, for lists at the front of a volume of many lists and at its end
//! (`time_starts`), and how all tuples of a crowded document are listed: where few pass, beside a
//! listing of that document (`time_few`), and where all pass, tuple by tuple as the document grows
//! (`time_all`). Last come typed lines (`lines`). Run as a test, it makes one round and prints no
//! times.
//!
//! A listing checks its volume; what it does beyond that is its walk. Only whole calls of the
//! library can be timed, so on both sides a walk's time is that of a listing less that of a check
//! right before it in the same round. Where the check takes far longer than the walk, such a
//! difference is noise. So each plan runs also over the volume of its own lists, in which the
//! archive's other lists are empty: the same walk after a short check.

mod archives;
mod lines;
mod support;
mod yardstick;

use archives::{
    all_match, all_plans, endless_plans, few_matches, few_plans, one_document, one_list, plans,
    repertory, season, widest_plan, Filling, Lists, Plan, CROWDED,
};
use lihambozy::calls::{check_plan, check_volume, list, list_matches, Next};
use lihambozy::{kind, BLOCK_BYTES};
use std::hint::black_box;
use support::Times;
use yardstick::{late, walk};

const SEED: u32 = 1;

/// A listing's time, as a part of the yardstick's, at most.
const LISTING_TARGET: f64 = 0.8;
/// The standard error of a ratio, as a part of it, above which the ratio is noise.
const NOISE: f64 = 0.05;

/// The positions of one document, and how many titles start in it.
const SIZES: [(u32, u32); 5] =
    [(4_096, 500), (8_192, 1_000), (16_384, 2_000), (32_768, 4_000), (65_536, 8_000)];
const GROWTH_ROUNDS: usize = 21;
/// How many times as long a listing takes for twice the positions, at most. For a time that grows
/// with the postings it is 2, and a little more for memory that is further away; for one that grows
/// with a product of them it is 4.
const DOUBLING_TARGET: f64 = 2.6;
/// The same of SAME TITLE, with twice the starts too: each start is looked for from where the last
/// one was found.
const TITLES_TARGET: f64 = 2.15;
/// A listing's time for the most positions, as a part of the yardstick's, at most. Both are whole
/// calls, with the check of the volume.
const CROWDED_TARGET: f64 = 1.4;

/// The lists of the volumes over which 56 variables are on one list, the first that a plan may name
/// or the last.
const MANY_LISTS: u32 = 1_024;
const STARTS_ROUNDS: usize = 1_001;
/// How many microseconds more a listing takes where that list is the last one, at most. A list
/// starts behind all postings of the lists in front of it, whose counts are summed up.
const STARTS_TARGET: f64 = 8.0;

/// The positions of each of eight variables in the document in which few tuples pass: eight do.
const FEW: u32 = 4_096;
/// How many listings of that document an enumeration of all its tuples takes, at most: eight for
/// each variable.
const FEW_TARGET: f64 = 64.0;
/// The positions of each variable in the documents in which all tuples pass.
const ALL_SIZES: [u32; 5] = [256, 512, 1_024, 2_048, 4_096];
/// The tuples of a page there.
const PAGE: usize = 16_384;
/// How many times as long a tuple takes in a document as in the one with half the positions, and as
/// in the smallest, at most. For a time that does not depend on the document it is 1, and a little
/// more for memory that is further away.
const FLAT_TARGET: f64 = 1.3;
const MATCHES_ROUNDS: usize = 51;

/// A made-up archive.
struct Archive {
    name: &'static str,
    lists: Lists,
    filling: Filling,
    rounds: usize,
    /// The rounds over the plans' own lists.
    own_rounds: usize,
    /// A walk's time, as a part of the yardstick's, at most.
    walk_target: f64,
    /// The mean of these ratios over the plans, at most.
    mean_target: Option<f64>,
}

fn archives() -> [Archive; 2] {
    [
        Archive {
            name: "a season, each posting 1 to 4,096 behind the one before it",
            lists: season(SEED, 512, 1_000),
            filling: Filling {
                lists: [17, 100, 201, 302, 403, 444, 480, 511],
                rare: 250,
                near: 20,
                span: 400,
            },
            rounds: 101,
            own_rounds: 1_001,
            walk_target: 1.3,
            mean_target: None,
        },
        Archive {
            name: "a repertory, with lists of every length",
            lists: repertory(SEED.into(), 1_000, 1_000_000),
            filling: Filling { lists: [1, 2, 3, 4, 5, 6, 7, 8], rare: 801, near: 1, span: 6 },
            rounds: 51,
            own_rounds: 51,
            walk_target: 1.35,
            mean_target: Some(1.1),
        },
    ]
}

fn main() {
    // cargo passes --bench to a benchmark that it runs as one, and nothing where it tests it.
    let timed = std::env::args().any(|word| word == "--bench");
    let mut missed = false;
    for archive in archives() {
        missed |= time_plans(&archive, timed);
    }
    missed |= time_growth(timed);
    missed |= time_starts(timed);
    missed |= time_few(timed);
    missed |= time_all(timed);
    missed |= lines::time(timed);
    if !timed {
        println!("the library and the yardstick agree on every listing and every line");
    }
    if missed {
        std::process::exit(1);
    }
}

/// A plan over a volume, with a buffer that holds every row.
struct Listing<'a> {
    volume: &'a [u8],
    plan: Vec<u32>,
    out: Vec<u32>,
    rows: u32,
    tally: u32,
    check: Times,
    list: Times,
    yardstick_check: Times,
    yardstick_list: Times,
    yardstick_walk: Times,
}

impl<'a> Listing<'a> {
    /// Lists to DONE in one call on both sides, and compares the answers and every word of the
    /// buffers, those behind the rows too.
    fn new(volume: &'a [u8], docs: usize, plan: &Plan) -> Listing<'a> {
        let words = plan.rows.concat();
        let width = check_plan(volume, &words).expect("the plan is accepted").row_width();
        let mut out: Vec<u32> = (0..(docs + 1) * width).map(|i| !(i as u32)).collect();
        let mut yardstick_out = out.clone();
        let library = list(volume, &words, 0, &mut out).expect("a row fits");
        let yardstick = walk::list(volume, &words, 0, &mut yardstick_out).expect("a row fits");
        assert_eq!((library.next, yardstick.next), (Next::Done, None), "{}", plan.name);
        assert_eq!(library.rows, yardstick.rows, "{}: rows", plan.name);
        assert_eq!(library.tally, yardstick.tally, "{}: tally", plan.name);
        assert!(out == yardstick_out, "{}: the buffers differ", plan.name);
        Listing {
            volume,
            plan: words,
            out,
            rows: library.rows,
            tally: library.tally,
            check: Times::default(),
            list: Times::default(),
            yardstick_check: Times::default(),
            yardstick_list: Times::default(),
            yardstick_walk: Times::default(),
        }
    }

    /// Times a check and a listing on each side, in odd rounds the yardstick first. The check
    /// before them, which is not timed, brings the volume near.
    fn time(&mut self, round: usize) {
        let (volume, plan, out) = (black_box(self.volume), black_box(&self.plan), &mut self.out);
        for side in [round, round + 1] {
            let _ = black_box(check_volume(volume));
            if side % 2 == 0 {
                self.check.time(|| check_volume(volume));
                self.list.time(|| list(volume, plan, 0, out));
            } else {
                self.yardstick_check.time(|| late::check_volume(volume));
                self.yardstick_list.time(|| walk::list(volume, plan, 0, out));
            }
        }
    }

    /// Times the walk of the yardstick without its check.
    fn time_yardstick_walk(&mut self) {
        let (volume, plan, out) = (black_box(self.volume), black_box(&self.plan), &mut self.out);
        let _ = black_box(check_volume(volume));
        self.yardstick_walk.time(|| walk::walk(volume, plan, 0, out));
    }

    /// The walk's time, and that of the yardstick.
    fn walks(&self) -> [Times; 2] {
        [self.list.less(&self.check), self.yardstick_list.less(&self.yardstick_check)]
    }

    /// The same as differences of minima.
    fn least_walks(&self) -> [f64; 2] {
        [(&self.list, &self.check), (&self.yardstick_list, &self.yardstick_check)]
            .map(|(list, check)| list.minimum() - check.minimum())
    }
}

/// Times the listings, so many rounds. The walks of the yardstick alone come behind all of them: a
/// walk between two listings would make the second one faster.
fn time_listings(listings: &mut [Listing], rounds: usize) {
    for round in 0..rounds {
        listings.iter_mut().for_each(|listing| listing.time(round));
    }
    for _ in 0..rounds {
        listings.iter_mut().for_each(Listing::time_yardstick_walk);
    }
}

fn verdict(missed: bool) -> &'static str {
    if missed {
        "MISSED"
    } else {
        "met"
    }
}

/// Runs the plans over an archive: whether a target is missed.
fn time_plans(archive: &Archive, timed: bool) -> bool {
    let (lists, docs) = (&archive.lists, archive.lists.docs());
    let plans = plans(&archive.filling);
    let volume = lists.volume();
    let own_volumes = plans.each_ref().map(|plan| lists.only(&plan.lists()).volume());

    let mut whole: Vec<Listing> =
        plans.iter().map(|plan| Listing::new(&volume, docs, plan)).collect();
    let mut own: Vec<Listing> =
        plans.iter().zip(&own_volumes).map(|(plan, own)| Listing::new(own, docs, plan)).collect();
    for ((plan, whole), own) in plans.iter().zip(&whole).zip(&own) {
        assert!(whole.out == own.out, "{}: other rows from the plan's own lists", plan.name);
    }
    let listed = whole.iter().filter(|listing| listing.rows > 0).count();
    assert!(listed >= 5, "{listed} plans have true documents");

    time_listings(&mut whole, if timed { archive.rounds } else { 1 });
    time_listings(&mut own, if timed { archive.own_rounds } else { 1 });
    if !timed {
        return false;
    }
    println!("\n# Over {}\n", archive.name);
    println!(
        "{} blocks, {} lists, {} postings in {docs} documents, seed {SEED}.",
        volume.len() / BLOCK_BYTES,
        lists.counts.len(),
        lists.postings.len()
    );
    println!(
        "Release build, {} rounds ({} over own lists), every call once a round; buffers not \
         cleared before.\n",
        archive.rounds, archive.own_rounds
    );
    for (i, plan) in (1..).zip(&plans) {
        println!("{i}. {}: {}", plan.name, plan.text());
    }
    let listing_missed = print_listings(&plans, &whole);
    let walk_missed = print_walks(archive, &plans, &whole, &own);
    listing_missed || walk_missed
}

/// Prints the times of the listings: whether the target is missed.
fn print_listings(plans: &[Plan], listings: &[Listing]) -> bool {
    println!(
        "\n| listing | rows | tally | library ms | yardstick ms | ratio of medians | of minima \
         | target | |"
    );
    println!("|---|---|---|---|---|---|---|---|---|");
    let mut missed = false;
    for (plan, listing) in plans.iter().zip(listings) {
        let Listing { list, yardstick_list, .. } = listing;
        let ratio = list.over(yardstick_list);
        missed |= ratio > LISTING_TARGET;
        println!(
            "| {} | {} | {} | {:.3} | {:.3} | {ratio:.2} | {:.2} | {LISTING_TARGET:.2} | {} |",
            plan.name,
            listing.rows,
            listing.tally,
            list.median(),
            yardstick_list.median(),
            list.minimum() / yardstick_list.minimum(),
            verdict(ratio > LISTING_TARGET)
        );
    }
    let Listing { check, yardstick_check, .. } = &listings[0];
    println!(
        "| the check alone | | | {:.3} | {:.3} | {:.2} | {:.2} | | |",
        check.median(),
        yardstick_check.median(),
        check.over(yardstick_check),
        check.minimum() / yardstick_check.minimum()
    );
    missed
}

/// Prints the times of the walks: whether a target is missed.
fn print_walks(archive: &Archive, plans: &[Plan], whole: &[Listing], own: &[Listing]) -> bool {
    println!("\nWalks in microseconds. *Alone*: timed directly, without a check.\n");
    println!(
        "| walk | library | yardstick | alone | 1: ratio of medians | own lists: library \
         | yardstick | alone | 2: ratio of medians | 3: of minima | target | |"
    );
    println!("|---|---|---|---|---|---|---|---|---|---|---|---|");
    let target = archive.walk_target;
    let mut judged = Vec::new();
    for ((plan, whole), own) in plans.iter().zip(whole).zip(own) {
        print!("| {} |", plan.name);
        let mut clear = Vec::new();
        for (place, listing) in (1..).zip([whole, own]) {
            let [walk, yardstick_walk] = listing.walks();
            for times in [&walk, &yardstick_walk, &listing.yardstick_walk] {
                print!(" {:.1} |", times.median() * 1e3);
            }
            let (ratio, error) = (walk.over(&yardstick_walk), walk.error_over(&yardstick_walk));
            print!(" {ratio:.2} ± {error:.2} |");
            if error <= NOISE * ratio {
                clear.push((place, ratio));
            }
        }
        let [walk, yardstick_walk] = own.least_walks();
        let minima = walk / yardstick_walk;
        let (place, ratio) = clear.first().copied().unwrap_or((3, minima));
        judged.push(ratio);
        println!(" {minima:.2} | {target:.2} | {} by {place} |", verdict(ratio > target));
    }
    println!(
        "\nJudged is the first ratio whose standard error is at most {NOISE} of it, or else the \
         third."
    );
    let mean = judged.iter().sum::<f64>() / judged.len() as f64;
    let mean_missed = archive.mean_target.is_some_and(|target| mean > target);
    match archive.mean_target {
        Some(target) => {
            let told = verdict(mean_missed);
            println!("The mean of those judged is {mean:.2}, target {target:.2}: {told}.");
        }
        None => println!("The mean of those judged is {mean:.2}."),
    }
    mean_missed || judged.iter().any(|&ratio| ratio > target)
}

/// Runs plans that pass all positions of one document: whether a target is missed.
fn time_growth(timed: bool) -> bool {
    let plans = endless_plans();
    let volumes = SIZES.map(|(positions, starts)| one_document(positions, starts).volume());
    let mut listings: Vec<Listing> = plans
        .iter()
        .flat_map(|plan| volumes.iter().map(move |volume| Listing::new(volume, 1, plan)))
        .collect();
    time_listings(&mut listings, if timed { GROWTH_ROUNDS } else { 1 });
    for (listing, (positions, _)) in listings.iter().zip(SIZES.iter().cycle()) {
        assert_eq!((listing.rows, listing.tally), (0, 8 * positions));
    }
    if !timed {
        return false;
    }

    println!("\n# Growth: one document, eight variables, no match\n");
    println!(
        "{GROWTH_ROUNDS} rounds, minima, since what else runs on the machine only adds to a time.\n"
    );
    for plan in &plans {
        println!("- {}: {}", plan.name, plan.text());
    }
    println!(
        "\n| predicate | positions of each | starts | library ms | ns a posting | of the row above \
         | target | | yardstick ns a posting | of the row above | library / yardstick | target | |"
    );
    println!("|---|---|---|---|---|---|---|---|---|---|---|---|---|");
    let mut missed = false;
    for (plan, listings) in plans.iter().zip(listings.chunks(SIZES.len())) {
        let has_titles = plan.rows.iter().any(|row| row[0] == kind::SAME_TITLE);
        let target = if has_titles { TITLES_TARGET } else { DOUBLING_TARGET };
        let mut above: Option<[f64; 2]> = None;
        for (listing, (positions, starts)) in listings.iter().zip(SIZES) {
            let times = [listing.list.minimum(), listing.yardstick_list.minimum()];
            let [each, yardstick_each] = times.map(|time| time * 1e6 / f64::from(listing.tally));
            print!("| {} | {positions} | {starts} | {:.3} | {each:.2} |", plan.name, times[0]);
            match above {
                None => print!(" | | | {yardstick_each:.2} | |"),
                Some(above) => {
                    let growth = [times[0] / above[0], times[1] / above[1]];
                    missed |= growth[0] > target;
                    print!(
                        " {:.2} | {target:.2} | {} | {yardstick_each:.2} | {:.2} |",
                        growth[0],
                        verdict(growth[0] > target),
                        growth[1]
                    );
                }
            }
            if Some(&(positions, starts)) == SIZES.last() {
                let ratio = times[0] / times[1];
                missed |= ratio > CROWDED_TARGET;
                let told = verdict(ratio > CROWDED_TARGET);
                println!(" {ratio:.2} | {CROWDED_TARGET:.2} | {told} |");
            } else {
                println!(" | | |");
            }
            above = Some(times);
        }
    }
    missed
}

/// Runs the plan of most variables, all on one list of many: whether the target is missed.
fn time_starts(timed: bool) -> bool {
    let numbers = [1, MANY_LISTS - 1];
    let plans = numbers.map(widest_plan);
    let volumes = numbers.map(|number| one_list(MANY_LISTS, number).volume());
    let mut listings = [0, 1].map(|i| Listing::new(&volumes[i], 1, &plans[i]));
    for listing in &listings {
        // In each pattern all variables are found, at position 5, and no title starts.
        let found = |vars: usize| [&[1][..], &[5, 65_536].repeat(vars)].concat();
        let row = [vec![CROWDED], found(8).repeat(7)].concat();
        assert_eq!((listing.rows, listing.tally), (1, 56));
        assert_eq!(listing.out[..120], row);
    }
    let [mut checks, mut lists] = [(); 2].map(|()| [(); 2].map(|()| Times::default()));
    for _ in 0..if timed { STARTS_ROUNDS } else { 1 } {
        for ((listing, check), time) in listings.iter_mut().zip(&mut checks).zip(&mut lists) {
            let (volume, plan) = (black_box(listing.volume), black_box(&listing.plan[..]));
            check.time(|| check_plan(volume, plan));
            time.time(|| list(volume, plan, 0, &mut listing.out));
        }
    }
    if !timed {
        return false;
    }

    println!("\n# 56 variables on the first list of a small volume, and on the last one\n");
    println!(
        "{MANY_LISTS} lists, of which one has a posting; seven patterns, AT LEAST 1. \
         {STARTS_ROUNDS} rounds, minima, in microseconds.\n"
    );
    println!("| list | check of the plan | listing | less the check | more | target | |");
    println!("|---|---|---|---|---|---|---|");
    let micros = |times: &Times| times.minimum() * 1e3;
    let rest = [0, 1].map(|i| micros(&lists[i]) - micros(&checks[i]));
    let more = rest[1] - rest[0];
    for (i, number) in numbers.into_iter().enumerate() {
        let (check, list) = (micros(&checks[i]), micros(&lists[i]));
        print!("| {number} | {check:.1} | {list:.1} | {:.1} |", rest[i]);
        match i {
            0 => println!(" | | |"),
            _ => println!(" {more:.1} | {STARTS_TARGET:.1} | {} |", verdict(more > STARTS_TARGET)),
        }
    }
    more > STARTS_TARGET
}

/// Runs plans that few tuples of a crowded document pass: whether a target is missed.
fn time_few(timed: bool) -> bool {
    let volume = few_matches(FEW, 8).volume();
    let plans = few_plans(FEW);
    if timed {
        println!("\n# All matches of a crowded document in which few tuples pass\n");
        println!(
            "{FEW} positions for each of eight variables. 8 tuples pass, at the end of the \
             document, so that a listing passes\nall of it. {MATCHES_ROUNDS} rounds, minima. The \
             check is taken off both sides.\n"
        );
        for (plan, _) in &plans {
            println!("- {}: {}", plan.name, plan.text());
        }
        println!("\n| predicates | listing ms | all matches ms | in listings | target | |");
        println!("|---|---|---|---|---|---|");
    }
    let mut missed = false;
    for (plan, tuples) in &plans {
        let words = plan.rows.concat();
        let (mut row, mut out) = ([0; 18], [7; 72]);
        let listing = list(&volume, &words, 0, &mut row).expect("a row fits");
        assert_eq!((listing.rows, row[0], row[1]), (1, CROWDED, 1), "{}", plan.name);
        let positions = row[2..].iter().step_by(2);
        assert!(positions.eq(&tuples[0]), "{}: {row:?}", plan.name);
        let listed = list_matches(&volume, &words, 0, CROWDED, &[0; 8], &mut out).expect("it fits");
        assert_eq!((listed.count, listed.next), (8, None), "{}", plan.name);
        assert_eq!(out[..64], *tuples.as_flattened(), "{}", plan.name);

        let [mut check, mut whole, mut all] = [(); 3].map(|()| Times::default());
        for _ in 0..if timed { MATCHES_ROUNDS } else { 1 } {
            let (volume, words) = (black_box(&volume[..]), black_box(&words[..]));
            check.time(|| check_volume(volume));
            whole.time(|| list(volume, words, 0, &mut row));
            all.time(|| list_matches(volume, words, 0, CROWDED, &[0; 8], &mut out));
        }
        if !timed {
            continue;
        }
        let [listing, all] = [whole, all].map(|times| times.minimum() - check.minimum());
        let ratio = all / listing;
        missed |= ratio > FEW_TARGET;
        println!(
            "| {} | {listing:.3} | {all:.3} | {ratio:.2} | {FEW_TARGET:.0} | {} |",
            plan.name,
            verdict(ratio > FEW_TARGET)
        );
    }
    missed
}

/// The tuples of `all_match` from one on, whose numbers are those of its positions in their lists.
fn tuples_from(from: &[u32], positions: u32, count: usize) -> Vec<u32> {
    let mut tuple = from.to_vec();
    let mut words = vec![];
    for _ in 0..count {
        words.extend(tuple.iter().map(|number| 16 * number));
        for number in tuple.iter_mut().rev() {
            *number += 1;
            if *number < positions {
                break;
            }
            *number = 0;
        }
    }
    words
}

/// Runs plans that all tuples of a crowded document pass, a page from the first tuple and one from
/// the middle of the order: whether a target is missed.
fn time_all(timed: bool) -> bool {
    let plans = all_plans();
    let volumes = ALL_SIZES.map(|positions| all_match(positions).volume());
    if timed {
        println!("\n# A page of matches of a crowded document in which all tuples pass\n");
        println!(
            "A page of {PAGE} tuples. {MATCHES_ROUNDS} rounds, minima. The check before them is \
             taken off.\n"
        );
        for plan in &plans {
            println!("- {}: {}", plan.name, plan.text());
        }
        println!(
            "\n| plan | positions of each | from the first: ns a tuple | of the row above \
             | of the first row | from the middle: ns a tuple | of the row above \
             | of the first row | target | |"
        );
        println!("|---|---|---|---|---|---|---|---|---|---|");
    }
    let mut missed = false;
    for plan in &plans {
        let words = plan.rows.concat();
        let vars = check_plan(&volumes[0], &words).expect("the plan is accepted").vars as usize;
        let mut rows: Vec<[f64; 2]> = vec![];
        for (volume, positions) in volumes.iter().zip(ALL_SIZES) {
            let mut out = vec![7; PAGE * vars];
            let each = [0, positions / 2].map(|number| {
                let numbers = vec![number; vars];
                let from: Vec<u32> = numbers.iter().map(|number| 16 * number).collect();
                let listed = list_matches(volume, &words, 0, CROWDED, &from, &mut out);
                let listed = listed.expect("the page holds a tuple");
                assert_eq!(listed.count, PAGE as u64, "{}, {positions}", plan.name);
                assert!(out == tuples_from(&numbers, positions, PAGE), "{}", plan.name);

                let [mut check, mut page] = [(); 2].map(|()| Times::default());
                for _ in 0..if timed { MATCHES_ROUNDS } else { 1 } {
                    let (volume, words) = (black_box(&volume[..]), black_box(&words[..]));
                    check.time(|| check_volume(volume));
                    page.time(|| list_matches(volume, words, 0, CROWDED, &from, &mut out));
                }
                (page.minimum() - check.minimum()) * 1e6 / PAGE as f64
            });
            if !timed {
                continue;
            }
            print!("| {} | {positions} |", plan.name);
            match (rows.last(), rows.first()) {
                (Some(above), Some(first)) => {
                    let growth =
                        [0, 1].map(|from| [above, first].map(|row| each[from] / row[from]));
                    let too_much = growth.as_flattened().iter().any(|&growth| growth > FLAT_TARGET);
                    missed |= too_much;
                    for (each, [of_above, of_first]) in each.iter().zip(growth) {
                        print!(" {each:.1} | {of_above:.2} | {of_first:.2} |");
                    }
                    println!(" {FLAT_TARGET:.2} | {} |", verdict(too_much));
                }
                _ => println!(" {:.1} | | | {:.1} | | | | |", each[0], each[1]),
            }
            rows.push(each);
        }
    }
    missed
}
