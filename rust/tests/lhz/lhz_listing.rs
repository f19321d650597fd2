//! The command `lhz`: its listings are those of the naive searcher and, to the byte, those that the
//! program `lister` prints; also of a volume of 4 MiB.

use crate::plain;
use crate::support::command::*;
use crate::support::files::{assert_printed, lister, listing, plan_bytes, word_bytes};
use crate::support::plans::*;
use crate::support::searches::*;
use crate::support::*;
use std::fmt::Write;

/// The listing of `titles.vol` by `titles.plan`, the names that `lister` reads, by both programs.
/// They print the same.
#[track_caller]
fn listed(folder: &Folder, case: &str) -> String {
    let ended = folder.lhz("list titles.vol titles.plan");
    let (status, stdout, stderr) = ended.told();
    let is_refused = stdout.starts_with("refused");
    assert_eq!(
        (status, stderr.is_empty()),
        (i32::from(is_refused), !is_refused),
        "{case}: {stderr}"
    );
    assert_printed(case, stdout, run(&mut folder.command(lister())).told().1);
    stdout.to_string()
}

/// Volumes and plans as they come, some of them damaged.
#[test]
fn random_listings() {
    let seed = 2_112;
    let mut rng = Rng::new(seed);
    let folder = Folder::new();
    let [mut found, mut empty, mut refused] = [0; 3];
    for round in 0..360 {
        let subject = random_run(&mut rng);
        folder.write("titles.vol", subject.volume());
        let plan = word_bytes(subject.plan());
        folder.write("titles.plan", &plan);
        let case = format!("seed {seed}, round {round}");
        let output = listed(&folder, &case);
        assert_printed(&case, &output, &listing(subject.volume(), &plan));
        match output.get(..5) {
            Some("scene") => found += 1,
            Some("done ") => empty += 1,
            _ => refused += 1,
        }
    }
    assert!(found > 80 && empty > 20 && refused > 30, "{found} {empty} {refused}");
}

/// From texts to the listing, all by the command.
#[test]
fn random_listings_from_texts() {
    let seed = 5_446;
    let mut rng = Rng::new(seed);
    let folder = Folder::new();
    for round in 0..40 {
        let subject = random_subject(&mut rng);
        let lists = Lists::new(&plain::lists(subject.volume()).unwrap());
        let rows: String = subject
            .plan()
            .chunks(4)
            .map(|row| format!("{} {} {} {}\n", row[0], row[1], row[2], row[3]))
            .collect();
        folder.lhz_given("write - titles.vol", lists.text().as_bytes()).answer();
        folder.lhz_given("plan - titles.plan", rows.as_bytes()).answer();
        let case = format!("seed {seed}, round {round}");
        assert_printed(&case, &listed(&folder, &case), &subject.searcher().printed());
    }
}

/// Listings of as many rows as a call of the command lists, of one more or less, and of several.
#[test]
fn listings_of_several_pages() {
    let folder = Folder::new();
    let page = lihambozy::Search::PAGE_ROWS as u32;
    for vars in [1, 8] {
        let rows = [vec![voice(1); vars], vec![END]].concat();
        folder.write("titles.plan", plan_bytes(&rows));
        for count in [page - 1, page, page + 1, 2 * page, 3 * page + 1] {
            let scenes = 65_536 - count..=65_535;
            let word: Vec<u32> = scenes.clone().map(|scene| scene * 65_536 + 9).collect();
            folder.write("titles.vol", Lists::new(&[vec![], word]).volume());
            let places = " 9 65536".repeat(vars);
            let lines: String = scenes.map(|scene| format!("scene {scene} 1{places}\n")).collect();
            let listing = format!("{lines}done {}\n", vars as u32 * count);
            let answer = folder.lhz("list titles.vol titles.plan");
            assert_printed(&format!("{count} scenes"), answer.answer(), &listing);
        }
    }
}

/// A volume of 4 MiB with a word in every scene, one in two of three scenes, and others behind them
/// that fill it.
fn largest() -> (Lists, String) {
    let scenes = 0..=65_535;
    let place = |scene: u32| scene * 7 % 1_000 * 2;
    let other_place = |scene: u32| place(scene) + [1, 5][scene as usize % 2];
    let word: Vec<u32> = scenes.clone().map(|scene| scene * 65_536 + place(scene)).collect();
    let others = scenes.clone().filter(|scene| scene % 3 > 0);
    let other: Vec<u32> = others.clone().map(|scene| scene * 65_536 + other_place(scene)).collect();
    let rest = filling(1_021, 1_032_192 - word.len() - other.len() - 3);
    let tally = word.len() + 2 * other.len();
    let counts = [&[0, word.len() as u32, other.len() as u32], &rest.counts[..]].concat();
    let lists = Lists { counts, postings: [word, other, rest.postings].concat() };

    let mut listing = String::new();
    for scene in others {
        // No title starts in any scene.
        let [place, other] =
            [place(scene), other_place(scene)].map(|place| format!("{place} 65536"));
        match scene % 2 {
            0 => writeln!(listing, "scene {scene} 1 {place} {other} 1 {other}").unwrap(),
            _ => writeln!(listing, "scene {scene} 0 0 0 0 0 1 {other}").unwrap(),
        }
    }
    (lists, listing + &format!("done {tally}\n"))
}

/// Tens of thousands of true scenes in 4 MiB, from the text of the lists to the listing. The
/// program `lister` does not read as much.
#[test]
fn a_volume_of_4_mib() {
    let folder = Folder::new();
    let (lists, listing) = largest();
    assert_eq!((lists.counts.len(), lists.words()), (1_024, 1_032_192));
    folder.write("lists.txt", lists.text());
    folder.write("plan.txt", "VOICE 1\nVOICE 2\nNEAR 0 1 0\nEND\nVOICE 2\nEND\nEITHER\n");
    let written = folder.lhz("write lists.txt titles.vol");
    assert_eq!(written.answer(), "lists 1024 postings 1031166 blocks 8192\n");
    folder.lhz("plan plan.txt titles.plan").answer();
    let answer = folder.lhz("list titles.vol titles.plan");
    assert_eq!(answer.answer().lines().count(), 43_691);
    assert_printed("4 MiB", answer.answer(), &listing);
    assert_eq!(folder.lhz("test titles.vol titles.plan 0 65534 1476 1477").answer(), "yes\n");
    assert_eq!(run(&mut folder.command(lister())).stdout, b"file too long\n");

    // One byte that is wrong, in the last block.
    let mut volume = folder.read("titles.vol");
    let last = volume.len() - 1;
    volume[last] ^= 1;
    folder.write("titles.vol", volume);
    folder.lhz("list titles.vol titles.plan").failure(1, "refused 3 8191\n");
}
