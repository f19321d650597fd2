//! The program `lister`, started in fresh folders: what it prints is to the byte what document 01
//! fixes in "The printed listing". Rows and tallies come from the naive searcher.

use crate::support::command;
use crate::support::files::{assert_printed, lister, listing, plan_bytes, word_bytes, Folder};
use crate::support::plans::*;
use crate::support::searches::random_run;
use crate::support::*;
use std::fs;

/// The words of the buffer that the program lists into.
const BUFFER_WORDS: usize = 16_384;

/// What stands in the program's folder under the name of a file.
#[derive(Clone, Copy, PartialEq)]
enum Entry<'a> {
    Absent,
    Folder,
    File(&'a [u8]),
}
use Entry::{Absent, File};

impl Entry<'_> {
    fn put(self, folder: &Folder, name: &str) {
        match self {
            Absent => {}
            Entry::Folder => fs::create_dir(folder.path(name)).unwrap(),
            File(bytes) => folder.write(name, bytes),
        }
    }

    /// Whether the entry is as it was put.
    fn stands(self, folder: &Folder, name: &str) -> bool {
        let path = folder.path(name);
        match self {
            Absent => !path.exists(),
            Entry::Folder => path.is_dir() && fs::read_dir(path).unwrap().next().is_none(),
            File(bytes) => fs::read(path).is_ok_and(|read| read == bytes),
        }
    }
}

/// Runs the program: what it prints. It ends well and leaves its folder as it was.
#[track_caller]
fn run(volume: Entry, plan: Entry) -> String {
    let folder = Folder::new();
    let entries = [("titles.vol", volume), ("titles.plan", plan)];
    for (name, entry) in entries {
        entry.put(&folder, name);
    }
    let ended = command::run(&mut folder.command(lister()));
    assert_eq!(ended.status, 0, "{}", ended.stderr);
    for (name, entry) in entries {
        assert!(entry.stands(&folder, name), "{name} is not as it was");
    }
    let present = entries.iter().filter(|(_, entry)| *entry != Absent).count();
    assert_eq!(folder.names().len(), present, "something was added");
    String::from_utf8(ended.stdout).expect("the output is text")
}

/// What document 01 says is printed.
fn printed(volume: Entry, plan: Entry) -> String {
    let bytes = |entry| match entry {
        File(bytes) => bytes,
        _ => &[],
    };
    match bytes(volume).len() {
        ..=65_536 => listing(bytes(volume), bytes(plan)),
        _ => "file too long\n".to_string(),
    }
}

/// The program prints what document 01 says: the output.
#[track_caller]
fn compare(case: &str, volume: Entry, plan: Entry) -> String {
    let output = run(volume, plan);
    assert_printed(case, &output, &printed(volume, plan));
    output
}

/// The program prints this, and it is what document 01 says.
#[track_caller]
fn prints(case: &str, volume: Entry, plan: Entry, output: &str) {
    assert_eq!(printed(volume, plan), output, "{case}: the naive searcher");
    assert_eq!(run(volume, plan), output, "{case}");
}

/// A volume of one word, which has a position in each of so many documents, 4 apart, the last of
/// them document 65,535.
fn documents(count: u32) -> Lists {
    let doc = |i: u32| 65_535 - 4 * (count - 1 - i);
    let word = (0..count).map(|i| doc(i) * 65_536 + i * 2_654_435 % 65_536).collect();
    Lists::new(&[vec![], word])
}

/// Lists of which the volume has 128 blocks, 65,536 bytes: a word in 16,000 documents, and behind
/// it one that fills the stream but for `free` words.
fn longest(free: u32) -> Lists {
    let mut lists = vec![vec![], documents(16_000).postings];
    lists.push((0..16_128 - 5 - 16_000 - free).collect());
    Lists::new(&lists)
}

#[test]
fn the_sample() {
    let (volume, plan) = (sample().volume(), plan_bytes(&SAMPLE));
    prints("the sample", File(&volume), File(&plan), "scene 1 1 2 0 5 0\ndone 6\n");
}

/// The sample volume and its two voices, with document 01's other conditions.
#[test]
fn the_table_of_cases() {
    let volume = sample().volume();
    let first_not_second =
        [two(&[before(0, 1)]), two(&[near(0, 1, 0)]), vec![FIRST_NOT_SECOND]].concat();
    for (rows, output) in [
        (two(&[near(0, 1, 0)]), "scene 1 1 8 6 7 6\ndone 6\n"),
        (two(&[near(0, 1, 3)]), "scene 1 1 2 0 5 0\ndone 6\n"),
        (two(&[near(0, 1, 4)]), "scene 1 1 2 0 5 0\nscene 2 1 4 65536 9 65536\ndone 6\n"),
        (two(&[span(4)]), "scene 1 1 2 0 5 0\ndone 6\n"),
        (two(&[span(3)]), "scene 1 1 8 6 7 6\ndone 6\n"),
        (two(&[before(1, 0), same_title(0, 1)]), "scene 1 1 8 6 7 6\ndone 6\n"),
        (vec![voice(1), voice(1), END], "scene 1 1 2 0 2 0\nscene 2 1 4 65536 4 65536\ndone 6\n"),
        (vec![voice(1), before(0, 0), END], "done 3\n"),
        (first_not_second, "scene 2 1 4 65536 9 65536 0 0 0 0 0\ndone 12\n"),
    ] {
        prints(&format!("{rows:?}"), File(&volume), File(&plan_bytes(&rows)), output);
    }
}

/// SAME TITLE where a place stands before its scene's first title, as document 02 has it.
#[test]
fn words_before_the_first_title() {
    // Scene 2 has no title; in scene 3 the first one starts at 5.
    let posting = |doc: u32, pos: u32| doc * 65_536 + pos;
    let starts = vec![posting(1, 0), posting(1, 6), posting(3, 5)];
    let word = vec![posting(1, 2), posting(1, 8), posting(2, 4), posting(3, 2), posting(3, 8)];
    let other = vec![posting(1, 5), posting(2, 4), posting(3, 3), posting(3, 7)];
    let volume = Lists::new(&[starts, word, other]).volume();
    for (rows, output) in [
        (
            two(&[]),
            "scene 1 1 2 0 5 0\nscene 2 1 4 65536 4 65536\nscene 3 1 2 65536 3 65536\ndone 9\n",
        ),
        (two(&[same_title(0, 1)]), "scene 1 1 2 0 5 0\nscene 3 1 8 5 7 5\ndone 9\n"),
        (two(&[same_title(0, 1), before(0, 1)]), "scene 1 1 2 0 5 0\ndone 9\n"),
        (two(&[same_title(1, 1)]), "scene 1 1 2 0 5 0\nscene 3 1 2 65536 7 5\ndone 9\n"),
        (vec![voice(1), same_title(0, 0), END], "scene 1 1 2 0\nscene 3 1 8 5\ndone 5\n"),
        (
            [two(&[]), two(&[same_title(0, 1)]), vec![FIRST_NOT_SECOND]].concat(),
            "scene 2 1 4 65536 4 65536 0 0 0 0 0\ndone 18\n",
        ),
    ] {
        prints(&format!("{rows:?}"), File(&volume), File(&plan_bytes(&rows)), output);
    }
}

/// The same with APART, the condition of document 02.
#[test]
fn words_at_a_set_remove() {
    let volume = sample().volume();
    for (rows, output) in [
        (two(&[apart(0, 1, 2, 4)]), "scene 1 1 2 0 5 0\nscene 2 1 4 65536 9 65536\ndone 6\n"),
        (two(&[apart(0, 1, 3, 3)]), "done 6\n"),
        (two(&[apart(0, 1, 3, 65_535)]), "scene 1 1 2 0 7 6\nscene 2 1 4 65536 9 65536\ndone 6\n"),
        (two(&[apart(1, 0, 0, 0)]), "scene 1 1 8 6 7 6\ndone 6\n"),
        (two(&[apart(0, 0, 0, 65_535)]), "done 6\n"),
        (two(&[apart(0, 1, 4, 3)]), "refused 10 2\n"),
    ] {
        prints(&format!("{rows:?}"), File(&volume), File(&plan_bytes(&rows)), output);
    }
}

/// The same with AT LEAST, the operator of document 02. Scene 1 has two of the three figures, and
/// scene 2 has one.
#[test]
fn some_of_several() {
    let volume = sample().volume();
    let figures = [two(&[before(0, 1)]), vec![voice(1), same_title(0, 0), END]].concat();
    let figures = [figures, two(&[apart(0, 1, 0, 0)])].concat();
    let first = "scene 1 1 2 0 5 0 1 2 0 0 0 0 0 0\n";
    let second = "scene 2 1 4 65536 9 65536 0 0 0 0 0 0 0 0\n";
    for (row, output) in [
        (at_least(1, 3), format!("{first}{second}done 15\n")),
        (at_least(2, 3), format!("{first}done 15\n")),
        (at_least(3, 3), "done 15\n".into()),
        (at_least(4, 3), "refused 10 11\n".into()),
        (at_least(1, 4), "refused 13 11\n".into()),
        (at_least(1, 2), "refused 14 0\n".into()),
    ] {
        let rows = [&figures[..], &[row]].concat();
        prints(&format!("{row:?}"), File(&volume), File(&plan_bytes(&rows)), &output);
    }
}

/// An absent file is empty, and so is a folder in its place.
#[test]
fn absent_files() {
    let (volume, plan) = (sample().volume(), plan_bytes(&SAMPLE));
    for absent in [Absent, File(&[]), Entry::Folder] {
        prints("no volume", absent, File(&plan), "refused 1 0\n");
        prints("no plan", File(&volume), absent, "refused 9 0\n");
        prints("neither", absent, Absent, "refused 1 0\n");
        prints("neither", Absent, absent, "refused 1 0\n");
    }
}

#[test]
fn nothing_is_found() {
    let volume = Lists::new(&[vec![], vec![], vec![7, 65_536]]).volume();
    for (rows, output) in [
        (vec![voice(1), END], "done 0\n"),
        (vec![voice(1), voice(2), END], "done 2\n"),
        (vec![voice(2), voice(2), before(0, 1), END], "done 4\n"),
        (vec![voice(2), END, voice(2), END, FIRST_NOT_SECOND], "done 4\n"),
    ] {
        prints(&format!("{rows:?}"), File(&volume), File(&plan_bytes(&rows)), output);
    }
}

/// Zeros for a pattern that is not found, and the largest numbers.
#[test]
fn numbers_of_every_length() {
    let posting = |doc: u32, pos: u32| doc * 65_536 + pos;
    let numbers = [0, 9, 10, 99, 100, 999, 1_000, 9_999, 10_000, 65_535];
    let word: Vec<u32> = numbers.iter().map(|&number| posting(number, number)).collect();
    let other = vec![posting(9, 65_535), posting(65_535, 0), posting(65_535, 65_535)];
    let volume = Lists::new(&[vec![posting(65_535, 65_535)], word, other]).volume();
    let rows =
        [voice(1), END, voice(2), voice(1), voice(2), before(0, 2), same_title(1, 2), END, EITHER];
    prints(
        "numbers",
        File(&volume),
        File(&plan_bytes(&rows)),
        "scene 0 1 0 65536 0 0 0 0 0 0 0\n\
         scene 9 1 9 65536 0 0 0 0 0 0 0\n\
         scene 10 1 10 65536 0 0 0 0 0 0 0\n\
         scene 99 1 99 65536 0 0 0 0 0 0 0\n\
         scene 100 1 100 65536 0 0 0 0 0 0 0\n\
         scene 999 1 999 65536 0 0 0 0 0 0 0\n\
         scene 1000 1 1000 65536 0 0 0 0 0 0 0\n\
         scene 9999 1 9999 65536 0 0 0 0 0 0 0\n\
         scene 10000 1 10000 65536 0 0 0 0 0 0 0\n\
         scene 65535 1 65535 65535 1 0 65536 65535 65535 65535 65535\n\
         done 26\n",
    );
}

/// 1 to 8, also where there is no plan: the volume's refusals come first.
#[test]
fn refusals_of_a_volume() {
    let plan = plan_bytes(&SAMPLE);
    for (row, (volume, (number, at))) in refused::volumes().iter().enumerate() {
        for plan in [File(&plan), File(&plan[..40]), Absent] {
            let output = format!("refused {number} {at}\n");
            prints(&format!("row {row}"), File(volume), plan, &output);
        }
    }
}

/// 9: a plan file of 0 bytes, over 1,024 bytes or no multiple of 16.
#[test]
fn lengths_of_a_plan() {
    let volume = sample().volume();
    let widest = plan_bytes(&widest_plan());
    assert_eq!(widest.len(), 1_024);
    let cut = |bytes: &[u8], length: usize| {
        let mut bytes = bytes.to_vec();
        bytes.resize(length, 0);
        bytes
    };
    let sample = plan_bytes(&SAMPLE);
    for (bytes, lengths) in [
        (&sample, &[0, 1, 4, 15, 17, 79, 81, 84, 88, 92][..]),
        (&widest, &[1_020, 1_023, 1_025, 1_028, 1_040, 2_048, 65_536, 100_000]),
    ] {
        for &length in lengths {
            let plan = cut(bytes, length);
            prints(&format!("{length} bytes"), File(&volume), File(&plan), "refused 9 0\n");
        }
    }
    prints("one row", File(&volume), File(&cut(&sample, 16)), "refused 14 0\n");
    prints("sample less END", File(&volume), File(&cut(&sample, 64)), "refused 14 0\n");
    prints("sample and a row", File(&volume), File(&cut(&sample, 96)), "refused 10 5\n");
    let output = compare("64 rows", File(&volume), File(&widest));
    assert!(output.ends_with("\ndone 168\n"), "{output}");
}

/// 10 to 14.
#[test]
fn refusals_of_a_plan() {
    let volume = sample().volume();
    for (rows, (number, at)) in refused::plans() {
        let output = format!("refused {number} {at}\n");
        prints(&format!("{rows:?}"), File(&volume), File(&plan_bytes(&rows)), &output);
    }
}

/// A volume file of 65,536 bytes is read, whatever it holds; one byte more is too long, whatever
/// the plan is.
#[test]
fn long_volumes() {
    let plan = plan_bytes(&[voice(2), END]);
    let bad_plan = plan_bytes(&[voice(2)]);
    for free in [0, 1, 100] {
        let volume = longest(free).volume();
        assert_eq!(volume.len(), 65_536);
        let output = compare("65,536 bytes", File(&volume), File(&plan));
        assert_eq!(output, format!("scene 0 1 0 65536\ndone {}\n", 123 - free));
        prints("65,536 bytes, a bad plan", File(&volume), File(&bad_plan), "refused 14 0\n");
    }

    let volume = longest(1).volume();
    let changed = |at: usize| {
        let mut volume = volume.clone();
        volume[at] ^= 1;
        volume
    };
    prints("number", File(&changed(65_024)), File(&plan), "refused 2 127\n");
    prints("checksum", File(&changed(65_535)), File(&plan), "refused 3 127\n");
    let mut behind = volume.clone();
    set(&mut behind, 16_127, 1);
    prints("last word", File(&behind), File(&plan), "refused 8 16127\n");
    prints("zeros", File(&[0; 65_536]), File(&plan), "refused 3 0\n");
    prints("65,535 bytes", File(&volume[..65_535]), File(&plan), "refused 1 0\n");
    prints("65,024 bytes", File(&volume[..65_024]), File(&plan), "refused 6 0\n");

    // A volume of 129 blocks that is in order, and parts of it.
    let mut lists = longest(0);
    lists.counts.push(1);
    lists.postings.push(5);
    let longer = lists.volume();
    assert_eq!(longer.len(), 66_048);
    let zeros = vec![0; 1 << 20];
    for volume in [&longer[..65_537], &longer[..66_047], &longer, &zeros[..131_072], &zeros] {
        for plan in [File(&plan), File(&bad_plan), File(&plan[..9]), Absent, Entry::Folder] {
            let case = format!("{} bytes", volume.len());
            prints(&case, File(volume), plan, "file too long\n");
        }
    }
}

/// Listings of as many rows as the program's buffer holds, once or several times, and of one more.
#[test]
fn listings_of_several_calls() {
    for (rows, width, most_calls) in [
        (vec![voice(1), END], 4, 2),
        (vec![voice(1), voice(1), END], 6, 2),
        (vec![voice(1), voice(1), END, voice(1), voice(1), before(0, 1), END, EITHER], 11, 2),
        (widest_plan(), 120, 4),
    ] {
        let fit = (BUFFER_WORDS / width) as u32;
        let vars = rows.iter().filter(|row| row[0] == lihambozy::kind::VOICE).count() as u32;
        let plan = plan_bytes(&rows);
        for count in (1..=most_calls).flat_map(|calls| [calls * fit, calls * fit + 1]) {
            let volume = documents(count).volume();
            let case = format!("{count} documents, rows of {width} words");
            let output = compare(&case, File(&volume), File(&plan));
            assert_eq!(output.lines().count() as u32, count + 1, "{case}");
            assert!(output.ends_with(&format!("\ndone {}\n", vars * count)), "{case}");
            let first = output.lines().next().unwrap();
            assert_eq!(first.split(' ').count(), 1 + width, "{case}");
        }
    }
}

/// True documents with others between them, so that a call ends before postings that the next one
/// tallies.
#[test]
fn calls_that_end_between_documents() {
    let docs = 12_000;
    let word: Vec<u32> = (0..docs).map(|doc| 3 * doc * 65_536 + 10).collect();
    let other = (0..docs / 4).map(|i| 12 * i * 65_536 + if i % 3 == 0 { 10 } else { 11 }).collect();
    let volume = Lists::new(&[vec![], word, other]).volume();
    let pattern = [voice(1), voice(2), near(0, 1, 0), END];
    let rows = [&[voice(1), END][..], &pattern, &[FIRST_NOT_SECOND]].concat();
    let output = compare("without the other", File(&volume), File(&plan_bytes(&rows)));
    assert_eq!(output.lines().count(), 9_001);
    assert!(output.ends_with("\ndone 27000\n"));
    let rows = [voice(1), voice(2), before(0, 1), END, voice(1), END, EITHER];
    let output = compare("with the other or without", File(&volume), File(&plan_bytes(&rows)));
    assert_eq!(output.lines().count(), 12_001);
    assert!(output.ends_with("\ndone 27000\n"));
}

/// Volumes and plans as they come, some of them damaged.
#[test]
fn random_runs() {
    let seed = 1_637;
    let mut rng = Rng::new(seed);
    let [mut listed, mut empty, mut refused] = [0; 3];
    for round in 0..400 {
        let subject = random_run(&mut rng);
        let mut plan = word_bytes(subject.plan());
        if rng.below(20) == 0 {
            plan.truncate(rng.below(plan.len()));
        }
        let case = format!("seed {seed}, round {round}");
        let output = compare(&case, File(subject.volume()), File(&plan));
        match output.get(..5) {
            Some("scene") => listed += 1,
            Some("done ") => empty += 1,
            _ => refused += 1,
        }
    }
    assert!(listed > 100 && empty > 30 && refused > 50, "{listed} {empty} {refused}");
}
