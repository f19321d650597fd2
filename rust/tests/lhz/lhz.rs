//! The command `lhz`: what each of its commands answers, on the sample of document 01 and beside
//! it, from files and from standard input.

use crate::support::command::*;
use crate::support::files::plan_bytes;
use crate::support::plans::*;
use crate::support::*;

/// Each command on the sample: what it prints, with nothing on standard error and status 0.
#[test]
fn answers_on_the_sample() {
    let folder = Folder::with_sample();
    for (line, stdout) in [
        ("check titles.vol", "lists 3 postings 8\n"),
        ("check titles.vol sample.plan", "lists 3 postings 8\nfigures 1 voices 2\n"),
        ("list titles.vol sample.plan", SAMPLE_LISTING),
        ("matches titles.vol sample.plan 0 1", "places 2 5\ndone 1\n"),
        ("matches titles.vol sample.plan 0 1 0 0", "places 2 5\ndone 1\n"),
        ("matches titles.vol sample.plan 0 1 2 5", "places 2 5\ndone 1\n"),
        ("matches titles.vol sample.plan 0 1 2 6", "done 0\n"),
        ("matches titles.vol sample.plan 0 1 65535 65535", "done 0\n"),
        ("matches titles.vol sample.plan 0 0", "done 0\n"),
        ("matches titles.vol sample.plan 0 2", "done 0\n"),
        ("matches titles.vol sample.plan 0 65535", "done 0\n"),
        ("read titles.vol", SAMPLE_LISTS),
        ("read titles.vol 0", "1:0 1:6\n"),
        ("read titles.vol 1", "1:2 1:8 2:4\n"),
        ("read titles.vol 2", "1:5 1:7 2:9\n"),
        ("test titles.vol sample.plan 0 1 2 5", "yes\n"),
        ("test titles.vol sample.plan 0 2 4 9", "no\n"),
        ("test titles.vol sample.plan 0 1 2 7", "no\n"),
        ("test titles.vol sample.plan 0 1 8 7", "no\n"),
        ("test titles.vol sample.plan 0 1 5 2", "no\n"),
        ("test titles.vol sample.plan 0 2 2 5", "no\n"),
        ("test titles.vol sample.plan 0 0 0 0", "no\n"),
        ("test titles.vol sample.plan 0 65535 65535 65535", "no\n"),
        ("write lists.txt written.vol", "lists 3 postings 8 blocks 1\n"),
        ("plan sample.txt written.plan", "rows 5\n"),
        ("show sample.plan", SAMPLE_PLAN),
        ("show titles.vol sample.plan 0", SAMPLE_PLAN),
        ("show --line titles.vol sample.plan", "[1 2;b 0 1;t 0 1]\n"),
        (
            "list titles.vol --line [1]&[2]",
            "scene 1 1 2 0 1 5 0\nscene 2 1 4 65536 1 9 65536\ndone 6\n",
        ),
    ] {
        assert_eq!(folder.lhz(line).told(), (0, stdout, ""), "lhz {line}");
    }
    assert_eq!(folder.read("written.vol"), sample().volume());
    assert_eq!(folder.read("written.plan"), plan_bytes(&SAMPLE));
}

/// `-` is standard input where a file is read, and standard output, with nothing else on it, where
/// one is written. A file of that name is left alone.
#[test]
fn standard_input_and_output() {
    let folder = Folder::with_sample();
    folder.write("-", "neither volume nor plan nor text");
    let before = folder.names();
    let (volume, plan) = (sample().volume(), plan_bytes(&SAMPLE));
    let (lists, rows) = (SAMPLE_LISTS.as_bytes(), SAMPLE_PLAN.as_bytes());
    for (line, stdin, stdout) in [
        ("check -", &volume[..], b"lists 3 postings 8\n" as &[u8]),
        ("check - sample.plan", &volume, b"lists 3 postings 8\nfigures 1 voices 2\n"),
        ("check titles.vol -", &plan, b"lists 3 postings 8\nfigures 1 voices 2\n"),
        ("list - sample.plan", &volume, SAMPLE_LISTING.as_bytes()),
        ("list titles.vol -", &plan, SAMPLE_LISTING.as_bytes()),
        ("read -", &volume, lists),
        ("read - 1", &volume, b"1:2 1:8 2:4\n"),
        ("test - sample.plan 0 1 2 5", &volume, b"yes\n"),
        ("test titles.vol - 0 1 2 5", &plan, b"yes\n"),
        ("matches - sample.plan 0 1", &volume, b"places 2 5\ndone 1\n"),
        ("matches titles.vol - 0 1 2 6", &plan, b"done 0\n"),
        ("write lists.txt -", b"", &volume),
        ("write - -", lists, &volume),
        ("plan sample.txt -", b"", &plan),
        ("plan - -", rows, &plan),
        ("show -", &plan, rows),
        ("show - sample.plan 0", &volume, rows),
        ("show titles.vol - 0", &plan, rows),
        ("check - --line [1]", &volume, b"lists 3 postings 8\nfigures 1 voices 1\n"),
        ("list --line [1]![2] -", &volume, b"done 6\n"),
        ("show --line - sample.plan", &volume, b"[1 2;b 0 1;t 0 1]\n"),
        ("show --line titles.vol -", &plan, b"[1 2;b 0 1;t 0 1]\n"),
        ("plan --line [1] -", b"", &plan_bytes(&[voice(1), END])),
    ] {
        let ended = folder.lhz_given(line, stdin);
        assert_eq!((ended.status, &*ended.stderr), (0, ""), "lhz {line}");
        assert_eq!(ended.stdout, stdout, "lhz {line}");
    }
    assert_eq!(folder.names(), before);

    assert_eq!(
        folder.lhz_given("write - new.vol", lists).answer(),
        "lists 3 postings 8 blocks 1\n"
    );
    assert_eq!(folder.lhz_given("plan - new.plan", rows).answer(), "rows 5\n");
    assert_eq!((folder.read("new.vol"), folder.read("new.plan")), (volume, plan));
}

/// Volume and plan cannot both be standard input.
#[test]
fn standard_input_twice() {
    let folder = Folder::with_sample();
    for line in [
        "check - -",
        "list - -",
        "test - - 0 1 2 5",
        "matches - - 0 1",
        "show - - 0",
        "show --line - -",
        "show --line --names - - sample.plan",
        "show --line --names - titles.vol -",
        "list --json - -",
        "list --names - - sample.plan",
        "list --names - titles.vol -",
        "list --json --names - - --line [1]",
    ] {
        let sentence = folder.lhz_given(line, &sample().volume()).failure(2, "").to_string();
        assert!(sentence.contains("standard input"), "lhz {line}: {sentence}");
    }
}

/// What is refused or mistaken on standard input is told of it.
#[test]
fn standard_input_by_name() {
    let folder = Folder::with_sample();
    for (line, stdin, stdout, told) in [
        ("check -", "", "refused 1 0\n", "standard input: "),
        ("list titles.vol -", "", "refused 9 0\n", "standard input: "),
        ("show -", "x", "refused 9 0\n", "standard input: "),
        ("write - new.vol", "1:0\nx", "", "standard input:2:1: "),
        ("write - new.vol", "1:0 1:0", "refused 7 0\n", "standard input:1:5: "),
        ("plan - new.plan", "END 1", "", "standard input:1:5: "),
        ("check - sample.plan", "x", "refused 1 0\n", "standard input: "),
    ] {
        let ended = folder.lhz_given(line, stdin.as_bytes());
        assert!(ended.failure(1, stdout).starts_with(told), "lhz {line}: {}", ended.stderr);
    }
}

/// Plans over the sample volume, each with its voices and its listing, from the text of the plan to
/// the listing.
#[track_caller]
fn list_as(cases: &[(&str, usize, &str)]) {
    let folder = Folder::with_sample();
    for (rows, voices, listing) in cases {
        let written = folder.lhz_given("plan - case.plan", rows.as_bytes());
        assert_eq!(written.answer(), format!("rows {}\n", rows.lines().count()));
        let checked = format!("lists 3 postings 8\nfigures 1 voices {voices}\n");
        assert_eq!(folder.lhz("check titles.vol case.plan").answer(), checked, "{rows}");
        assert_eq!(folder.lhz("list titles.vol case.plan").answer(), *listing, "{rows}");
    }
}

/// Document 01's other conditions.
#[test]
fn the_table_of_cases() {
    list_as(&[
        ("VOICE 1\nVOICE 2\nNEAR 0 1 0\nEND", 2, "scene 1 1 8 6 7 6\ndone 6\n"),
        ("VOICE 1\nVOICE 2\nNEAR 0 1 3\nEND", 2, "scene 1 1 2 0 5 0\ndone 6\n"),
        (
            "VOICE 1\nVOICE 2\nNEAR 0 1 4\nEND",
            2,
            "scene 1 1 2 0 5 0\nscene 2 1 4 65536 9 65536\ndone 6\n",
        ),
        ("VOICE 1\nVOICE 2\nSPAN 4\nEND", 2, "scene 1 1 2 0 5 0\ndone 6\n"),
        ("VOICE 1\nVOICE 2\nSPAN 3\nEND", 2, "scene 1 1 8 6 7 6\ndone 6\n"),
        ("VOICE 1\nVOICE 2\nBEFORE 1 0\nSAME TITLE 0 1\nEND", 2, "scene 1 1 8 6 7 6\ndone 6\n"),
        ("VOICE 1\nVOICE 1\nEND", 2, "scene 1 1 2 0 2 0\nscene 2 1 4 65536 4 65536\ndone 6\n"),
        ("VOICE 1\nBEFORE 0 0\nEND", 1, "done 3\n"),
    ]);
}

/// SAME TITLE where a scene has no title, as document 02 has it.
#[test]
fn scenes_without_a_title() {
    list_as(&[
        ("VOICE 1\nVOICE 2\nSAME TITLE 0 1\nEND", 2, "scene 1 1 2 0 5 0\ndone 6\n"),
        ("VOICE 2\nSAME TITLE 0 0\nEND", 1, "scene 1 1 5 0\ndone 3\n"),
        ("VOICE 1\nVOICE 2\nSAME TITLE 1 1\nEND", 2, "scene 1 1 2 0 5 0\ndone 6\n"),
        ("VOICE 1\nVOICE 2\nEND", 2, "scene 1 1 2 0 5 0\nscene 2 1 4 65536 9 65536\ndone 6\n"),
    ]);
}

/// APART, the condition of document 02.
#[test]
fn words_at_a_set_remove() {
    list_as(&[
        (
            "VOICE 1\nVOICE 2\nAPART 0 1 2 4\nEND",
            2,
            "scene 1 1 2 0 5 0\nscene 2 1 4 65536 9 65536\ndone 6\n",
        ),
        ("VOICE 1\nVOICE 2\nAPART 0 1 0 2\nEND", 2, "scene 1 1 2 0 5 0\ndone 6\n"),
        ("VOICE 1\nVOICE 2\nAPART 0 1 3 3\nEND", 2, "done 6\n"),
        (
            "VOICE 1\nVOICE 2\nAPART 0 1 3 65535\nEND",
            2,
            "scene 1 1 2 0 7 6\nscene 2 1 4 65536 9 65536\ndone 6\n",
        ),
        ("VOICE 1\nVOICE 2\nAPART 1 0 0 0\nEND", 2, "scene 1 1 8 6 7 6\ndone 6\n"),
        ("VOICE 1\nVOICE 1\nAPART 0 1 5 5\nEND", 2, "scene 1 1 2 0 8 6\ndone 6\n"),
        ("VOICE 1\nAPART 0 0 0 65535\nEND", 1, "done 3\n"),
    ]);
}

/// AT LEAST, the operator of document 02: a plan from its text, and a typed line. Scene 1 has two of
/// the three figures, and scene 2 has one.
#[test]
fn some_of_several() {
    let folder = Folder::with_sample();
    let figures = [
        "VOICE 1\nVOICE 2\nBEFORE 0 1\nEND\n",
        "VOICE 1\nSAME TITLE 0 0\nEND\n",
        "VOICE 1\nVOICE 2\nAPART 0 1 0 0\nEND\n",
    ];
    let first = "scene 1 1 2 0 5 0 1 2 0 0 0 0 0 0\n";
    let second = "scene 2 1 4 65536 9 65536 0 0 0 0 0 0 0 0\n";
    for (least, scenes) in [(1, [first, second].concat()), (2, first.into()), (3, "".into())] {
        let rows = format!("{}AT LEAST {least} 3\n", figures.concat());
        let line = format!("<{least}:[1 2;b 0 1],[1;t 0 0],[1 2;a 0 1 0 0]>");
        let listing = format!("{scenes}done 15\n");
        folder.lhz_given("plan - some.plan", rows.as_bytes()).answer();
        for (command, stdout) in [
            ("lhz check titles.vol some.plan".into(), "lists 3 postings 8\nfigures 3 voices 5\n"),
            ("lhz list titles.vol some.plan".into(), &*listing),
            (format!("lhz list titles.vol --line '{line}'"), &listing),
            ("lhz show some.plan".into(), &rows),
            (format!("lhz show --line '{line}'"), &rows),
            ("lhz show titles.vol some.plan 1".into(), figures[1]),
            ("lhz show --line titles.vol some.plan".into(), &format!("{line}\n")),
            ("lhz matches titles.vol some.plan 1 1".into(), "places 2\nplaces 8\ndone 2\n"),
            ("lhz test titles.vol some.plan 0 2 4 9".into(), "yes\n"),
        ] {
            assert_eq!(folder.sh(&command).told(), (0, stdout, ""), "{command}");
        }
    }
}

/// Figures by their numbers: the rows and the places of each are its own.
#[test]
fn a_plan_of_two_figures() {
    let folder = Folder::with_sample();
    let first = "VOICE 1\nVOICE 2\nBEFORE 0 1\nEND\n";
    let second = "VOICE 2\nVOICE 1\nVOICE 1\nNEAR 1 0 0\nEND\n";
    let rows = format!("{first}{second}FIRST NOT SECOND\n");
    folder.lhz_given("plan - two.plan", rows.as_bytes()).answer();
    for (line, stdout) in [
        ("check titles.vol two.plan", "lists 3 postings 8\nfigures 2 voices 5\n"),
        ("list titles.vol two.plan", "scene 2 1 4 65536 9 65536 0 0 0 0 0 0 0\ndone 15\n"),
        ("show two.plan", &rows),
        ("show titles.vol two.plan 0", first),
        ("show titles.vol two.plan 1", second),
        ("test titles.vol two.plan 0 1 2 7", "yes\n"),
        ("test titles.vol two.plan 0 1 8 7", "no\n"),
        ("test titles.vol two.plan 1 1 7 8 2", "yes\n"),
        ("test titles.vol two.plan 1 1 7 2 8", "no\n"),
        ("matches titles.vol two.plan 0 1", "places 2 5\nplaces 2 7\ndone 2\n"),
        ("matches titles.vol two.plan 0 1 2 6", "places 2 7\ndone 1\n"),
        ("matches titles.vol two.plan 1 1", "places 7 8 2\nplaces 7 8 8\ndone 2\n"),
        ("matches titles.vol two.plan 1 1 7 8 3", "places 7 8 8\ndone 1\n"),
        ("matches titles.vol two.plan 1 2", "done 0\n"),
    ] {
        assert_eq!(folder.lhz(line).told(), (0, stdout, ""), "lhz {line}");
    }
}

/// Empty lists, a volume without a posting, and the largest numbers.
#[test]
fn edges_of_lists() {
    let folder = Folder::new();
    let last = u32::MAX;
    for (lists, checked, text) in [
        (Lists::new(&[[]]), "lists 1 postings 0\n", "-\n"),
        (Lists::new(&[[], [], []]), "lists 3 postings 0\n", "-\n-\n-\n"),
        (Lists::new(&[vec![], vec![0]]), "lists 2 postings 1\n", "-\n0:0\n"),
        (
            Lists::new(&[vec![65_535, 65_536, last], vec![]]),
            "lists 2 postings 3\n",
            "0:65535 1:0 65535:65535\n-\n",
        ),
    ] {
        folder.write("edge.vol", lists.volume());
        assert_eq!(folder.lhz("check edge.vol").answer(), checked);
        assert_eq!(folder.lhz("read edge.vol").answer(), text);
        for (list, line) in text.lines().enumerate() {
            assert_eq!(folder.lhz(&format!("read edge.vol {list}")).answer(), format!("{line}\n"));
        }
        assert_eq!(folder.lhz_given("write - -", text.as_bytes()).stdout, lists.volume());
    }
}

/// The number of blocks that `lhz write` tells: 126 stream words fill one, 127 take two.
#[test]
fn blocks_are_counted() {
    let folder = Folder::new();
    for (postings, blocks) in [(0, 1), (123, 1), (124, 2), (249, 2), (250, 3)] {
        let lists = Lists::new(&[(0..postings).collect::<Vec<u32>>()]);
        let written = folder.lhz_given("write - out.vol", lists.text().as_bytes());
        let told = format!("lists 1 postings {postings} blocks {blocks}\n");
        assert_eq!(written.answer(), told);
        assert_eq!(folder.read("out.vol").len(), 512 * blocks);
    }
}
