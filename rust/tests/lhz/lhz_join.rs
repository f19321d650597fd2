//! The command `lhz join`: one volume of two, each refusal with its file and its sentence, the
//! least H that would do, and the file that is written.

use crate::support::command::*;
use crate::support::*;
use std::fs;

/// The lists of a second work, as many as the sample has, and of the sample joined with it by 3.
/// The sample has scenes 1 and 2, the second work 0 and 5.
const SECOND_LISTS: &str = "0:0\n0:3 5:1\n-\n";
const JOINED_LISTS: &str = "1:0 1:6 3:0\n1:2 1:8 2:4 3:3 8:1\n1:5 1:7 2:9\n";

/// The sample, the second work `second.vol`, and volumes of other texts.
fn folder(texts: &[(&str, &str)]) -> Folder {
    let folder = Folder::with_sample();
    for (volume, text) in [&[("second.vol", SECOND_LISTS)], texts].concat() {
        let ended = folder.lhz_given(&format!("write - {volume}"), text.as_bytes());
        ended.answer();
    }
    folder
}

/// A search of the joined volume prints the first's scenes, then the second's raised, and the
/// postings of both. The joined volume is what `lhz write` makes of its lists.
#[test]
fn two_works_as_one() {
    let folder = folder(&[("lists.vol", JOINED_LISTS)]);
    let joined = folder.lhz("join titles.vol second.vol 3 new.vol");
    assert_eq!(joined.answer(), "lists 3 postings 11 blocks 1\n");
    assert_eq!(folder.lhz("read new.vol").answer(), JOINED_LISTS);
    assert_eq!(folder.read("new.vol"), folder.read("lists.vol"));

    let listed =
        |volume: &str| folder.lhz(&format!("list {volume} --line [1]")).answer().to_string();
    let [first, second] =
        ["scene 1 1 2 0\nscene 2 1 4 65536\n", "scene 0 1 3 0\nscene 5 1 1 65536\n"];
    assert_eq!(listed("titles.vol"), format!("{first}done 3\n"));
    assert_eq!(listed("second.vol"), format!("{second}done 2\n"));
    let raised = "scene 3 1 3 0\nscene 8 1 1 65536\n";
    assert_eq!(listed("new.vol"), format!("{first}{raised}done 5\n"));
}

/// Standard input is either volume, and standard output the joined one, with nothing else.
#[test]
fn through_pipes() {
    let folder = folder(&[("joined.vol", JOINED_LISTS)]);
    let joined = folder.read("joined.vol");
    for (line, stdin) in [
        ("join titles.vol second.vol 3 -", ""),
        ("join - second.vol 3 -", "titles.vol"),
        ("join titles.vol - 3 -", "second.vol"),
        ("join -- titles.vol - 003 -", "second.vol"),
    ] {
        let given = if stdin.is_empty() { vec![] } else { folder.read(stdin) };
        let ended = folder.lhz_given(line, &given);
        assert_eq!((ended.status, &*ended.stderr), (0, ""), "{line}");
        assert_eq!(ended.stdout, joined, "{line}");
    }
    let sentence =
        "standard input: the volume is empty, is no whole number of blocks of 512 bytes, \
                    or has over 8,192 blocks (refused 1 0)";
    assert_eq!(folder.lhz("join - second.vol 3 -").failure(1, "refused 1 0\n"), sentence);
    assert_eq!(folder.lhz("join titles.vol - 3 -").failure(1, "refused 1 0\n"), sentence);
    let sentence = folder.lhz("join - - 3 new.vol").failure(2, "").to_string();
    assert!(sentence.starts_with("FIRST and SECOND cannot both be standard input ("), "{sentence}");
}

/// 1 to 8 are told of the file that is refused, the first before the second, before 24 and 25.
#[test]
fn refusals_of_one_volume() {
    let folder = folder(&[("one.vol", "-\n")]);
    folder.write("empty.vol", "");
    folder.write("new.vol", "the old file");
    for (volume, (number, at)) in refused::volumes() {
        folder.write("bad.vol", volume);
        let refused = format!("refused {number} {at}");
        for line in [
            "join bad.vol second.vol 3 new.vol",
            "join bad.vol second.vol 0 new.vol",
            "join bad.vol empty.vol 3 new.vol",
            "join bad.vol absent.vol 3 new.vol",
            "join titles.vol bad.vol 3 new.vol",
            "join titles.vol bad.vol 4294967296 new.vol",
            "join one.vol bad.vol 3 new.vol",
            "join bad.vol bad.vol 3 new.vol",
        ] {
            let ended = folder.lhz(line);
            let sentence = ended.failure(1, &format!("{refused}\n"));
            assert!(sentence.starts_with("bad.vol: "), "lhz {line}: {sentence}");
            assert!(sentence.ends_with(&format!(" ({refused})")), "lhz {line}: {sentence}");
        }
        assert_eq!(folder.read("new.vol"), b"the old file");
    }
    for line in ["join absent.vol second.vol 3 new.vol", "join titles.vol absent.vol 3 new.vol"] {
        let sentence = "absent.vol: No such file or directory";
        assert_eq!(folder.lhz(line).failure(2, ""), sentence, "lhz {line}");
    }
}

/// Refusals of both together, and what stays: the old file, or none.
#[test]
fn refusals_of_both() {
    let folder = folder(&[
        ("none.vol", "-\n-\n-\n"),
        ("two.vol", "-\n-\n"),
        ("last.vol", "-\n-\n65535:9\n"),
        ("wide.vol", "0:0\n-\n65535:9\n"),
    ]);
    folder.write("half.vol", filling(3, 126 * 4_097).volume());
    for (line, number, sentence) in [
        (
            "titles.vol two.vol 0",
            24,
            "titles.vol and two.vol: their numbers of lists are 3 and 2, and must be equal",
        ),
        (
            "two.vol titles.vol 99999",
            24,
            "two.vol and titles.vol: their numbers of lists are 2 and 3, and must be equal",
        ),
        (
            "titles.vol second.vol 2",
            25,
            "second.vol: H 2 is too small: raised by it, its first scene is not above those of \
             titles.vol; the least H that would do is 3",
        ),
        (
            "second.vol titles.vol 000",
            25,
            "titles.vol: H 000 is too small: raised by it, its first scene is not above those of \
             second.vol; the least H that would do is 5",
        ),
        (
            "titles.vol second.vol 65531",
            25,
            "second.vol: H 65531 is too large: raised by it, its last scene is over 65535; the \
             least H that would do is 3",
        ),
        (
            "titles.vol second.vol 4294967299",
            25,
            "second.vol: H 4294967299 is too large: raised by it, its last scene is over 65535; \
             the least H that would do is 3",
        ),
        (
            "none.vol last.vol 1",
            25,
            "last.vol: H 1 is too large: raised by it, its last scene is over 65535; the least H \
             that would do is 0",
        ),
        (
            "last.vol titles.vol 7",
            25,
            "titles.vol: no H would do: raised above the scenes of last.vol, its last scene is \
             over 65535",
        ),
        (
            "titles.vol wide.vol 0",
            25,
            "wide.vol: no H would do: raised above the scenes of titles.vol, its last scene is \
             over 65535",
        ),
        (
            "half.vol half.vol 30000",
            19,
            "half.vol and half.vol: the volume would have over 1,032,192 words",
        ),
    ] {
        let _ = fs::remove_file(folder.path("new.vol"));
        let before = folder.names();
        let refused = format!("refused {number} 0");
        for old in [None, Some(&b"the old file"[..])] {
            if let Some(old) = old {
                folder.write("new.vol", old);
            }
            let ended = folder.lhz(&format!("join {line} new.vol"));
            assert_eq!(
                ended.failure(1, &format!("{refused}\n")),
                format!("{sentence} ({refused})")
            );
            match old {
                None => assert_eq!(folder.names(), before, "join {line}"),
                Some(old) => assert_eq!(folder.read("new.vol"), old, "join {line}"),
            }
        }
    }
}

/// The H that a refusal names does, and the one below it does not. Without postings every H does.
#[test]
fn the_least_h_that_would_do() {
    let texts = [
        ("none.vol", "-\n-\n-\n"),
        ("starts.vol", "9:1 400:0\n20:7\n-\n"),
        ("words.vol", "-\n-\n3:1 3:2 77:65535\n"),
        ("last.vol", "-\n65535:9\n-\n"),
        ("high.vol", "40000:0\n40000:1 65135:0\n-\n"),
    ];
    let folder = folder(&texts);
    let volumes = ["titles.vol", "second.vol"].into_iter().chain(texts.map(|(volume, _)| volume));
    let volumes: Vec<&str> = volumes.collect();
    let mut tried = Met::default();
    for (first, second) in volumes.iter().flat_map(|one| volumes.iter().map(move |two| (one, two)))
    {
        let join = |h: u64| folder.lhz(&format!("join {first} {second} {h} new.vol"));
        if *second == "none.vol" {
            for h in [0, 1, 65_536, u32::MAX.into(), u64::MAX] {
                join(h).answer();
            }
            continue;
        }
        let ended = join(u64::MAX);
        let sentence = ended.failure(1, "refused 25 0\n");
        let Some((_, told)) = sentence.split_once("the least H that would do is ") else {
            assert!(sentence.contains(": no H would do: "), "{first} {second}: {sentence}");
            for h in [0, 1, 500, 25_535, 65_135, 65_535, 65_536] {
                assert_eq!(join(h).failure(1, "refused 25 0\n"), sentence);
            }
            tried.count("no H", 1);
            continue;
        };
        let least: u64 = told.strip_suffix(" (refused 25 0)").unwrap().parse().unwrap();
        join(least).answer();
        tried.count("some H", 1);
        if least > 0 {
            let ended = join(least - 1);
            let sentence = ended.failure(1, "refused 25 0\n");
            assert!(
                sentence.ends_with(&format!("; the least H that would do is {told}")),
                "{sentence}"
            );
            tried.count("the H below", 1);
        }
    }
    tried.assert_at_least(&[("no H", 5), ("some H", 20), ("the H below", 15)]);
}

/// Neither volume that is read is written over, by its own name, by another or by a
/// symbolic link.
#[test]
fn what_is_read_is_not_written_over() {
    let folder = folder(&[]);
    std::os::unix::fs::symlink("titles.vol", folder.path("link")).unwrap();
    let before = folder.names();
    let [first, second] = ["titles.vol", "second.vol"].map(|file| folder.read(file));
    for (line, file) in [
        ("join titles.vol second.vol 3 titles.vol", "titles.vol"),
        ("join titles.vol second.vol 3 second.vol", "second.vol"),
        ("join titles.vol ./second.vol 3 ../second.vol", "./second.vol"),
        ("join link second.vol 3 titles.vol", "link"),
        ("join titles.vol second.vol 3 link", "titles.vol"),
        ("join titles.vol titles.vol 2 titles.vol", "titles.vol"),
    ] {
        let line = line.replace("../", &format!("{}/", folder.0.display()));
        let sentence = format!("{file}: it is what is read, and is not written over");
        assert_eq!(folder.lhz(&line).failure(2, ""), sentence, "lhz {line}");
        assert_eq!(folder.read("titles.vol"), first, "lhz {line}");
        assert_eq!(folder.read("second.vol"), second, "lhz {line}");
        assert_eq!(folder.names(), before, "lhz {line}");
    }
}

/// A file that cannot be written is told as `lhz write` tells it.
#[test]
fn places_that_are_no_file() {
    let folder = folder(&[]);
    fs::create_dir(folder.path("sub")).unwrap();
    let before = folder.names();
    for file in ["sub", "absent/file", "lists.txt/file"] {
        let written = folder.lhz(&format!("write lists.txt {file}")).failure(2, "").to_string();
        let joined = folder.lhz(&format!("join titles.vol second.vol 3 {file}"));
        assert_eq!(joined.failure(2, ""), written);
        assert_eq!(folder.names(), before);
    }
}

/// What is no number is told before a file is read.
#[test]
fn an_h_that_is_no_number() {
    let folder = folder(&[]);
    for h in ["x", "3x", "+3", "0x3", "3.0", "H"] {
        let ended = folder.lhz(&format!("join absent.vol second.vol {h} new.vol"));
        let sentence = ended.failure(2, "");
        assert!(sentence.starts_with(&format!("H `{h}` is no number (")), "{sentence}");
    }
}
