//! The command `lhz`: arguments that it does not take, numbers, and names of files.

use crate::support::command::*;
use crate::support::*;
use std::ffi::{OsStr, OsString};
use std::os::unix::ffi::OsStrExt;

/// Runs `lhz` with arguments of any bytes.
fn lhz(folder: &Folder, arguments: &[&[u8]]) -> Ended {
    let mut command = folder.command(LHZ);
    run(command.args(arguments.iter().map(|argument| OsStr::from_bytes(argument))))
}

/// Wrong arguments: status 2, nothing on standard output, one sentence, nothing written.
#[test]
fn arguments_that_are_not_taken() {
    let folder = Folder::with_sample();
    let before = folder.names();
    for line in [
        "",
        "chek",
        "chek titles.vol",
        "CHECK titles.vol",
        "titles.vol",
        "--",
        "-",
        "-x",
        "--check",
        "--help-me",
        "check",
        "check titles.vol sample.plan 0",
        "list",
        "list titles.vol",
        "list titles.vol sample.plan 0",
        "matches",
        "matches titles.vol",
        "matches titles.vol sample.plan",
        "matches titles.vol sample.plan 0",
        "read",
        "read titles.vol 0 1",
        "test",
        "test titles.vol",
        "test titles.vol sample.plan",
        "test titles.vol sample.plan 0",
        "write",
        "write lists.txt",
        "write lists.txt new.vol 0",
        "join",
        "join titles.vol",
        "join titles.vol titles.vol",
        "join titles.vol titles.vol 2",
        "join titles.vol titles.vol 2 new.vol 0",
        "join titles.vol titles.vol -2 new.vol",
        "join titles.vol --line [1] 2 new.vol",
        "join --h 2 titles.vol titles.vol new.vol",
        "join - - 2 new.vol",
        "plan",
        "plan sample.txt",
        "plan sample.txt new.plan 0",
        "show",
        "show titles.vol sample.plan",
        "show titles.vol sample.plan 0 0",
        "check -x",
        "check titles.vol -v",
        "check --all titles.vol",
        "list --start titles.vol sample.plan",
        "read titles.vol --list=1",
        "test titles.vol sample.plan 0 1 2 -5",
        "matches titles.vol sample.plan 0 1 -2 5",
        "matches --all titles.vol sample.plan 0 1",
        "write -f lists.txt new.vol",
        "check --version",
        "list ---",
        "read titles.vol -1",
        "read titles.vol --line [1]",
        "write --line [1] new.vol",
        "check --line",
        "check --line [1]",
        "check titles.vol --line",
        "check titles.vol sample.plan --line [1]",
        "check titles.vol --line [1] --line [1]",
        "check --line=[1] titles.vol",
        "check -line [1] titles.vol",
        "check titles.vol --names names.txt",
        "list --line [1]",
        "list titles.vol --line",
        "list titles.vol sample.plan --line [1]",
        "list --json",
        "list --json titles.vol",
        "list --json titles.vol sample.plan 0",
        "list --json --json titles.vol sample.plan",
        "list --json=true titles.vol sample.plan",
        "list -json titles.vol sample.plan",
        "list --names",
        "list titles.vol sample.plan --names",
        "list --names titles.vol sample.plan",
        "list --names lists.txt titles.vol",
        "list --names lists.txt --names lists.txt titles.vol sample.plan",
        "list --names=lists.txt titles.vol sample.plan",
        "check --json titles.vol",
        "matches --json titles.vol sample.plan 0 1",
        "matches --names lists.txt titles.vol sample.plan 0 1",
        "show --json sample.plan",
        "matches titles.vol --line [1]",
        "matches titles.vol --line [1] 0",
        "matches titles.vol sample.plan --line [1] 0 1",
        "test titles.vol --line [1] 0",
        "test titles.vol sample.plan --line [1] 0 1 2",
        "plan --line",
        "plan --line [1]",
        "plan new.plan --line",
        "plan sample.txt new.plan --line [1]",
        "plan --line [1] --line [2] new.plan",
        "show --line",
        "show --line sample.plan",
        "show --line 1]",
        "show --line --line titles.vol sample.plan",
        "show --line [1] --line [2]",
        "show --line [1] sample.plan",
        "show --line titles.vol sample.plan 0",
        "show --line titles.vol --line [1] 0",
        "show --names",
        "show --names lists.txt sample.plan",
        "show --names lists.txt titles.vol sample.plan 0",
        "show --names lists.txt --line [1]",
        "show --line --names titles.vol sample.plan",
        "show --line titles.vol sample.plan --names",
        "show --line --names lists.txt --names lists.txt titles.vol sample.plan",
    ] {
        let sentence = folder.lhz(line).failure(2, "").to_string();
        assert!(sentence.contains("lhz --help"), "lhz {line}: {sentence}");
    }
    assert_eq!(folder.names(), before);
}

/// A sentence on wrong arguments says which.
#[test]
fn what_is_wrong_is_named() {
    let folder = Folder::with_sample();
    for (line, named) in [
        ("chek titles.vol", "`chek`"),
        ("check -x titles.vol", "`-x`"),
        ("list titles.vol", "lhz list VOLUME PLAN"),
        ("list titles.vol", "lhz list --names FILE VOLUME PLAN"),
        ("list titles.vol", "lhz list --json [--names FILE] VOLUME PLAN"),
        ("show titles.vol sample.plan", "lhz show VOLUME PLAN FIGURE"),
        ("read titles.vol one", "LIST `one`"),
        ("test titles.vol sample.plan x 1 2 5", "FIGURE `x`"),
        ("test titles.vol sample.plan 0 1: 2 5", "SCENE `1:`"),
        ("test titles.vol sample.plan 0 1 2 5,", "PLACE `5,`"),
        ("matches titles.vol sample.plan 0", "lhz matches VOLUME PLAN FIGURE SCENE [PLACE..]"),
        ("matches titles.vol sample.plan x 1", "FIGURE `x`"),
        ("matches titles.vol sample.plan 0 1:", "SCENE `1:`"),
        ("matches titles.vol sample.plan 0 1 2 5,", "PLACE `5,`"),
        ("show titles.vol sample.plan first", "FIGURE `first`"),
        ("show --line sample.plan", "lhz show --line [--names FILE] VOLUME PLAN"),
        ("plan --line [1]", "lhz plan PLANTEXT PLAN, lhz plan --line LINE PLAN"),
        ("list titles.vol --line", "LINE is missing behind --line"),
        ("list titles.vol --line [1] --line [1]", "--line is given twice"),
        ("show --line --line titles.vol sample.plan", "--line is given twice"),
        ("show --line titles.vol sample.plan --names", "FILE is missing behind --names"),
        ("show --line --names a --names b titles.vol sample.plan", "--names is given twice"),
        ("read titles.vol --line [1]", "`--line`"),
        ("list titles.vol sample.plan --names", "FILE is missing behind --names"),
        ("list --names a --names b titles.vol sample.plan", "--names is given twice"),
        ("list --json titles.vol --json sample.plan", "--json is given twice"),
        ("check titles.vol --names lists.txt sample.plan", "`--names`"),
        ("matches --json titles.vol sample.plan 0 1", "`--json`"),
        ("list titles.vol --line=[1]", "`--line=[1]`"),
        ("matches titles.vol sample.plan --line [1] 0 1", "FIGURE `sample.plan`"),
    ] {
        let sentence = folder.lhz(line).failure(2, "").to_string();
        assert!(sentence.contains(named), "lhz {line}: {sentence}");
    }
}

/// Numbers that are none: status 2, also over a volume that is refused or absent.
#[test]
fn numbers_that_are_none() {
    let folder = Folder::with_sample();
    folder.write("damaged.vol", "x");
    for number in
        ["", " ", "x", "1x", "+1", "1.0", "1e3", "0x1", " 1", "1 ", "1,000", "\u{661}", "\u{ff11}"]
    {
        let number = number.as_bytes();
        for volume in [b"titles.vol" as &[u8], b"damaged.vol", b"absent.vol"] {
            for arguments in [
                &[b"read", volume, number][..],
                &[b"show", volume, b"sample.plan", number],
                &[b"test", volume, b"sample.plan", number, b"1", b"2", b"5"],
                &[b"test", volume, b"sample.plan", b"0", number, b"2", b"5"],
                &[b"test", volume, b"sample.plan", b"0", b"1", number, b"5"],
                &[b"test", volume, b"sample.plan", b"0", b"1", b"2", number],
                &[b"matches", volume, b"sample.plan", number, b"1"],
                &[b"matches", volume, b"sample.plan", b"0", number],
                &[b"matches", volume, b"sample.plan", b"0", b"1", number, b"5"],
                &[b"matches", volume, b"sample.plan", b"0", b"1", b"2", number],
            ] {
                let ended = lhz(&folder, arguments);
                let sentence = ended.failure(2, "");
                assert!(sentence.contains("is no number"), "{number:?}: {sentence}");
            }
        }
    }
    assert!(lhz(&folder, &[b"read", b"titles.vol", b"\xff"])
        .failure(2, "")
        .contains("is no number"));
}

/// Numbers of any length: those over what there is are refused with 17 and told as they were given.
#[test]
fn numbers_of_every_length() {
    let folder = Folder::with_sample();
    let zeros = "0".repeat(40);
    for (line, stdout) in [
        (format!("read titles.vol {zeros}1"), "1:2 1:8 2:4\n"),
        (format!("test titles.vol sample.plan {zeros} 01 002 {zeros}5"), "yes\n"),
        (format!("show titles.vol sample.plan {zeros}"), SAMPLE_PLAN),
        (format!("matches titles.vol sample.plan {zeros} 01"), "places 2 5\ndone 1\n"),
        (format!("matches titles.vol sample.plan 0 1 002 {zeros}5"), "places 2 5\ndone 1\n"),
    ] {
        assert_eq!(folder.lhz(&line).answer(), stdout, "lhz {line}");
    }
    let long = "123456789012345678901234567890";
    for number in
        ["65536", "65537", "4294967295", "4294967296", "4294967297", "18446744073709551616", long]
    {
        for line in [
            format!("read titles.vol {number}"),
            format!("show titles.vol sample.plan {number}"),
            format!("test titles.vol sample.plan {number} 1 2 5"),
            format!("test titles.vol sample.plan 0 {number} 2 5"),
            format!("test titles.vol sample.plan 0 1 {number} 5"),
            format!("test titles.vol sample.plan 0 1 2 {number}"),
            format!("matches titles.vol sample.plan {number} 1"),
            format!("matches titles.vol sample.plan 0 {number}"),
            format!("matches titles.vol sample.plan 0 {number} 2 5"),
            format!("matches titles.vol sample.plan 0 1 {number} 5"),
            format!("matches titles.vol sample.plan 0 1 2 {number}"),
        ] {
            let sentence = folder.lhz(&line).failure(1, "refused 17 0\n").to_string();
            let told = sentence.split(|sign: char| !sign.is_ascii_digit());
            assert_eq!(told.filter(|told| *told == number).count(), 1, "lhz {line}: {sentence}");
        }
    }
}

/// `--` ends the options: what follows is no option.
#[test]
fn names_behind_two_hyphens() {
    let folder = Folder::with_sample();
    folder.write("-x", sample().volume());
    folder.write("--help", folder.read("sample.plan"));
    folder.write("--", sample().volume());
    folder.write("--line", folder.read("sample.plan"));
    folder.write("--json", folder.read("sample.plan"));
    for (line, stdout) in [
        ("check -- -x", "lists 3 postings 8\n"),
        ("check -- --", "lists 3 postings 8\n"),
        ("list -- -x --help", SAMPLE_LISTING),
        ("list titles.vol -- --help", SAMPLE_LISTING),
        ("matches -- -x --help 0 1", "places 2 5\ndone 1\n"),
        ("read -- -x 0", "1:0 1:6\n"),
        ("read titles.vol --", SAMPLE_LISTS),
        ("show -- --help", SAMPLE_PLAN),
        ("show -- --line", SAMPLE_PLAN),
        ("list titles.vol -- --line", SAMPLE_LISTING),
        ("list titles.vol -- --json", SAMPLE_LISTING),
        ("show --line -- -x --line", "[1 2;b 0 1;t 0 1]\n"),
        ("list --line [1] -- -x", "scene 1 1 2 0\nscene 2 1 4 65536\ndone 3\n"),
        ("write lists.txt -- -y", "lists 3 postings 8 blocks 1\n"),
        ("check ./-x", "lists 3 postings 8\n"),
    ] {
        assert_eq!(folder.lhz(line).told(), (0, stdout, ""), "lhz {line}");
    }
    assert_eq!(folder.read("-y"), sample().volume());
    assert_eq!(folder.lhz_given("check -- -", &sample().volume()).answer(), "lists 3 postings 8\n");
}

/// Names with blanks, with letters beyond ASCII, with line ends and with bytes that are no UTF-8,
/// read and written.
#[test]
fn names_of_any_bytes() {
    for (name, told) in [
        (b"two words.vol" as &[u8], "two words.vol"),
        (b" ", " "),
        ("b\u{fc}hne \u{2116} 1".as_bytes(), "b\u{fc}hne \u{2116} 1"),
        (b"\xff\xfe.vol", "\u{fffd}\u{fffd}.vol"),
        (b"a\nb\x1b[2J", "a\\nb\\u{1b}[2J"),
        (&[b'n'; 255], &"n".repeat(255)),
    ] {
        let folder = Folder::with_sample();
        let written = lhz(&folder, &[b"write", b"lists.txt", name]);
        assert_eq!(written.told(), (0, "lists 3 postings 8 blocks 1\n", ""), "{told}");
        let name_of = OsStr::from_bytes(name);
        assert!(folder.names().contains(&OsString::from(name_of)), "{:?}", folder.names());
        assert_eq!(folder.names().len(), 5, "{:?}", folder.names());
        let listed = lhz(&folder, &[b"list", name, b"sample.plan"]);
        assert_eq!(listed.told(), (0, SAMPLE_LISTING, ""), "{told}");

        folder.write(name_of, "x");
        let refused = lhz(&folder, &[b"check", name]);
        assert!(refused.failure(1, "refused 1 0\n").starts_with(&format!("{told}: ")), "{told}");
        let mistake = lhz(&folder, &[b"write", name, b"new.vol"]);
        assert_eq!(mistake.failure(1, ""), format!("{told}:1:1: `x` is no scene:place"));
    }
}
