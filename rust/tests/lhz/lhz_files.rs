//! The command `lhz`: files that it cannot read, and standard output that does not take all.

use crate::support::command::*;
use crate::support::files::plan_bytes;
use crate::support::plans::*;
use crate::support::*;
use std::fs::{self, File, OpenOptions, Permissions};
use std::io::Read;
use std::os::unix::fs::PermissionsExt;
use std::process::Stdio;

/// Every way in which a file is read: `F` is the file.
const OF_VOLUME: [&str; 7] = [
    "check F",
    "check F sample.plan",
    "list F sample.plan",
    "list F --line [1]",
    "read F",
    "show F sample.plan 0",
    "show --line F sample.plan",
];
const OF_PLAN: [&str; 6] = [
    "check titles.vol F",
    "list titles.vol F",
    "test titles.vol F 0 1 2 5",
    "show F",
    "show titles.vol F 0",
    "show --line titles.vol F",
];
const OF_TEXT: [&str; 5] = [
    "write F new",
    "write F -",
    "plan F new",
    "plan F -",
    "show --line --names F titles.vol sample.plan",
];

fn lines<'a>(commands: &'a [&str], file: &'a str) -> impl Iterator<Item = String> + 'a {
    commands.iter().map(move |line| line.replace('F', file))
}

/// A file that is not there, or is a folder: status 2, nothing on standard output, a sentence on
/// it.
#[test]
fn files_that_cannot_be_read() {
    let folder = Folder::with_sample();
    fs::create_dir(folder.path("folder")).unwrap();
    let before = folder.names();
    for (file, why) in [
        ("absent", "No such file or directory"),
        ("folder", "Is a directory"),
        ("folder/absent", "No such file or directory"),
        ("titles.vol/x", "Not a directory"),
    ] {
        for line in [&OF_VOLUME[..], &OF_PLAN, &OF_TEXT]
            .into_iter()
            .flat_map(|lines_of| lines(lines_of, file))
        {
            assert_eq!(folder.lhz(&line).failure(2, ""), format!("{file}: {why}"), "lhz {line}");
        }
    }
    // The volume is looked at first.
    for line in [
        "check absent folder",
        "list absent folder",
        "test absent folder 0 1 2 5",
        "show absent folder 0",
        "show --line absent folder --names lists.txt",
    ] {
        assert!(folder.lhz(line).failure(2, "").starts_with("absent: "), "lhz {line}");
    }
    assert_eq!(folder.names(), before);
}

/// A file that one may not read. Whoever may read all reads it as another user.
#[test]
fn files_that_may_not_be_read() {
    let folder = Folder::with_sample();
    let closed = folder.path("closed");
    fs::write(&closed, sample().volume()).unwrap();
    fs::set_permissions(&closed, Permissions::from_mode(0o000)).unwrap();
    for line in [
        "check closed",
        "list closed sample.plan",
        "list titles.vol closed",
        "write closed -",
        "plan closed -",
    ] {
        if let Some(ended) = folder.lhz_as_other(line) {
            assert_eq!(ended.failure(2, ""), "closed: Permission denied", "lhz {line}");
        }
    }
}

/// Files without an end are not read to it: a volume and a plan are refused, a text is too long.
/// The memory is limited meanwhile.
#[test]
fn files_without_an_end() {
    let folder = Folder::with_sample();
    for (commands, status, stdout) in
        [(&OF_VOLUME[..], 1, "refused 1 0\n"), (&OF_PLAN, 1, "refused 9 0\n"), (&OF_TEXT, 2, "")]
    {
        for (file, name, from) in
            [("/dev/zero", "/dev/zero", ""), ("-", "standard input", "< /dev/zero")]
        {
            for line in lines(commands, file) {
                let ended = folder.sh(&format!("ulimit -v 500000; lhz {line} {from}"));
                let sentence = ended.failure(status, stdout);
                assert!(sentence.starts_with(&format!("{name}: ")), "lhz {line}: {sentence}");
                let over = if line.starts_with("plan") { "over 1 MiB" } else { "over 64 MiB" };
                assert!(status == 1 || sentence.contains(over), "lhz {line}: {sentence}");
            }
        }
    }
    assert_eq!(folder.names(), Folder::with_sample().names());
}

/// Pipes are read as files are.
#[test]
fn files_that_are_pipes() {
    let folder = Folder::with_sample();
    for line in [
        "cat titles.vol | lhz list /dev/stdin sample.plan",
        "cat sample.plan | lhz list titles.vol /dev/stdin",
        "mkfifo pipe; cat titles.vol > pipe & lhz list pipe sample.plan",
        "cat lists.txt | lhz write /dev/stdin - | lhz list - sample.plan",
        "lhz plan sample.txt - | lhz list titles.vol -",
        "lhz plan --line '[1 2;b 0 1;t 0 1]' - | lhz list titles.vol -",
        "lhz list titles.vol --line \"$(lhz show --line titles.vol sample.plan)\"",
        "lhz read titles.vol | lhz write - new.vol > told; lhz list new.vol sample.plan",
    ] {
        assert_eq!(folder.sh(line).told(), (0, SAMPLE_LISTING, ""), "{line}");
    }
    assert_eq!(folder.read("told"), b"lists 3 postings 8 blocks 1\n");
}

/// The longest text that is read has 64 MiB.
#[test]
fn the_longest_text() {
    let folder = Folder::new();
    let mut text = SAMPLE_LISTS.to_string() + "# ";
    text += &"x".repeat((64 << 20) - text.len());
    folder.write("long.txt", &text);
    assert_eq!(folder.lhz("write long.txt new.vol").answer(), "lists 3 postings 8 blocks 1\n");
    text.push('x');
    folder.write("long.txt", &text);
    assert_eq!(
        folder.lhz("write long.txt other.vol").failure(2, ""),
        "long.txt: the text is over 64 MiB"
    );
    assert_eq!(folder.names(), ["long.txt", "new.vol"]);
}

/// Runs `lhz` with standard output at a file.
fn to(folder: &Folder, line: &str, output: File) -> Ended {
    let mut command = folder.command(LHZ);
    command.args(line.split(' ')).stdout(output);
    run(command.stderr(Stdio::piped()))
}

/// Standard output that takes nothing: status 2 and a sentence on it, of a refusal too.
#[test]
fn a_full_standard_output() {
    let folder = Folder::with_sample();
    folder.write("bad.vol", "x");
    for line in [
        "--help",
        "--version",
        "list --help",
        "check titles.vol",
        "check titles.vol sample.plan",
        "list titles.vol sample.plan",
        "read titles.vol",
        "read titles.vol 1",
        "test titles.vol sample.plan 0 1 2 5",
        "show sample.plan",
        "show titles.vol sample.plan 0",
        "show --line titles.vol sample.plan",
        "show --line --names lists.txt titles.vol sample.plan",
        "list titles.vol --line [1]",
        "plan --line [1] -",
        "plan --line [1] typed.plan",
        "write lists.txt -",
        "plan sample.txt -",
        "write lists.txt written.vol",
        "plan sample.txt written.plan",
    ] {
        let full = OpenOptions::new().write(true).open("/dev/full").unwrap();
        let ended = to(&folder, line, full);
        assert_eq!(ended.failure(2, ""), "standard output: No space left on device", "lhz {line}");
    }
    // A refusal that cannot be printed is still told.
    for (line, refused) in [("check bad.vol", "refused 1 0"), ("read titles.vol 9", "refused 17 0")]
    {
        let full = OpenOptions::new().write(true).open("/dev/full").unwrap();
        let ended = to(&folder, line, full);
        let (told, output) = ended.stderr.split_once('\n').unwrap();
        assert!(told.starts_with("lhz: ") && told.contains(refused), "lhz {line}: {told}");
        assert_eq!(output, "lhz: standard output: No space left on device\n", "lhz {line}");
        assert_eq!((ended.told().0, ended.told().1), (2, ""), "lhz {line}");
    }
    // What was written before it was told is in place.
    assert_eq!(folder.read("written.vol"), sample().volume());
    assert_eq!(folder.read("written.plan"), plan_bytes(&SAMPLE));
}

/// Standard error that takes nothing changes neither the refusal nor the status.
#[test]
fn a_full_standard_error() {
    let folder = Folder::with_sample();
    for (line, status, stdout) in [
        ("lhz read titles.vol 9", 1, "refused 17 0\n"),
        ("lhz check absent", 2, ""),
        ("lhz", 2, ""),
        ("lhz check titles.vol", 0, "lists 3 postings 8\n"),
    ] {
        assert_eq!(
            folder.sh(&format!("{line} 2> /dev/full")).told(),
            (status, stdout, ""),
            "{line}"
        );
    }
}

/// A reader that closes standard output early: the command ends, says nothing, and does not claim
/// to have listed all.
#[test]
fn a_standard_output_that_is_closed_early() {
    let folder = Folder::new();
    let word: Vec<u32> = (0..60_000).map(|doc| doc * 65_536).collect();
    folder.write("long.vol", Lists::new(&[vec![], word]).volume());
    folder.write("long.plan", plan_bytes(&[voice(1), END]));
    for (line, first) in [
        ("list long.vol long.plan", "scene 0 1 0 65536\n"),
        ("list --names - long.vol long.plan", "scene 0\n  figure 0: list 1 at place 0"),
        ("list --json long.vol long.plan", "{\"scene\":0,\"figures\":[{\"found\":true,"),
        ("read long.vol", "-\n"),
        ("read long.vol 1", "0:0 "),
    ] {
        let mut command = folder.command(LHZ);
        command.args(line.split(' ')).stdout(Stdio::piped()).stderr(Stdio::piped());
        let mut child = command.spawn().unwrap();
        let mut start = vec![0; first.len()];
        let mut stdout = child.stdout.take().unwrap();
        stdout.read_exact(&mut start).unwrap();
        drop(stdout);
        let ended = child.wait_with_output().unwrap();
        assert_eq!(String::from_utf8(start).unwrap(), first, "lhz {line}");
        assert_eq!(String::from_utf8_lossy(&ended.stderr), "", "lhz {line}");
        assert_eq!(ended.status.code(), Some(2), "lhz {line}");
    }
    let ended = folder.sh("lhz list long.vol long.plan | head -n 1");
    assert_eq!(ended.told(), (0, "scene 0 1 0 65536\n", ""));
}
