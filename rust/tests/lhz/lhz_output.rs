//! The command `lhz`: the files that it writes. An old file stays until the new one is whole, and
//! nothing else is left beside it.

use crate::support::command::*;
use crate::support::files::plan_bytes;
use crate::support::plans::*;
use crate::support::*;
use std::ffi::OsString;
use std::fs::{self, Permissions};
use std::os::unix::fs::{symlink, FileTypeExt, MetadataExt, PermissionsExt};

/// The two commands that write a file, what each writes, and a text that it does not take.
struct Writer {
    command: &'static str,
    text: &'static str,
    mistake: &'static str,
    written: Vec<u8>,
}

fn writers() -> [Writer; 2] {
    [
        Writer {
            command: "write",
            text: "lists.txt",
            mistake: "1:0\n1;2\n",
            written: sample().volume(),
        },
        Writer {
            command: "plan",
            text: "sample.txt",
            mistake: "VOICE 1\nEND 0\n",
            written: plan_bytes(&SAMPLE),
        },
    ]
}

/// A new file, and one in the place of an old one that was longer or shorter.
#[test]
fn files_that_are_written() {
    for Writer { command, text, written, .. } in writers() {
        let folder = Folder::with_sample();
        fs::create_dir(folder.path("sub")).unwrap();
        let before = folder.names();
        for old in [None, Some(vec![]), Some(vec![7; 100_000])] {
            for file in ["new", "./other", "sub/new", "sub/../third"] {
                if let Some(old) = &old {
                    folder.write(file, old);
                }
                folder.lhz(&format!("{command} {text} {file}")).answer();
                assert_eq!(folder.read(file), written, "{command} {file}");
            }
        }
        let mut after = before.clone();
        after.extend(["new", "other", "third"].map(OsString::from));
        after.sort();
        assert_eq!(folder.names(), after);
        assert_eq!(fs::read_dir(folder.path("sub")).unwrap().count(), 1);
    }
}

/// Whatever goes wrong, the old file stays as it was, to the byte and in place, and where there was
/// none there is none; nothing else is added.
#[test]
fn an_old_file_stays() {
    for Writer { command, text, mistake, .. } in writers() {
        for old in [Some(&b"the old file"[..]), None] {
            let folder = Folder::with_sample();
            folder.write("mistake.txt", mistake);
            folder.write("empty.txt", "");
            if let Some(old) = old {
                folder.write("file", old);
            }
            let before = folder.names();
            let inode = fs::metadata(folder.path("file")).map(|data| data.ino()).ok();
            for (line, status) in [
                (format!("lhz {command} mistake.txt file"), 1),
                (format!("lhz {command} empty.txt file"), 1),
                (format!("lhz {command} absent.txt file"), 2),
                (format!("lhz {command} {text} file file"), 2),
                (format!("lhz {command} -x {text} file"), 2),
                (format!("lhz {command} {text} file --help"), 0),
                // A limit of 0 bytes for each file: the first write fails.
                (format!("trap '' XFSZ; ulimit -f 0; exec lhz {command} {text} file"), 2),
            ] {
                let ended = folder.sh(&line);
                assert_eq!(ended.status, status, "{line}: {}", ended.stderr);
                assert_eq!(folder.names(), before, "{line}");
                let after = fs::metadata(folder.path("file")).map(|data| data.ino()).ok();
                assert_eq!(after, inode, "{line}");
                if let Some(old) = old {
                    assert_eq!(folder.read("file"), old, "{line}");
                }
            }
        }
    }
}

/// A write that fails in the middle of a long volume.
#[test]
fn a_write_that_fails_in_the_middle() {
    let folder = Folder::new();
    folder.write("long.txt", filling(20, 126 * 400).text());
    folder.write("file.vol", sample().volume());
    for blocks in [1, 100, 150] {
        let line = format!("trap '' XFSZ; ulimit -f {blocks}; exec lhz write long.txt file.vol");
        assert_eq!(folder.sh(&line).failure(2, ""), "file.vol: File too large");
        assert_eq!(folder.names(), ["file.vol", "long.txt"]);
        assert_eq!(folder.read("file.vol"), sample().volume());
    }
    let written = folder.lhz("write long.txt file.vol");
    assert_eq!(written.answer(), "lists 20 postings 50378 blocks 400\n");
}

/// A folder in which one may not write. Whoever may write everywhere tries it as another user.
#[test]
fn a_folder_that_may_not_be_written() {
    for Writer { command, text, .. } in writers() {
        let folder = Folder::with_sample();
        let closed = folder.path("closed");
        fs::create_dir(&closed).unwrap();
        fs::write(closed.join("file"), "the old file").unwrap();
        fs::set_permissions(closed.join("file"), Permissions::from_mode(0o666)).unwrap();
        fs::set_permissions(&closed, Permissions::from_mode(0o555)).unwrap();
        for file in ["closed/file", "closed/new"] {
            if let Some(ended) = folder.lhz_as_other(&format!("{command} {text} {file}")) {
                assert_eq!(ended.failure(2, ""), format!("{file}: Permission denied"));
            }
        }
        assert_eq!(folder.read("closed/file"), b"the old file");
        assert_eq!(fs::read_dir(&closed).unwrap().count(), 1);
        fs::set_permissions(&closed, Permissions::from_mode(0o755)).unwrap();
    }
}

/// The permissions of the old file are those of the new one.
#[test]
fn permissions_stay() {
    for Writer { command, text, written, .. } in writers() {
        let folder = Folder::with_sample();
        for mode in [0o600, 0o640, 0o664, 0o755, 0o444] {
            folder.write("file", "the old file");
            fs::set_permissions(folder.path("file"), Permissions::from_mode(mode)).unwrap();
            folder.lhz(&format!("{command} {text} file")).answer();
            let after = fs::metadata(folder.path("file")).unwrap().permissions().mode() & 0o7777;
            assert_eq!(format!("{after:o}"), format!("{mode:o}"), "{command}");
            assert_eq!(folder.read("file"), written);
            fs::remove_file(folder.path("file")).unwrap();
        }
    }
}

/// A link stays a link: the file that it leads to is replaced, in its own folder. One that leads to
/// no file stays too.
#[test]
fn links_stay() {
    for Writer { command, text, written, .. } in writers() {
        let folder = Folder::with_sample();
        fs::create_dir(folder.path("sub")).unwrap();
        folder.write("sub/file", "the old file");
        symlink("sub/file", folder.path("link")).unwrap();
        symlink("link", folder.path("second")).unwrap();
        symlink("nowhere", folder.path("loose")).unwrap();
        symlink("round", folder.path("round")).unwrap();
        let before = folder.names();
        for link in ["link", "second"] {
            folder.write("sub/file", "the old file");
            folder.lhz(&format!("{command} {text} {link}")).answer();
            assert_eq!(folder.read("sub/file"), written, "{command} {link}");
            assert_eq!(fs::read_dir(folder.path("sub")).unwrap().count(), 1);
        }
        for link in ["loose", "round"] {
            let sentence =
                folder.lhz(&format!("{command} {text} {link}")).failure(2, "").to_string();
            assert!(sentence.starts_with(&format!("{link}: ")), "{sentence}");
        }
        for (link, target) in
            [("link", "sub/file"), ("second", "link"), ("loose", "nowhere"), ("round", "round")]
        {
            assert_eq!(
                fs::read_link(folder.path(link)).unwrap().to_str(),
                Some(target),
                "{command}"
            );
        }
        assert_eq!(folder.names(), before);
    }
}

/// What is there and is no file, or cannot be there, is not written: status 2 and a sentence.
#[test]
fn places_that_are_no_file() {
    for Writer { command, text, .. } in writers() {
        let folder = Folder::with_sample();
        fs::create_dir(folder.path("sub")).unwrap();
        assert_eq!(folder.sh("mkfifo pipe").status, 0);
        let before = folder.names();
        for file in
            ["sub", "sub/", ".", "..", "/", "pipe", "absent/file", "lists.txt/file", "absent/"]
        {
            let sentence =
                folder.lhz(&format!("{command} {text} {file}")).failure(2, "").to_string();
            assert!(sentence.starts_with(&format!("{file}: ")), "{command} {file}: {sentence}");
        }
        let mut none = folder.command(LHZ);
        let sentence = run(none.args([command, text, ""])).failure(2, "").to_string();
        assert!(sentence.starts_with(": "), "{command}: {sentence}");
        assert_eq!(folder.names(), before);
        assert!(fs::metadata(folder.path("pipe")).unwrap().file_type().is_fifo());
        assert_eq!(fs::read_dir(folder.path("sub")).unwrap().count(), 0);
        for file in ["/dev/null", "/dev/full"] {
            if let Some(ended) = folder.lhz_as_other(&format!("{command} {text} {file}")) {
                assert!(ended.failure(2, "").starts_with(&format!("{file}: ")), "{}", ended.stderr);
            }
        }
    }
}

/// What is read is not written over, by whatever name.
#[test]
fn the_text_is_not_written_over() {
    for Writer { command, text, .. } in writers() {
        let folder = Folder::with_sample();
        let kept = folder.read(text);
        fs::create_dir(folder.path("sub")).unwrap();
        symlink(text, folder.path("link")).unwrap();
        let all = folder.path(text);
        let before = folder.names();
        for (read, written) in [
            (text, text),
            (text, &*format!("./{text}")),
            (text, &*format!("sub/../{text}")),
            (text, "link"),
            ("link", text),
            ("link", "link"),
            (text, all.to_str().unwrap()),
        ] {
            let sentence =
                folder.lhz(&format!("{command} {read} {written}")).failure(2, "").to_string();
            assert!(sentence.contains(read), "{command} {read} {written}: {sentence}");
            assert_eq!(folder.read(text), kept, "{command} {read} {written}");
            assert_eq!(folder.names(), before);
        }
    }
}

/// What is told of a written file is told when it is in place, and its old content can be read
/// until then by who has it open.
#[test]
fn readers_of_the_old_file_keep_it() {
    let folder = Folder::with_sample();
    folder.write("file", "the old file");
    let ended = folder.sh("exec 3< file; lhz write lists.txt file && cat <&3");
    assert_eq!(ended.told(), (0, "lists 3 postings 8 blocks 1\nthe old file", ""));
    assert_eq!(folder.read("file"), sample().volume());
}
