//! The command `lhz`: its help pages, the examples of which are run.

use crate::support::command::*;
use crate::support::files::plan_bytes;
use crate::support::plans::*;
use crate::support::*;

const COMMANDS: [&str; 9] =
    ["check", "list", "matches", "read", "test", "write", "join", "plan", "show"];

/// How each command is used.
const USES: [&str; 14] = [
    "lhz check VOLUME [PLAN]",
    "lhz list VOLUME PLAN",
    "lhz list --names FILE VOLUME PLAN",
    "lhz list --json [--names FILE] VOLUME PLAN",
    "lhz matches VOLUME PLAN FIGURE SCENE [PLACE..]",
    "lhz read VOLUME [LIST]",
    "lhz test VOLUME PLAN FIGURE SCENE PLACE..",
    "lhz write TEXT VOLUME",
    "lhz join FIRST SECOND H VOLUME",
    "lhz plan PLANTEXT PLAN",
    "lhz plan --line LINE PLAN",
    "lhz show PLAN",
    "lhz show VOLUME PLAN FIGURE",
    "lhz show --line [--names FILE] VOLUME PLAN",
];

/// A line of the shell in a page, and the lines that are shown to follow it.
struct Example {
    line: String,
    shown: String,
}

/// The examples of a page: a line `  $ ...`, and the lines behind it that stand in as far.
fn examples(page: &str) -> Vec<Example> {
    let mut examples: Vec<Example> = vec![];
    let mut is_open = false;
    for line in page.lines() {
        if let Some(line) = line.strip_prefix("  $ ") {
            examples.push(Example { line: line.to_string(), shown: String::new() });
            is_open = true;
        } else if let (Some(line), true) = (line.strip_prefix("  "), is_open) {
            examples.last_mut().unwrap().shown += &format!("{line}\n");
        } else {
            is_open = false;
        }
    }
    examples
}

/// Each page, asked for in every way, tells how its command is used.
#[test]
fn pages() {
    let folder = Folder::new();
    let all = folder.lhz("--help").answer().to_string();
    assert!(all.lines().all(|line| line.len() <= 80), "{all}");
    for line in ["-h", "help"] {
        assert_eq!(folder.lhz(line).answer(), all, "lhz {line}");
    }
    for used in USES {
        let lines = all.lines().map(str::trim_start);
        let told =
            lines.filter(|line| line.strip_prefix(used).is_some_and(|what| what.starts_with("  ")));
        assert_eq!(told.count(), 1, "{used} in lhz --help");
        let command = used.split(' ').nth(1).unwrap();
        let page = folder.lhz(&format!("{command} --help")).answer().to_string();
        let mut shown = page.lines().take_while(|line| !line.is_empty());
        assert!(shown.any(|line| line == used), "{page}");
        assert!(page.ends_with('\n') && page.lines().all(|line| line.len() <= 80), "{page}");
        for line in ["-h", "titles.vol --help", "--help a b c d e f"] {
            assert_eq!(folder.lhz(&format!("{command} {line}")).answer(), page, "{command} {line}");
        }
    }
    let version = folder.lhz("--version").answer().to_string();
    assert_eq!(version, format!("lhz {}\n", env!("CARGO_PKG_VERSION")));
    assert_eq!(folder.lhz("-V").answer(), version);
}

/// The examples of each command's page, over the sample, print what the page shows. A text that a
/// page shows by `cat` is the text that its other examples read.
#[test]
fn examples_print_what_is_shown() {
    for command in COMMANDS {
        let folder = Folder::with_sample();
        let page = folder.lhz(&format!("{command} --help")).answer().to_string();
        let mut run = 0;
        for Example { line, shown } in examples(&page) {
            match line.strip_prefix("cat ") {
                Some(name) => folder.write(name, &shown),
                None => {
                    assert!(line.starts_with(&format!("lhz {command} ")), "{page}");
                    assert_eq!(folder.sh(&line).told(), (0, &*shown, ""), "{line}");
                    run += 1;
                }
            }
        }
        assert!(run > 0, "no example: {page}");
        assert_eq!(folder.read("titles.vol"), sample().volume(), "{page}");
        assert_eq!(folder.read("sample.plan"), plan_bytes(&SAMPLE), "{page}");
        if command == "read" {
            assert_eq!(folder.read("lists.txt"), SAMPLE_LISTS.as_bytes(), "{page}");
        }
    }
}

/// The examples of the page of all commands go from texts to a listing.
#[test]
fn examples_from_texts_to_a_listing() {
    let folder = Folder::new();
    folder.write("lists.txt", SAMPLE_LISTS);
    folder.write("wording.txt", SAMPLE_PLAN);
    let page = folder.lhz("--help").answer().to_string();
    let (_, examples) = page.split_once("\nExamples").unwrap();
    let examples: Vec<&str> = examples.lines().filter_map(|line| line.strip_prefix("  ")).collect();
    let printed: String =
        examples.iter().map(|line| folder.sh(line).answer().to_string()).collect();
    let typed = "scene 1 1 2 0 5 0\nscene 2 1 4 65536 9 65536\ndone 6\n";
    assert_eq!(printed, format!("lists 3 postings 8 blocks 1\n{typed}rows 5\n{SAMPLE_LISTING}"));
}
