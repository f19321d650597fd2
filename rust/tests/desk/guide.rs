//! The guide, and the archive that it works on. Every command of `docs/GUIDE.md` is run, in order,
//! in one folder that starts as a copy of `examples/evening`, and what it prints is what the guide
//! shows; what the guide quotes of the archive is there. The commands of `README.md` are run too.
//! The archive's files are what the commands make of its texts, its listings are those of the naive
//! searcher, and its lists are those of its wording.

use crate::plain::search::Searcher;
use crate::support::files::{bytes, files, names, repository, text, Folder};
use std::fs;

/// The commands of `lhz`.
const COMMANDS: [&str; 9] =
    ["check", "list", "matches", "read", "test", "write", "join", "plan", "show"];
/// The commands that take a typed line.
const OF_LINES: [&str; 6] = ["check", "list", "matches", "test", "plan", "show"];
/// What the guide's commands that are not run start with.
const NOT_RUN: [&str; 5] = ["make", "export", "cp", "cd", "cc"];
/// The plans of the archive.
const PLANS: [&str; 8] =
    ["1-word", "2-near", "3-order", "4-span", "5-joined", "6-apart", "7-screen", "8-some"];
/// How a typed line starts, in quotes.
const STARTS: [&str; 3] = [" --line '[", " --line '(", " --line '<"];
/// What stands in the wording above words that are spoken, with no title on the screen.
const SPOKEN: &str = "(spoken)";

/// A fresh copy of the archive.
fn desk() -> Folder {
    let (archive, desk) = (repository("examples/evening"), Folder::new());
    fs::create_dir(desk.path("plans")).unwrap();
    for file in files(&archive) {
        fs::copy(archive.join(&file), desk.path(&file)).unwrap();
    }
    desk
}

/// Runs a command at the desk, with the status of the one before it: what it prints, standard error
/// too, and its status.
fn run(desk: &Folder, last: i32, command: &str) -> (String, i32) {
    let ended = desk.sh(&format!("export LC_ALL=C\nexec 2>&1\n(exit {last})\n{command}\n"));
    let (status, printed, _) = ended.told();
    assert!(status >= 0, "`{command}` is ended by a signal");
    (printed.to_string(), status)
}

/// A box of the guide: the line of its first mark, what stands behind that, and what is inside.
struct Fenced<'a> {
    line: usize,
    kind: &'a str,
    inside: Vec<&'a str>,
}

fn boxes(guide: &str) -> Vec<Fenced<'_>> {
    let mut boxes: Vec<Fenced<'_>> = vec![];
    let mut open = false;
    for (number, line) in (1..).zip(guide.lines()) {
        match line.strip_prefix("```") {
            Some("") if open => open = false,
            Some(kind) => {
                assert!(!open, "line {number}: the box above is not closed");
                open = true;
                boxes.push(Fenced { line: number, kind, inside: vec![] });
            }
            None if open => boxes.last_mut().unwrap().inside.push(line),
            None => {}
        }
    }
    assert!(!open, "the last box is not closed");
    boxes
}

/// The lines of the guide that are in no box, joined.
fn prose(guide: &str) -> String {
    let mut inside = false;
    let outside = guide.lines().filter(|line| {
        let mark = line.starts_with("```");
        inside ^= mark;
        !inside && !mark
    });
    outside.collect::<Vec<&str>>().join("\n")
}

/// A command of the guide, with the lines shown below it.
struct Typed {
    line: usize,
    command: String,
    shown: String,
}

/// The commands of a box: each line `$ command`, carried on by the lines `> more` right below it.
fn typed(console: &Fenced<'_>) -> Vec<Typed> {
    let mut commands: Vec<Typed> = vec![];
    let mut carries_on = false;
    for (line, text) in (console.line + 1..).zip(&console.inside) {
        if let Some(command) = text.strip_prefix("$ ") {
            commands.push(Typed { line, command: command.into(), shown: String::new() });
            carries_on = true;
            continue;
        }
        let Some(last) = commands.last_mut() else {
            panic!("line {line}: no command stands above it");
        };
        match text.strip_prefix('>') {
            Some(more) if carries_on => {
                last.command += "\n";
                last.command += more.strip_prefix(' ').unwrap_or(more);
            }
            _ => {
                carries_on = false;
                last.shown += text;
                last.shown += "\n";
            }
        }
    }
    commands
}

/// Runs the commands of a page at a fresh desk and compares what they print: the commands run.
fn follow(page: &str) -> Vec<String> {
    let desk = desk();
    let mut ran: Vec<String> = vec![];
    let (mut last, mut last_line) = (0, 0);
    for fenced in boxes(page) {
        let line = fenced.line;
        match fenced.kind {
            "console" => {
                let commands = typed(&fenced);
                assert!(!commands.is_empty(), "line {line}: a box without a command");
                for Typed { line, command, shown } in commands {
                    assert!(
                        last == 0 || command == "echo $?",
                        "line {last_line}: the command ends with {last}, which is not shown"
                    );
                    let (printed, status) = run(&desk, last, &command);
                    assert_eq!(printed, shown, "line {line}: {command}");
                    (last, last_line) = (status, line);
                    ran.push(command);
                }
            }
            "sh" => {
                for command in &fenced.inside {
                    let first = command.split_whitespace().next().unwrap_or_default();
                    assert!(NOT_RUN.contains(&first), "line {line}: `{command}` is not run");
                }
            }
            "text" | "toml" | "rust" => {
                let command = fenced.inside.iter().find(|line| line.starts_with("$ "));
                assert!(command.is_none(), "line {line}: {command:?} is not run");
            }
            kind => panic!("line {line}: a box of another kind, `{kind}`"),
        }
    }
    assert_eq!(last, 0, "line {last_line}: the last command's status is not shown");
    ran
}

/// Whether a command is given a typed line, in quotes.
fn has_line(command: &str) -> bool {
    STARTS.iter().any(|start| command.contains(start))
}

/// A page's first search is that of a typed line.
fn first_search_is_typed(ran: &[String]) {
    let first = ran.iter().find(|command| command.starts_with("lhz list "));
    assert!(first.is_some_and(|command| has_line(command)), "{first:?}");
}

#[test]
fn the_guide_shows_what_its_commands_print() {
    let ran = follow(&text(repository("docs/GUIDE.md")));
    for name in COMMANDS {
        let start = format!("lhz {name} ");
        assert!(ran.iter().any(|command| command.starts_with(&start)), "{start}is never run");
    }
    for name in OF_LINES {
        let start = format!("lhz {name} ");
        let typed = |command: &String| command.starts_with(&start) && has_line(command);
        assert!(ran.iter().any(typed), "{start}is run with no typed line");
    }
    for start in STARTS {
        assert!(ran.iter().any(|command| command.contains(start)), "{start} is never typed");
    }
    for start in ["lhz list --names ", "lhz list --json "] {
        assert!(ran.iter().any(|command| command.starts_with(start)), "{start}is never run");
    }
    first_search_is_typed(&ran);
    assert!(ran.len() >= 70, "{} commands ran", ran.len());
}

#[test]
fn the_readme_shows_what_its_commands_print() {
    let ran = follow(&text(repository("README.md")));
    first_search_is_typed(&ran);
}

#[test]
fn the_files_are_what_the_commands_make() {
    let archive = repository("examples/evening");
    assert_eq!(names(&archive), ["evening.vol", "lists.txt", "plans", "wording.md"]);
    let kinds = ["line", "listing", "plan", "txt"];
    let files = PLANS.iter().flat_map(|plan| kinds.map(|kind| format!("{plan}.{kind}")));
    assert_eq!(names(archive.join("plans")), files.collect::<Vec<String>>());

    let desk = desk();
    let same = |name: &str, command: &str| {
        fs::remove_file(desk.path(name)).unwrap();
        let (printed, status) = run(&desk, 0, command);
        assert_eq!(status, 0, "{command}: {printed}");
        assert!(desk.read(name) == bytes(archive.join(name)), "{command}: {name} differs");
    };
    same("evening.vol", "lhz write lists.txt evening.vol");
    for plan in PLANS {
        let file = format!("plans/{plan}");
        same(&format!("{file}.plan"), &format!("lhz plan {file}.txt {file}.plan"));
        same(
            &format!("{file}.line"),
            &format!("lhz show --line evening.vol {file}.plan > {file}.line"),
        );
        same(
            &format!("{file}.plan"),
            &format!("lhz plan --line \"$(cat {file}.line)\" {file}.plan"),
        );
        same(
            &format!("{file}.listing"),
            &format!("lhz list evening.vol {file}.plan > {file}.listing"),
        );
    }
}

#[test]
fn the_listings_are_those_of_the_naive_searcher() {
    let archive = repository("examples/evening");
    let volume = bytes(archive.join("evening.vol"));
    for plan in PLANS {
        let file = |kind: &str| archive.join(format!("plans/{plan}.{kind}"));
        let words: Vec<u32> = bytes(file("plan"))
            .chunks(4)
            .map(|word| u32::from_le_bytes(word.try_into().unwrap()))
            .collect();
        let searcher = Searcher::new(&volume, &words).unwrap();
        assert_eq!(text(file("listing")), searcher.printed(), "{plan}");
    }
}

/// A scene of the wording: its number, the places at which titles start, and its words by place.
struct Scene {
    number: u32,
    starts: Vec<usize>,
    words: Vec<String>,
}

/// The words of a line, each with its column.
fn columns(line: &str) -> Vec<(usize, &str)> {
    let start = |word: &str| word.as_ptr() as usize - line.as_ptr() as usize;
    line.split_whitespace().map(|word| (start(word), word)).collect()
}

/// A word of the wording as lists take it: without capitals, and without the sign behind it.
fn spelled(word: &str) -> String {
    let word = word.trim_end_matches([',', '.', '?']).to_lowercase();
    assert!(!word.is_empty() && word.bytes().all(|byte| byte.is_ascii_lowercase()), "`{word}`");
    word
}

/// What stands in the box of a scene, parted by empty lines: whether it is spoken, and the lines of
/// places and of words by turns.
fn lead_in_and_titles<'a>(fenced: &'a Fenced<'_>) -> Vec<(bool, &'a [&'a str])> {
    let part = |lines: &'a [&'a str]| match lines {
        [first, rest @ ..] if *first == SPOKEN => (true, rest),
        _ => (false, lines),
    };
    fenced.inside.split(|line| line.is_empty()).map(part).collect()
}

/// The scenes of the wording. Under each heading stands one box; in it a line of places stands
/// above each line of words, and an empty line parts two titles. What is spoken starts no title,
/// and stands in front of all titles.
fn scenes(wording: &str) -> Vec<Scene> {
    let headings: Vec<&str> =
        wording.lines().filter_map(|line| line.strip_prefix("## Scene ")).collect();
    let boxes = boxes(wording);
    assert_eq!(headings.len(), boxes.len(), "each scene has one box");
    let scene = |(heading, fenced): (&str, Fenced<'_>)| {
        let number = heading.parse().unwrap_or_else(|_| panic!("no number: `{heading}`"));
        let mut scene = Scene { number, starts: vec![], words: vec![] };
        for (spoken, part) in lead_in_and_titles(&fenced) {
            assert!(!part.is_empty() && part.len() % 2 == 0, "scene {number}: {part:?}");
            match spoken {
                true => assert_eq!(scene.starts, [], "scene {number}: {part:?}"),
                false => scene.starts.push(scene.words.len()),
            }
            for lines in part.chunks(2) {
                let (places, words) = (columns(lines[0]), columns(lines[1]));
                assert_eq!(places.len(), words.len(), "scene {number}: {lines:?}");
                for ((column, place), (below, word)) in places.into_iter().zip(words) {
                    assert_eq!(column, below, "scene {number}: {lines:?}");
                    assert_eq!(place, scene.words.len().to_string(), "scene {number}: {lines:?}");
                    scene.words.push(spelled(word));
                }
            }
        }
        scene
    };
    headings.into_iter().zip(boxes).map(scene).collect()
}

#[test]
fn the_lists_are_those_of_the_wording() {
    let archive = repository("examples/evening");
    let scenes = scenes(&text(archive.join("wording.md")));
    assert!(scenes.windows(2).all(|pair| pair[0].number < pair[1].number), "the scenes rise");
    assert!(scenes.len() >= 8, "{} scenes", scenes.len());
    let lead_ins = scenes.iter().filter(|scene| scene.starts.first() != Some(&0)).count();
    assert!(lead_ins >= 2, "{lead_ins} scenes begin with words that are spoken");

    // A comment with number and word stands above each list.
    let lists = text(archive.join("lists.txt"));
    let lines: Vec<&str> = lists.lines().collect();
    assert!(lines.len().is_multiple_of(2) && lines.len() >= 2 * 12, "{} lines", lines.len());
    for (list, pair) in lines.chunks(2).enumerate() {
        let comment = format!("# list {list}: ");
        let word = pair[0].strip_prefix(&comment);
        let word = word.unwrap_or_else(|| panic!("`{}` is not above list {list}", pair[0]));
        let of_scene = |scene: &Scene| -> Vec<String> {
            let places: Vec<usize> = match list {
                0 => scene.starts.clone(),
                _ => (0..scene.words.len()).filter(|&k| scene.words[k] == word).collect(),
            };
            places.iter().map(|place| format!("{}:{place}", scene.number)).collect()
        };
        let mut postings: Vec<String> = scenes.iter().flat_map(of_scene).collect();
        if postings.is_empty() {
            postings.push("-".into());
        }
        assert_eq!(pair[1], postings.join(" "), "list {list}, {word}");
    }
}

#[test]
fn the_guide_quotes_what_is_there() {
    let archive = repository("examples/evening");
    let guide = text(repository("docs/GUIDE.md"));
    let wording = text(archive.join("wording.md"));
    let inside = |fenced: &Fenced<'_>| fenced.inside.join("\n") + "\n";

    // The boxes: first the end of what `make` prints, then parts of the wording.
    let mut shown = boxes(&guide).into_iter().filter(|fenced| fenced.kind == "text");
    let make = inside(&shown.next().unwrap());
    let last = make.strip_prefix(&text(repository("crates/lister/stdout"))).unwrap().trim_end();
    assert!(text(repository("Makefile")).contains(&format!("@echo '{last}'")), "`{last}`");
    let parts: Vec<String> = shown.map(|fenced| inside(&fenced)).collect();
    assert!(!parts.is_empty(), "nothing of the wording is shown");
    for part in parts {
        assert!(wording.contains(&part), "this is not in the wording:\n{part}");
    }

    // Rows of listings, between single marks.
    let prose = prose(&guide);
    let listing = |plan: &str| text(archive.join(format!("plans/{plan}.listing")));
    let listings: String = PLANS.iter().map(|plan| listing(plan)).collect();
    let quoted = prose.split('`').skip(1).step_by(2).map(|quoted| quoted.replace('\n', " "));
    let rows: Vec<String> = quoted.filter(|quoted| quoted.starts_with("scene ")).collect();
    assert!(rows.len() >= 10, "{} rows", rows.len());
    for row in rows {
        assert!(listings.lines().any(|line| line == row), "`{row}` is in no listing");
    }

    // Titles, in the last column of a table, with the words that are found in bold.
    let joined = |line: &&str| line.split_whitespace().collect::<Vec<&str>>().join(" ");
    let shown = |fenced: &Fenced<'_>| -> Vec<String> {
        let titles = lead_in_and_titles(fenced).into_iter().filter(|(spoken, _)| !spoken);
        titles.flat_map(|(_, lines)| lines.iter().map(joined)).collect()
    };
    let screen: Vec<String> = boxes(&wording).iter().flat_map(shown).collect();
    let in_table = |line: &&str| line.starts_with('|') && line.contains("**");
    let titles: Vec<&str> = prose.lines().filter(in_table).collect();
    assert!(titles.len() >= 7, "{} titles", titles.len());
    for row in titles {
        let title = row.trim_end_matches(" |").rsplit("| ").next().unwrap().replace("**", "");
        for line in title.split(" / ") {
            assert!(screen.iter().any(|shown| shown == line), "`{line}` is in no title");
        }
    }
}

#[test]
fn the_links_lead_to_files_and_the_names_to_statements() {
    let guide = text(repository("docs/GUIDE.md"));
    let (mut links, mut names) = (0, 0);
    for (end, _) in guide.match_indices("](") {
        let target = guide[end + 2..].split(')').next().unwrap();
        let file = repository("docs").join(target);
        assert!(file.is_file(), "{target} is not there");
        links += 1;
        if !target.ends_with("/Demands.antt") {
            continue;
        }
        // In front of the link stand the names of statements in that file.
        let statements = text(&file);
        let start = guide[..end].rfind("(`").expect("names stand in front of it");
        for name in guide[start..end].split('`').skip(1).step_by(2) {
            let stated = [format!("pub {name} : Type 0"), format!("pub record {name} : Type 0")];
            assert!(stated.iter().any(|line| statements.contains(line)), "{name} in {target}");
            names += 1;
        }
    }
    assert!(links >= 10 && names >= 8, "{links} links, {names} names");
}
