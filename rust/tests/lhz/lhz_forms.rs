//! The command `lhz list --names` and `lhz list --json`: listings in words and as JSON, on tables
//! and beside the naive searcher.

use crate::plain::search::Searcher;
use crate::support::command::*;
use crate::support::files::{assert_printed, plan_bytes, word_bytes};
use crate::support::plans::*;
use crate::support::searches::*;
use crate::support::*;
use std::collections::BTreeMap;

/// Runs `lhz` with these arguments, which may have spaces.
fn lhz(folder: &Folder, arguments: &[&str]) -> Ended {
    run(folder.command(LHZ).args(arguments))
}

/// A value of JSON. All numbers here are whole and not below 0.
#[derive(Clone, Debug, PartialEq)]
enum Json {
    Null,
    Bool(bool),
    Number(u64),
    Text(String),
    List(Vec<Json>),
    Object(BTreeMap<String, Json>),
}

impl Json {
    /// The value that a text without blanks is.
    #[track_caller]
    fn of(text: &str) -> Json {
        match Json::first(text) {
            Some((value, "")) => value,
            read => panic!("{text} is no JSON: {read:?}"),
        }
    }

    /// The value that a text starts with, and what stands behind it.
    fn first(text: &str) -> Option<(Json, &str)> {
        for (word, value) in
            [("null", Json::Null), ("true", Json::Bool(true)), ("false", Json::Bool(false))]
        {
            if let Some(rest) = text.strip_prefix(word) {
                return Some((value, rest));
            }
        }
        match text.chars().next()? {
            '"' => Json::text(text).map(|(text, rest)| (Json::Text(text), rest)),
            '[' => Json::items(text, '[', ']', Json::first)
                .map(|(items, rest)| (Json::List(items), rest)),
            '{' => {
                let (fields, rest) = Json::items(text, '{', '}', |text| {
                    let (name, rest) = Json::text(text)?;
                    let (value, rest) = Json::first(rest.strip_prefix(':')?)?;
                    Some(((name, value), rest))
                })?;
                let count = fields.len();
                let fields: BTreeMap<String, Json> = fields.into_iter().collect();
                (fields.len() == count).then_some((Json::Object(fields), rest))
            }
            _ => {
                let (digits, rest) = text.split_at(text.find(|sign: char| !sign.is_ascii_digit())?);
                let leading_zero = digits.len() > 1 && digits.starts_with('0');
                let number = digits.parse().ok().filter(|_| !leading_zero)?;
                Some((Json::Number(number), rest))
            }
        }
    }

    /// What stands between two brackets, with commas between.
    fn items<'a, T>(
        text: &'a str,
        open: char,
        close: char,
        first: impl Fn(&'a str) -> Option<(T, &'a str)>,
    ) -> Option<(Vec<T>, &'a str)> {
        let mut rest = text.strip_prefix(open)?;
        let mut items = vec![];
        while !rest.starts_with(close) {
            if !items.is_empty() {
                rest = rest.strip_prefix(',')?;
            }
            let (item, behind) = first(rest)?;
            items.push(item);
            rest = behind;
        }
        Some((items, rest.strip_prefix(close)?))
    }

    /// A string that a text starts with. Of the signs behind a backslash it takes two.
    fn text(text: &str) -> Option<(String, &str)> {
        let mut signs = text.strip_prefix('"')?.chars();
        let mut told = String::new();
        loop {
            match signs.next()? {
                '"' => return Some((told, signs.as_str())),
                '\\' => told.push(signs.next().filter(|sign| matches!(sign, '"' | '\\'))?),
                '\0'..='\x1f' => return None,
                sign => told.push(sign),
            }
        }
    }

    fn object<const N: usize>(fields: [(&str, Json); N]) -> Json {
        Json::Object(fields.into_iter().map(|(name, value)| (name.to_string(), value)).collect())
    }
}

/// A voice of a figure in a scene, as a row has it: its list, its place and its title start.
struct Shown {
    list: usize,
    place: u32,
    start: u32,
}

/// A row of the naive searcher: the scene and, for each figure that is found, its voices.
fn shown(searcher: &Searcher, row: &[u32]) -> (u32, Vec<Option<Vec<Shown>>>) {
    let mut rest = &row[1..];
    let figure = |lists: &Vec<usize>| {
        let (words, behind) = rest.split_at(1 + 2 * lists.len());
        rest = behind;
        let voice =
            |(&list, pair): (&usize, &[u32])| Shown { list, place: pair[0], start: pair[1] };
        (words[0] == 1).then(|| lists.iter().zip(words[1..].chunks(2)).map(voice).collect())
    };
    (row[0], searcher.patterns.iter().map(|pattern| &pattern.lists).map(figure).collect())
}

/// The words of lists.
type Words<'a> = BTreeMap<usize, &'a str>;

/// What `lhz list --names` prints.
fn in_words(searcher: &Searcher, words: &Words<'_>) -> String {
    let voice = |voice: &Shown| {
        let name = match words.get(&voice.list) {
            Some(word) => word.to_string(),
            None => format!("list {}", voice.list),
        };
        let title = match voice.start {
            65_536 => "in no title".to_string(),
            start => format!("in the title from {start}"),
        };
        format!("{name} at place {} {title}", voice.place)
    };
    let mut lines = String::new();
    for row in &searcher.rows {
        let (scene, figures) = shown(searcher, row);
        lines += &format!("scene {scene}\n");
        for (number, figure) in figures.iter().enumerate() {
            let told = match figure {
                Some(voices) => voices.iter().map(voice).collect::<Vec<String>>().join(", "),
                None => "not found".to_string(),
            };
            lines += &format!("  figure {number}: {told}\n");
        }
    }
    lines + &format!("done {}\n", searcher.tally(0, 65_536))
}

/// What each line of `lhz list --json` says.
fn as_json(searcher: &Searcher, words: &Words<'_>) -> Vec<Json> {
    let voice = |voice: &Shown| {
        let title = match voice.start {
            65_536 => Json::Null,
            start => Json::Number(start.into()),
        };
        let place = Json::Number(voice.place.into());
        match words.get(&voice.list) {
            Some(word) => Json::object([
                ("place", place),
                ("title", title),
                ("word", Json::Text(word.to_string())),
            ]),
            None => Json::object([("place", place), ("title", title)]),
        }
    };
    let figure = |figure: &Option<Vec<Shown>>| match figure {
        Some(voices) => Json::object([
            ("found", Json::Bool(true)),
            ("places", Json::List(voices.iter().map(voice).collect())),
        ]),
        None => Json::object([("found", Json::Bool(false))]),
    };
    let object = |row: &Vec<u32>| {
        let (scene, figures) = shown(searcher, row);
        let figures = Json::List(figures.iter().map(figure).collect());
        Json::object([("scene", Json::Number(scene.into())), ("figures", figures)])
    };
    let tally = Json::Number(searcher.tally(0, 65_536).into());
    let done = Json::object([("done", Json::Bool(true)), ("tally", tally)]);
    searcher.rows.iter().map(object).chain([done]).collect()
}

/// Each form of the listing of `some.vol` by `some.plan` is that of the naive searcher.
#[track_caller]
fn compare(folder: &Folder, case: &str, searcher: &Searcher, words: &Words<'_>) {
    let told: String = words.iter().map(|(list, word)| format!("{list} {word}\n")).collect();
    folder.write("words.txt", told);
    let named = folder.lhz("list --names words.txt some.vol some.plan");
    assert_printed(case, named.answer(), &in_words(searcher, words));
    for (asked, words) in [
        ("list --json some.vol some.plan", &Words::new()),
        ("list --json --names words.txt some.vol some.plan", words),
    ] {
        let ended = folder.lhz(asked);
        let lines: Vec<Json> = ended.answer().lines().map(Json::of).collect();
        assert_eq!(lines, as_json(searcher, words), "{case}: {asked}");
    }
}

/// Options and typed lines over the sample, and the lines that are printed.
const FORMS: [(&[&str], &[&str]); 9] = [
    (
        &["--names", "words.txt", "--line", "[1 2;b 0 1]"],
        &[
            "scene 1",
            "  figure 0: bell at place 2 in the title from 0, sea at place 5 in the title from 0",
            "scene 2",
            "  figure 0: bell at place 4 in no title, sea at place 9 in no title",
            "done 6",
        ],
    ),
    (
        &["--names", "one.txt", "--line", "[1 2;b 0 1]"],
        &[
            "scene 1",
            "  figure 0: list 1 at place 2 in the title from 0, sea at place 5 in the title from 0",
            "scene 2",
            "  figure 0: list 1 at place 4 in no title, sea at place 9 in no title",
            "done 6",
        ],
    ),
    (
        &["--names", "none.txt", "--line", "[2 2;a 0 1 1 1]|[1;t 0 0]"],
        &[
            "scene 1",
            concat!(
                "  figure 0: list 2 at place 5 in the title from 0, ",
                "list 2 at place 7 in the title from 6"
            ),
            "  figure 1: list 1 at place 2 in the title from 0",
            "done 9",
        ],
    ),
    (
        &["--names", "words.txt", "--line", "[1]![2 1;n 0 1 0]"],
        &["scene 2", "  figure 0: bell at place 4 in no title", "  figure 1: not found", "done 9"],
    ),
    (&["--names", "words.txt", "--line", "[1;b 0 0]"], &["done 3"]),
    (
        &["--json", "--line", "[1 2;b 0 1]"],
        &[
            concat!(
                r#"{"scene":1,"figures":[{"found":true,"places":["#,
                r#"{"place":2,"title":0},{"place":5,"title":0}]}]}"#
            ),
            concat!(
                r#"{"scene":2,"figures":[{"found":true,"places":["#,
                r#"{"place":4,"title":null},{"place":9,"title":null}]}]}"#
            ),
            r#"{"done":true,"tally":6}"#,
        ],
    ),
    (
        &["--json", "--line", "[1]![2 1;n 0 1 0]"],
        &[
            concat!(
                r#"{"scene":2,"figures":[{"found":true,"places":[{"place":4,"title":null}]},"#,
                r#"{"found":false}]}"#
            ),
            r#"{"done":true,"tally":9}"#,
        ],
    ),
    (
        &["--json", "--names", "one.txt", "--line", "[1 2;b 0 1;t 0 1]"],
        &[
            concat!(
                r#"{"scene":1,"figures":[{"found":true,"places":["#,
                r#"{"place":2,"title":0},{"place":5,"title":0,"word":"sea"}]}]}"#
            ),
            r#"{"done":true,"tally":6}"#,
        ],
    ),
    (&["--json", "--line", "[1;b 0 0]"], &[r#"{"done":true,"tally":3}"#]),
];

/// The sample, to the byte: words that are told and one that is not, a figure that is not found,
/// and a scene without a title.
#[test]
fn the_sample_in_each_form() {
    let folder = Folder::with_sample();
    folder.write("words.txt", "1 bell\n2 sea\n3 more\n");
    folder.write("one.txt", "2 sea\n");
    folder.write("none.txt", "");
    for (arguments, lines) in FORMS {
        let printed: String = lines.iter().map(|line| format!("{line}\n")).collect();
        let ended = lhz(&folder, &[&["list", "titles.vol"], arguments].concat());
        assert_eq!(ended.told(), (0, &*printed, ""), "{arguments:?}");
    }
}

/// Options stand anywhere among the arguments, with a plan's file and with a typed line, and names
/// may come from standard input.
#[test]
fn options_anywhere() {
    let folder = Folder::with_sample();
    let names = "1 silver\n2 oath\n";
    folder.write("words.txt", names);
    for options in [
        &[&["--json"][..]][..],
        &[&["--names", "words.txt"]],
        &[&["--json"], &["--names", "words.txt"]],
        &[&["--names", "words.txt"], &["--json"]],
    ] {
        let front = [&["list"][..], &options.concat(), &["titles.vol", "sample.plan"]].concat();
        let expected = lhz(&folder, &front).answer().to_string();
        assert_ne!(expected, SAMPLE_LISTING);
        for plan in [&["sample.plan"][..], &["--line", "[1 2;b 0 1;t 0 1]"]] {
            // Each option in each gap between the others, which stay in their order.
            let mut orders = vec![vec![&["titles.vol"][..], plan]];
            if plan.len() == 2 {
                orders.push(vec![plan, &["titles.vol"]]);
            }
            for option in options {
                let with =
                    |order: &Vec<&'static [&'static str]>| -> Vec<Vec<&'static [&'static str]>> {
                        (0..=order.len())
                            .map(|gap| [&order[..gap], &[*option], &order[gap..]].concat())
                            .collect()
                    };
                orders = orders.iter().flat_map(with).collect();
            }
            for order in orders {
                let arguments = [&["list"][..], &order.concat()].concat();
                assert_eq!(lhz(&folder, &arguments).told(), (0, &*expected, ""), "{arguments:?}");
                let given: Vec<&str> = arguments
                    .iter()
                    .map(|&argument| if argument == "words.txt" { "-" } else { argument })
                    .collect();
                let ended = run_given(folder.command(LHZ).args(&given), names.as_bytes());
                assert_eq!(ended.told(), (0, &*expected, ""), "{given:?}");
            }
        }
    }
}

/// Every kind of text that tells words, and words that JSON has to write with care.
#[test]
fn words_of_every_kind() {
    let folder = Folder::with_sample();
    for (names, word, json) in [
        ("1 silver\n", "silver", r#""silver""#),
        ("# list 1: silver\n1:2\n", "silver", r#""silver""#),
        ("\u{feff}1 silver # spent\r\n", "silver", r#""silver""#),
        ("1 silver  oath\n", "silver oath", r#""silver oath""#),
        ("1 \u{e9}toile \u{1f31f}\n", "\u{e9}toile \u{1f31f}", "\"\u{e9}toile \u{1f31f}\""),
        (r#"1 "silver""#, r#""silver""#, r#""\"silver\"""#),
        (r"1 a\b\", r"a\b\", r#""a\\b\\""#),
        (r#"1 \""#, r#"\""#, r#""\\\"""#),
        (r"1 \n{},[]:/'", r"\n{},[]:/'", r#""\\n{},[]:/'""#),
        ("1 list 2", "list 2", r#""list 2""#),
    ] {
        folder.write("names.txt", names);
        let asked = ["list", "--names", "names.txt", "titles.vol", "--line", "[1;t 0 0]"];
        let ended = lhz(&folder, &asked);
        let line = format!("  figure 0: {word} at place 2 in the title from 0\n");
        assert_eq!(ended.told(), (0, &*format!("scene 1\n{line}done 3\n"), ""), "{names:?}");
        let ended = lhz(&folder, &[&asked[..], &["--json"]].concat());
        let lines: Vec<&str> = ended.answer().lines().collect();
        let place = format!(r#"{{"place":2,"title":0,"word":{json}}}"#);
        let figure = format!(r#"{{"found":true,"places":[{place}]}}"#);
        assert_eq!(lines[0], format!(r#"{{"scene":1,"figures":[{figure}]}}"#), "{names:?}");
        assert!(Json::text(json) == Some((word.to_string(), "")), "{names:?}");
    }
}

/// Eight figures of which some are found and some are not, with places before the first title, at
/// its start and behind it, in scenes with titles, without one, and with one at the last place.
#[test]
fn eight_figures() {
    let folder = Folder::new();
    let lists: [&[(u32, u32)]; 5] = [
        &[(3, 5), (3, 9), (7, 0), (9, 65_535)],
        &[(3, 0), (3, 4), (3, 5), (3, 8), (3, 9), (7, 0), (8, 6), (9, 65_534), (9, 65_535)],
        &[(3, 9), (8, 65_535), (9, 0)],
        &[(3, 4), (7, 65_535), (9, 65_535)],
        &[],
    ];
    let figures = [
        vec![voice(1), END],
        vec![voice(4), END],
        vec![voice(1), voice(1), before(0, 1), END],
        vec![voice(2), same_title(0, 0), END],
        vec![voice(3), voice(1), voice(2), END],
        vec![voice(1), voice(1), near(0, 1, 0), before(0, 1), same_title(0, 1), END],
        vec![voice(3), same_title(0, 0), END],
        vec![voice(2), END],
    ];
    let rows = [&figures.concat()[..], &[EITHER; 7]].concat();
    let subject = Subject::over(&lists, &rows);
    folder.write("some.vol", subject.volume());
    folder.write("some.plan", plan_bytes(&rows));
    let searcher = subject.searcher();
    assert_eq!(searcher.rows.len(), 4);
    for words in [&[][..], &[(1, "one"), (2, "two"), (3, "three")], &[(0, "starts"), (3, "three")]]
    {
        compare(&folder, "eight figures", searcher, &words.iter().copied().collect());
    }
    let ended = folder.lhz("list --names /dev/null some.vol some.plan");
    let scene = ended.answer().split("scene ").find(|scene| scene.starts_with("3\n")).unwrap();
    let expected = "3\n  \
        figure 0: list 1 at place 0 in no title\n  \
        figure 1: not found\n  \
        figure 2: list 1 at place 0 in no title, list 1 at place 4 in no title\n  \
        figure 3: list 2 at place 9 in the title from 9\n  \
        figure 4: list 3 at place 4 in no title, list 1 at place 0 in no title, \
                  list 2 at place 9 in the title from 9\n  \
        figure 5: not found\n  \
        figure 6: not found\n  \
        figure 7: list 2 at place 9 in the title from 9\n";
    assert_eq!(scene, expected);
}

/// Volumes and plans as they come, with words for some of the lists.
#[test]
fn random_listings_in_each_form() {
    let seed = 8_012;
    let mut rng = Rng::new(seed);
    let folder = Folder::new();
    let pool = ["silver", "two words", "\"quoted\"", "back\\slash", "\u{e9}t\u{e9}", "a, b", "{}"];
    let [mut scenes, mut in_none, mut not_found] = [0; 3];
    for round in 0..150 {
        let subject = random_subject(&mut rng);
        folder.write("some.vol", subject.volume());
        folder.write("some.plan", word_bytes(subject.plan()));
        let lists = subject.searcher().lists.len().min(12);
        let mut words = Words::new();
        for list in 0..lists {
            if rng.below(3) > 0 {
                words.insert(list, rng.pick(&pool));
            }
        }
        let case = format!("seed {seed}, round {round}");
        compare(&folder, &case, subject.searcher(), &words);
        let told = in_words(subject.searcher(), &words);
        scenes += subject.searcher().rows.len();
        in_none += told.matches("in no title").count();
        not_found += told.matches("not found").count();
    }
    assert!(scenes > 130 && in_none > 130 && not_found > 70, "{scenes} {in_none} {not_found}");
}

/// More scenes than a call of the command lists.
#[test]
fn several_pages_in_each_form() {
    let folder = Folder::new();
    let count = lihambozy::Search::PAGE_ROWS as u32 + 1;
    let word: Vec<u32> = (0..count).map(|scene| scene * 65_536 + 9).collect();
    let starts: Vec<u32> = word.iter().step_by(2).map(|posting| posting - 9).collect();
    folder.write("some.vol", Lists::new(&[starts, word]).volume());
    folder.write("some.plan", plan_bytes(&[voice(1), END]));
    let has_title = |scene: u32| scene.is_multiple_of(2);
    let words: String = (0..count)
        .map(|scene| {
            let title = if has_title(scene) { "in the title from 0" } else { "in no title" };
            format!("scene {scene}\n  figure 0: list 1 at place 9 {title}\n")
        })
        .collect();
    let ended = folder.lhz("list --names /dev/null some.vol some.plan");
    assert_printed("in words", ended.answer(), &format!("{words}done {count}\n"));
    let ended = folder.lhz("list --json some.vol some.plan");
    let objects: String = (0..count)
        .map(|scene| {
            let title = if has_title(scene) { "0" } else { "null" };
            let place = format!(r#"{{"place":9,"title":{title}}}"#);
            let figure = format!(r#"{{"found":true,"places":[{place}]}}"#);
            format!(r#"{{"scene":{scene},"figures":[{figure}]}}"#) + "\n"
        })
        .collect();
    let done = format!(r#"{{"done":true,"tally":{count}}}"#);
    assert_printed("as JSON", ended.answer(), &format!("{objects}{done}\n"));
}

/// What is refused is told as by `lhz list` without options.
#[test]
fn refusals_are_those_of_a_plain_listing() {
    let folder = Folder::with_sample();
    folder.write("words.txt", "1 silver\n");
    folder.write("wrong.txt", "silver\n");
    folder.write("bad.vol", "x");
    folder.write("bad.plan", "x");
    folder.write("unknown.plan", [12, 0, 0, 0].repeat(4));
    for asked in [
        "bad.vol sample.plan",
        "bad.vol bad.plan",
        "titles.vol bad.plan",
        "titles.vol unknown.plan",
        "titles.vol --line [3]",
        "titles.vol --line [1",
        "titles.vol --line (((((((((",
        "absent.vol sample.plan",
        "titles.vol absent.plan",
    ] {
        let plain = folder.lhz(&format!("list {asked}"));
        assert_ne!(plain.status, 0, "{asked}");
        for options in
            ["--json", "--names words.txt", "--json --names words.txt", "--names wrong.txt"]
        {
            let ended = folder.lhz(&format!("list {options} {asked}"));
            assert_eq!(ended.told(), plain.told(), "{options} {asked}");
        }
    }
}

/// A mistake in the names is told with its line and column, behind all that is refused. Nothing is
/// printed.
#[test]
fn mistakes_in_names() {
    let folder = Folder::with_sample();
    for json in ["", "--json "] {
        for (names, mistake) in [
            ("1 silver\n1 gold\n", "2:3: list 1 is `silver` already"),
            ("silver\n", "1:1: `silver` is no posting of a list and no number of one"),
            ("1\n", "1:2: the word of list 1 is missing"),
            ("1 a\u{7}b\n", "1:3: the word has a sign that cannot be printed"),
        ] {
            folder.write("names.txt", names);
            let ended = folder.lhz(&format!("list {json}--names names.txt titles.vol sample.plan"));
            assert_eq!(ended.failure(1, ""), format!("names.txt:{mistake}"));
            let asked = format!("list {json}--names - titles.vol --line [1]");
            let ended = folder.lhz_given(&asked, names.as_bytes());
            assert_eq!(ended.failure(1, ""), format!("standard input:{mistake}"));
        }
        let ended = folder.lhz(&format!("list {json}--names absent.txt titles.vol sample.plan"));
        assert!(ended.failure(2, "").starts_with("absent.txt: "));
    }
}
