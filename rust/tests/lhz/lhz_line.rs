//! The command `lhz` with a typed line in place of a plan: it answers as with the plan's file,
//! wherever the option stands, and a line that is refused is shown with its byte marked and with
//! what could stand there.

use crate::support::command::*;
use crate::support::files::plan_bytes;
use crate::support::plans::*;
use crate::support::*;
use std::ffi::OsStr;
use std::os::unix::ffi::OsStrExt;

/// Runs `lhz` with these arguments, which may have spaces.
fn lhz(folder: &Folder, arguments: &[&str]) -> Ended {
    run(folder.command(LHZ).args(arguments))
}

/// Lines with the text of their plans, over the sample, and the line that is written of them.
const LINES: [(&str, &str, &str); 13] = [
    ("[1]", "VOICE 1\nEND\n", "[1]"),
    ("([2])", "VOICE 2\nEND\n", "[2]"),
    ("[1 2;b 0 1;t 0 1]", SAMPLE_PLAN, "[1 2;b 0 1;t 0 1]"),
    ("[1 2;n 1 0 65535]", "VOICE 1\nVOICE 2\nNEAR 1 0 65535\nEND\n", "[1 2;n 1 0 65535]"),
    ("[2 1;s 65536]", "VOICE 2\nVOICE 1\nSPAN 65536\nEND\n", "[2 1;s 65536]"),
    ("[1 1;a 0 1 5 65535]", "VOICE 1\nVOICE 1\nAPART 0 1 5 65535\nEND\n", "[1 1;a 0 1 5 65535]"),
    (
        "[1 2;b 0 1]|([2]&[1])",
        "VOICE 1\nVOICE 2\nBEFORE 0 1\nEND\nVOICE 2\nEND\nVOICE 1\nEND\nBOTH\nEITHER\n",
        "[1 2;b 0 1]|[2]&[1]",
    ),
    (
        "[1]&[2]![1 2;n 0 1 0]",
        "VOICE 1\nEND\nVOICE 2\nEND\nBOTH\nVOICE 1\nVOICE 2\nNEAR 0 1 0\nEND\nFIRST NOT SECOND\n",
        "[1]&[2]![1 2;n 0 1 0]",
    ),
    (
        "[1]!([2]&[1])",
        "VOICE 1\nEND\nVOICE 2\nEND\nVOICE 1\nEND\nBOTH\nFIRST NOT SECOND\n",
        "[1]!([2]&[1])",
    ),
    (
        "((([1]|[2]))&[1 2])",
        "VOICE 1\nEND\nVOICE 2\nEND\nEITHER\nVOICE 1\nVOICE 2\nEND\nBOTH\n",
        "([1]|[2])&[1 2]",
    ),
    (
        "[1]|(([2])|[1])|[2]",
        "VOICE 1\nEND\nVOICE 2\nEND\nVOICE 1\nEND\nEITHER\nEITHER\nVOICE 2\nEND\nEITHER\n",
        "[1]|([2]|[1])|[2]",
    ),
    (
        "<2:([1]),([2]|[1]),[1 2;b 1 0]>",
        "VOICE 1\nEND\nVOICE 2\nEND\nVOICE 1\nEND\nEITHER\nVOICE 1\nVOICE 2\nBEFORE 1 0\nEND\n\
         AT LEAST 2 3\n",
        "<2:[1],[2]|[1],[1 2;b 1 0]>",
    ),
    (
        "[1]!(<2:[2],<1:[1],[2]>>)",
        "VOICE 1\nEND\nVOICE 2\nEND\nVOICE 1\nEND\nVOICE 2\nEND\nAT LEAST 1 2\nAT LEAST 2 2\n\
         FIRST NOT SECOND\n",
        "[1]!<2:[2],<1:[1],[2]>>",
    ),
];

/// Each command that takes a plan prints the same of a line as of the plan's file, wherever the
/// line stands among its arguments.
#[test]
fn lines_answer_as_their_plans() {
    let folder = Folder::with_sample();
    for (line, rows, _) in LINES {
        let count = format!("rows {}\n", rows.lines().count());
        assert_eq!(folder.lhz_given("plan - file.plan", rows.as_bytes()).answer(), count);
        for arguments in [["plan", "--line", line, "p"], ["plan", "p", "--line", line]] {
            assert_eq!(lhz(&folder, &arguments).answer(), count, "{line}");
            assert_eq!(folder.read("p"), folder.read("file.plan"), "{line}");
        }
        assert_eq!(lhz(&folder, &["show", "--line", line]).answer(), rows, "{line}");
        for asked in [
            "check titles.vol P",
            "list titles.vol P",
            "matches titles.vol P 0 1",
            "matches titles.vol P 0 2 4",
            "matches titles.vol P 0 1 0 6",
            "matches titles.vol P 1 1",
            "matches titles.vol P 9 1",
            "test titles.vol P 0 1 2",
            "test titles.vol P 0 1 2 5",
            "test titles.vol P 0 65536 2 5",
            "show titles.vol P 0",
            "show titles.vol P 1",
        ] {
            let of_file = folder.lhz(&asked.replace('P', "file.plan"));
            let words: Vec<&str> = asked.split(' ').filter(|&word| word != "P").collect();
            for place in 1..=words.len() {
                let (front, behind) = words.split_at(place);
                let typed = lhz(&folder, &[front, &["--line", line], behind].concat());
                let (status, stdout, stderr) = of_file.told();
                let stderr = stderr.replace("file.plan: ", "--line: ");
                assert_eq!(typed.told(), (status, stdout, &*stderr), "{line}, {asked}, {place}");
            }
        }
    }
}

/// A plan is told as its line, from its file and from another line for it, and read again from
/// what is told.
#[test]
fn plans_are_told_as_lines() {
    let folder = Folder::with_sample();
    for (line, rows, told) in LINES {
        let told_line = format!("{told}\n");
        folder.lhz_given("plan - file.plan", rows.as_bytes()).answer();
        for asked in [
            "show --line titles.vol file.plan",
            "show titles.vol --line file.plan",
            "show titles.vol file.plan --line",
        ] {
            assert_eq!(folder.lhz(asked).answer(), told_line, "{asked}");
        }
        for typed in [line, told] {
            for arguments in [
                ["--line", "titles.vol", "--line", typed],
                ["titles.vol", "--line", typed, "--line"],
                ["--line", typed, "titles.vol", "--line"],
            ] {
                let ended = lhz(&folder, &[&["show"][..], &arguments].concat());
                assert_eq!(ended.answer(), told_line, "{arguments:?}");
            }
        }
        assert_eq!(lhz(&folder, &["show", "--line", told]).answer(), rows, "{line}");
    }
}

/// Random plans: the line that is shown of one is written as the same plan.
#[test]
fn random_plans_there_and_back() {
    let seed = 5_120;
    let mut rng = Rng::new(seed);
    let folder = Folder::new();
    folder.write("some.vol", Lists::new(&vec![[]; 1_024]).volume());
    let mut brackets = 0;
    for round in 0..60 {
        let rows = random_plan(&mut rng, 1_024);
        folder.write("some.plan", plan_bytes(&rows));
        let shown = folder.lhz("show --line some.vol some.plan");
        let line = shown.answer().strip_suffix('\n').unwrap();
        let case = format!("seed {seed}, round {round}: {line}");
        let written = lhz(&folder, &["plan", "new.plan", "--line", line]);
        assert_eq!(written.answer(), format!("rows {}\n", rows.len()), "{case}");
        assert_eq!(folder.read("new.plan"), plan_bytes(&rows), "{case}");
        brackets += usize::from(line.contains('('));
    }
    assert!(brackets > 10, "{brackets}");
}

/// What is told of a line that is refused at a byte: the sentence, and two lines with the mark.
#[track_caller]
fn marked(ended: &Ended, number: u32, at: usize) -> (String, String, String) {
    let (status, stdout, stderr) = ended.told();
    assert_eq!((status, stdout), (1, &*format!("refused {number} {at}\n")), "{stderr}");
    let lines: Vec<&str> = stderr.split('\n').collect();
    let [sentence, line, caret, ""] = lines[..] else { panic!("not three lines: {stderr:?}") };
    let sentence = sentence.strip_prefix("lhz: --line: ").expect(stderr);
    let sentence = sentence.strip_suffix(&format!(" (refused {number} {at})")).expect(stderr);
    let indented = |line: &str| line.strip_prefix("  ").expect(stderr).to_string();
    (sentence.to_string(), indented(line), indented(caret))
}

/// Each command shows the line with a caret under the byte, and says what could stand there.
/// Nothing is written.
#[test]
fn refused_lines_are_shown() {
    let folder = Folder::with_sample();
    let before = folder.names();
    let behind_item = "`&`, `!`, `|` or the end of the line";
    let behind_last = "a space, `;` or `]`";
    for (line, at, byte, could) in [
        ("[1 2;n 0 1]", 10, "`]`", "a digit or a space"),
        ("[1 ]", 3, "`]`", "a digit"),
        ("[01]", 2, "`1`", behind_last),
        ("[65537]", 5, "`7`", "0 to 6, a space, `;` or `]`"),
        ("[655360]", 6, "`0`", behind_last),
        ("[1;a 0 0 65536 0]", 13, "`6`", "0 to 5 or a space"),
        ("[1;n 0 1 2 3]", 10, "a space", "a digit, `;` or `]`"),
        ("[1;x", 3, "`x`", "`n`, `b`, `t`, `s` or `a`"),
        ("[1]&&[2]", 4, "`&`", "`[`, `(` or `<`"),
        ("[1])", 3, "`)`", behind_item),
        ("(((((((([1](", 11, "`(`", "`&`, `!`, `|` or `)`"),
        ("[1]|", 4, "", "`[`, `(` or `<`"),
        ("([1]", 4, "", "`&`, `!`, `|` or `)`"),
        ("[65536", 6, "", behind_last),
        ("<9:[1],[2]>", 1, "`9`", "1 to 8"),
        ("<12:[1],[2]>", 2, "`2`", "`:`"),
        ("<2:", 3, "", "`[`, `(` or `<`"),
        ("<2:[1]>", 6, "`>`", "`&`, `!`, `|` or `,`"),
        ("<3:[1],[2]>", 10, "`>`", "`&`, `!`, `|` or `,`"),
        ("<2:[1],[2])", 10, "`)`", "`&`, `!`, `|`, `,` or `>`"),
        ("<1:[1],[1],[1],[1],[1],[1],[1],[1],[1]>", 34, "`,`", "`&`, `!`, `|` or `>`"),
        ("<2:[1],[2]>,", 11, "`,`", behind_item),
        ("((((((((([1])))))))))", 8, "a ninth", "`[`"),
        ("[1]|(((((((((x", 12, "a ninth", "`[`"),
        ("<1:<1:<1:<1:<1:<1:<1:<1:([1]", 24, "a ninth", "`[`"),
        ("((((((((<1:[1]", 8, "a ninth <", "`[`"),
    ] {
        let at_byte = format!("at byte {at}, counted from 0");
        let (number, sentence) = match byte {
            "" => (21, format!("the line cannot end {at_byte}; {could} could stand there")),
            "a ninth" | "a ninth <" => {
                let sign = if byte == "a ninth" { "round bracket" } else { "`<`" };
                let told = format!("the {sign} {at_byte}, is opened inside eight open ones");
                (22, format!("{told}; {could} could stand there"))
            }
            _ => (21, format!("{byte} cannot stand {at_byte}; {could} could")),
        };
        for arguments in [
            &["check", "titles.vol", "--line", line][..],
            &["list", "--line", line, "titles.vol"],
            &["matches", "titles.vol", "--line", line, "0", "1"],
            &["test", "titles.vol", "--line", line, "0", "1", "2"],
            &["show", "--line", line],
            &["show", "titles.vol", "--line", line, "0"],
            &["show", "--line", "titles.vol", "--line", line],
            &["plan", "--line", line, "new.plan"],
            &["plan", "--line", line, "sample.plan"],
        ] {
            let ended = lhz(&folder, arguments);
            let caret = " ".repeat(at) + "^";
            assert_eq!(marked(&ended, number, at), (sentence.clone(), line.into(), caret));
        }
    }
    assert_eq!(folder.names(), before);
    assert_eq!(folder.read("sample.plan"), plan_bytes(&SAMPLE));
}

/// Lines of any bytes, and lines that are longer than a terminal's: the caret is under the byte.
#[test]
fn lines_of_any_bytes_and_lengths() {
    let folder = Folder::with_sample();
    let list = |line: &[u8]| {
        let mut command = folder.command(LHZ);
        run(command.args(["list", "titles.vol", "--line"]).arg(OsStr::from_bytes(line)))
    };
    for (line, at, shown, caret) in [
        (&b""[..], 0, "", 0),
        (b"[1\n]", 2, "[1\\x0a]", 2),
        (b"[1]\x1b[2J", 3, "[1]\\x1b[2J", 3),
        ("[1;\u{e9}]".as_bytes(), 3, "[1;\\xc3\\xa9]", 3),
        (b"\xff[1]", 0, "\\xff[1]", 0),
        (b"[1\xff\xfe", 2, "[1\\xff\\xfe", 2),
        (b"-", 0, "-", 0),
        (b"--help", 0, "--help", 0),
    ] {
        let (_, above, below) = marked(&list(line), 21, at);
        assert_eq!((&*above, below), (shown, " ".repeat(caret) + "^"), "{line:?}");
    }

    // Byte 1,001 is at fault, in the middle of a line and near the end of another.
    for behind in ["]", &" 1".repeat(300)] {
        let line = format!("[{}x{behind}", "1 ".repeat(500));
        let (sentence, above, below) = marked(&list(line.as_bytes()), 21, 1_001);
        assert_eq!(sentence, "`x` cannot stand at byte 1001, counted from 0; a digit could");
        assert_eq!(above.find('x'), below.find('^'));
        assert!(above.starts_with("..1 1") && above.len() < 80, "{above}");
        assert_eq!(above.ends_with(".."), behind.len() > 1, "{above}");
    }

    // 2,048 bytes are read, 2,049 are refused before anything else.
    let longest = format!("[{}12;s 1]", "1 ".repeat(1_020));
    assert_eq!(
        list(longest.as_bytes()).failure(1, "refused 23 0\n"),
        "--line: the line needs over 64 rows (refused 23 0)"
    );
    let (sentence, ..) = marked(&list(longest.replace("1]", "1x").as_bytes()), 21, 2_047);
    assert_eq!(
        sentence,
        "`x` cannot stand at byte 2047, counted from 0; a digit, `;` or `]` could"
    );
    let (sentence, above, below) = marked(&list(longest.replace(']', "1").as_bytes()), 21, 2_048);
    assert_eq!(
        sentence,
        "the line cannot end at byte 2048, counted from 0, and 2048 bytes are the most"
    );
    assert_eq!(above.len() + 1, below.len());
    for line in [format!("{longest}]"), format!("x{longest}")] {
        let (sentence, ..) = marked(&list(line.as_bytes()), 21, 2_048);
        assert_eq!(sentence, "the line has 2049 bytes, and 2048 are the most");
    }
}

/// What the volume refuses comes before the line, what the line is refused for before its rows. A
/// row at fault is told by its words.
#[test]
fn refusals_in_order() {
    let folder = Folder::with_sample();
    folder.write("bad.vol", "x");
    for line in ["[1]", "[1", "[0]", "((((((((("] {
        let ended = lhz(&folder, &["list", "bad.vol", "--line", line]);
        assert!(ended.failure(1, "refused 1 0\n").starts_with("bad.vol: "), "{line}");
        let ended = lhz(&folder, &["list", "absent.vol", "--line", line]);
        assert!(ended.failure(2, "").starts_with("absent.vol: "), "{line}");
    }
    let (nine, many) = (format!("[1{}]", " 1".repeat(8)), "|[1]".repeat(8));
    for (line, number, at, row) in [
        ("[1 2;n 0 1 65536]", 10, 2, "NEAR 0 1 65536"),
        ("[1;s 0]", 10, 1, "SPAN 0"),
        ("[1 2;a 0 1 9 8]|[0]", 10, 2, "APART 0 1 9 8"),
        ("[1]&[0]", 11, 2, "VOICE 0"),
        ("[1]&[3]", 11, 2, "VOICE 3"),
        ("[65536]", 11, 0, "VOICE 65536"),
        (&nine, 12, 8, "VOICE 1"),
        (&format!("[1]{many}"), 12, 23, "VOICE 1"),
        ("[1 2 1;n 0 7 3]", 13, 3, "NEAR 0 7 3"),
        ("[1;b 0 65536]", 13, 1, "BEFORE 0 65536"),
        ("[1;t 1 0]", 13, 1, "SAME TITLE 1 0"),
    ] {
        for arguments in [
            &["check", "titles.vol", "--line", line][..],
            &["list", "titles.vol", "--line", line],
            &["matches", "titles.vol", "--line", line, "9", "1"],
            &["test", "titles.vol", "--line", line, "9", "1"],
            &["show", "titles.vol", "--line", line, "9"],
            &["show", "--line", "titles.vol", "--line", line],
        ] {
            let ended = lhz(&folder, arguments);
            let sentence = ended.failure(1, &format!("refused {number} {at}\n"));
            let told = format!("(refused {number} {at}); row {at}, counted from 0: {row}");
            assert!(sentence.starts_with("--line: ") && sentence.ends_with(&told), "{sentence}");
        }
        // Such a line is a plan, of rows that are not in order over this volume.
        let rows = lhz(&folder, &["show", "--line", line]);
        assert_eq!(rows.answer().lines().nth(at), Some(row), "{line}");
        lhz(&folder, &["plan", "--line", line, "new.plan"]).answer();
        assert_eq!(folder.lhz("show new.plan").answer(), rows.answer(), "{line}");
    }
    for (voices, refused) in [(63, None), (64, Some("refused 23 0\n"))] {
        let line = format!("[1{}]", " 1".repeat(voices - 1));
        let ended = lhz(&folder, &["plan", "--line", &line, "new.plan"]);
        match refused {
            None => assert_eq!(ended.answer(), "rows 64\n"),
            Some(refused) => {
                let sentence = ended.failure(1, refused);
                assert_eq!(sentence, "--line: the line needs over 64 rows (refused 23 0)");
            }
        }
    }
}

/// A line takes no file's place: one of its name is left alone, and so is what `-` stands for.
#[test]
fn lines_are_no_files() {
    let folder = Folder::with_sample();
    folder.write("[1]", folder.read("sample.plan"));
    assert_eq!(folder.lhz("show --line [1]").answer(), "VOICE 1\nEND\n");
    assert_eq!(folder.lhz("show [1]").answer(), SAMPLE_PLAN);
    assert_eq!(folder.lhz("list titles.vol [1]").answer(), SAMPLE_LISTING);
    assert_eq!(folder.lhz("show --line titles.vol [1]").answer(), "[1 2;b 0 1;t 0 1]\n");
    assert_eq!(folder.lhz("show --line -- titles.vol [1]").answer(), "[1 2;b 0 1;t 0 1]\n");
    assert_eq!(folder.lhz("plan --line [2] [1]").answer(), "rows 2\n");
    assert_eq!(folder.lhz("show [1]").answer(), "VOICE 2\nEND\n");
    let ended = folder.lhz_given("list titles.vol --line -", &folder.read("sample.plan"));
    marked(&ended, 21, 0);
}
