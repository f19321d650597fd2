//! The command `lhz`: texts of plans, from the text to the plan file and back, and every mistake in
//! one with its line and column.

use crate::support::command::*;
use crate::support::files::plan_bytes;
use crate::support::plans::*;
use crate::support::*;

/// Rows as text, their words, and the text that `lhz show` prints of them.
#[test]
fn texts_of_rows() {
    let most = u32::MAX;
    let folder = Folder::new();
    for (text, row, shown) in [
        ("VOICE 1", voice(1), "VOICE 1"),
        ("NEAR 0 1 3", near(0, 1, 3), "NEAR 0 1 3"),
        ("BEFORE 0 1", before(0, 1), "BEFORE 0 1"),
        ("SAME TITLE 0 1", same_title(0, 1), "SAME TITLE 0 1"),
        ("SPAN 4", span(4), "SPAN 4"),
        ("END", END, "END"),
        ("BOTH", BOTH, "BOTH"),
        ("EITHER", EITHER, "EITHER"),
        ("FIRST NOT SECOND", FIRST_NOT_SECOND, "FIRST NOT SECOND"),
        ("APART 0 1 4 9", apart(0, 1, 4, 9), "APART 0 1 4 9"),
        ("AT LEAST 2 3", at_least(2, 3), "AT LEAST 2 3"),
        // Letters of any case, blanks, comments.
        ("voice 1", voice(1), "VOICE 1"),
        ("Near 7 6 5", near(7, 6, 5), "NEAR 7 6 5"),
        ("bEFORE 1 0", before(1, 0), "BEFORE 1 0"),
        ("Same title 2 3", same_title(2, 3), "SAME TITLE 2 3"),
        ("first Not second", FIRST_NOT_SECOND, "FIRST NOT SECOND"),
        ("\t same \t TITLE\t0  1 ", same_title(0, 1), "SAME TITLE 0 1"),
        ("Apart\t1 0  2 03# 4", apart(1, 0, 2, 3), "APART 1 0 2 3"),
        ("at \tLeast 08  8", at_least(8, 8), "AT LEAST 8 8"),
        ("VOICE 1 # 2", voice(1), "VOICE 1"),
        ("VOICE 1#2", voice(1), "VOICE 1"),
        ("END# \u{fc}", END, "END"),
        ("END\r", END, "END"),
        // Words of any size: whether they are in order depends on the volume.
        ("VOICE 0", voice(0), "VOICE 0"),
        ("VOICE 4294967295", voice(most), "VOICE 4294967295"),
        ("NEAR 4294967295 8 65536", near(most, 8, 65_536), "NEAR 4294967295 8 65536"),
        ("SPAN 0", span(0), "SPAN 0"),
        ("SPAN 65537", span(65_537), "SPAN 65537"),
        ("SPAN 000000000000000000004", span(4), "SPAN 4"),
        ("APART 4294967295 8 0 0", apart(most, 8, 0, 0), "APART 4294967295 8 0 0"),
        ("APART 0 1 0 65535", apart(0, 1, 0, 65_535), "APART 0 1 0 65535"),
        ("APART 0 1 65535 0", apart(0, 1, 65_535, 0), "APART 0 1 65535 0"),
        ("APART 0 1 000000000065535 65534", [10, 0, 1, most - 1], "APART 0 1 65535 65534"),
        ("AT LEAST 0 4294967295", at_least(0, most), "AT LEAST 0 4294967295"),
        ("AT LEAST 3 2", at_least(3, 2), "AT LEAST 3 2"),
        // Four numbers, as a name if one can tell them.
        ("1 1 0 0", voice(1), "VOICE 1"),
        ("2 0 1 3", near(0, 1, 3), "NEAR 0 1 3"),
        ("3 0 1 0", before(0, 1), "BEFORE 0 1"),
        ("4 0 1 0", same_title(0, 1), "SAME TITLE 0 1"),
        ("5 0 0 4", span(4), "SPAN 4"),
        ("6 0 0 0", END, "END"),
        ("7 0 0 0", BOTH, "BOTH"),
        ("08 00 0 0", EITHER, "EITHER"),
        ("9 0 0 0 # c", FIRST_NOT_SECOND, "FIRST NOT SECOND"),
        ("0 0 0 0", [0; 4], "0 0 0 0"),
        ("10 1 2 3", apart(1, 2, 0, 3), "APART 1 2 0 3"),
        ("10 0 1 262153", apart(0, 1, 4, 9), "APART 0 1 4 9"),
        ("10 0 0 65536", apart(0, 0, 1, 0), "APART 0 0 1 0"),
        (
            "10 4294967295 4294967295 4294967295",
            [10, most, most, most],
            "APART 4294967295 4294967295 65535 65535",
        ),
        ("11 1 2 0", at_least(1, 2), "AT LEAST 1 2"),
        ("11 0 0 0", at_least(0, 0), "AT LEAST 0 0"),
        ("12 0 0 7", [12, 0, 0, 7], "12 0 0 7"),
        ("11 1 2 3", [11, 1, 2, 3], "11 1 2 3"),
        ("266 0 1 262153", [266, 0, 1, 262_153], "266 0 1 262153"),
        (
            "4294967295 4294967295 4294967295 4294967295",
            [most; 4],
            "4294967295 4294967295 4294967295 4294967295",
        ),
        ("1 1 2 0", [1, 1, 2, 0], "1 1 2 0"),
        ("1 1 0 2", [1, 1, 0, 2], "1 1 0 2"),
        ("3 0 1 9", [3, 0, 1, 9], "3 0 1 9"),
        ("4 0 1 9", [4, 0, 1, 9], "4 0 1 9"),
        ("5 1 0 4", [5, 1, 0, 4], "5 1 0 4"),
        ("5 0 1 4", [5, 0, 1, 4], "5 0 1 4"),
        ("6 1 0 0", [6, 1, 0, 0], "6 1 0 0"),
        ("7 0 1 0", [7, 0, 1, 0], "7 0 1 0"),
        ("8 0 0 1", [8, 0, 0, 1], "8 0 0 1"),
        ("9 1 1 1", [9, 1, 1, 1], "9 1 1 1"),
    ] {
        folder.write("row.txt", format!("{text}\n"));
        assert_eq!(folder.lhz("plan row.txt row.plan").told(), (0, "rows 1\n", ""), "{text}");
        assert_eq!(folder.read("row.plan"), plan_bytes(&[row]), "{text}");
        assert_eq!(folder.lhz("show row.plan").told(), (0, &*format!("{shown}\n"), ""), "{text}");
    }
}

/// Lines of a plan's text: empty ones and comments are no rows, wherever they stand.
#[test]
fn lines_of_texts() {
    let folder = Folder::new();
    for text in [
        "VOICE 1\nEND\n",
        "VOICE 1\nEND",
        "\n\n VOICE 1\n\t\n\nEND\n\n",
        "# c\nVOICE 1 # c\n  # c\n#\nEND # c # d\n# c",
        "VOICE 1\r\n\r\nEND\r\n",
        "\u{feff}VOICE 1\nEND\n",
        "\u{feff}# \u{fc}\nVOICE 1\nEND\n",
    ] {
        let written = folder.lhz_given("plan - some.plan", text.as_bytes());
        assert_eq!(written.answer(), "rows 2\n", "{text:?}");
        assert_eq!(folder.read("some.plan"), plan_bytes(&[voice(1), END]), "{text:?}");
    }
}

/// The text has a mistake here, and says so. Nothing is written.
#[test]
fn mistakes() {
    let folder = Folder::new();
    let kinds =
        "VOICE, NEAR, BEFORE, SAME TITLE, SPAN, END, BOTH, EITHER, FIRST NOT SECOND, APART, \
                 AT LEAST";
    let no_kind = |at: &str, word: &str| format!("{at}: `{word}` names no kind of row: {kinds}");
    let rows: Vec<(&[u8], String)> = [
        // Numbers that are missing, behind the last word, and numbers too many.
        ("VOICE", "1:6: VOICE takes one number"),
        ("VOICE # 1", "1:6: VOICE takes one number"),
        ("  voice  ", "1:8: VOICE takes one number"),
        ("VOICE 1 2", "1:9: VOICE takes one number"),
        ("VOICE 1 2 3 4", "1:9: VOICE takes one number"),
        ("NEAR", "1:5: NEAR takes 3 numbers"),
        ("NEAR 0 1", "1:9: NEAR takes 3 numbers"),
        ("NEAR 0 1 3 4", "1:12: NEAR takes 3 numbers"),
        ("BEFORE 0", "1:9: BEFORE takes 2 numbers"),
        ("BEFORE 0 1 0", "1:12: BEFORE takes 2 numbers"),
        ("SAME TITLE", "1:11: SAME TITLE takes 2 numbers"),
        ("SAME\tTITLE 10", "1:14: SAME TITLE takes 2 numbers"),
        ("SAME TITLE 0 1 2", "1:16: SAME TITLE takes 2 numbers"),
        ("SPAN", "1:5: SPAN takes one number"),
        ("SPAN 0 0 4", "1:8: SPAN takes one number"),
        ("APART", "1:6: APART takes 4 numbers"),
        ("APART 0 1 4", "1:12: APART takes 4 numbers"),
        ("APART 0 1 4 9 65535", "1:15: APART takes 4 numbers"),
        ("AT LEAST", "1:9: AT LEAST takes 2 numbers"),
        ("AT LEAST 2", "1:11: AT LEAST takes 2 numbers"),
        ("AT LEAST 2 3 0", "1:14: AT LEAST takes 2 numbers"),
        ("AT LEAST 2 OF 3", "1:15: AT LEAST takes 2 numbers"),
        ("AT LEAST two 3", "1:10: `two` is no number"),
        ("AT LEAST 2 4294967296", "1:12: `4294967296` is over 4294967295"),
        ("END 0", "1:5: END takes no number"),
        ("BOTH 0 0 0", "1:6: BOTH takes no number"),
        ("EITHER OR", "1:8: EITHER takes no number"),
        ("FIRST NOT SECOND 0", "1:18: FIRST NOT SECOND takes no number"),
        ("12", "1:3: a row told by numbers takes 4 numbers"),
        ("12 0 0", "1:7: a row told by numbers takes 4 numbers"),
        ("12 0 0 7 8", "1:10: a row told by numbers takes 4 numbers"),
        // Columns are characters.
        ("VOICE \u{fc}\u{2116} 1", "1:10: VOICE takes one number"),
        ("VOICE \u{fc}", "1:7: `\u{fc}` is no number"),
        // Words that are no number, or over 32 bits.
        ("VOICE x", "1:7: `x` is no number"),
        ("VOICE -1", "1:7: `-1` is no number"),
        ("VOICE +1", "1:7: `+1` is no number"),
        ("VOICE 1.0", "1:7: `1.0` is no number"),
        ("VOICE 1,", "1:7: `1,` is no number"),
        ("VOICE 0x1", "1:7: `0x1` is no number"),
        ("VOICE \u{661}", "1:7: `\u{661}` is no number"),
        ("VOICE VOICE", "1:7: `VOICE` is no number"),
        ("NEAR 0 x 3", "1:8: `x` is no number"),
        ("NEAR 0 1 x", "1:10: `x` is no number"),
        ("12 0 x 7", "1:6: `x` is no number"),
        ("VOICE 4294967296", "1:7: `4294967296` is over 4294967295"),
        ("NEAR 0 99999999999 x", "1:8: `99999999999` is over 4294967295"),
        ("4294967296 0 0 0", "1:1: `4294967296` is over 4294967295"),
        (
            "SPAN 123456789012345678901234567890",
            "1:6: `123456789012345678901234567890` is over 4294967295",
        ),
        // Limits over 16 bits.
        ("APART 0 1 65536 65535", "1:11: `65536` is over 65535"),
        ("APART 0 1 0 65536", "1:13: `65536` is over 65535"),
        ("APART 0 1\t\t065536 0", "1:12: `065536` is over 65535"),
        ("APART 0 1 65536 x", "1:11: `65536` is over 65535"),
        ("APART 0 1 0 4294967295", "1:13: `4294967295` is over 65535"),
        ("APART 0 1 0 4294967296", "1:13: `4294967296` is over 65535"),
        ("APART 4294967296 1 65536 0", "1:7: `4294967296` is over 4294967295"),
        ("APART 0 1 -1 9", "1:11: `-1` is no number"),
        ("APART 0 1 4 x", "1:13: `x` is no number"),
        // Lines.
        ("VOICE 1\n\n# c\n END x", "4:6: END takes no number"),
        ("VOICE 1\r\nEND\r\nSPAN\r\n", "3:5: SPAN takes one number"),
        ("\u{feff}VOICE", "1:6: VOICE takes one number"),
        ("VOICE 1\rEND\r", "1:8: a carriage return without a line feed behind it ends no line"),
        (
            "VOICE 1 # c\rEND\n",
            "1:12: a carriage return without a line feed behind it ends no line",
        ),
    ]
    .map(|(text, told)| (text.as_bytes(), told.to_string()))
    .into_iter()
    .chain([
        (b"PHRASE 1" as &[u8], no_kind("1:1", "PHRASE")),
        (b"VOICES 1", no_kind("1:1", "VOICES")),
        (b"VOICE: 1", no_kind("1:1", "VOICE:")),
        (b"VOICE\xc2\xa01", no_kind("1:1", "VOICE\\u{a0}1")),
        (b"-1 0 0 0", no_kind("1:1", "-1")),
        (b"END\n\tSAME 0 1", no_kind("2:2", "SAME")),
        (b"SAMETITLE 0 1", no_kind("1:1", "SAMETITLE")),
        (b"SAME", no_kind("1:1", "SAME")),
        (b"TITLE 0 1", no_kind("1:1", "TITLE")),
        (b"FIRST NOT", no_kind("1:1", "FIRST")),
        (b"NOT SECOND", no_kind("1:1", "NOT")),
        (b"AT 2 3", no_kind("1:1", "AT")),
        (b"LEAST 2 3", no_kind("1:1", "LEAST")),
        (b"ATLEAST 2 3", no_kind("1:1", "ATLEAST")),
        (b"END\nVOICE 1 # \xc3\xbc \xff\n", "2:13: the text is not in UTF-8".into()),
        (&[b'x'; 5_000], no_kind("1:1", &("x".repeat(40) + "..."))),
    ])
    .collect();
    for (text, told) in rows {
        folder.write("some.txt", text);
        let ended = folder.lhz("plan some.txt some.plan");
        let text = String::from_utf8_lossy(&text[..text.len().min(60)]);
        assert_eq!(ended.failure(1, ""), format!("some.txt:{told}"), "{text:?}");
        assert_eq!(folder.names(), ["some.txt"], "{text:?}");
    }
}

/// A plan file has 1 to 64 rows: other texts are refused with 9, and nothing is written.
#[test]
fn numbers_of_rows() {
    let folder = Folder::new();
    for text in ["", "\n", "# c\n\n", "\u{feff}", &"END\n".repeat(65), &"END\n".repeat(1_000)] {
        folder.write("some.txt", text);
        let sentence =
            folder.lhz("plan some.txt some.plan").failure(1, "refused 9 0\n").to_string();
        assert!(sentence.starts_with("some.txt: "), "{sentence}");
        assert_eq!(folder.names(), ["some.txt"]);
    }
    for count in [1, 2, 63, 64] {
        folder.write("rows.txt", "12 0 0 7\n".repeat(count));
        assert_eq!(folder.lhz("plan rows.txt rows.plan").answer(), format!("rows {count}\n"));
        assert_eq!(folder.read("rows.plan"), plan_bytes(&vec![[12, 0, 0, 7]; count]));
        assert_eq!(folder.lhz("show rows.plan").answer(), "12 0 0 7\n".repeat(count));
    }
    folder.write("widest.plan", plan_bytes(&widest_plan()));
    let shown = folder.lhz("show widest.plan").answer().to_string();
    assert_eq!(shown.lines().count(), 64);
    assert_eq!(folder.lhz_given("plan - -", shown.as_bytes()).stdout, plan_bytes(&widest_plan()));
}

/// `lhz plan` does not judge the plan; `lhz check` does.
#[test]
fn plans_out_of_order_are_written() {
    let folder = Folder::with_sample();
    for (text, refused) in [
        ("END", "refused 13 0\n"),
        ("VOICE 1", "refused 14 0\n"),
        ("VOICE 9\nEND", "refused 11 0\n"),
        ("VOICE 1\nSPAN 0\nEND", "refused 10 1\n"),
        ("VOICE 1\nVOICE 2\nAPART 0 1 5 4\nEND", "refused 10 2\n"),
        ("VOICE 1\nAPART 0 1 4 5\nEND", "refused 13 1\n"),
        ("VOICE 1\nEND\nVOICE 2\nEND\nAT LEAST 3 2", "refused 10 4\n"),
        ("VOICE 1\nEND\nVOICE 2\nEND\nAT LEAST 1 3", "refused 13 4\n"),
    ] {
        folder.lhz_given("plan - some.plan", text.as_bytes()).answer();
        folder.lhz("check titles.vol some.plan").failure(1, refused);
    }
}

/// Rows of any words: what is shown of them reads as the same words.
#[test]
fn random_plans_come_back() {
    let seed = 1_984;
    let mut rng = Rng::new(seed);
    let folder = Folder::new();
    for round in 0..100 {
        let mut rows = random_plan(&mut rng, 9);
        for _ in 0..rng.below(6) {
            spoil(&mut rng, &mut rows, 9);
        }
        for row in &mut rows {
            match rng.below(6) {
                0 => row[rng.below(4)] = rng.word() >> rng.below(32),
                1 => *row = [(); 4].map(|()| rng.word() >> rng.below(32)),
                _ => {}
            }
        }
        rows.push(END);
        rows.truncate(64);
        let bytes = plan_bytes(&rows);
        folder.write("some.plan", &bytes);
        let shown = folder.lhz("show some.plan").answer().to_string();
        assert_eq!(shown.lines().count(), rows.len(), "seed {seed}, round {round}");
        let written = folder.lhz_given("plan - -", shown.as_bytes());
        assert!(written.stdout == bytes, "seed {seed}, round {round}: {shown}");
    }
}
