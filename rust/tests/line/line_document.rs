//! What request N5 of document 02 says of typed lines, sentence by sentence.

use crate::support::plans::*;
use crate::support::refused;
use crate::support::*;
use crate::trial::{Lines, Way};
use lihambozy::{Plan, Volume, MAX_LINE_BYTES, MAX_ROWS};

/// A pattern with one variable.
fn one(list: u32) -> Vec<Row> {
    vec![voice(list), END]
}

/// The volume of so many lists, all of them empty.
fn lists(count: usize) -> Vec<u8> {
    Lists::new(&vec![[0; 0]; count]).volume()
}

/// "I want to type `[1 2;b 0 1]|([3]&[4])` and not rows."
#[test]
fn the_example() {
    let line = "[1 2;b 0 1]|([3]&[4])";
    let words = [
        1, 1, 0, 0, // VOICE 1
        1, 2, 0, 0, // VOICE 2
        3, 0, 1, 0, // BEFORE 0 1
        6, 0, 0, 0, // END
        1, 3, 0, 0, // VOICE 3
        6, 0, 0, 0, // END
        1, 4, 0, 0, // VOICE 4
        6, 0, 0, 0, // END
        7, 0, 0, 0, // BOTH
        8, 0, 0, 0, // EITHER
    ];
    let mut out = [99; 256];
    let read = lihambozy::calls::line_to_plan(line.as_bytes(), &mut out).unwrap();
    assert_eq!((read.words, &out[..40], &out[40..]), (40, &words[..], &[99; 216][..]));

    // `&` joins closer than `|`, so the brackets can be dropped.
    let mut bytes = [99; MAX_LINE_BYTES];
    let written = lihambozy::calls::plan_to_line(&lists(5), &words, &mut bytes).unwrap();
    assert_eq!(written.bytes, 19);
    assert_eq!(bytes[..19], *b"[1 2;b 0 1]|[3]&[4]");
    assert_eq!(bytes[19..], [99; MAX_LINE_BYTES - 19]);

    let volume = Volume::new(lists(5)).unwrap();
    let plan = Plan::from_line(line).unwrap();
    assert_eq!(plan.words(), words);
    assert_eq!(plan.to_line(&volume).unwrap(), "[1 2;b 0 1]|[3]&[4]");
    assert_eq!(Plan::from_line("[1 2;b 0 1]|[3]&[4]").unwrap(), plan);
}

#[test]
fn the_limits() {
    assert_eq!([MAX_LINE_BYTES, MAX_ROWS], [2_048, 64]);
}

/// "A line is parts joined by `|` (EITHER); a part is items joined by `&` (BOTH) or `!` (FIRST NOT
/// SECOND); both join left to right. An item is a figure, or a line in round brackets." "The rows
/// follow the line's order, operators behind their whole second side."
#[test]
fn how_signs_join() {
    let (a, b, c, d) = (&one(1)[..], &one(2)[..], &one(3)[..], &one(4)[..]);
    let (and, or, not) = (&[BOTH][..], &[EITHER][..], &[FIRST_NOT_SECOND][..]);
    let rows: &[(&str, &[&[Row]])] = &[
        ("[1]", &[a]),
        ("[1]&[2]", &[a, b, and]),
        ("[1]|[2]", &[a, b, or]),
        ("[1]![2]", &[a, b, not]),
        ("[2]![1]", &[b, a, not]),
        // both join left to right
        ("[1]&[2]&[3]", &[a, b, and, c, and]),
        ("[1]|[2]|[3]", &[a, b, or, c, or]),
        ("[1]![2]![3]", &[a, b, not, c, not]),
        ("[1]&[2]![3]", &[a, b, and, c, not]),
        ("[1]![2]&[3]", &[a, b, not, c, and]),
        ("[1]![2]&[3]![4]", &[a, b, not, c, and, d, not]),
        // parts are joined by `|`, items inside a part by `&` and `!`
        ("[1]|[2]&[3]", &[a, b, c, and, or]),
        ("[1]|[2]![3]", &[a, b, c, not, or]),
        ("[1]&[2]|[3]", &[a, b, and, c, or]),
        ("[1]![2]|[3]", &[a, b, not, c, or]),
        ("[1]&[2]|[3]![4]", &[a, b, and, c, d, not, or]),
        ("[1]|[2]&[3]|[4]", &[a, b, c, and, or, d, or]),
        ("[1]|[2]|[3]&[4]", &[a, b, or, c, d, and, or]),
        // an item is a line in round brackets
        ("([1])", &[a]),
        ("((([1])))", &[a]),
        ("([1]|[2])", &[a, b, or]),
        ("([1]|[2])&[3]", &[a, b, or, c, and]),
        ("[1]&([2]|[3])", &[a, b, c, or, and]),
        ("[1]!([2]|[3])", &[a, b, c, or, not]),
        ("[1]!([2]![3])", &[a, b, c, not, not]),
        ("[1]&([2]&[3])", &[a, b, c, and, and]),
        ("[1]|([2]|[3])", &[a, b, c, or, or]),
        ("([1]|[2])&([3]|[4])", &[a, b, or, c, d, or, and]),
        ("[1]|([2]&([3]![4]))", &[a, b, c, d, not, and, or]),
        ("(([1]&[2])|[3])![4]", &[a, b, and, c, or, d, not]),
    ];
    let mut lines = Lines::default();
    for (line, pieces) in rows {
        assert_eq!(lines.read(line), Ok(pieces.concat()), "{line}");
    }
    lines.assert_met(Way::Read, 30, &[0, 16]);
}

/// "A figure holds in square brackets one or more list numbers, then conditions, each after a
/// semicolon: n a b c, b a b, t a b, s c, and a a b least most for kinds 2, 3, 4, 5, 10."
#[test]
fn what_a_figure_holds() {
    let rows: &[(&str, &[Row])] = &[
        ("[7]", &[[1, 7, 0, 0]]),
        ("[7 8]", &[[1, 7, 0, 0], [1, 8, 0, 0]]),
        ("[3 2 1 3]", &[[1, 3, 0, 0], [1, 2, 0, 0], [1, 1, 0, 0], [1, 3, 0, 0]]),
        ("[7;n 4 5 6]", &[[1, 7, 0, 0], [2, 4, 5, 6]]),
        ("[7;b 4 5]", &[[1, 7, 0, 0], [3, 4, 5, 0]]),
        ("[7;t 4 5]", &[[1, 7, 0, 0], [4, 4, 5, 0]]),
        ("[7;s 4]", &[[1, 7, 0, 0], [5, 0, 0, 4]]),
        ("[7;a 4 5 6 8]", &[[1, 7, 0, 0], [10, 4, 5, 6 * 65_536 + 8]]),
        ("[7;s 4;s 4]", &[[1, 7, 0, 0], [5, 0, 0, 4], [5, 0, 0, 4]]),
        (
            "[1 2;a 0 1 2 3;s 4;t 5 6;b 7 8;n 9 10 11]",
            &[
                [1, 1, 0, 0],
                [1, 2, 0, 0],
                [10, 0, 1, 2 * 65_536 + 3],
                [5, 0, 0, 4],
                [4, 5, 6, 0],
                [3, 7, 8, 0],
                [2, 9, 10, 11],
            ],
        ),
    ];
    let mut lines = Lines::default();
    for (line, rows) in rows {
        assert_eq!(lines.read(line), Ok([rows, &[END][..]].concat()), "{line}");
    }
    // Not one, no number, no such letter, or not as many numbers as the kind uses.
    for (line, at) in [
        ("[]", 1),
        ("[;s 1]", 1),
        ("[1;]", 3),
        ("[1;;s 1]", 3),
        ("[1;x 0 1]", 3),
        ("[1;N 0 1 2]", 3),
        ("[1;1]", 3),
        ("[1;n]", 4),
        ("[1;n 0]", 6),
        ("[1;n 0 1]", 8),
        ("[1;n 0 1 2 3]", 10),
        ("[1;b 0]", 6),
        ("[1;b 0 1 2]", 8),
        ("[1;t 0]", 6),
        ("[1;t 0 1 2]", 8),
        ("[1;s]", 4),
        ("[1;s 1 2]", 6),
        ("[1;a 0 1 2]", 10),
        ("[1;a 0 1 2 3 4]", 12),
        ("[1;s 1 2;b 0 1]", 6),
        ("[1;b 0 1;1]", 9),
    ] {
        assert_eq!(lines.read(line), Err((21, at)), "{line}");
    }
}

/// "One space separates the words of a list or condition and stands nowhere else."
#[test]
fn one_space() {
    let line = "[1 2;n 0 1 3]|([3]&[4])";
    let mut lines = Lines::default();
    assert!(lines.read(line).is_ok());
    for at in 0..=line.len() {
        let wide = format!("{} {}", &line[..at], &line[at..]);
        // Behind a list number, and behind the words of a condition but the last, a space may
        // stand: then the byte behind it is at fault.
        let refused = match &line[..at] {
            "[1" | "[1 2" | "[1 2;n" | "[1 2;n 0" | "[1 2;n 0 1" => at + 1,
            "[1 2;n 0 1 3]|([3" | "[1 2;n 0 1 3]|([3]&[4" => at + 1,
            _ => at,
        };
        assert_eq!(lines.read(&wide), Err((21, refused as u32)), "{wide}");
    }
    // The space is the byte 32 alone.
    for byte in [b'\t', b'\n', b'\r', 0, 11, 12, 0xa0] {
        let other: Vec<u8> = line.bytes().map(|b| if b == b' ' { byte } else { b }).collect();
        assert_eq!(lines.read(&other), Err((21, 2)), "{byte}");
    }
}

/// "Numbers have no leading zero and are at most 65,536, least and most at most 65,535."
#[test]
fn numbers() {
    let mut lines = Lines::default();
    for number in [0, 1, 9, 10, 99, 100, 6_553, 6_554, 9_999, 10_000, 65_535, 65_536] {
        let line = format!("[{number}]");
        assert_eq!(lines.read(&line), Ok(vec![voice(number), END]), "{line}");
        for zeros in ["0", "00", "0000000000"] {
            let line = format!("[{zeros}{number}]");
            assert_eq!(lines.read(&line), Err((21, 2)), "{line}");
        }
    }
    assert_eq!(lines.read("[65537]"), Err((21, 5)));
    let apart_of = |least, most| Ok(vec![voice(1), apart(0, 0, least, most), END]);
    assert_eq!(lines.read("[1;a 0 0 65535 65535]"), apart_of(65_535, 65_535));
    assert_eq!(lines.read("[1;a 0 0 65535 0]"), apart_of(65_535, 0));
    assert_eq!(lines.read("[1;a 0 0 65536 65535]"), Err((21, 13)));
    assert_eq!(lines.read("[1;a 0 0 65535 65536]"), Err((21, 19)));
}

/// "A line over 2,048 bytes is 21 at byte 2,048, before anything else."
#[test]
fn over_2048_bytes() {
    let mut lines = Lines::default();
    let many = "|[1]".repeat(511);
    for (first, refused) in
        [("[12]", (23, 0)), ("[1x]", (21, 2)), ("(]((", (21, 1)), ("\0\0\0\0", (21, 0))]
    {
        let text = format!("{first}{many}");
        assert_eq!((text.len(), lines.read(&text)), (2_048, Err(refused)), "{first}");
        for more in ["|", "|[1]", "]", "("] {
            assert_eq!(lines.read(text.clone() + more), Err((21, 2_048)), "{first} .. {more}");
        }
    }
}

/// "A writer turns an accepted plan into the line with no bracket that could be dropped, and that
/// line gives the plan again."
#[test]
fn the_writer() {
    let volume = lists(5);
    let mut lines = Lines::default();
    for (line, written) in [
        ("([1])", "[1]"),
        ("((([1 2;s 3])))", "[1 2;s 3]"),
        ("([4 2;n 0 1 3;b 0 1;t 1 0;s 9;a 0 1 2 3])", "[4 2;n 0 1 3;b 0 1;t 1 0;s 9;a 0 1 2 3]"),
        ("([1]|[2])", "[1]|[2]"),
        ("([1]|[2])|[3]", "[1]|[2]|[3]"),
        ("([1]&[2])|([3]![4])", "[1]&[2]|[3]![4]"),
        ("[1]|([2]&[3])", "[1]|[2]&[3]"),
        ("([1]![2])![3]", "[1]![2]![3]"),
        ("([1]&[2])![3]", "[1]&[2]![3]"),
        ("([1]![2])&[3]", "[1]![2]&[3]"),
        ("(([1]|[2])|[3])&[4]", "([1]|[2]|[3])&[4]"),
        // These are needed.
        ("[1]|([2]|[3])", "[1]|([2]|[3])"),
        ("([1]|[2])&[3]", "([1]|[2])&[3]"),
        ("([1]|[2])![3]", "([1]|[2])![3]"),
        ("[1]&([2]|[3])", "[1]&([2]|[3])"),
        ("[1]!([2]|[3])", "[1]!([2]|[3])"),
        ("[1]&([2]&[3])", "[1]&([2]&[3])"),
        ("[1]&([2]![3])", "[1]&([2]![3])"),
        ("[1]!([2]&[3])", "[1]!([2]&[3])"),
        ("[1]!([2]![3])", "[1]!([2]![3])"),
        ("[1]|([2]&[3]|[4])", "[1]|([2]&[3]|[4])"),
        ("[1]&(([2]|[3])&[4])", "[1]&(([2]|[3])&[4])"),
    ] {
        let plan = lines.read(line).unwrap();
        assert_eq!(lines.write(&volume, &plan.concat()).as_deref(), Ok(written), "{line}");
        assert_eq!(lines.read(written), Ok(plan), "{line}");
    }
}

/// "Where a line's rows are accepted, their true scenes are exactly those of the line read on its
/// own, without rows." Document 01's cases, typed; what passes is as they say, with request N3, and
/// title starts stand beside the places, by request N8.
#[test]
fn the_cases_of_document_01_typed() {
    let volume = Volume::new(sample().volume()).unwrap();
    let rows: &[(&str, &[&str], u64)] = &[
        ("[1 2;b 0 1;t 0 1]", &["scene 1 1 2 0 5 0"], 6),
        ("[1 2;n 0 1 0]", &["scene 1 1 8 6 7 6"], 6),
        ("[1 2;n 0 1 3]", &["scene 1 1 2 0 5 0"], 6),
        ("[1 2;n 0 1 4]", &["scene 1 1 2 0 5 0", "scene 2 1 4 65536 9 65536"], 6),
        ("[1 2;s 4]", &["scene 1 1 2 0 5 0"], 6),
        ("[1 2;s 3]", &["scene 1 1 8 6 7 6"], 6),
        ("[1 2;b 1 0;t 0 1]", &["scene 1 1 8 6 7 6"], 6),
        ("[1 1]", &["scene 1 1 2 0 2 0", "scene 2 1 4 65536 4 65536"], 6),
        ("[1;b 0 0]", &[], 3),
        ("[1 2;b 0 1]![1 2;n 0 1 0]", &["scene 2 1 4 65536 9 65536 0 0 0 0 0"], 12),
        ("[1 2;a 0 1 4 4]", &["scene 1 1 2 0 7 6", "scene 2 1 4 65536 9 65536"], 6),
        (
            "[1 2;b 0 1]!([1 2;n 0 1 0]|[1 2;n 0 1 0])",
            &["scene 2 1 4 65536 9 65536 0 0 0 0 0 0 0 0 0 0"],
            18,
        ),
    ];
    for (line, listed, tally) in rows {
        let plan = Plan::from_line(line).unwrap();
        let mut search = volume.search(&plan).unwrap();
        let rows: Vec<String> = search.by_ref().map(|row| row.to_string()).collect();
        assert_eq!(rows, *listed, "{line}");
        assert_eq!(search.tally(), *tally, "{line}");
    }
}

/// "21 when the line breaks the grammar, at the first byte that no line of the grammar could have
/// there, or its end."
#[test]
fn where_the_grammar_breaks() {
    let mut lines = Lines::default();
    for (line, at) in [
        ("", 0),
        ("[", 1),
        ("[1", 2),
        ("[1 ", 3),
        ("[1 ]", 3),
        ("[01]", 2),
        ("[65537", 5),
        ("[65536", 6),
        ("[655360]", 6),
        ("[1;n 0 1]", 8),
        ("[1;n 0 1 2 3]", 10),
        ("[1]]", 3),
        ("[1])", 3),
        ("[1][2]", 3),
        ("[1]([2])", 3),
        ("[1]|", 4),
        ("[1]||[2]", 4),
        ("|[1]", 0),
        ("([1]", 4),
        ("()", 1),
        ("([1]))", 5),
        ("[[1]]", 1),
        ("[1]&![2]", 4),
        ("1", 0),
        (" [1]", 0),
        ("[1] ", 3),
        ("[1]\n", 3),
        ("[1]\0", 3),
        ("[-1]", 1),
        ("[+1]", 1),
        ("[1],[2]", 3),
    ] {
        assert_eq!(lines.read(line), Err((21, at)), "{line:?}");
    }
}

/// "22, at its byte, when a round bracket is opened inside eight open ones, whichever byte comes
/// first, 21 where both name one byte."
#[test]
fn the_ninth_bracket() {
    let mut lines = Lines::default();
    for (line, refused) in [
        ("(((((((([1]))))))))", None),
        ("((((((((([1])))))))))", Some((22, 8))),
        ("(((((((((", Some((22, 8))),
        ("(((((((([1](", Some((21, 11))),
        ("(((((((([1]&([2])))))))))", Some((22, 12))),
        ("((((((((])(", Some((21, 8))),
        ("((((((((([", Some((22, 8))),
        ("[1]|(((((((([1]))))))))&(((((((([1]))))))))", None),
        ("(((((((([1])|([2]))))))))", None),
        ("(((((((([1])|(([2])))))))))", Some((22, 14))),
    ] {
        let answer = lines.read(line);
        assert_eq!(answer.err(), refused, "{line}");
    }
}

/// "23 when a line free of both needs over 64 rows; then 16 for a buffer too short for the rows."
#[test]
fn over_64_rows() {
    let figures = |count: usize| vec!["[1]"; count].join("|");
    let mut lines = Lines::default();
    // Three rows for each figure but the first, which has two.
    assert_eq!(lines.read(figures(21)).map(|rows| rows.len()), Ok(62));
    assert_eq!(lines.read(figures(22)), Err((23, 0)));
    assert_eq!(lines.read(format!("{}|[1 2]", figures(20))).map(|rows| rows.len()), Ok(63));
    assert_eq!(lines.read(format!("{}|[1;s 1;s 1]", figures(20))).map(|rows| rows.len()), Ok(64));
    assert_eq!(lines.read(format!("{}|[1 2;s 1;s 1]", figures(20))), Err((23, 0)));
    assert_eq!(lines.read(format!("{}|[1 2", figures(40))), Err((21, 164)));
    assert_eq!(lines.read(format!("{}|(((((((((", figures(40))), Err((22, 168)));
    let mut out = [7; 248];
    for (line, room, refused) in [
        (figures(21), 248, None),
        (figures(21), 247, Some((16, 0))),
        (figures(21), 0, Some((16, 0))),
        (figures(22), 0, Some((23, 0))),
        (figures(22) + "|", 0, Some((21, 88))),
    ] {
        let answer = lihambozy::calls::line_to_plan(line.as_bytes(), &mut out[..room]);
        assert_eq!(answer.map_err(pair).err(), refused, "{line} into {room}");
    }
}

/// "16 for a buffer too short for .. the written line, there after 1 to 14."
#[test]
fn refusals_of_the_writer() {
    let mut lines = Lines::default();
    let in_order = SAMPLE.concat();
    for (volume, refused) in refused::volumes() {
        for plan in [&in_order[..], &[], &[0; 4], &in_order[..4]] {
            assert_eq!(lines.write(&volume, plan), Err(refused));
        }
    }
    for (plan, refused) in refused::plans() {
        assert_eq!(lines.write(&sample().volume(), &plan.concat()), Err(refused));
    }
    for length in [0, 1, 2, 3, 5, 19, 260] {
        let plan: Vec<u32> = in_order.iter().copied().cycle().take(length).collect();
        assert_eq!(lines.write(&sample().volume(), &plan), Err((9, 0)));
    }
    let line = lines.write(&sample().volume(), &in_order);
    assert_eq!(line.as_deref(), Ok("[1 2;b 0 1;t 0 1]"));
    lines.assert_met(Way::Write, 1, &[0, 1, 2, 3, 4, 5, 6, 7, 8, 9, 10, 11, 12, 13, 14, 16]);
}
