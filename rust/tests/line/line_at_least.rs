//! AT LEAST in typed lines, after request N9 of document 02: its form and where a line leaves it,
//! how deep it may stand, and plans with it as lines, there and back.

use crate::line_round_trip::{assert_fewest, empty_lists, trees};
use crate::plain::line::{bracketed, dropped, is_true, pairs, rows};
use crate::support::plans::*;
use crate::support::Lists;
use crate::trial::{Lines, Way};
use lihambozy::{Plan, Volume};

/// So many lines that are one figure each.
fn figures(count: usize) -> String {
    vec!["[1]"; count].join(",")
}

/// A pattern with one variable.
fn one(list: u32) -> Vec<Row> {
    vec![voice(list), END]
}

/// "Typed, an item may be `<2:` lines joined by commas and `>`." "The row follows the last line's
/// rows."
#[test]
fn the_form() {
    let (a, b, c, d) = (&one(1)[..], &one(2)[..], &one(3)[..], &one(4)[..]);
    let (and, or, not) = (&[BOTH][..], &[EITHER][..], &[FIRST_NOT_SECOND][..]);
    let [some_1_2, some_2_2, some_2_3] =
        [at_least(1, 2), at_least(2, 2), at_least(2, 3)].map(|row| vec![row]);
    let [of_1_2, of_2_2, of_2_3] = [&some_1_2[..], &some_2_2, &some_2_3];
    let table: &[(&str, &[&[Row]])] = &[
        ("<1:[1],[2]>", &[a, b, of_1_2]),
        ("<2:[1],[2]>", &[a, b, of_2_2]),
        ("<2:[1],[2],[3]>", &[a, b, c, of_2_3]),
        // each is a line
        ("<2:[1]|[2],[3]>", &[a, b, or, c, of_2_2]),
        ("<2:[1],[2]|[3]>", &[a, b, c, or, of_2_2]),
        ("<2:[1]&[2],[3]![4]>", &[a, b, and, c, d, not, of_2_2]),
        ("<2:[1]|[2]&[3],[4]>", &[a, b, c, and, or, d, of_2_2]),
        ("<2:[1]&[2]|[3],[4]>", &[a, b, and, c, or, d, of_2_2]),
        ("<1:([1]),([2]|[3])>", &[a, b, c, or, of_1_2]),
        // it is an item
        ("[1]&<1:[2],[3]>", &[a, b, c, of_1_2, and]),
        ("[1]|<1:[2],[3]>", &[a, b, c, of_1_2, or]),
        ("[1]!<1:[2],[3]>", &[a, b, c, of_1_2, not]),
        ("<1:[1],[2]>&[3]", &[a, b, of_1_2, c, and]),
        ("<1:[1],[2]>|[3]", &[a, b, of_1_2, c, or]),
        ("<1:[1],[2]>![3]", &[a, b, of_1_2, c, not]),
        ("[1]&<1:[2],[3]>![4]", &[a, b, c, of_1_2, and, d, not]),
        ("[1]|<1:[2],[3]>&[4]", &[a, b, c, of_1_2, d, and, or]),
        ("<1:[1],[2]>|<2:[3],[4]>", &[a, b, of_1_2, c, d, of_2_2, or]),
        ("(<1:[1],[2]>)", &[a, b, of_1_2]),
        ("(<1:[1],[2]>|[3])&[4]", &[a, b, of_1_2, c, or, d, and]),
        // one in another
        ("<1:<2:[1],[2]>,[3]>", &[a, b, of_2_2, c, of_1_2]),
        ("<1:[1],<2:[2],[3]>>", &[a, b, c, of_2_2, of_1_2]),
        ("<2:[1],<2:[2],[3]>,[4]>", &[a, b, c, of_2_2, d, of_2_3]),
        ("<1:<2:[1],[2]>|[3],[4]>", &[a, b, of_2_2, c, or, d, of_1_2]),
        ("<1:[1]&(<2:[2],[3]>),[4]>", &[a, b, c, of_2_2, and, d, of_1_2]),
    ];
    let mut lines = Lines::default();
    for (line, pieces) in table {
        let rows = pieces.concat();
        assert_eq!(lines.read(line), Ok(rows.clone()), "{line}");
        assert_eq!(Plan::from_line(line).map(|plan| plan.rows().to_vec()), Ok(rows), "{line}");
    }
    lines.assert_met(Way::Read, 25, &[0, 16]);
}

/// "With two to eight lines and a number from 1 to the number of lines": every digit with every
/// number of lines up to ten.
#[test]
fn every_number_and_every_count() {
    let mut lines = Lines::default();
    let mut accepted = 0;
    for number in 0..=9 {
        for count in 1..=10 {
            let line = format!("<{number}:{}>", figures(count));
            // Behind so many lines stand the last comma that may, and the `>`.
            let behind = |count: usize| (2 + 4 * count) as u32;
            let read = lines.read(&line);
            let expected = match (number, count) {
                (0 | 9, _) => Err((21, 1)),
                (_, 9..) => Err((21, behind(8))),
                _ if count < number.max(2) => Err((21, behind(count))),
                _ => {
                    accepted += 1;
                    let row = at_least(number as u32, count as u32);
                    Ok([one(1).repeat(count), vec![row]].concat())
                }
            };
            assert_eq!(read, expected, "{line}");
        }
    }
    assert_eq!(accepted, 2 + 3 + 4 + 5 + 6 + 7 + 8);
}

/// Each place at which a line with `<` leaves the grammar.
#[test]
fn where_the_grammar_breaks() {
    let eight = figures(8);
    let [full, late] = [format!("<2:{eight},[1]>"), format!("<8:{}>", figures(7))];
    let nested_full = format!("<1:[1],<1:{eight},[1]>>");
    let mut lines = Lines::default();
    for (line, at) in [
        // the number
        ("<", 1),
        ("<0:[1],[2]>", 1),
        ("<9:[1],[2]>", 1),
        ("<:[1],[2]>", 1),
        ("<>", 1),
        ("<,", 1),
        ("<<2:[1],[2]>", 1),
        ("<[1],[2]>", 1),
        ("<([1],[2])>", 1),
        ("< 2:[1],[2]>", 1),
        ("<-1:[1],[2]>", 1),
        ("<a:[1],[2]>", 1),
        ("<2", 2),
        ("<12:[1],[2]>", 2),
        ("<22:[1],[2]>", 2),
        ("<20:[1],[2]>", 2),
        ("<2[1],[2]>", 2),
        ("<2 :[1],[2]>", 2),
        ("<2,[1],[2]>", 2),
        ("<2>", 2),
        ("<2;[1],[2]>", 2),
        // the first line
        ("<2:", 3),
        ("<2::[1],[2]>", 3),
        ("<2: [1],[2]>", 3),
        ("<2:,[1],[2]>", 3),
        ("<2:>", 3),
        ("<2:1,2>", 3),
        ("<2:|[1],[2]>", 3),
        ("<2:[1", 5),
        ("<2:[1,2]>", 5),
        ("<2:[1:2]>", 5),
        ("<2:[1>", 5),
        ("<2:[1<", 5),
        ("<2:[1;<", 6),
        ("<2:[1;>", 6),
        ("<2:[1;n 0 1,", 11),
        // a `>` or a comma too early
        ("<2:[1]", 6),
        ("<2:[1]>", 6),
        ("<1:[1]>", 6),
        ("<2:[1]:", 6),
        ("<2:[1];", 6),
        ("<2:[1][2]>", 6),
        ("<2:[1] ,[2]>", 6),
        ("<2:[1]|>", 7),
        ("<2:[1]&,[2]>", 7),
        ("<2:[1],", 7),
        ("<2:[1],>", 7),
        ("<2:[1],,[2]>", 7),
        ("<2:[1], [2]>", 7),
        ("<2:[1],2:[2]>", 7),
        ("<3:[1],[2]>", 10),
        ("<8:[1],[2]>", 10),
        ("<3:[1],[2],[3]|>", 15),
        (&late, 30),
        // a `>` or a comma too late
        ("<2:[1],[2]", 10),
        ("<2:[1],[2],>", 11),
        ("<2:[1],[2]>>", 11),
        ("<2:[1],[2]>,", 11),
        ("<2:[1],[2]>,[3]", 11),
        ("<2:[1],[2]>:", 11),
        ("<2:[1],[2]>[3]", 11),
        ("<2:[1],[2]><2:[3],[4]>", 11),
        ("<2:[1],[2]> ", 11),
        (&full, 34),
        (&nested_full, 41),
        ("<1:<1:[1],[2]>>", 14),
        ("<1:<3:[1],[2]>,[3]>", 13),
        // outside
        (",", 0),
        (">", 0),
        (":", 0),
        ("2:[1],[2]>", 0),
        ("[1],[2]", 3),
        ("[1],", 3),
        ("[1]>", 3),
        ("[1]:", 3),
        ("[1]<", 3),
        ("[1]<2:[1],[2]>", 3),
        ("[1]&>", 4),
        ("[1]&,", 4),
        ("[1,2]", 2),
        ("([1],[2])", 4),
        ("([1]>", 4),
        // one sign for the other
        ("<2:[1],[2])", 10),
        ("([1]|[2]>", 8),
        ("<2:[1],([2]>)", 11),
        ("(<2:[1],[2])>", 11),
        ("<2:([1],[2])>", 7),
        ("<2:([1]),[2])", 12),
        ("(<2:[1],[2]>", 12),
        ("(<2:[1],[2]>>", 12),
        ("<2:[1],(<1:[2],[3]>,[4])>", 19),
    ] {
        assert_eq!(lines.read(line), Err((21, at)), "{line:?}");
    }
    lines.assert_met_at(Way::Read, 15, &[21]);
}

/// The end in each state: every prefix of lines with `<` is refused at its end, or is a line.
#[test]
fn every_end() {
    let mut lines = Lines::default();
    let mut whole = vec![];
    for line in [
        "<2:[1],[2 3;b 0 1;a 0 1 2 3],[4]>",
        "[1]&<3:[2]|[3],([4]![5]),<1:[6],[7]>>|[8]",
        "<1:<1:<1:[1],[2]>,[3]>,([4]&[5])>",
        "<8:[1],[2],[3],[4],[5],[6],[7],[8]>",
    ] {
        for at in 0..line.len() {
            match lines.read(&line[..at]) {
                Ok(_) => whole.push(&line[..at]),
                refused => assert_eq!(refused, Err((21, at as u32)), "{}", &line[..at]),
            }
        }
        assert!(lines.read(line).is_ok(), "{line}");
    }
    let of_second = "[1]&<3:[2]|[3],([4]![5]),<1:[6],[7]>>";
    assert_eq!(whole, ["[1]", of_second]);
}

/// What opens and what closes: a round bracket, or a `<` with a second line.
const OPEN: [(&str, &str); 2] = [("(", ")"), ("<1:", ",[2]>")];

/// The signs that open so many, each of which is the one or the other by a bit.
fn opened(count: u32, bits: u32) -> String {
    (0..count).map(|i| OPEN[(bits >> i & 1) as usize].0).collect()
}

/// "For 22 a `<` counts as a round bracket, both when it is opened and while it is open": all ways
/// to open eight, and the ninth at its byte, whichever it is.
#[test]
fn eight_and_nine_deep() {
    let mut lines = Lines::default();
    for bits in 0..1 << 8 {
        let front = opened(8, bits);
        let behind: String = (0..8).rev().map(|i| OPEN[(bits >> i & 1) as usize].1).collect();
        let line = format!("{front}[1]{behind}");
        let some = [one(2), vec![at_least(1, 2)]].concat();
        let rows = [one(1), some.repeat(bits.count_ones() as usize)].concat();
        assert_eq!(lines.read(&line), Ok(rows), "{line}");

        let ninth = front.len() as u32;
        for (open, close) in OPEN {
            for text in [
                format!("{front}{open}"),
                format!("{front}{open}[1]{close}{behind}"),
                format!("{front}{open}{open}"),
                format!("{front}{open}]"),
                format!("{front}{}", &open[..1]),
                format!("{front}{}x", &open[..1]),
            ] {
                assert_eq!(lines.read(&text), Err((22, ninth)), "{text}");
            }
            // Behind an operator, and behind the comma of a line.
            let later = format!("{front}[1]&{open}[1]");
            assert_eq!(lines.read(&later), Err((22, ninth + 4)), "{later}");
            if bits >> 7 & 1 == 1 {
                let second = format!("{front}[1],{open}[1]");
                assert_eq!(lines.read(&second), Err((22, ninth + 4)), "{second}");
            }
            // Where no item may stand it is 21.
            for (between, at) in [("[1]", 3), ("[", 1), ("[1;", 3), ("[1 ", 3)] {
                let text = format!("{front}{between}{open}");
                assert_eq!(lines.read(&text), Err((21, ninth + at)), "{text}");
            }
        }
        // One that is closed is not open.
        let last = OPEN[(bits >> 7 & 1) as usize].1;
        for (open, close) in OPEN {
            let text = format!("{front}[1]{last}&{open}[1]{close}");
            let at = text.len() as u32;
            assert_eq!(lines.read(&text), Err((21, at)), "{text}");
            let text = format!("{front}[1]{last}&{open}{open}");
            let ninth = (text.len() - open.len()) as u32;
            assert_eq!(lines.read(&text), Err((22, ninth)), "{text}");
        }
    }
    lines.assert_met_at(Way::Read, 10, &[21, 22]);
}

/// A line of `<..>` in `<..>` eight deep has rows for all, and nine deep is refused, also where the
/// lines in front of the ninth are many.
#[test]
fn nested_in_any_line() {
    let mut lines = Lines::default();
    for place in 0..3 {
        let mut line = "[1]".to_string();
        for depth in 1..=9u32 {
            let others = ["[2]", "[3]"];
            let mut all = vec![others[0], others[1]];
            all.insert(place, &line);
            line = format!("<2:{}>", all.join(","));
            let read = lines.read(&line);
            if depth <= 8 {
                let read = read.unwrap();
                assert_eq!(read.len() as u32, 2 + 5 * depth, "{line}");
                assert_eq!(*read.last().unwrap(), at_least(2, 3), "{line}");
                continue;
            }
            let ninth = line.match_indices('<').nth(8).unwrap().0;
            assert_eq!(read, Err((22, ninth as u32)), "{line}");
        }
    }
}

/// 64 rows and 65: the rows of the lines, and one for each `<`.
#[test]
fn rows_of_a_line() {
    let mut lines = Lines::default();
    for count in 60..=70 {
        // Two figures; a figure of many conditions; one in another; and at the end of a line.
        let voices = |rows: usize| format!("[{}]", vec!["1"; rows - 1].join(" "));
        let conditions = |rows: usize| format!("[1{}]", ";s 1".repeat(rows - 2));
        for line in [
            format!("<1:[1],{}>", voices(count - 3)),
            format!("<2:{},[1]>", conditions(count - 3)),
            format!("<2:<1:[1],[2]>,{}>", voices(count - 6)),
            format!("{}&<2:[1],[2]>", conditions(count - 6)),
            format!("<8:{},{}>", figures(7), voices(count - 15)),
        ] {
            let read = lines.read(&line).map(|rows| rows.len());
            let expected = if count <= 64 { Ok(count) } else { Err((23, 0)) };
            assert_eq!(read, expected, "{line}");
        }
    }
    // The row of the last `<` is the 65th.
    let front = vec!["[1]"; 20].join("|");
    let line = format!("{front}|<1:[1],[2]>");
    assert_eq!(lines.read(&line), Err((23, 0)), "{line}");
    let front = vec!["[1]"; 19].join("|");
    let line = format!("{front}|<1:[1],[1 1]>");
    assert_eq!(lines.read(&line).map(|rows| rows.len()), Ok(63), "{line}");
    lines.assert_met(Way::Read, 10, &[0, 16, 23]);
}

/// 2,048 bytes of `<..>`, and one more.
#[test]
fn bytes_of_a_line() {
    let mut lines = Lines::default();
    let item = format!("<2:{}>", figures(3));
    let many = vec![item.as_str(); 120].join("|");
    assert_eq!(many.len(), 120 * 16 - 1);
    let fill =
        |bytes: usize| format!("{many}|[{}]", "1 ".repeat((bytes - many.len()) / 2 - 2) + "1");
    let line = fill(2_047);
    assert_eq!((line.len(), lines.read(&line)), (2_047, Err((23, 0))));
    assert_eq!(lines.read(format!("{line}>")), Err((21, 2_047)));
    assert_eq!(lines.read(format!("{line}>>")), Err((21, 2_048)));
    assert_eq!(lines.read(format!("{line}|<")), Err((21, 2_048)));
    assert_eq!(lines.read(format!("<{line}")), Err((21, 1)));
}

/// "A written line still gives its plan again", with no bracket that could be dropped: `<..>` needs
/// none around it, and none inside it.
#[test]
fn the_writer() {
    let volume = empty_lists(9);
    let mut lines = Lines::default();
    for (line, written) in [
        ("(<1:[1],[2]>)", "<1:[1],[2]>"),
        ("<1:([1]),([2])>", "<1:[1],[2]>"),
        ("<2:([1]|[2]),([3]&[4]),([5]![6])>", "<2:[1]|[2],[3]&[4],[5]![6]>"),
        ("<2:(<1:[1],[2]>),[3]>", "<2:<1:[1],[2]>,[3]>"),
        ("[1]&(<1:[2],[3]>)", "[1]&<1:[2],[3]>"),
        ("[1]!(<1:[2],[3]>)", "[1]!<1:[2],[3]>"),
        ("[1]|(<1:[2],[3]>)", "[1]|<1:[2],[3]>"),
        ("(<1:[1],[2]>)&[3]", "<1:[1],[2]>&[3]"),
        ("(<1:[1],[2]>)![3]", "<1:[1],[2]>![3]"),
        ("(<1:[1],[2]>&[3])|[4]", "<1:[1],[2]>&[3]|[4]"),
        ("([1]&<1:[2],[3]>)|([4]!<1:[5],[6]>)", "[1]&<1:[2],[3]>|[4]!<1:[5],[6]>"),
        // These are needed.
        ("<1:[1]&([2]|[3]),[4]>", "<1:[1]&([2]|[3]),[4]>"),
        ("<1:[1],[2]!([3]![4])>", "<1:[1],[2]!([3]![4])>"),
        ("<1:[1],[2]|([3]|[4])>", "<1:[1],[2]|([3]|[4])>"),
        ("[1]&(<1:[2],[3]>|[4])", "[1]&(<1:[2],[3]>|[4])"),
        ("[1]&(<1:[2],[3]>&[4])", "[1]&(<1:[2],[3]>&[4])"),
        ("(<1:[1],[2]>|[3])&[4]", "(<1:[1],[2]>|[3])&[4]"),
        ("[1]|(<1:[2],[3]>|[4])", "[1]|(<1:[2],[3]>|[4])"),
    ] {
        let plan = lines.read(line).unwrap();
        assert_eq!(lines.write(&volume, &plan.concat()).as_deref(), Ok(written), "{line}");
        assert_fewest(&mut lines, written, &plan);
        let packed = Plan::new(&plan[..]).to_line(&Volume::new(&volume[..]).unwrap());
        assert_eq!(packed.as_deref(), Ok(written), "{line}");
    }
    // Every number with every count, as it is read.
    for count in 2..=8 {
        for number in 1..=count {
            let line = format!("<{number}:{}>", figures(count));
            let plan = rows(&line);
            assert_eq!(lines.write(&volume, &plan.concat()), Ok(line));
        }
    }
}

/// The deepest lines there are: eight figures, each `<..>` inside the last, or each bracket.
#[test]
fn the_deepest_lines() {
    let volume = empty_lists(9);
    let mut lines = Lines::default();
    let figures: Vec<Row> = (1..=8).flat_map(one).collect();
    for (row, expected) in [
        (at_least(2, 2), "<2:[1],<2:[2],<2:[3],<2:[4],<2:[5],<2:[6],<2:[7],[8]>>>>>>>"),
        (at_least(1, 2), "<1:[1],<1:[2],<1:[3],<1:[4],<1:[5],<1:[6],<1:[7],[8]>>>>>>>"),
    ] {
        let plan = [&figures[..], &[row; 7]].concat();
        assert_eq!(lines.write(&volume, &plan.concat()).as_deref(), Ok(expected));
        assert_eq!(lines.read(expected), Ok(plan));
    }
    let by_turns = [&[BOTH, at_least(1, 2)].repeat(3)[..], &[BOTH]].concat();
    let plan = [figures, by_turns].concat();
    let line = lines.write(&volume, &plan.concat()).unwrap();
    assert_eq!(line, "[1]&<1:[2],[3]&<1:[4],[5]&<1:[6],[7]&[8]>>>");
    assert_fewest(&mut lines, &line, &plan);
}

/// All plans of up to four figures with one voice each, joined in all ways.
#[test]
fn every_tree() {
    let volume = empty_lists(6);
    let mut lines = Lines::default();
    let mut counts = vec![];
    for figures in 1..=4 {
        let trees = trees(1, figures, true);
        counts.push(trees.len());
        for rows in trees {
            let line = lines.write(&volume, &rows.concat()).unwrap();
            assert_fewest(&mut lines, &line, &rows);
            assert_eq!(dropped(&bracketed(&rows), |pairs| pairs.reverse()), line);
            // No pair stands around a whole line of `<..>`.
            for (open, close) in pairs(&line) {
                let is_first = line[..open].ends_with([',', ':']);
                let is_last = line[close + 1..].starts_with([',', '>']);
                assert!(!is_first || !is_last, "{line}");
            }
        }
    }
    // Two sides in three ways, and b parts in b ways.
    let two = 3 + 2;
    let three = (3 + 2) * (two + two) + 3;
    let four = (3 + 2) * (three + two * two + three) + 3 * (3 * two) + 4;
    assert_eq!(counts, [1, two, three, four]);
}

/// The documents of a line's rows are those that the line is true of, read on its own, over all
/// sets of eight answers.
#[test]
fn true_documents() {
    // Document i has list j where bit j - 1 of i is 1.
    let has = |doc: u32, list: u32| doc >> (list - 1) & 1 == 1;
    let docs_of = |list: u32| (0..256).filter(move |&doc| list > 0 && has(doc, list));
    let lists: Vec<Vec<u32>> =
        (0..=8).map(|list| docs_of(list).map(|doc| doc * 65_536 + list).collect()).collect();
    let volume = Volume::new(Lists::new(&lists).volume()).unwrap();
    let mut table: Vec<String> = [
        "<2:[1],<2:[2],[3],[4]>,<1:[5],[6]>,[7]&[8]>",
        "<1:[1]![2],[3]![4]>&<3:[5],[6],[7]|[8]>",
        "<3:[1]|[2],[3]|[4],[5]|[6],[7]|[8]>",
        "[1]!<2:[2],[3],[4]>|<3:[5],[6],[7],[8]>",
        "<2:[1],[2],[3],[4]>!<2:[5],[6],[7],[8]>",
        "<2:[1]!<1:[2],[3]>,[4]&([5]|[6]),<2:[7],[8]>>",
        "<1:<2:<1:<2:<1:<2:<1:[1],[2]>,[3]>,[4]>,[5]>,[6]>,[7]>,[8]>",
        "<2:[1],[1],[2]>&<2:[1],[2],[2]>",
    ]
    .map(str::to_string)
    .to_vec();
    for count in 2..=8 {
        let figures: Vec<String> = (1..=count).map(|list| format!("[{list}]")).collect();
        table.extend((1..=count).map(|number| format!("<{number}:{}>", figures.join(","))));
    }
    for line in table {
        let plan = Plan::from_line(&line).unwrap();
        let search = volume.search(&plan).unwrap();
        let docs: Vec<u32> = search.map(|row| row.doc()).collect();
        let found = |doc: u32, inside: &str| has(doc, inside.parse().unwrap());
        let is_true = |doc: &u32| is_true(&line, &|inside| found(*doc, inside));
        let expected: Vec<u32> = (0..256).filter(is_true).collect();
        assert_eq!(docs, expected, "{line}");
        assert!(!docs.is_empty() && docs.len() < 256, "{line}");
    }
}
