//! Lines at their limits: numbers, spaces, brackets, rows and bytes.

use crate::support::plans::*;
use crate::trial::{Lines, Way};
use lihambozy::{MAX_LINE_BYTES, MAX_ROWS};

/// A line with a gap for a number, the greatest number there, and the row and word that it goes to.
/// The limits of APART are halves of a word.
struct Gap {
    front: &'static str,
    behind: &'static str,
    most: u32,
    row: usize,
    word: usize,
    times: u32,
}

const GAPS: [Gap; 17] = {
    const fn gap(front: &'static str, behind: &'static str, word: usize) -> Gap {
        Gap { front, behind, most: 65_536, row: 1, word, times: 1 }
    }
    const fn limit(front: &'static str, behind: &'static str, times: u32) -> Gap {
        Gap { front, behind, most: 65_535, row: 1, word: 3, times }
    }
    [
        Gap { front: "[", behind: "]", most: 65_536, row: 0, word: 1, times: 1 },
        Gap { front: "[", behind: " 7]", most: 65_536, row: 0, word: 1, times: 1 },
        Gap { front: "([", behind: ";s 7])", most: 65_536, row: 0, word: 1, times: 1 },
        gap("[7 ", "]", 1),
        gap("[7 ", " 7]", 1),
        gap("[7;n ", " 0 0]", 1),
        gap("[7;n 0 ", " 0]", 2),
        gap("[7;n 0 0 ", "]", 3),
        gap("[7;n 0 0 ", ";b 0 0]", 3),
        gap("[7;b ", " 0]", 1),
        gap("[7;b 0 ", "]", 2),
        gap("[7;t ", " 0]", 1),
        gap("[7;t 0 ", "]|[7]", 2),
        gap("[7;s ", "]", 3),
        gap("[7;a ", " 0 0 0]", 1),
        limit("[7;a 0 0 ", " 0]", 65_536),
        limit("[7;a 0 0 0 ", "]", 1),
    ]
};

/// Every number in every gap: at its limit and one more, of every number of digits, with zeros in
/// front. A number that passes the limit is refused at the digit with which it does.
#[test]
fn numbers_in_every_gap() {
    let mut lines = Lines::default();
    for Gap { front, behind, most, row, word, times } in GAPS {
        let text = |number: &str| format!("{front}{number}{behind}");
        for number in (0..=12).chain([99, 100, 999, 1_000, 6_552, 6_553, 6_554, 9_999, 10_000]) {
            let read = lines.read(text(&number.to_string())).unwrap();
            assert_eq!(read[row][word], number * times, "{}", text(&number.to_string()));
        }
        for number in [59_999, 60_000, 65_499, 65_500, 65_529, 65_530, 65_534, 65_535, 65_536] {
            let line = text(&number.to_string());
            let read = lines.read(&line).map(|rows| rows[row][word]);
            let digit = front.len() as u32 + 4;
            let number = if number > most { Err((21, digit)) } else { Ok(number * times) };
            assert_eq!(read, number, "{line}");
        }
        // The digit that no number can have there, where it is at most 65,536 and where it is less.
        for (number, of_words, of_limits) in [
            ("65537", 4, 4),
            ("65538", 4, 4),
            ("65539", 4, 4),
            ("65540", 4, 4),
            ("65600", 4, 4),
            ("66000", 4, 4),
            ("70000", 4, 4),
            ("99999", 4, 4),
            ("100000", 5, 5),
            ("655350", 5, 5),
            ("655360", 5, 4),
            ("65536000", 5, 4),
            ("131072", 5, 5),
            ("4294967296", 5, 5),
            ("4294967297", 5, 5),
            ("18446744073709551617", 5, 5),
            ("00", 1, 1),
            ("01", 1, 1),
            ("007", 1, 1),
            ("0000000000", 1, 1),
        ] {
            let digit = if most == 65_536 { of_words } else { of_limits };
            let told = lines.read(text(number));
            assert_eq!(told, Err((21, (front.len() + digit) as u32)), "{}", text(number));
        }
        // No number at all, and what a number is not.
        for (wrong, digit) in [
            ("", 0),
            ("-1", 0),
            ("+1", 0),
            ("x", 0),
            ("1x", 1),
            ("1.0", 1),
            ("0x1", 1),
            ("1e3", 1),
            ("1_0", 1),
            ("\u{661}", 0),
        ] {
            let told = lines.read(text(wrong));
            assert_eq!(told, Err((21, (front.len() + digit) as u32)), "{}", text(wrong));
        }
    }
    lines.assert_met(Way::Read, 500, &[0, 16, 21]);
}

/// A space too many in every place of a line, and a space too few.
#[test]
fn spaces_everywhere() {
    let line = "([1 20;n 0 1 3;b 0 1;t 0 1;s 9;a 0 1 2 3])&[3]![4]|[5 6]!<2:[7],([8])>";
    let mut lines = Lines::default();
    assert!(lines.read(line).is_ok());
    let digit = |at: usize| line.as_bytes().get(at).is_some_and(u8::is_ascii_digit);
    for at in 0..=line.len() {
        let wide = format!("{} {}", &line[..at], &line[at..]);
        let answer = lines.read(&wide);
        // Between two digits of a list number it makes two of one.
        let splits = at > 0 && digit(at - 1) && digit(at);
        assert_eq!(answer.is_ok(), splits, "{wide}: {answer:?}");
        assert!(answer.is_ok() || matches!(answer, Err((21, _))), "{wide}: {answer:?}");
    }
    for (at, _) in line.match_indices(' ') {
        let narrow = format!("{}{}", &line[..at], &line[at + 1..]);
        let answer = lines.read(&narrow);
        // Two list numbers become one.
        let joins = line[..at].ends_with("([1") || line[..at].ends_with("|[5");
        assert_eq!(answer.is_ok(), joins, "{narrow}: {answer:?}");
        let two = format!("{}  {}", &line[..at], &line[at + 1..]);
        assert_eq!(lines.read(&two), Err((21, at as u32 + 1)), "{two}");
    }
}

/// Eight brackets open, and nine, in front, in the middle and at the end of a line.
#[test]
fn eight_and_nine_brackets() {
    let mut lines = Lines::default();
    let nested =
        |count: usize, inside: &str| format!("{}{inside}{}", "(".repeat(count), ")".repeat(count));
    let one = vec![voice(1), END];
    for count in 0..=20 {
        let answer = if count <= 8 { Ok(one.clone()) } else { Err((22, 8)) };
        assert_eq!(lines.read(nested(count, "[1]")), answer, "{count}");
    }
    for front in ["[2]|", "[2]&[3]!", "([2]|[3])&", &format!("{}|", nested(8, "[2]"))] {
        assert!(lines.read(format!("{front}{}", nested(8, "[1]"))).is_ok(), "{front}");
        let ninth = front.len() as u32 + 8;
        assert_eq!(lines.read(format!("{front}{}", nested(9, "[1]"))), Err((22, ninth)), "{front}");
    }
    // Those that are closed are not open.
    let closed = nested(7, "([1])|([2])&([3])!([4])");
    assert!(lines.read(&closed).is_ok(), "{closed}");
    let many = format!("{}[1]{}", "([1]&".repeat(8), ")".repeat(8));
    assert!(lines.read(&many).is_ok(), "{many}");
    let ninth = format!("{}([1]){}", "([1]&".repeat(8), ")".repeat(8));
    assert_eq!(lines.read(&ninth), Err((22, 40)), "{ninth}");
    // A square bracket is none of them.
    assert_eq!(lines.read(nested(8, "[[1]]")), Err((21, 9)));
}

/// Where 21 and 22 meet: the lower byte is told, and 21 where both are at one.
#[test]
fn brackets_and_grammar() {
    let open = "((((((((";
    let mut lines = Lines::default();
    for (behind, refused) in [
        // 22 alone, and before 21
        ("(", (22, 8)),
        ("(x", (22, 8)),
        ("()", (22, 8)),
        ("([1]", (22, 8)),
        ("([1])))))))))", (22, 8)),
        ("([1])))))))))]", (22, 8)),
        ("((((", (22, 8)),
        ("[1]&(", (22, 12)),
        ("[1]|(((x", (22, 12)),
        ("[1]![2]!(", (22, 16)),
        ("[1])|([2]&(", (22, 18)),
        // 21 where both are at one byte
        ("[1](", (21, 11)),
        ("[1](((", (21, 11)),
        ("[1;(", (21, 11)),
        ("[(", (21, 9)),
        ("[1 (", (21, 11)),
        ("[1;s (", (21, 13)),
        ("[1]&[2](", (21, 15)),
        ("[1])|([2](", (21, 17)),
        // 21 before 22
        (")(", (21, 8)),
        ("x(", (21, 8)),
        ("|(", (21, 8)),
        ("[01]&(", (21, 10)),
        ("[65537]&(", (21, 13)),
        ("[1]]&(", (21, 11)),
        ("[1]&|(", (21, 12)),
        ("[1]))))))))&)((((((((((", (21, 20)),
        // behind a bracket that closes, the ninth is an eighth
        ("[1])(", (21, 12)),
        ("[1])&(", (21, 14)),
        ("[1])&((", (22, 14)),
    ] {
        let text = format!("{open}{behind}");
        assert_eq!(lines.read(&text), Err(refused), "{text}");
    }
    lines.assert_met_at(Way::Read, 5, &[21, 22]);
}

/// 64 rows and 65, of every kind of row.
#[test]
fn rows() {
    let mut lines = Lines::default();
    let mut answers = vec![];
    for count in 62..=70 {
        // Lists alone, conditions alone, figures of one list and operators, and all together.
        let lists = format!("[{}]", vec!["1"; count - 1].join(" "));
        let conditions = format!("[1{}]", ";s 1".repeat(count - 2));
        let pairs = vec!["[1]"; 20].join("&");
        let mixed = format!("{pairs}![1{}]", ";a 0 0 1 1".repeat(count - 62));
        let brackets = format!("((({lists})))");
        for line in [lists, conditions, mixed, brackets] {
            let rows = lines.read(&line).map(|rows| rows.len());
            let expected = if count <= 64 { Ok(count) } else { Err((23, 0)) };
            assert_eq!(rows, expected, "{line}");
            answers.push(rows);
        }
    }
    assert_eq!(answers.iter().filter(|rows| **rows == Ok(MAX_ROWS)).count(), 4);
    // 21 and 22 come first, wherever they are.
    let many = format!("[{}]", vec!["1"; 100].join(" "));
    for (line, refused) in [
        (many.clone(), (23, 0)),
        (format!("{many}]"), (21, 201)),
        (many[..200].to_string(), (21, 200)),
        (format!("{many}|((((((((([1]"), (22, 210)),
        (format!("{many}|"), (21, 202)),
        (format!("(((((((({many}))))))))"), (23, 0)),
        (format!("((((((((({many})))))))))"), (22, 8)),
    ] {
        assert_eq!(lines.read(&line), Err(refused), "{line}");
    }
}

/// 2,048 bytes and 2,049. A line that needs 64 rows has 1,635 bytes at most, so that none of 2,048
/// is read; but it is refused as a shorter one would be, and one of 2,049 is not.
#[test]
fn bytes() {
    let mut lines = Lines::default();
    let longest = format!("[65536{}]", ";a 65536 65536 65535 65535".repeat(62));
    let around = format!("(((((((({longest}))))))))");
    assert_eq!((longest.len(), around.len(), MAX_LINE_BYTES), (1_619, 1_635, 2_048));
    for line in [&longest, &around] {
        assert_eq!(lines.read(line).map(|rows| rows.len()), Ok(64), "{line}");
    }
    // A second figure takes the rows of more bytes than it has, with eight brackets around it too.
    let figure = "(((((((([65536]))))))))";
    let conditions = ";a 65536 65536 65535 65535".repeat(59);
    let two = format!("{figure}&(((((((([65536{conditions}]))))))))");
    assert_eq!((two.len(), lines.read(&two).map(|rows| rows.len())), (1_581, Ok(64)));

    let figures = |count: usize| vec!["[1]"; count].join("!");
    for (front, behind, refused) in [
        (figures(511) + "|", "", (23, 0)),
        (figures(511) + "&", "", (23, 0)),
        (figures(500) + "!", "|", (21, 2_048)),
        ("[1;x 1]|".to_string(), "", (21, 3)),
        ("[x]|".to_string(), "", (21, 1)),
        ("]".to_string(), "", (21, 0)),
        ("((((((((([1])))))))))&".to_string(), "", (22, 8)),
        ("[1][2]&".to_string(), "", (21, 3)),
    ] {
        // A figure of so many lists that there are that many bytes.
        let of = |bytes: usize| {
            let left = bytes - front.len() - behind.len();
            let lists = if left % 2 == 0 { "10" } else { "1" }.to_string();
            let more = " 1".repeat((left - 2 - lists.len()) / 2);
            let text = format!("{front}[{lists}{more}]{behind}");
            assert_eq!(text.len(), bytes, "{front}");
            text
        };
        assert_eq!(lines.read(of(2_048)), Err(refused), "{front}");
        let is_lower = if refused == (21, 2_048) { (21, 2_047) } else { refused };
        assert_eq!(lines.read(of(2_047)), Err(is_lower), "{front}");
        for bytes in [2_049, 2_050, 4_096, 65_535, 65_536, 65_537, 70_000] {
            assert_eq!(lines.read(of(bytes)), Err((21, 2_048)), "{front}, {bytes} bytes");
        }
    }
}
