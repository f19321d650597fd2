//! Lines at random, and changes of them.

#![allow(dead_code)]

use crate::plain::line::{bracketed, is_needless, pairs, without};
use crate::plain::plan::Row;
use crate::support::Rng;

/// The signs that the grammar knows.
pub const SIGNS: &[u8] = b"[]()<>,:|&!; nbtsa0123456789";

/// A number that a line may have: small, at an edge, or any.
fn number(rng: &mut Rng, most: u32) -> u32 {
    let any = rng.word() % (most + 1);
    let edge = rng.pick(&[9, 10, 99, 100, 9_999, 10_000, 65_529, 65_530, most - 1, most]);
    let small = rng.word() % 4;
    rng.pick(&[small, small, small, edge, any])
}

/// What stands in a figure.
fn figure(rng: &mut Rng, lists: usize, conditions: usize) -> String {
    let lists: Vec<String> = (0..lists).map(|_| number(rng, 65_536).to_string()).collect();
    let mut text = lists.join(" ");
    for _ in 0..conditions {
        let [a, b, c] = [(); 3].map(|()| number(rng, 65_536));
        let [least, most] = [(); 2].map(|()| number(rng, 65_535));
        text += &match rng.below(5) {
            0 => format!(";n {a} {b} {c}"),
            1 => format!(";b {a} {b}"),
            2 => format!(";t {a} {b}"),
            3 => format!(";s {c}"),
            _ => format!(";a {a} {b} {least} {most}"),
        };
    }
    format!("[{text}]")
}

/// Joins items of a line by signs, groups of them in brackets; now and then a pair of brackets more
/// than there has to be.
fn joined(rng: &mut Rng, items: &[String], needless: usize) -> String {
    let mut groups = vec![];
    let mut rest = items;
    while !rest.is_empty() {
        let most = if rest.len() == items.len() { items.len().max(2) - 1 } else { rest.len() };
        let any = 1 + rng.below(most);
        let (group, behind) = rest.split_at(rng.pick(&[1, 1, any]));
        rest = behind;
        groups.push(match group {
            [one] => one.clone(),
            _ if rng.below(3) == 0 => some(rng, group, needless),
            _ => format!("({})", joined(rng, group, needless)),
        });
    }
    let mut line = String::new();
    for (at, group) in groups.iter().enumerate() {
        if at > 0 {
            line.push(rng.pick(&['|', '&', '!']));
        }
        let more = if rng.below(12) < needless { 1 + rng.below(2) } else { 0 };
        line += &format!("{}{group}{}", "(".repeat(more), ")".repeat(more));
    }
    line
}

/// Two to eight lines in `<..>` that have these items, two at least, with a number before them.
fn some(rng: &mut Rng, items: &[String], needless: usize) -> String {
    let any = 2 + rng.below(items.len().min(8) - 1);
    let count = rng.pick(&[2, any, any]);
    let (mut lines, mut rest) = (vec![], items);
    for left in (0..count).rev() {
        // One item at least is for each line that is left.
        let any = 1 + rng.below(rest.len() - left);
        let (line, behind) = rest.split_at(if left == 0 { rest.len() } else { any });
        lines.push(joined(rng, line, needless));
        rest = behind;
    }
    format!("<{}:{}>", 1 + rng.below(count), lines.join(","))
}

/// A line of the grammar. Its figures are few or many, and so are the words of each; some lines are
/// too long, some have too many rows, and in some too many brackets are open.
pub fn random_line(rng: &mut Rng) -> String {
    let (figures, words) = match rng.below(12) {
        0..=4 => (1 + rng.below(4), 3),
        5..=7 => (1 + rng.below(9), 2),
        8 => (1 + rng.below(24), 1),
        9 => (1, 8),
        10 => (8 + rng.below(40), 1 + rng.below(9)),
        _ => (1 + rng.below(8), 9),
    };
    let items: Vec<String> = (0..figures)
        .map(|_| {
            let (lists, conditions) = (1 + rng.below(words), rng.below(words));
            figure(rng, lists, conditions)
        })
        .collect();
    let needless = rng.pick(&[0, 0, 1, 4]);
    let mut line = match rng.below(4) {
        0 if figures > 1 => some(rng, &items, needless),
        _ => joined(rng, &items, needless),
    };
    let around = match rng.below(10) {
        0 => rng.below(11),
        _ => 0,
    };
    for _ in 0..around {
        line = match rng.below(4) {
            0 => format!("<1:{line},[1]>"),
            1 => format!("<2:[2],{line}>"),
            _ => format!("({line})"),
        };
    }
    line
}

/// A piece of a line, or what is none.
fn piece(rng: &mut Rng) -> Vec<u8> {
    const PIECES: [&str; 34] = [
        "[1]",
        "[1 2]",
        "[0;b 0 0]",
        "([1])",
        "(",
        ")",
        "((((((((",
        "))))))))",
        "((((((((([1]",
        "]",
        "[",
        "|",
        "&",
        "!",
        ";",
        " ",
        "  ",
        "65536",
        "65537",
        "00",
        ";s 1",
        ";a 0 1 2 65535",
        ";n 0 1",
        "<2:[1],[2]>",
        "<3:[1],[2]>",
        "<1:([1]),[2]|[3],[4]>",
        "<",
        ">",
        ",",
        "<1:",
        ",[1]>",
        ">>>>",
        "<1:<1:<1:<1:",
        ",[1],[1],[1],[1],[1],[1],[1]",
    ];
    match rng.below(6) {
        0 | 1 => rng.pick(&PIECES).into(),
        2 => vec![rng.word() as u8],
        3 => figure(rng, 1, 1).into_bytes(),
        _ => vec![rng.pick(SIGNS)],
    }
}

/// A text with a few bytes taken out, and pieces put in.
pub fn mutated(rng: &mut Rng, text: &[u8]) -> Vec<u8> {
    let mut text = text.to_vec();
    for _ in 0..rng.pick(&[1, 1, 1, 2, 3]) {
        let at = rng.below(text.len() + 1);
        let to = (at + rng.pick(&[0, 0, 1, 1, 2, 9])).min(text.len());
        let piece = if rng.below(4) == 0 { vec![] } else { piece(rng) };
        text.splice(at..to, piece);
    }
    text
}

/// Any bytes: pieces of lines, signs of the grammar, or bytes of any value; now and then many.
pub fn any_bytes(rng: &mut Rng) -> Vec<u8> {
    let most = rng.pick(&[3, 12, 40, 40, 2_300]);
    let count = rng.below(most);
    match rng.below(3) {
        0 => (0..count / 3).flat_map(|_| piece(rng)).collect(),
        1 => (0..count).map(|_| rng.pick(SIGNS)).collect(),
        _ => (0..count).map(|_| rng.word() as u8).collect(),
    }
}

/// A line of these rows with some of the brackets that could be dropped, or none of them, and now
/// and then with a pair around a figure.
pub fn loosely_written(rng: &mut Rng, rows: &[Row]) -> String {
    let mut line = bracketed(rows);
    let seldom = 1 + rng.below(4);
    for _ in pairs(&line) {
        let mut needless = pairs(&line);
        needless.retain(|&pair| is_needless(&line, pair));
        if !needless.is_empty() && rng.below(seldom) == 0 {
            line = without(&line, rng.pick(&needless));
        }
    }
    if rng.below(2) == 0 {
        let figures: Vec<(usize, &str)> = line.match_indices('[').collect();
        let open = rng.pick(&figures).0;
        let close = open + line[open..].find(']').unwrap();
        line.insert(close + 1, ')');
        line.insert(open, '(');
    }
    line
}
