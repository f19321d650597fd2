//! All short texts over the signs that matter, and all short ends of longer ones.

use crate::plain::line::{opens_ninth, rows, Chart};
use crate::plain::plan::Row;
use crate::plain::Refused;
use crate::trial::{Lines, Way};

/// What a chart tells of a text that some line begins with, but for its number of rows.
fn told(chart: &Chart, text: &[u8]) -> Result<Vec<Row>, Refused> {
    match opens_ninth(text) {
        Some(ninth) => Err((22, ninth as u32)),
        None if chart.is_line() => Ok(rows(std::str::from_utf8(text).unwrap())),
        None => Err((21, text.len() as u32)),
    }
}

/// A walk over texts, from one that some line begins with. Where no line goes on with a byte, the
/// texts with that byte are refused there, whatever is behind it.
struct Walk<'a> {
    lines: Lines,
    signs: &'a [u8],
    chart: Chart,
    text: Vec<u8>,
    /// The texts that are lines, by their length.
    found: Vec<usize>,
}

impl<'a> Walk<'a> {
    fn new(start: &str, signs: &'a [u8]) -> Walk<'a> {
        let chart = Chart::of(start.as_bytes()).unwrap_or_else(|at| panic!("`{start}` at {at}"));
        let mut lines = Lines::default();
        lines.case = format!("behind `{start}`");
        Walk { lines, signs, chart, text: start.into(), found: vec![] }
    }

    /// All texts with so many bytes more.
    #[track_caller]
    fn go(&mut self, more: usize) {
        let told = told(&self.chart, &self.text);
        self.found.resize(self.found.len().max(self.text.len() + 1), 0);
        self.found[self.text.len()] += usize::from(self.chart.is_line());
        self.lines.read_beside(&self.text, &told);
        if more == 0 {
            return;
        }
        for &byte in self.signs {
            let at = self.text.len();
            self.text.push(byte);
            if self.chart.push(byte) {
                self.go(more - 1);
                self.chart.pop();
            } else {
                let refused = match opens_ninth(&self.text[..at]) {
                    Some(ninth) => Err((22, ninth as u32)),
                    None => Err((21, at as u32)),
                };
                self.lines.read_beside(&self.text, &refused);
                self.text.extend(b"]([1])");
                self.lines.read_beside(&self.text, &refused);
                self.text.truncate(at + 1);
            }
            self.text.pop();
        }
    }
}

/// All texts of up to nine bytes over the signs of the grammar, with digits that a number may begin
/// with or not go on with, and a letter of no condition.
#[test]
fn every_short_text() {
    let mut walk = Walk::new("", b"[]()<>,:|&!; 016nbtsax");
    walk.go(9);
    walk.lines.assert_met(Way::Read, 2, &[0, 16, 21, 22]);
    walk.lines.assert_met_at(Way::Read, 10, &[21]);
}

/// All texts of up to fourteen bytes over the signs of a line without spaces and conditions. How
/// many lines there are is counted by the lengths of their parts and items.
#[test]
fn every_short_line_of_one_figure() {
    let mut walk = Walk::new("", b"[]1()<>,:|&!");
    walk.go(14);
    let mut count: [Vec<usize>; 3] = [vec![], vec![], vec![]];
    for length in 0..=14 {
        let [lines, parts, items] = &count;
        // Two pieces with a sign between them.
        let pairs = |first: &[usize], second: &[usize]| -> usize {
            (0..length).map(|at| first[at] * second[length - 1 - at]).sum()
        };
        // `[1]`, `[11]` and so on up to five digits, of which 11,111 is the greatest.
        let figures = usize::from((3..=7).contains(&length));
        let brackets = if length < 2 { 0 } else { lines[length - 2] };
        // `<1:` and `>` around two lines or more, which fill so many bytes with the commas between
        // them. Each has three bytes at least, so that there are not over eight.
        let mut some = 0;
        let mut joined = lines.clone();
        for _ in 1..8 {
            let longer = |bytes: usize| -> usize {
                (0..bytes).map(|at| joined[at] * lines[bytes - 1 - at]).sum()
            };
            joined = (0..length).map(longer).collect();
            some += if length < 4 { 0 } else { joined[length - 4] };
        }
        let item = figures + brackets + some;
        let part = item + 2 * pairs(parts, items);
        let line = part + pairs(lines, parts);
        for (lengths, number) in count.iter_mut().zip([line, part, item]) {
            lengths.push(number);
        }
    }
    assert_eq!(walk.found, count[0]);
    walk.lines.assert_met(Way::Read, 300, &[0, 16, 21, 22]);
    walk.lines.assert_met_at(Way::Read, 15, &[21]);
}

/// Every byte of 256 behind every text of a few bytes that some line begins with, and behind longer
/// ones.
#[test]
fn every_byte() {
    let all: Vec<u8> = (0..=255).collect();
    for start in [
        "",
        "[1",
        "[1 2;",
        "[1;n",
        "[1;n 0",
        "[1;n 0 1 2",
        "[1;a 0 1 2",
        "[1;a 0 1 2 3",
        "[1;s 6553",
        "[1]",
        "[1]&",
        "([1]|",
        "([1]",
        "((((((((",
        "(((((((([1]",
        "(((((((([1])",
        "<",
        "<2",
        "<2:",
        "<2:[1]",
        "<2:[1],",
        "<2:[1],[2]",
        "<2:[1],[2]>",
        "<3:[1],[2]",
        "(<2:[1],[2]",
        "<1:[1],[2],[3],[4],[5],[6],[7]",
        "<1:[1],[2],[3],[4],[5],[6],[7],[8]",
        "<1:(<1:(<1:(<1:(",
        "<1:(<1:(<1:(<1:([1]",
    ] {
        let mut walk = Walk::new(start, &all);
        walk.go(2);
        let met = walk.lines.met(Way::Read);
        assert!(met[&21] > 500, "{start}: {met:?}");
    }
}

/// All ends of up to four to six bytes of texts in the middle of a number, of a condition, and of
/// brackets.
#[test]
fn every_end() {
    let digits = b"0135679 ];";
    let rows: &[(&str, &[u8], usize)] = &[
        ("[655", digits, 4),
        ("[6553", digits, 4),
        ("[0", digits, 4),
        ("[1 655", digits, 4),
        ("[1;n 6553", digits, 4),
        ("[1;n 0 6553", digits, 4),
        ("[1;n 0 1 6553", digits, 4),
        ("[1;b 6553", digits, 4),
        ("[1;b 0 6553", digits, 4),
        ("[1;t 6553", digits, 4),
        ("[1;t 0 6553", digits, 4),
        ("[1;s 6553", digits, 4),
        ("[1;a 6553", digits, 4),
        ("[1;a 0 6553", digits, 4),
        ("[1;a 0 1 6553", digits, 4),
        ("[1;a 0 1 2 6553", digits, 4),
        ("[1;", b"nbtsa 01;]", 6),
        ("[1 2;n 0", b" 01;]&", 6),
        ("[1 2;b 0", b" 01;]&", 6),
        ("[1 2;t 0", b" 01;]&", 6),
        ("[1 2;s 0", b" 01;]&", 6),
        ("[1 2;a 0 1", b" 01;]&", 6),
        ("(((((((", b"[1]()|&!", 7),
        ("((((((((", b"[1]()|&!", 6),
        ("(((((((([1]", b"[1]()|&!", 6),
        ("(((((((([1]&", b"[1]()|&!", 6),
        ("((((((([1])|", b"[1]()|&!", 6),
        ("<", b"0123456789:[<>,", 4),
        ("[1]&<", b"0189:[<>,", 4),
        ("<2:[1]", b"[1]()|&,<>:", 7),
        ("<2:[1],[2]", b"[1]()|&,<>:", 6),
        ("<3:[1],[2]", b"[1]()|!,<>:", 6),
        ("<1:<1:[1]", b"[1]()|!,<>:", 6),
        ("<8:[1],[2],[3],[4],[5],[6],[7]", b"[1]()|&,<>:", 6),
        ("<1:[1],[2],[3],[4],[5],[6],[7],[8]", b"[1]()|&,<>:", 6),
        ("<1:((((((", b"[1](),<>:", 7),
        ("<1:(<1:(<1:(<1:(", b"[1](),<>:", 6),
        ("<1:[1],(((((((", b"[1](),<>:", 6),
    ];
    let (mut met_21, mut met_22, mut read) = (0, 0, 0);
    for (start, signs, more) in rows {
        let mut walk = Walk::new(start, signs);
        walk.go(*more);
        let met = walk.lines.met(Way::Read);
        let times = |number: u32| met.get(&number).copied().unwrap_or(0);
        assert!(times(21) > 20, "{start}: {met:?}");
        met_21 += times(21);
        met_22 += times(22);
        read += times(0);
    }
    assert!(met_21 > 10_000 && met_22 > 1_000 && read > 500, "{met_21} {met_22} {read}");
}
