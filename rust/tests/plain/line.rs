//! A plain reader and writer of typed lines, straight from requests N5 and N9 (`<2:..>`) of
//! document 02. It shares nothing with the library or its wrappers, and nothing with a reader that
//! descends into brackets. The grammar is data, and a chart of its rows over the bytes (Earley's)
//! tells where a text leaves it. The rows of a plan come off a stack of waiting operators, by their
//! rank. A line is written with a pair of round brackets around every two sides; then it loses each
//! pair without which it still reads as the same plan.

use super::plan::{self, Row};
use super::Refused;

/// A line has so many bytes at most.
pub const MOST_BYTES: usize = 2_048;
/// A round bracket or a `<` may be opened inside fewer open ones, of either, than this.
pub const MOST_OPEN: usize = 8;
/// A line needs so many rows at most.
pub const MOST_ROWS: usize = 64;

/// The grammar. A capital stands for what any of its rows tells, or for a digit of its range; every
/// other sign, the space too, stands for itself.
const GRAMMAR: &[(u8, &str)] = &[
    // A line is parts joined by `|`; a part is items joined by `&` or `!`.
    (b'L', "P"),
    (b'L', "L|P"),
    (b'P', "I"),
    (b'P', "P&I"),
    (b'P', "P!I"),
    // An item is a figure, a line in round brackets, or two to eight lines behind a number, which
    // is at most how many they are.
    (b'I', "F"),
    (b'I', "(L)"),
    (b'I', "<A:L,L>"),
    (b'I', "<B:L,L,L>"),
    (b'I', "<E:L,L,L,L>"),
    (b'I', "<G:L,L,L,L,L>"),
    (b'I', "<H:L,L,L,L,L,L>"),
    (b'I', "<J:L,L,L,L,L,L,L>"),
    (b'I', "<O:L,L,L,L,L,L,L,L>"),
    // A figure holds one or more list numbers, then conditions, each after a semicolon.
    (b'F', "[W]"),
    (b'F', "[WC]"),
    (b'W', "N"),
    (b'W', "W N"),
    (b'C', ";K"),
    (b'C', "C;K"),
    (b'K', "n N N N"),
    (b'K', "b N N"),
    (b'K', "t N N"),
    (b'K', "s N"),
    (b'K', "a N N M M"),
    // Numbers have no leading zero and are at most 65,536, least and most at most 65,535.
    (b'N', "M"),
    (b'N', "65536"),
    (b'M', "0"),
    (b'M', "Z"),
    (b'M', "ZD"),
    (b'M', "ZDD"),
    (b'M', "ZDDD"),
    (b'M', "VDDDD"),
    (b'M', "6QDDD"),
    (b'M', "65QDD"),
    (b'M', "655TD"),
    (b'M', "6553S"),
];

/// The ranges of digits.
const RANGES: &[(u8, &str)] = &[
    (b'D', "0123456789"),
    (b'Z', "123456789"),
    (b'V', "12345"),
    (b'Q', "01234"),
    (b'T', "012"),
    (b'S', "012345"),
    (b'A', "12"),
    (b'B', "123"),
    (b'E', "1234"),
    (b'G', "12345"),
    (b'H', "123456"),
    (b'J', "1234567"),
    (b'O', "12345678"),
];

/// Whether a sign of the grammar stands for this byte.
fn stands_for(sign: u8, byte: u8) -> bool {
    match RANGES.iter().find(|(name, _)| *name == sign) {
        Some((_, digits)) => digits.as_bytes().contains(&byte),
        None => sign == byte && !sign.is_ascii_uppercase(),
    }
}

/// The rows that tell what a sign of the grammar stands for; none where it stands for bytes.
fn rows_of(sign: u8) -> impl Iterator<Item = usize> {
    (0..GRAMMAR.len()).filter(move |&row| GRAMMAR[row].0 == sign)
}

/// A row of the grammar in the middle of a text: how many of its signs have been met, and behind
/// how many bytes the first of them begins.
#[derive(Clone, Copy, Debug, PartialEq, Eq)]
struct Met {
    row: usize,
    signs: usize,
    from: usize,
}

impl Met {
    /// The sign to be met next, if the row is not yet whole.
    fn next(self) -> Option<u8> {
        GRAMMAR[self.row].1.as_bytes().get(self.signs).copied()
    }

    fn one_more(self) -> Met {
        Met { signs: self.signs + 1, ..self }
    }
}

/// A text that some line begins with, and the rows of the grammar that may be met behind each of
/// its bytes.
pub struct Chart {
    sets: Vec<Vec<Met>>,
}

impl Default for Chart {
    fn default() -> Chart {
        let mut chart = Chart { sets: vec![] };
        chart.add(rows_of(b'L').map(|row| Met { row, signs: 0, from: 0 }).collect());
        chart
    }
}

impl Chart {
    /// The chart of a text, or the place of its first byte that no line could have there.
    pub fn of(text: &[u8]) -> Result<Chart, usize> {
        let mut chart = Chart::default();
        match text.iter().position(|&byte| !chart.push(byte)) {
            Some(at) => Err(at),
            None => Ok(chart),
        }
    }

    fn last(&self) -> &[Met] {
        self.sets.last().unwrap()
    }

    /// Adds a byte behind the text, unless no line could have it there.
    pub fn push(&mut self, byte: u8) -> bool {
        let next = |met: &&Met| met.next().is_some_and(|sign| stands_for(sign, byte));
        let behind: Vec<Met> = self.last().iter().filter(next).map(|met| met.one_more()).collect();
        let could = !behind.is_empty();
        if could {
            self.add(behind);
        }
        could
    }

    /// Takes the last byte away.
    pub fn pop(&mut self) {
        assert!(self.sets.len() > 1, "no byte is left");
        self.sets.pop();
    }

    /// Whether the text is itself a line.
    pub fn is_line(&self) -> bool {
        let whole = |met: &Met| GRAMMAR[met.row].0 == b'L' && met.from == 0 && met.next().is_none();
        self.last().iter().any(whole)
    }

    /// Adds the set behind a byte: what the byte has met, what may begin there, and what the rows
    /// that are whole there are signs of.
    fn add(&mut self, mut set: Vec<Met>) {
        let here = self.sets.len();
        let mut done = 0;
        while done < set.len() {
            let met = set[done];
            done += 1;
            let mut put = |more: Met| {
                if !set.contains(&more) {
                    set.push(more);
                }
            };
            match met.next() {
                Some(sign) => {
                    rows_of(sign).for_each(|row| put(Met { row, signs: 0, from: here }));
                }
                None => {
                    let name = GRAMMAR[met.row].0;
                    let waiting = self.sets[met.from].iter();
                    waiting
                        .filter(|met| met.next() == Some(name))
                        .for_each(|met| put(met.one_more()));
                }
            }
        }
        self.sets.push(set);
    }
}

/// Where a text breaks the grammar: at the first byte that no line could have there, or at its end.
pub fn breaks(text: &[u8]) -> Option<usize> {
    match Chart::of(text) {
        Err(at) => Some(at),
        Ok(chart) => (!chart.is_line()).then_some(text.len()),
    }
}

/// The first byte that opens a round bracket or a `<` inside eight open ones of either.
pub fn opens_ninth(text: &[u8]) -> Option<usize> {
    let count = |part: &[u8], signs: &[u8]| part.iter().filter(|byte| signs.contains(byte)).count();
    (0..text.len()).find(|&at| {
        let before = &text[..at];
        b"(<".contains(&text[at]) && count(before, b"(<") >= MOST_OPEN + count(before, b")>")
    })
}

/// The rank of what waits on the stack: an operator takes its sides before one of a lower rank.
fn rank(sign: char) -> u32 {
    match sign {
        '&' | '!' => 2,
        '|' => 1,
        _ => 0,
    }
}

fn operator(sign: char) -> Row {
    let kind = match sign {
        '&' => plan::BOTH,
        '!' => plan::FIRST_NOT_SECOND,
        _ => plan::EITHER,
    };
    [kind, 0, 0, 0]
}

/// Takes the operators that wait at the end of the stack and have this rank at least.
fn taken(waiting: &mut Vec<char>, least: u32) -> Vec<Row> {
    let before = waiting.iter().rposition(|&sign| rank(sign) < least);
    waiting.drain(before.map_or(0, |at| at + 1)..).rev().map(operator).collect()
}

/// The rows of what stands between the square brackets of a figure.
pub fn pattern(inside: &str) -> Vec<Row> {
    let mut pieces = inside.split(';');
    let number = |word: &str| word.parse::<u32>().unwrap();
    let lists = pieces.next().unwrap().split(' ');
    let mut rows: Vec<Row> = lists.map(|list| [plan::VOICE, number(list), 0, 0]).collect();
    for piece in pieces {
        let (letter, numbers) = piece.split_once(' ').unwrap();
        let numbers: Vec<u32> = numbers.split(' ').map(number).collect();
        rows.push(match (letter, &numbers[..]) {
            ("n", &[a, b, c]) => [plan::NEAR, a, b, c],
            ("b", &[a, b]) => [plan::BEFORE, a, b, 0],
            ("t", &[a, b]) => [plan::SAME_TITLE, a, b, 0],
            ("s", &[c]) => [plan::SPAN, 0, 0, c],
            ("a", &[a, b, least, most]) => [plan::APART, a, b, least * 65_536 + most],
            _ => panic!("`{piece}` is no condition"),
        });
    }
    rows.push([plan::END, 0, 0, 0]);
    rows
}

/// The rows of a line. What waits is operators, round brackets, the number of each `<` that is
/// open, and the commas behind it.
pub fn rows(line: &str) -> Vec<Row> {
    let mut rows = vec![];
    let mut waiting: Vec<char> = vec![];
    let mut rest = line;
    while let Some(sign) = rest.chars().next() {
        rest = &rest[1..];
        match sign {
            '[' => {
                let (inside, behind) = rest.split_once(']').unwrap();
                rows.extend(pattern(inside));
                rest = behind;
            }
            '(' => waiting.push('('),
            ')' => {
                rows.extend(taken(&mut waiting, 1));
                assert_eq!(waiting.pop(), Some('('), "{line}");
            }
            '<' => {
                waiting.extend(rest.chars().next());
                rest = &rest[2..];
            }
            ',' => {
                rows.extend(taken(&mut waiting, 1));
                waiting.push(',');
            }
            '>' => {
                rows.extend(taken(&mut waiting, 1));
                let number = waiting.iter().rposition(char::is_ascii_digit).unwrap();
                let least = waiting[number].to_digit(10).unwrap();
                // A line stands behind the number, and one behind each comma.
                let lines = waiting.drain(number..).count() as u32;
                rows.push([plan::AT_LEAST, least, lines, 0]);
            }
            _ => {
                rows.extend(taken(&mut waiting, rank(sign)));
                waiting.push(sign);
            }
        }
    }
    rows.extend(taken(&mut waiting, 1));
    assert!(waiting.is_empty(), "{line}");
    rows
}

/// The rows of a text, or why it is refused.
pub fn plan_of(text: &[u8]) -> Result<Vec<Row>, Refused> {
    if text.len() > MOST_BYTES {
        return Err((21, MOST_BYTES as u32));
    }
    let (breaks, ninth) = (breaks(text), opens_ninth(text));
    if let Some(ninth) = ninth.filter(|&ninth| breaks.is_none_or(|at| ninth < at)) {
        return Err((22, ninth as u32));
    }
    if let Some(at) = breaks {
        return Err((21, at as u32));
    }
    let rows = rows(std::str::from_utf8(text).unwrap());
    if rows.len() > MOST_ROWS {
        return Err((23, 0));
    }
    Ok(rows)
}

/// Reads a line to the front of `out`: how many words its rows are.
pub fn read(text: &[u8], out: &mut [u32]) -> Result<u32, Refused> {
    let words = plan_of(text)?.concat();
    if out.len() < words.len() {
        return Err((16, 0));
    }
    out[..words.len()].copy_from_slice(&words);
    Ok(words.len() as u32)
}

/// The figure that these rows tell.
fn figure(rows: &[Row]) -> String {
    let mut text = String::new();
    for &[kind, a, b, c] in rows {
        let (least, most) = plan::limits(c);
        text += &match kind {
            plan::VOICE if text.is_empty() => format!("[{a}"),
            plan::VOICE => format!(" {a}"),
            plan::NEAR => format!(";n {a} {b} {c}"),
            plan::BEFORE => format!(";b {a} {b}"),
            plan::SAME_TITLE => format!(";t {a} {b}"),
            plan::SPAN => format!(";s {c}"),
            plan::APART => format!(";a {a} {b} {least} {most}"),
            _ => "]".to_string(),
        };
    }
    text
}

/// The line with a pair of round brackets around the two sides of every operator.
pub fn bracketed(rows: &[Row]) -> String {
    let mut lines: Vec<String> = vec![];
    let mut first = 0;
    for (at, &[kind, a, b, _]) in rows.iter().enumerate() {
        let sign = match kind {
            plan::END => {
                lines.push(figure(&rows[first..=at]));
                first = at + 1;
                continue;
            }
            plan::AT_LEAST => {
                let top = lines.split_off(lines.len() - b as usize);
                lines.push(format!("<{a}:{}>", top.join(",")));
                first = at + 1;
                continue;
            }
            plan::BOTH => '&',
            plan::EITHER => '|',
            plan::FIRST_NOT_SECOND => '!',
            _ => continue,
        };
        first = at + 1;
        let second = lines.pop().unwrap();
        let both = format!("({}{sign}{second})", lines.pop().unwrap());
        lines.push(both);
    }
    assert_eq!(lines.len(), 1, "one answer is left");
    lines.remove(0)
}

/// Where the round brackets of a line open and close, pair by pair.
pub fn pairs(line: &str) -> Vec<(usize, usize)> {
    let (mut pairs, mut open) = (vec![], vec![]);
    for (at, sign) in line.bytes().enumerate() {
        match sign {
            b'(' => open.push(at),
            b')' => pairs.push((open.pop().unwrap(), at)),
            _ => {}
        }
    }
    pairs
}

/// The line without a pair of its brackets.
pub fn without(line: &str, (open, close): (usize, usize)) -> String {
    [&line[..open], &line[open + 1..close], &line[close + 1..]].concat()
}

/// A line with the number of each figure in place of what stands in it.
fn numbered(line: &str) -> String {
    let pieces: Vec<&str> = line.split('[').collect();
    let mut text = pieces[0].to_string();
    for (number, piece) in pieces[1..].iter().enumerate() {
        text += &format!("[{number}{}", &piece[piece.find(']').unwrap()..]);
    }
    text
}

/// Whether a line reads as the same plan without a pair of its brackets. That what is left is a
/// line again does not depend on what its figures hold.
pub fn is_needless(line: &str, pair: (usize, usize)) -> bool {
    let without = without(line, pair);
    breaks(numbered(&without).as_bytes()).is_none() && rows(&without) == rows(line)
}

/// The line that is left where needless pairs are dropped, one at a time. The pairs are tried in
/// the order that `turn` brings them to.
pub fn dropped(line: &str, mut turn: impl FnMut(&mut Vec<(usize, usize)>)) -> String {
    let mut line = line.to_string();
    loop {
        let mut left = pairs(&line);
        turn(&mut left);
        match left.into_iter().find(|&pair| is_needless(&line, pair)) {
            Some(pair) => line = without(&line, pair),
            None => return line,
        }
    }
}

/// The line of an accepted plan, with no bracket that could be dropped.
pub fn line_of(rows: &[Row]) -> String {
    let line = dropped(&bracketed(rows), |_| {});
    assert_eq!(plan_of(line.as_bytes()).as_deref(), Ok(rows), "{line}");
    line
}

/// Writes the line of a plan to the front of `out`: how many bytes it has.
pub fn write(volume: &[u8], plan: &[u32], out: &mut [u8]) -> Result<u32, Refused> {
    plan::check(volume, plan)?;
    let rows: Vec<Row> = plan.chunks(4).map(|row| [row[0], row[1], row[2], row[3]]).collect();
    let line = line_of(&rows);
    if out.len() < line.len() {
        return Err((16, 0));
    }
    out[..line.len()].copy_from_slice(line.as_bytes());
    Ok(line.len() as u32)
}

/// Cuts a text at those of the signs that stand in no round bracket and in no `<..>`: the pieces,
/// each with the sign in front of it. The first has a space there.
fn cut<'a>(text: &'a str, signs: &[char]) -> Vec<(char, &'a str)> {
    let (mut pieces, mut sign, mut from, mut open) = (vec![], ' ', 0, 0);
    for (at, next) in text.char_indices() {
        match next {
            '(' | '<' => open += 1,
            ')' | '>' => open -= 1,
            _ if open == 0 && signs.contains(&next) => {
                pieces.push((sign, &text[from..at]));
                (sign, from) = (next, at + 1);
            }
            _ => {}
        }
    }
    pieces.push((sign, &text[from..]));
    pieces
}

/// Whether a line is true of a document, read on its own, without rows: one of its parts is, of
/// which the items are taken from left to right, and `<..>` is where as many of its lines are true
/// as its number says. `found` tells it of what stands between the square brackets of a figure.
pub fn is_true(line: &str, found: &dyn Fn(&str) -> bool) -> bool {
    let item = |text: &str| {
        let inside = &text[1..text.len() - 1];
        match text.as_bytes()[0] {
            b'[' => found(inside),
            b'(' => is_true(inside, found),
            _ => {
                let (number, lines) = inside.split_once(':').unwrap();
                let lines = cut(lines, &[',']);
                let yes = lines.into_iter().filter(|(_, line)| is_true(line, found)).count();
                yes >= number.parse().unwrap()
            }
        }
    };
    let part = |text: &str| {
        let items = cut(text, &['&', '!']).into_iter();
        items.fold(true, |so_far, (sign, text)| match sign {
            '!' => so_far && !item(text),
            _ => so_far && item(text),
        })
    };
    cut(line, &['|']).into_iter().any(|(_, text)| part(text))
}
