//! A plain reader of lists and plans as text, straight from what the package tells of them (`text`
//! and `Plan` in its documentation). It shares nothing with the package.

use super::plan::Row;

/// A place in a text: line and column, from 1, in characters.
pub type Place = (usize, usize);

/// The names of a plan's rows, their kinds, and what the numbers behind them are: the words a, b
/// and c, or `<` and `>`, the least and the most of which APART's c is made.
pub const NAMES: [(&str, u32, &str); 11] = [
    ("VOICE", 1, "a"),
    ("NEAR", 2, "abc"),
    ("BEFORE", 3, "ab"),
    ("SAME TITLE", 4, "ab"),
    ("SPAN", 5, "c"),
    ("END", 6, ""),
    ("BOTH", 7, ""),
    ("EITHER", 8, ""),
    ("FIRST NOT SECOND", 9, ""),
    ("APART", 10, "ab<>"),
    ("AT LEAST", 11, "ab"),
];

/// The lines of a text with their numbers, or the place of a carriage return that ends none.
fn lines(text: &str) -> Result<Vec<(usize, &str)>, Place> {
    let lines: Vec<(usize, &str)> = (1..).zip(text.lines()).collect();
    for (line, signs) in &lines {
        if let Some(before) = signs.chars().position(|sign| sign == '\r') {
            return Err((*line, before + 1));
        }
    }
    Ok(lines)
}

/// The words of a line in front of one that starts a comment, with their columns.
pub fn words(line: &str) -> Vec<(usize, String)> {
    let mut words: Vec<(usize, String)> = vec![];
    let mut is_between = true;
    for (column, sign) in (1..).zip(line.chars()) {
        match (sign, is_between) {
            (' ' | '\t', _) => {}
            ('#', true) => break,
            (_, true) => words.push((column, sign.to_string())),
            (_, false) => words.last_mut().unwrap().1.push(sign),
        }
        is_between = sign == ' ' || sign == '\t';
    }
    words
}

/// The number that a word of digits is, if it is `most` or less.
fn number(word: &str, most: u64) -> Option<u32> {
    let mut number = 0;
    for digit in word.chars() {
        number = (10 * number + "0123456789".find(digit)? as u64).min(most + 1);
    }
    (!word.is_empty() && number <= most).then_some(number as u32)
}

/// The posting that a word tells.
pub fn posting(word: &str) -> Option<u32> {
    let (doc, pos) = word.split_once(':')?;
    Some(number(doc, 65_535)? * 65_536 + number(pos, 65_535)?)
}

/// The lines of a text that are lists, with their numbers: all but comments.
pub fn list_lines(text: &str) -> Vec<(usize, &str)> {
    let is_comment = |line: &str| line.trim_start_matches([' ', '\t']).starts_with('#');
    (1..).zip(text.lines()).filter(|(_, line)| !is_comment(line)).collect()
}

/// The lists that a text tells, or where its first mistake is.
pub fn lists(text: &str) -> Result<Vec<Vec<u32>>, Place> {
    lines(text)?;
    let mut lists = vec![];
    for (line, signs) in list_lines(text) {
        let words = words(signs);
        if words.is_empty() {
            return Err((line, 1));
        }
        if words.len() == 1 && words[0].1 == "-" {
            lists.push(vec![]);
            continue;
        }
        let mut list = vec![];
        for (column, word) in words {
            list.push(posting(&word).ok_or((line, column))?);
        }
        lists.push(list);
    }
    Ok(lists)
}

/// The row that a line with these words tells: four numbers, or a name and the numbers it uses.
fn row(words: &[String]) -> Option<Row> {
    let any = |word: &String| number(word, u32::MAX.into());
    let limit = |word: &String| number(word, 65_535);
    if let (4, Some(row)) = (words.len(), words.iter().map(any).collect::<Option<Vec<u32>>>()) {
        return row.try_into().ok();
    }
    let (_, kind, used) = NAMES.iter().find(|(name, _, used)| {
        let front = &words[..words.len().saturating_sub(used.len())];
        front.join(" ").eq_ignore_ascii_case(name)
    })?;
    let (mut a, mut b, mut c) = (0, 0, 0);
    for (what, word) in used.chars().zip(&words[words.len() - used.len()..]) {
        match what {
            'a' => a = any(word)?,
            'b' => b = any(word)?,
            'c' => c = any(word)?,
            '<' => c += 65_536 * limit(word)?,
            _ => c += limit(word)?,
        }
    }
    Some([*kind, a, b, c])
}

/// The rows that a text tells, or the line of its first mistake.
pub fn rows(text: &str) -> Result<Vec<Row>, usize> {
    let mut rows = vec![];
    for (line, signs) in lines(text).map_err(|(line, _)| line)? {
        let signs = signs.split('#').next().unwrap();
        let words: Vec<String> = words(signs).into_iter().map(|(_, word)| word).collect();
        if !words.is_empty() {
            rows.push(row(&words).ok_or(line)?);
        }
    }
    Ok(rows)
}
