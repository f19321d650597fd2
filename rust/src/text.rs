//! Lists and plans as text.
//!
//! A text of lists has one list a line, list 0 first, as `scene:place` words with blanks between
//! them, or `-` for an empty list. A line whose first sign behind blanks is `#` is a comment and no
//! list; behind the words of a line a comment goes from a word that starts with `#` to the line's
//! end. An empty line is a mistake: taken for a list, or passed over, it would move the numbers of
//! the lists behind it without a sign. The text of a plan is told at [`Plan`](crate::Plan).
//!
//! A line ends in a line feed, or in a carriage return and a line feed. Blanks are spaces and tabs.
//! A carriage return elsewhere is a mistake, in a comment too: some programs show a new line there,
//! and what stands in it would belong to another list or to none.

use crate::row::PlanRow;
use crate::{kind, Posting, Refusal, MAX_LISTS, MAX_WORDS, ROW_WORDS};
use std::error::Error;
use std::fmt;

/// A mistake in a text, with line and column from 1. It is shown as `LINE:COLUMN: SENTENCE`.
#[derive(Clone, Debug, PartialEq, Eq)]
pub struct Mistake {
    /// The line, from 1.
    pub line: usize,
    /// The column, from 1, in characters.
    pub column: usize,
    /// What is wrong there, as a sentence in document 01's words.
    pub what: String,
}

impl fmt::Display for Mistake {
    fn fmt(&self, f: &mut fmt::Formatter<'_>) -> fmt::Result {
        write!(f, "{}:{}: {}", self.line, self.column, self.what)
    }
}

impl Error for Mistake {}

/// A word of a text, and where it stands.
#[derive(Clone, Copy)]
pub(crate) struct Word<'a> {
    pub text: &'a str,
    pub line: usize,
    pub column: usize,
}

impl Word<'_> {
    /// The characters that a sentence shows, at most.
    const SHOWN: usize = 40;

    pub fn mistake(self, what: impl Into<String>) -> Mistake {
        Mistake { line: self.line, column: self.column, what: what.into() }
    }

    /// A mistake where something is missing behind the word.
    pub fn mistake_behind(self, what: impl Into<String>) -> Mistake {
        let column = self.column + self.text.chars().count();
        Word { column, ..self }.mistake(what)
    }
}

/// In a sentence a word stands between backquotes, a long one with its front alone.
impl fmt::Display for Word<'_> {
    fn fmt(&self, f: &mut fmt::Formatter<'_>) -> fmt::Result {
        match self.text.char_indices().nth(Word::SHOWN) {
            Some((end, _)) => write!(f, "`{}...`", &self.text[..end]),
            None => write!(f, "`{}`", self.text),
        }
    }
}

/// Whether a sign stands between words.
fn is_blank(sign: char) -> bool {
    sign == ' ' || sign == '\t'
}

/// The words of a line, without its comment.
pub(crate) fn words(number: usize, line: &str) -> impl Iterator<Item = Word<'_>> {
    words_from(number, 1, line)
}

/// The words of a line that is a comment, without a comment in it.
pub(crate) fn comment(number: usize, line: &str) -> Option<impl Iterator<Item = Word<'_>>> {
    let rest = line.trim_start_matches(is_blank).strip_prefix('#')?;
    let column = 1 + line[..line.len() - rest.len()].chars().count();
    Some(words_from(number, column, rest))
}

/// The words of what stands in a line from a column on, without its comment.
fn words_from(number: usize, column: usize, rest: &str) -> impl Iterator<Item = Word<'_>> {
    let (mut rest, mut column) = (rest, column);
    std::iter::from_fn(move || {
        let word = rest.trim_start_matches(is_blank);
        column += rest[..rest.len() - word.len()].chars().count();
        let (text, behind) = word.split_at(word.find(is_blank).unwrap_or(word.len()));
        let at = column;
        rest = behind;
        column += text.chars().count();
        let ends = text.is_empty() || text.starts_with('#');
        (!ends).then_some(Word { text, line: number, column: at })
    })
    .fuse()
}

/// The lines of a text: their numbers, from 1, and themselves.
pub(crate) fn lines(text: &str) -> impl Iterator<Item = (usize, &str)> {
    (1..).zip(text.lines())
}

/// The lines of a text that are lists.
fn list_lines(text: &str) -> impl Iterator<Item = (usize, &str)> {
    lines(text).filter(|(_, line)| !line.trim_start_matches(is_blank).starts_with('#'))
}

/// The word of a line that is an empty list.
const EMPTY: &str = "-";

/// No carriage return stands in a text but at the end of a line.
pub(crate) fn check_line_ends(text: &str) -> Result<(), Mistake> {
    let within = |(line, signs): (usize, &str)| {
        let column = 1 + signs[..signs.find('\r')?].chars().count();
        let what = "a carriage return without a line feed behind it ends no line".into();
        Some(Mistake { line, column, what })
    };
    lines(text).find_map(within).map_or(Ok(()), Err)
}

/// The lists that a text tells.
///
/// ```
/// use lihambozy::{text, Posting};
///
/// let lists = text::lists("# titles\n1:0 1:6\n-\n1:2 1:8 2:4 # a word\n")?;
/// assert_eq!(lists.len(), 3);
/// assert_eq!(lists[0], [Posting::new(1, 0), Posting::new(1, 6)]);
/// assert!(lists[1].is_empty());
///
/// let mistake = text::lists("1:0 1:6\n1:2 1;8").unwrap_err();
/// assert_eq!(mistake.to_string(), "2:5: `1;8` is no scene:place");
/// # Ok::<(), text::Mistake>(())
/// ```
pub fn lists(text: &str) -> Result<Vec<Vec<Posting>>, Mistake> {
    check_line_ends(text)?;
    list_lines(text).map(|(number, line)| list(number, line)).collect()
}

/// The list that a line tells.
pub(crate) fn list(number: usize, line: &str) -> Result<Vec<Posting>, Mistake> {
    let mut words = words(number, line);
    let Some(first) = words.next() else {
        let what = format!("the line is empty; an empty list is told by `{EMPTY}`");
        return Err(Mistake { line: number, column: 1, what });
    };
    match (first.text, words.next()) {
        (EMPTY, None) => Ok(vec![]),
        (_, second) => [first].into_iter().chain(second).chain(words).map(posting).collect(),
    }
}

/// A list, shown as a line of its text.
///
/// ```
/// use lihambozy::{text, Posting};
///
/// let list = [Posting::new(1, 2), Posting::new(2, 4)];
/// assert_eq!(text::ListLine(&list).to_string(), "1:2 2:4");
/// assert_eq!(text::ListLine(&[]).to_string(), "-");
/// ```
pub struct ListLine<'a>(pub &'a [Posting]);

impl fmt::Display for ListLine<'_> {
    fn fmt(&self, f: &mut fmt::Formatter<'_>) -> fmt::Result {
        let Some((first, rest)) = self.0.split_first() else {
            return f.write_str(EMPTY);
        };
        write!(f, "{first}")?;
        rest.iter().try_for_each(|posting| write!(f, " {posting}"))
    }
}

/// The posting that a word tells.
fn posting(word: Word<'_>) -> Result<Posting, Mistake> {
    let Some((doc, pos)) = word.text.split_once(':') else {
        return Err(no_posting(word));
    };
    let number = |digits: &str| {
        if !is_number(digits) {
            return Err(no_posting(word));
        }
        let number = Word { text: digits, ..word };
        digits.parse().map_err(|_| word.mistake(format!("{number} is over 65535")))
    };
    Ok(Posting::new(number(doc)?, number(pos)?))
}

fn no_posting(word: Word<'_>) -> Mistake {
    word.mistake(format!("{word} is no scene:place"))
}

/// Whether a word is digits alone.
pub(crate) fn is_number(word: &str) -> bool {
    !word.is_empty() && word.bytes().all(|byte| byte.is_ascii_digit())
}

/// Where a text of lists earns a refusal of its volume: the first posting that does not rise in the
/// list of a 7, the first list that is too many for a 5 or the end of the text where there is none,
/// the first posting that is too many for a 19. `None` for any other refusal, or where the text
/// does not earn it.
///
/// ```
/// use lihambozy::{text, Volume};
///
/// let lists = "1:0 1:6\n1:8 1:2\n";
/// let refusal = Volume::of_lists(&text::lists(lists)?).unwrap_err();
/// let mistake = text::refused(lists, refusal).unwrap();
/// assert_eq!(mistake.to_string(), "2:5: `1:2` does not come after `1:8`");
/// # Ok::<(), text::Mistake>(())
/// ```
pub fn refused(text: &str, refusal: Refusal) -> Option<Mistake> {
    let mut lists = list_lines(text);
    match refusal.number {
        5 => {
            let (line, what) = match (lists.next(), lists.nth(MAX_LISTS - 1)) {
                (None, _) => (text.lines().count() + 1, "there is no list"),
                (_, Some((line, _))) => (line, "this list is one more than the 1024 of a volume"),
                _ => return None,
            };
            Some(Mistake { line, column: 1, what: what.into() })
        }
        7 => {
            let (number, line) = lists.nth(refusal.at as usize)?;
            let mut list = words(number, line);
            let mut before = list.next()?;
            for word in list {
                if posting(word).ok()? <= posting(before).ok()? {
                    return Some(word.mistake(format!("{word} does not come after {before}")));
                }
                before = word;
            }
            None
        }
        19 => {
            let room = (MAX_WORDS - 2).checked_sub(lists.count())?;
            let words = list_lines(text).flat_map(|(number, line)| words(number, line));
            let word = words.filter(|word| word.text != EMPTY).nth(room)?;
            Some(word.mistake("this posting is one more than fits the volume"))
        }
        _ => None,
    }
}

/// A number in the text of a row: the word of the row that holds it, the bits of that word below
/// it, and the greatest that it can be.
#[derive(Clone, Copy)]
struct Number {
    word: usize,
    shift: u32,
    greatest: u32,
}

impl Number {
    /// A whole word of a row.
    const fn word(word: usize) -> Number {
        Number { word, shift: 0, greatest: u32::MAX }
    }

    /// The number that a row holds.
    fn of(self, row: PlanRow) -> u32 {
        row[self.word] >> self.shift & self.greatest
    }
}

const A: Number = Number::word(1);
const B: Number = Number::word(2);
const C: Number = Number::word(3);
/// The upper half of c, APART's.
const LEAST: Number = Number { word: 3, shift: 16, greatest: 65_535 };
/// The lower half of c, APART's.
const MOST: Number = Number { word: 3, shift: 0, greatest: 65_535 };

/// The kinds: name, number, and the numbers that it uses.
const KINDS: [(&str, u32, &[Number]); 11] = [
    ("VOICE", kind::VOICE, &[A]),
    ("NEAR", kind::NEAR, &[A, B, C]),
    ("BEFORE", kind::BEFORE, &[A, B]),
    ("SAME TITLE", kind::SAME_TITLE, &[A, B]),
    ("SPAN", kind::SPAN, &[C]),
    ("END", kind::END, &[]),
    ("BOTH", kind::BOTH, &[]),
    ("EITHER", kind::EITHER, &[]),
    ("FIRST NOT SECOND", kind::FIRST_NOT_SECOND, &[]),
    ("APART", kind::APART, &[A, B, LEAST, MOST]),
    ("AT LEAST", kind::AT_LEAST, &[A, B]),
];

/// A row of a plan, shown as a line of its text.
pub(crate) struct RowText(pub PlanRow);

impl fmt::Display for RowText {
    fn fmt(&self, f: &mut fmt::Formatter<'_>) -> fmt::Result {
        let row = self.0;
        let tells = |&&(_, kind, used): &&(&str, u32, &[Number])| {
            let is_used = |word: usize| used.iter().any(|number| number.word == word);
            row[0] == kind && (1..ROW_WORDS).all(|word| is_used(word) || row[word] == 0)
        };
        match KINDS.iter().find(tells) {
            Some((name, _, used)) => {
                f.write_str(name)?;
                used.iter().try_for_each(|number| write!(f, " {}", number.of(row)))
            }
            None => write!(f, "{} {} {} {}", row[0], row[1], row[2], row[3]),
        }
    }
}

/// The rows that the text of a plan tells.
pub(crate) fn plan_rows(text: &str) -> Result<Vec<PlanRow>, Mistake> {
    check_line_ends(text)?;
    let lines = lines(text).map(|(number, line)| {
        let row = line.split_once('#').map_or(line, |(row, _)| row);
        words(number, row).collect()
    });
    lines.filter(|line: &Vec<Word<'_>>| !line.is_empty()).map(|line| row(&line)).collect()
}

/// The row that a line with these words tells.
fn row(line: &[Word<'_>]) -> Result<PlanRow, Mistake> {
    if is_number(line[0].text) {
        return numbers(line, line, &[Number::word(0), A, B, C], "a row told by numbers");
    }
    for (name, kind, used) in KINDS {
        let names = name.split(' ').count();
        let same = |(word, name): (&Word<'_>, &str)| word.text.eq_ignore_ascii_case(name);
        if line.len() >= names && line.iter().zip(name.split(' ')).all(same) {
            let mut row = numbers(line, &line[names..], used, name)?;
            row[0] = kind;
            return Ok(row);
        }
    }
    let names = KINDS.map(|(name, ..)| name).join(", ");
    Err(line[0].mistake(format!("{} names no kind of row: {names}", line[0])))
}

/// The row with these numbers, as many as are used.
fn numbers(
    line: &[Word<'_>],
    told: &[Word<'_>],
    used: &[Number],
    of: &str,
) -> Result<PlanRow, Mistake> {
    let takes = || match used.len() {
        0 => format!("{of} takes no number"),
        1 => format!("{of} takes one number"),
        count => format!("{of} takes {count} numbers"),
    };
    if let Some(word) = told.get(used.len()) {
        return Err(word.mistake(takes()));
    }
    if told.len() < used.len() {
        return Err(line[line.len() - 1].mistake_behind(takes()));
    }
    let mut row = [0; ROW_WORDS];
    for (number, word) in used.iter().zip(told) {
        if !is_number(word.text) {
            return Err(word.mistake(format!("{word} is no number")));
        }
        match word.text.parse::<u32>() {
            Ok(told) if told <= number.greatest => row[number.word] |= told << number.shift,
            _ => return Err(word.mistake(format!("{word} is over {}", number.greatest))),
        }
    }
    Ok(row)
}

#[cfg(test)]
mod tests {
    use super::*;

    /// However many words stand in front of a comment, none of its own is a posting.
    #[test]
    fn nothing_of_a_comment_is_told() {
        let postings = ["1:2", "1:3", "1:4"];
        for count in 0..=3 {
            let front = if count == 0 { "-".into() } else { postings[..count].join(" ") };
            for comment in ["", " #", " # 2:5", " #2:5 2:6", "\t# - 2:5 #"] {
                let lists = lists(&format!("{front}{comment}\n")).unwrap();
                assert_eq!(lists.len(), 1, "{front}{comment}");
                assert_eq!(ListLine(&lists[0]).to_string(), front, "{front}{comment}");
            }
        }
    }

    /// Every refusal of each text: some earn one, and none is told for the others.
    #[test]
    fn only_what_a_text_earns_is_told() {
        let many = "-\n".repeat(MAX_LISTS + 1);
        let long = format!("-\n{}", "2:0 ".repeat(MAX_WORDS - 3));
        let fits = &long[..long.len() - 4];
        let most_lines = "-\n".repeat(MAX_WORDS);
        let falls = "1:0\n1:2 1:2\n";
        let earned = [
            ("", 5, 0, "1:1: there is no list"),
            ("# none\n\t#\n", 5, 0, "3:1: there is no list"),
            (&many, 5, 0, "1025:1: this list is one more than the 1024 of a volume"),
            (&most_lines, 5, 0, "1025:1: this list is one more than the 1024 of a volume"),
            (falls, 7, 1, "2:5: `1:2` does not come after `1:2`"),
            (&long, 7, 1, "2:5: `2:0` does not come after `2:0`"),
            (fits, 7, 1, "2:5: `2:0` does not come after `2:0`"),
            (&long, 19, 0, "2:4128753: this posting is one more than fits the volume"),
        ];
        let in_order = ["1:0\n1:6 1:8\n", &many[2..], "1:2 x"];
        for text in earned.iter().map(|row| row.0).chain(in_order) {
            for number in 0..=21 {
                for at in if number == 7 { 0..3 } else { 0..1 } {
                    let told = refused(text, Refusal { number, at }).map(|told| told.to_string());
                    let row = earned.iter().find(|row| (row.0, row.1, row.2) == (text, number, at));
                    let front = &text[..text.len().min(20)];
                    assert_eq!(told.as_deref(), row.map(|row| row.3), "{number} {at}: {front:?}");
                }
            }
        }
    }
}
