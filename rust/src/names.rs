//! The words of lists.

use crate::text::{self, is_number, Mistake, Word};
use crate::MAX_LISTS;
use std::collections::BTreeMap;
use std::str::FromStr;

/// The words of lists by the numbers of the lists, as a text tells them.
///
/// A line of the text is `N word`, where `N` is the number of a list, or a comment
/// `# list N: word`. All else that a text of lists ([`text`]) may hold is skipped: lists, other
/// comments, and what stands behind the words of a line from a word that starts with `#` on. So the
/// text of a volume's lists tells their words too, where it names each list in a comment. Empty
/// lines are skipped. The word may be several words, with one space between them. Any other line is
/// a mistake, and so is another word for a number that has one.
///
/// ```
/// use lihambozy::Names;
///
/// let lists = "# list 0: starts of titles\n1:0 1:6\n# list 1: bell\n1:2 1:8\n# a comment\n-\n";
/// let names: Names = lists.parse()?;
/// assert_eq!(names.word(0), Some("starts of titles"));
/// assert_eq!(names.word(1), Some("bell"));
/// assert_eq!(names.word(2), None);
/// assert_eq!("0 starts of titles\n1 bell # of the harbour".parse::<Names>()?, names);
///
/// let mistake = "1 bell\n2 gate\n1 rope".parse::<Names>().unwrap_err();
/// assert_eq!(mistake.to_string(), "3:3: list 1 is `bell` already");
/// # Ok::<(), lihambozy::text::Mistake>(())
/// ```
#[derive(Clone, Debug, Default, PartialEq, Eq)]
pub struct Names {
    words: BTreeMap<u32, String>,
}

impl Names {
    /// The word of a list, if the text tells one.
    pub fn word(&self, list: u32) -> Option<&str> {
        self.words.get(&list).map(String::as_str)
    }

    /// The numbers of the lists that have a word, rising, with their words.
    pub fn iter(&self) -> impl Iterator<Item = (u32, &str)> {
        self.words.iter().map(|(&list, word)| (list, word.as_str()))
    }

    /// Tells the word of a list, of which `words` are the parts.
    fn tell(&mut self, list: Word<'_>, words: &[Word<'_>]) -> Result<(), Mistake> {
        let number = match list.text.parse::<u32>() {
            Ok(number) if (number as usize) < MAX_LISTS => number,
            _ => {
                let last = MAX_LISTS - 1;
                return Err(list.mistake(format!("{list} is over {last}, the last list")));
            }
        };
        let Some(first) = words.first() else {
            return Err(list.mistake_behind(format!("the word of list {number} is missing")));
        };
        if let Some(word) = words.iter().find(|word| word.text.contains(char::is_control)) {
            return Err(word.mistake("the word has a sign that cannot be printed"));
        }
        let word = words.iter().map(|word| word.text).collect::<Vec<&str>>().join(" ");
        let told = self.words.entry(number).or_insert_with(|| word.clone());
        if *told != word {
            let told = Word { text: told, ..*first };
            return Err(first.mistake(format!("list {number} is {told} already")));
        }
        Ok(())
    }
}

impl FromStr for Names {
    type Err = Mistake;

    fn from_str(text: &str) -> Result<Names, Mistake> {
        text::check_line_ends(text)?;
        let mut names = Names::default();
        for (number, line) in text::lines(text) {
            if let Some(comment) = text::comment(number, line) {
                if let Some((list, words)) = named(comment) {
                    names.tell(list, &words)?;
                }
                continue;
            }
            let words: Vec<Word<'_>> = text::words(number, line).collect();
            match &words[..] {
                [] => {}
                [list, words @ ..] if is_number(list.text) => names.tell(*list, words)?,
                [first, ..] => match text::list(number, line) {
                    Err(mistake) if mistake.column == first.column => {
                        let what = "is no posting of a list and no number of one";
                        return Err(first.mistake(format!("{first} {what}")));
                    }
                    list => drop(list?),
                },
            }
        }
        Ok(names)
    }
}

/// The number of a list and the parts of its word, where a comment tells them as `list N: word`.
fn named<'a>(mut comment: impl Iterator<Item = Word<'a>>) -> Option<(Word<'a>, Vec<Word<'a>>)> {
    comment.next().filter(|word| word.text == "list")?;
    let told = comment.next()?;
    let (digits, rest) = told.text.split_once(':').filter(|(digits, _)| is_number(digits))?;
    let first = Word { text: rest, column: told.column + digits.len() + 1, ..told };
    let words = (!rest.is_empty()).then_some(first).into_iter().chain(comment);
    Some((Word { text: digits, ..told }, words.collect()))
}

#[cfg(test)]
mod tests {
    use super::*;

    fn told(text: &str) -> Vec<(u32, String)> {
        let names: Names = text.parse().unwrap_or_else(|mistake| panic!("{text:?}: {mistake}"));
        names.iter().map(|(list, word)| (list, word.to_string())).collect()
    }

    /// Lines that tell a word, and lines that tell none.
    #[test]
    fn lines_of_each_form() {
        for (line, expected) in [
            ("3 oath", Some((3, "oath"))),
            ("  3\toath  ", Some((3, "oath"))),
            ("003 oath", Some((3, "oath"))),
            ("3 silver  oath", Some((3, "silver oath"))),
            ("3 oath # sworn", Some((3, "oath"))),
            ("3 oath#sworn", Some((3, "oath#sworn"))),
            ("3 1:2", Some((3, "1:2"))),
            ("3 \u{e9}toile", Some((3, "\u{e9}toile"))),
            ("0 starts", Some((0, "starts"))),
            ("1023 last", Some((1_023, "last"))),
            ("# list 3: oath", Some((3, "oath"))),
            ("#list 3: oath", Some((3, "oath"))),
            ("\t#\tlist\t3:\toath", Some((3, "oath"))),
            ("# list 3:oath", Some((3, "oath"))),
            ("# list 3: silver oath", Some((3, "silver oath"))),
            ("# list 3: oath # sworn", Some((3, "oath"))),
            ("", None),
            (" \t", None),
            ("#", None),
            ("# 3 oath", None),
            ("# a list 3: oath", None),
            ("# list", None),
            ("# list 3", None),
            ("# list 3 oath", None),
            ("# list of words: all", None),
            ("# lists 3: oath", None),
            ("-", None),
            ("- # list 3: oath", None),
            ("1:2", None),
            ("1:2 1:8 # list 3: oath", None),
        ] {
            let expected: Vec<(u32, String)> =
                expected.map(|(list, word)| (list, word.to_string())).into_iter().collect();
            for text in [line.to_string(), format!("{line}\n"), format!("{line}\r\n\n-\n")] {
                assert_eq!(told(&text), expected, "{text:?}");
            }
        }
    }

    /// Several words of one list are a mistake, one word told twice is none.
    #[test]
    fn words_told_twice() {
        let twice = "2 gate\n1 bell\n# list 2: gate\n2  gate\n";
        assert_eq!(told(twice), [(1, "bell".into()), (2, "gate".into())]);
        assert_eq!(told(""), []);
    }

    #[test]
    fn mistakes() {
        for (text, mistake) in [
            ("1 bell\n1 rope", "2:3: list 1 is `bell` already"),
            ("1 bell\n\n  # list 1: Bell", "3:13: list 1 is `bell` already"),
            ("# list 1: bell\n1:2\n01 bell tower", "3:4: list 1 is `bell` already"),
            ("1 bell\nbell 1", "2:1: `bell` is no posting of a list and no number of one"),
            (" 1; bell", "1:2: `1;` is no posting of a list and no number of one"),
            ("-1 bell", "1:1: `-1` is no posting of a list and no number of one"),
            ("1: bell", "1:1: `1:` is no posting of a list and no number of one"),
            ("1:2 bell", "1:5: `bell` is no scene:place"),
            ("1:2 65536:0", "1:5: `65536` is over 65535"),
            ("7", "1:2: the word of list 7 is missing"),
            ("7 # sworn", "1:2: the word of list 7 is missing"),
            ("# list 7:", "1:9: the word of list 7 is missing"),
            ("1024 word", "1:1: `1024` is over 1023, the last list"),
            ("# list 99999999999: word", "1:8: `99999999999` is over 1023, the last list"),
            ("1 a\u{7}b", "1:3: the word has a sign that cannot be printed"),
            ("1 bell\r2 gate", "1:7: a carriage return without a line feed behind it ends no line"),
        ] {
            let told = text.parse::<Names>().map_err(|told| told.to_string());
            assert_eq!(told, Err(mistake.to_string()), "{text:?}");
        }
    }
}
