//! Typed lines, for a person who types one that is refused: what could stand at a byte of it, and
//! the line with that byte marked. A line is read by [`Plan::from_line`](crate::Plan::from_line).
//!
//! ```
//! use lihambozy::{line, Plan};
//!
//! let typed = "[1 2;n 0 1]";
//! let refusal = Plan::from_line(typed).unwrap_err();
//! assert_eq!(
//!     line::refused(typed, refusal).unwrap(),
//!     "`]` cannot stand at byte 10, counted from 0; a digit or a space could"
//! );
//! assert_eq!(
//!     line::Marked::new(typed, refusal.at as usize).to_string(),
//!     "[1 2;n 0 1]\n          ^\n"
//! );
//! ```

use crate::{calls, Refusal, MAX_LINE_BYTES};
use std::fmt;

/// What could stand in a line behind a text. It is shown as a person reads it.
#[derive(Clone, Debug, PartialEq, Eq)]
pub struct Follow {
    /// The bytes that could stand there, rising.
    pub bytes: Vec<u8>,
    /// Whether the line could end there.
    pub end: bool,
}

/// What could stand in a line behind the text `front`.
///
/// A byte could stand there exactly if the library, asked about the text with the byte behind it,
/// does not refuse that with 21 or 22 at the byte or in front of it; and a line could end there
/// exactly if the text is not refused with 21 or 22 itself. So there is nothing behind a text that
/// no line starts with, nor behind one of 2,048 bytes.
///
/// ```
/// use lihambozy::line::could_follow;
///
/// assert_eq!(could_follow("[").to_string(), "a digit");
/// assert_eq!(could_follow("[6553").to_string(), "0 to 6, a space, `;` or `]`");
/// assert_eq!(could_follow("[1]").to_string(), "`&`, `!`, `|` or the end of the line");
/// assert_eq!(could_follow("([1]").to_string(), "`&`, `!`, `|` or `)`");
///
/// let deepest = could_follow("((((((((");
/// assert_eq!((&deepest.bytes[..], deepest.end), (&b"["[..], false));
/// assert_eq!(could_follow("<").to_string(), "1 to 8");
/// assert_eq!(could_follow("<2:[1]").to_string(), "`&`, `!`, `|` or `,`");
/// assert_eq!(could_follow("[1 ]").to_string(), "nothing");
/// ```
pub fn could_follow(front: impl AsRef<[u8]>) -> Follow {
    let front = front.as_ref();
    let mut text = [front, &[0]].concat();
    let could_stand = |&byte: &u8| {
        text[front.len()] = byte;
        broken_at(&text).is_none_or(|at| at > front.len())
    };
    Follow { bytes: (0..=u8::MAX).filter(could_stand).collect(), end: broken_at(front).is_none() }
}

/// Where a text is refused with 21 or 22.
fn broken_at(text: &[u8]) -> Option<usize> {
    match calls::line_to_plan(text, &mut []) {
        Err(Refusal { number: 21 | 22, at }) => Some(at as usize),
        _ => None,
    }
}

/// The signs of a line in the order in which [`Follow`] shows them, behind digits. Any others come
/// last.
const ORDER: &[u8] = b" [(<&!|,;:nbtsa])>";

impl fmt::Display for Follow {
    fn fmt(&self, f: &mut fmt::Formatter<'_>) -> fmt::Result {
        let (digits, mut signs): (Vec<u8>, Vec<u8>) =
            self.bytes.iter().partition(|byte| byte.is_ascii_digit());
        let mut told: Vec<String> = match digits.len() {
            10 => vec!["a digit".into()],
            _ => digits.chunk_by(|&digit, &next| digit + 1 == next).map(run).collect(),
        };
        signs.sort_by_key(|sign| ORDER.iter().position(|one| one == sign).unwrap_or(ORDER.len()));
        told.extend(signs.into_iter().map(name));
        told.extend(self.end.then(|| "the end of the line".into()));
        match told.split_last() {
            None => f.write_str("nothing"),
            Some((last, [])) => f.write_str(last),
            Some((last, others)) => write!(f, "{} or {last}", others.join(", ")),
        }
    }
}

/// Digits that follow each other.
fn run(digits: &[u8]) -> String {
    match digits {
        [first, .., last] => format!("{} to {}", char::from(*first), char::from(*last)),
        _ => digits.iter().copied().map(name).collect(),
    }
}

/// A byte in a sentence.
fn name(byte: u8) -> String {
    match byte {
        b' ' => "a space".into(),
        _ => format!("`{}`", shown(byte)),
    }
}

/// A byte that is no printable ASCII is shown as `\xe9`.
fn shown(byte: u8) -> String {
    match byte {
        b' '..=b'~' => char::from(byte).into(),
        _ => format!("\\x{byte:02x}"),
    }
}

/// Why a line is refused with 21 or 22, as a sentence that says what could stand at the byte.
/// `None` for any other refusal.
///
/// ```
/// use lihambozy::{line, Plan};
///
/// let refusal = Plan::from_line("[1]&").unwrap_err();
/// assert_eq!(
///     line::refused("[1]&", refusal).unwrap(),
///     "the line cannot end at byte 4, counted from 0; `[`, `(` or `<` could stand there"
/// );
/// ```
pub fn refused(line: impl AsRef<[u8]>, refusal: Refusal) -> Option<String> {
    let line = line.as_ref();
    let at = refusal.at as usize;
    let could = || could_follow(line.get(..at).unwrap_or(line));
    Some(match (refusal.number, line.get(at)) {
        (21, _) if line.len() > MAX_LINE_BYTES => {
            format!("the line has {} bytes, and {MAX_LINE_BYTES} are the most", line.len())
        }
        (21, None) if line.len() == MAX_LINE_BYTES => format!(
            "the line cannot end at byte {at}, counted from 0, and {MAX_LINE_BYTES} bytes are the \
             most"
        ),
        (21, None) => format!(
            "the line cannot end at byte {at}, counted from 0; {} could stand there",
            could()
        ),
        (21, Some(&byte)) => {
            format!("{} cannot stand at byte {at}, counted from 0; {} could", name(byte), could())
        }
        (22, byte) => format!(
            "the {} at byte {at}, counted from 0, is opened inside eight open ones; {} could stand \
             there",
            if byte == Some(&b'<') { "`<`" } else { "round bracket" },
            could()
        ),
        _ => return None,
    })
}

/// A line with one of its bytes marked, or its end. It is shown as two lines, the second with a
/// caret under the byte. Bytes that are no printable ASCII are shown as `\xe9`, and of a long line
/// the part around the byte, with `..` for what is left out.
///
/// ```
/// use lihambozy::line::Marked;
///
/// assert_eq!(Marked::new("[1 ]", 3).to_string(), "[1 ]\n   ^\n");
/// assert_eq!(Marked::new(b"\xc3\xa9[1", 4).to_string(), "\\xc3\\xa9[1\n          ^\n");
///
/// let long = format!("[{}x]", "1 ".repeat(500));
/// let marked = Marked::new(&long, 1_001).to_string();
/// assert!(marked.starts_with("..1 1 1 ") && marked.ends_with(" ^\n"));
/// assert_eq!(marked.lines().map(str::len).collect::<Vec<_>>(), [42, 41]);
/// ```
#[derive(Clone, Copy, Debug)]
pub struct Marked<'a> {
    line: &'a [u8],
    at: usize,
}

impl<'a> Marked<'a> {
    /// Columns of a line that is shown whole, at most.
    const WHOLE: usize = 76;
    /// Columns that are shown of a longer line, at most, in front of the byte and from it on.
    const FRONT: usize = 38;
    const BEHIND: usize = 34;
    /// What stands for a part that is left out.
    const LEFT_OUT: &'static str = "..";

    /// The line with byte `at` marked, or its end where it is not as long.
    pub fn new(line: &'a (impl AsRef<[u8]> + ?Sized), at: usize) -> Marked<'a> {
        let line = line.as_ref();
        Marked { line, at: at.min(line.len()) }
    }
}

impl fmt::Display for Marked<'_> {
    fn fmt(&self, f: &mut fmt::Formatter<'_>) -> fmt::Result {
        let signs: Vec<String> = self.line.iter().copied().map(shown).collect();
        let columns = |signs: &[String]| signs.iter().map(String::len).sum::<usize>();
        let (front, behind) = signs.split_at(self.at);
        let (start, end) = match columns(&signs) {
            ..=Marked::WHOLE => (0, signs.len()),
            _ => (
                self.at - fitting(front.iter().rev(), Marked::FRONT),
                self.at + fitting(behind.iter(), Marked::BEHIND),
            ),
        };
        let before = if start > 0 { Marked::LEFT_OUT } else { "" };
        let after = if end < signs.len() { Marked::LEFT_OUT } else { "" };
        writeln!(f, "{before}{}{after}", signs[start..end].concat())?;
        let column = before.len() + columns(&signs[start..self.at]);
        writeln!(f, "{:column$}^", "")
    }
}

/// How many of these, from the first on, fit so many columns.
fn fitting<'a>(signs: impl Iterator<Item = &'a String>, room: usize) -> usize {
    let ends = signs.scan(0, |end, sign| {
        *end += sign.len();
        Some(*end)
    });
    ends.take_while(|&end| end <= room).count()
}

#[cfg(test)]
mod tests {
    use super::*;
    use crate::Plan;

    /// What could stand behind each part of a line.
    #[test]
    fn what_could_follow() {
        let behind_item = "`&`, `!`, `|` or the end of the line";
        let behind_inner = "`&`, `!`, `|` or `)`";
        let behind_first = "`&`, `!`, `|` or `,`";
        let behind_line = "`&`, `!`, `|`, `,` or `>`";
        let behind_number = "a digit, a space, `;` or `]`";
        let behind_last = "a space, `;` or `]`";
        let seven = format!("<3:{}[1]", "[1],".repeat(6));
        let eight = format!("<3:{}[1]", "[1],".repeat(7));
        let nested = "<1:(".repeat(3) + "(";
        for (front, told) in [
            ("", "`[`, `(` or `<`"),
            ("(", "`[`, `(` or `<`"),
            ("(((((((", "`[`, `(` or `<`"),
            ("((((((((", "`[`"),
            ("((((((((([1]", "nothing"),
            ("[1]|", "`[`, `(` or `<`"),
            ("([1]&", "`[`, `(` or `<`"),
            ("[1]!", "`[`, `(` or `<`"),
            ("[1]", behind_item),
            ("([1])", behind_item),
            ("[1]&([2]|[3])", behind_item),
            ("([1]", behind_inner),
            ("(([1])", behind_inner),
            ("[", "a digit"),
            ("[1 ", "a digit"),
            ("[0", behind_last),
            ("[1", behind_number),
            ("[655", behind_number),
            ("[6552", behind_number),
            ("[6553", "0 to 6, a space, `;` or `]`"),
            ("[6554", behind_last),
            ("[9999", behind_last),
            ("[65536", behind_last),
            ("[1;", "`n`, `b`, `t`, `s` or `a`"),
            ("[1;n", "a space"),
            ("[1;n ", "a digit"),
            ("[1;n 0", "a space"),
            ("[1;n 1", "a digit or a space"),
            ("[1;n 6553", "0 to 6 or a space"),
            ("[1;n 0 0 0", "`;` or `]`"),
            ("[1;n 0 1 2", "a digit, `;` or `]`"),
            ("[1;b 0 0", "`;` or `]`"),
            ("[1;t 0 12345", "`;` or `]`"),
            ("[1;s ", "a digit"),
            ("[1;s 6553", "0 to 6, `;` or `]`"),
            ("[1;a 0 0 6553", "0 to 5 or a space"),
            ("[1;a 0 0 0 6553", "0 to 5, `;` or `]`"),
            ("[1;a 0 0 0 0", "`;` or `]`"),
            ("[1;b 0 0;", "`n`, `b`, `t`, `s` or `a`"),
            ("<", "1 to 8"),
            ("<2", "`:`"),
            ("<2:", "`[`, `(` or `<`"),
            ("<2:[1],", "`[`, `(` or `<`"),
            ("<8:[1]|", "`[`, `(` or `<`"),
            ("<1:[1]", behind_first),
            ("<1:[1],[1]", behind_line),
            ("<2:[1],[1]&([2])", behind_line),
            ("<3:[1],[1]", behind_first),
            ("<3:[1],[1],[1]", behind_line),
            ("<1:[1],([1]", behind_inner),
            ("(<1:[1],[1]>", behind_inner),
            ("<1:[1],[1]>", behind_item),
            ("<1:[1],<1:[1],[1]>", behind_line),
            (&seven, behind_line),
            (&eight, "`&`, `!`, `|` or `>`"),
            (&(nested.clone() + "<1:"), "`[`"),
            (&(nested.clone() + "<1:[1]"), behind_first),
            (&(nested + "<1:[1],"), "`[`"),
            ("[1] ", "nothing"),
            ("]", "nothing"),
        ] {
            assert_eq!(could_follow(front).to_string(), told, "{front}");
        }
    }

    /// The length ends a line: 2,048 bytes, and nothing behind them.
    #[test]
    fn nothing_follows_the_longest_line() {
        let longest = format!("[{}12;s 1]", "1 ".repeat(1_020));
        assert_eq!(longest.len(), 2_048);
        assert_eq!(could_follow(&longest), Follow { bytes: vec![], end: true });
        assert_eq!(could_follow(&longest[..2_047]).to_string(), "a digit, `;` or `]`");
        assert_eq!(could_follow(longest.clone() + "&").to_string(), "nothing");
        for (line, sentence) in [
            (longest.clone() + "&", "the line has 2049 bytes, and 2048 are the most"),
            (longest.replace("s 1]", "s 12"), "the line cannot end at byte 2048"),
        ] {
            let refusal = Plan::from_line(&line).unwrap_err();
            assert_eq!((refusal.number, refusal.at), (21, 2_048));
            assert!(refused(&line, refusal).unwrap().starts_with(sentence), "{sentence}");
        }
    }

    /// Bytes that could follow, one after the other, make a line: it is refused at its end alone,
    /// and not where it could end there. All others are refused at their place.
    #[test]
    fn what_could_follow_makes_lines() {
        let (mut state, mut lines, mut closed) = (7_u32, 0, 0);
        let mut random = |below: usize| {
            state = state.wrapping_mul(1_664_525).wrapping_add(1_013_904_223);
            (state >> 16) as usize % below
        };
        for _ in 0..150 {
            let mut line = vec![];
            for _ in 0..random(60) {
                let Follow { bytes, end } = could_follow(&line);
                let refused = Plan::from_line(&line).err().map(|why| (why.number, why.at));
                let broken = (!end).then_some((21, line.len() as u32));
                assert_eq!(refused, broken, "{:?}", String::from_utf8_lossy(&line));
                lines += usize::from(end);
                closed += usize::from(line.ends_with(b">"));
                let byte = random(256) as u8;
                if !bytes.contains(&byte) {
                    let other = [&line[..], &[byte]].concat();
                    let why = Plan::from_line(&other).unwrap_err();
                    assert_eq!(why.at as usize, line.len(), "{byte} behind {line:?}");
                }
                let ends: Vec<u8> =
                    bytes.iter().copied().filter(|byte| b"]),>".contains(byte)).collect();
                let signs = if ends.is_empty() || random(2) == 0 { bytes } else { ends };
                line.push(signs[random(signs.len())]);
            }
        }
        assert!(lines > 60 && closed > 5, "{lines} {closed}");
    }

    #[test]
    fn sentences() {
        for (line, sentence) in [
            (
                "",
                "the line cannot end at byte 0, counted from 0; `[`, `(` or `<` could stand there",
            ),
            ("[1;n 0 1]", "`]` cannot stand at byte 8, counted from 0; a digit or a space could"),
            (
                "[1] ",
                "a space cannot stand at byte 3, counted from 0; `&`, `!`, `|` or the end of \
                      the line could",
            ),
            ("\u{e9}", "`\\xc3` cannot stand at byte 0, counted from 0; `[`, `(` or `<` could"),
            (
                "(((((((([1](",
                "`(` cannot stand at byte 11, counted from 0; `&`, `!`, `|` or `)` \
                              could",
            ),
            (
                "((((((((([",
                "the round bracket at byte 8, counted from 0, is opened inside eight \
                            open ones; `[` could stand there",
            ),
            (
                "<1:(((((((<2:[1],[2]>",
                "the `<` at byte 10, counted from 0, is opened inside eight open ones; `[` could \
                 stand there",
            ),
            (
                "<2:[1],<1:[2],[3]&((((((([4]",
                "the round bracket at byte 24, counted from 0, is opened inside eight open ones; \
                 `[` could stand there",
            ),
            ("<0:", "`0` cannot stand at byte 1, counted from 0; 1 to 8 could"),
            (
                "<3:[1],[2]>",
                "`>` cannot stand at byte 10, counted from 0; `&`, `!`, `|` or `,` could",
            ),
        ] {
            let refusal = Plan::from_line(line).unwrap_err();
            assert_eq!(refused(line, refusal).as_deref(), Some(sentence), "{line}");
        }
        for number in (0..=20).chain([23, 24]) {
            assert_eq!(refused("[1", Refusal { number, at: 1 }), None, "{number}");
        }
    }

    /// The caret stands under the first column of its byte, or behind the line.
    #[test]
    fn the_caret_is_under_the_byte() {
        let bytes: Vec<u8> = (0..=u8::MAX).collect();
        let mixed = b"silver\toath ".repeat(30);
        let lines = [&b""[..], b"[1 2;b 0 1]", b"\0", &[b'x'; 76], &[b'x'; 77], &bytes, &mixed];
        let (mut whole, mut cut) = (0, 0);
        for line in lines {
            for at in 0..=line.len() {
                let marked = Marked::new(line, at).to_string();
                let (above, below) = marked.split_once('\n').unwrap();
                let caret = below.strip_suffix("^\n").unwrap();
                assert!(caret.bytes().all(|sign| sign == b' '), "{marked}");
                assert!(above.len() <= 76 && above.is_ascii(), "{marked}");
                let (front, behind) = above.split_at(caret.len());
                let signs = |bytes: &[u8]| bytes.iter().copied().map(shown).collect::<String>();
                let (all_front, all_behind) = (signs(&line[..at]), signs(&line[at..]));
                match front.strip_prefix("..") {
                    Some(part) if front != all_front => {
                        assert!(all_front.ends_with(part) && part.len() > 30, "{marked}");
                        cut += 1;
                    }
                    _ => assert_eq!(front, all_front, "{marked}"),
                }
                match behind.strip_suffix("..") {
                    Some(part) if behind != all_behind => {
                        assert!(all_behind.starts_with(part) && part.len() > 30, "{marked}");
                        cut += 1;
                    }
                    _ => assert_eq!(behind, all_behind, "{marked}"),
                }
                whole += usize::from(above.len() == all_front.len() + all_behind.len());
            }
        }
        assert!(whole > 80 && cut > 500, "{whole} {cut}");
        assert_eq!(Marked::new("[1", 9).to_string(), "[1\n  ^\n");
    }
}
