//! Lists and plans as text: shown and read again, and texts of any sort beside the plain reader.

use crate::case::Case;
use crate::inputs::{any_lists, any_plan, spoil_lists};
use crate::package::{postings_of, same};
use crate::plain::text::{list_lines, lists, posting, rows, words, Place, NAMES};
use crate::report::Counts;
use crate::support::Rng;
use lihambozy::row::PlanRow;
use lihambozy::text::{self, Mistake};
use lihambozy::{Plan, Posting, Volume};

/// Texts of lists and of plans, as they should be and as they should not.
pub fn texts(case: &mut Case) {
    let Case { rng, counts } = case;
    let mut lists = any_lists(rng);
    for _ in 0..rng.pick(&[0, 0, 1]) {
        spoil_lists(rng, &mut lists);
    }
    if let Some(lists) = postings_of(&lists) {
        let lines = lists.iter().map(|list| format!("{}\n", text::ListLine(list)));
        let text = lines.collect::<String>();
        same(counts, "text::ListLine", text::lists(&text), Ok(lists.clone()));
        let text = text_of(rng, &lists);
        same(counts, "text::lists", text::lists(&text), Ok(lists));
        refused(counts, &text);
        let text = mutated(rng, &text);
        read(counts, &text);
    }

    let any_row = |rng: &mut Rng| [0; 4].map(|_| rng.word() >> rng.pick(&[0, 15, 16, 29, 31]));
    let rows: Vec<PlanRow> = match rng.below(3) {
        0 => (0..rng.below(70)).map(|_| any_row(rng)).collect(),
        _ => any_plan(rng, 9).as_chunks().0.to_vec(),
    };
    let plan = Plan::new(rows);
    let text = plan.to_string();
    same(counts, "Plan shown and read", text.parse(), Ok(plan));
    for _ in 0..3 {
        let text = mutated(rng, &text);
        read(counts, &text);
        let text: String = (0..rng.below(40)).map(|_| piece(rng)).collect();
        read(counts, &text);
    }
}

/// The text of lists, with blanks, zeros and comments that tell nothing.
fn text_of(rng: &mut Rng, lists: &[Vec<Posting>]) -> String {
    // How seldom it is not as short as it may be.
    let seldom = rng.pick(&[8, 8, usize::MAX]);
    let now_and_then = |rng: &mut Rng| rng.below(seldom) == 0;
    let mut text = String::new();
    for list in lists {
        if now_and_then(rng) {
            text += rng.pick(&["# a comment\n", "  # 1:2 3:x\r\n", "#\n"]);
        }
        if list.is_empty() {
            text += "-";
        }
        for (i, posting) in list.iter().enumerate() {
            if i > 0 || now_and_then(rng) {
                text += " ";
            }
            if now_and_then(rng) {
                text += rng.pick(&[" ", "\t", "\t \t"]);
            }
            text += &match now_and_then(rng) {
                true => format!("{:07}:{:03}", posting.doc(), posting.pos()),
                false => posting.to_string(),
            };
        }
        if now_and_then(rng) {
            text += rng.pick(&[" # behind", "\t#", "  #:"]);
        }
        text += if now_and_then(rng) { "\r\n" } else { "\n" };
    }
    text
}

/// A piece of a text: what a list or a plan is made of, and what it is not.
fn piece(rng: &mut Rng) -> String {
    #[rustfmt::skip]
    const PIECES: [&str; 56] = [
        "VOICE", "voice", "Near", "NEAR", "BEFORE", "SAME", "TITLE", "SAME TITLE", "same  title",
        "SPAN", "END", "end", "BOTH", "EITHER", "FIRST", "NOT", "SECOND", "FIRST NOT SECOND", "#",
        "APART", "Apart", "65535", "AT", "LEAST", "AT LEAST", "at  least",
        "#x", ":", "::", "1:2", "65535:65535", "65536:0", "0:65536", "00:000", "1:2:3", "-1", "+1",
        "1:+2", "0x1", "65536", "4294967295", "4294967296", "99999999999999999999999", "\u{661}",
        "\u{feff}", "\u{200b}", "\0", "\u{e9}", "\r", "\r\n", "\n", "\n\n", "\t", "\u{3000}",
        "-", "x#",
    ];
    match rng.below(8) {
        0 | 1 => rng.pick(&PIECES).to_string(),
        2 | 3 => rng.pick(&[" ", " ", "\n"]).to_string(),
        4 => (rng.word() >> rng.below(32)).to_string(),
        5 => Posting::from_word(rng.word()).to_string(),
        6 => {
            let (name, _, used) = rng.pick(&NAMES);
            let number = |rng: &mut Rng| match rng.below(8) {
                0 => rng.pick(&[65_535, 65_536, u32::MAX]),
                _ => rng.below(9) as u32,
            };
            let numbers = used.chars().map(|_| format!(" {}", number(rng)));
            format!("{name}{}\n", numbers.collect::<String>())
        }
        _ => {
            let bytes: Vec<u8> = (0..1 + rng.below(5)).map(|_| rng.word() as u8).collect();
            String::from_utf8_lossy(&bytes).into_owned()
        }
    }
}

/// The text with a few characters taken out, and pieces put in.
fn mutated(rng: &mut Rng, text: &str) -> String {
    let mut chars: Vec<char> = text.chars().collect();
    for _ in 0..1 + rng.below(4) {
        let at = rng.below(chars.len() + 1);
        let to = (at + rng.below(4)).min(chars.len());
        let piece = if rng.below(3) == 0 { String::new() } else { piece(rng) };
        chars.splice(at..to, piece.chars());
    }
    chars.into_iter().collect()
}

/// Reads a text as lists and as a plan.
fn read(counts: &mut Counts, text: &str) {
    let words = |list: &Vec<Posting>| list.iter().map(|posting| posting.word()).collect();
    let answer = text::lists(text).map(|lists| lists.iter().map(words).collect::<Vec<Vec<u32>>>());
    let answer = answer.map_err(|mistake| place(&counts.trial.case, text, &mistake));
    same(counts, "text::lists", answer, lists(text));

    let answer = text.parse::<Plan>();
    let answer = answer.map_err(|mistake| place(&counts.trial.case, text, &mistake).0);
    same(counts, "Plan::from_str", answer, rows(text).map(Plan::new));
}

/// Where a mistake is: inside the text, or right behind its end.
fn place(case: &str, text: &str, mistake: &Mistake) -> Place {
    let Mistake { line, column, .. } = *mistake;
    let lines: Vec<&str> = text.lines().collect();
    let signs = lines.get(line - 1).map_or(0, |signs| signs.chars().count());
    let is_inside = line <= lines.len() + 1 && (1..=signs + 1).contains(&column);
    assert!(is_inside, "{case}: {mistake}: {text:?}");
    (line, column)
}

/// Where a text earns the refusal of its lists is the first word that does not rise in the list
/// named, the first list too many, or the end where there is none.
fn refused(counts: &mut Counts, text: &str) {
    let told = text::lists(text).expect("the text tells lists");
    let Err(refusal) = Volume::of_lists(&told) else { return };
    let mistake = text::refused(text, refusal).expect("the text earns it");
    let answer = place(&counts.trial.case, text, &mistake);
    let lines = list_lines(text);
    let expected = match refusal.number {
        5 => (lines.get(1_024).map_or(text.lines().count() + 1, |(line, _)| *line), 1),
        _ => {
            let (line, signs) = lines[refusal.at as usize];
            let words = words(signs);
            let falls = |pair: &&[(usize, String)]| posting(&pair[1].1) <= posting(&pair[0].1);
            let pair = words.windows(2).find(falls).expect("the list does not rise");
            (line, pair[1].0)
        }
    };
    same(counts, "text::refused", answer, expected);
}
