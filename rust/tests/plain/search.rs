//! A naive searcher, straight from document 01 ("Plan" and "Calls") and from requests N2 (APART),
//! N3 (SAME TITLE before the first title), N4 (all the places in a scene), N8 (title starts beside
//! the places) and N9 (AT LEAST) of document 02. It shares nothing with the library or its
//! wrappers: in each document it tries every choice of positions and keeps those that pass; it
//! settles all documents before the first call, and reads each answer off their rows. SAME TITLE is
//! N3's sentence, and looks at no title start.

use super::plan::{self, Row};
use super::{lists, Refused};
use std::collections::BTreeSet;

/// A pattern (01: figure).
pub struct Pattern {
    /// The list of each variable (01: voice).
    pub lists: Vec<usize>,
    /// The rows of its predicates (01: conditions).
    pub predicates: Vec<Row>,
}

/// An accepted volume and a plan that is accepted over it.
pub struct Searcher {
    pub lists: Vec<Vec<u32>>,
    pub patterns: Vec<Pattern>,
    /// All rows of the plan.
    plan: Vec<Row>,
    /// The rows of all true documents (01: scenes), rising.
    pub rows: Vec<Vec<u32>>,
    /// Each AT LEAST of the plan in each document, with how many of its answers are yes.
    pub counted: Vec<(Row, usize)>,
}

/// What a listing call answers.
#[derive(Clone, Copy, Debug, PartialEq, Eq)]
pub struct Listed {
    /// The rows written.
    pub rows: u32,
    pub tally: u32,
    /// MORE and the document, or DONE.
    pub more: Option<u32>,
}

/// What a call that lists matches answers.
#[derive(Clone, Debug, PartialEq, Eq)]
pub struct Matched {
    /// The choices written.
    pub count: u64,
    /// MORE and the choice, or DONE.
    pub more: Option<Vec<u32>>,
}

/// How many postings of a list are in documents from `from` up to `to`, which is not counted.
fn count(list: &[u32], from: u32, to: u32) -> u32 {
    list.iter().filter(|&&posting| (from..to).contains(&(posting / 65_536))).count() as u32
}

/// Every choice: a position for each variable, out of those that it has.
pub fn choices(positions: &[impl AsRef<[u32]>]) -> Vec<Vec<u32>> {
    let mut choices = vec![vec![]];
    for of_var in positions {
        let longer = |choice: &Vec<u32>| -> Vec<Vec<u32>> {
            of_var.as_ref().iter().map(|&pos| [&choice[..], &[pos]].concat()).collect()
        };
        choices = choices.iter().flat_map(longer).collect();
    }
    choices
}

/// The title start of a position, in a document where titles start at `starts`: the greatest start
/// not above it, or 65,536 if there is none.
pub fn title_start(starts: &[u32], pos: u32) -> u32 {
    starts.iter().copied().filter(|&start| start <= pos).max().unwrap_or(65_536)
}

/// Whether a predicate holds of a choice, in a document where titles start at `starts`.
fn holds([kind, a, b, c]: Row, starts: &[u32], choice: &[u32]) -> bool {
    let pos = |var: u32| choice[var as usize];
    match kind {
        plan::NEAR => pos(a).abs_diff(pos(b)) <= c + 1,
        plan::BEFORE => pos(a) < pos(b),
        plan::SAME_TITLE => {
            let (smaller, larger) = (pos(a).min(pos(b)), pos(a).max(pos(b)));
            let in_a_title = |place: u32| starts.iter().any(|&s| s <= place);
            let parted = starts.iter().any(|&s| smaller < s && s <= larger);
            in_a_title(pos(a)) && in_a_title(pos(b)) && !parted
        }
        plan::SPAN => {
            let (smallest, largest) = (choice.iter().min().unwrap(), choice.iter().max().unwrap());
            let most = c - 1;
            largest - smallest <= most
        }
        plan::APART => {
            let (least, most) = plan::limits(c);
            let between = i64::from(pos(b)) - i64::from(pos(a)) - 1;
            let has_upper_end = most != 65_535;
            i64::from(least) <= between && (!has_upper_end || between <= i64::from(most))
        }
        _ => panic!("kind {kind} is no predicate"),
    }
}

/// Whether all predicates of a pattern hold.
fn all_hold(pattern: &Pattern, starts: &[u32], choice: &[u32]) -> bool {
    pattern.predicates.iter().all(|&predicate| holds(predicate, starts, choice))
}

/// Whether one choice comes before another: it has the smaller position where they first differ.
pub fn comes_before(one: &[u32], other: &[u32]) -> bool {
    one.iter().zip(other).find(|(p, q)| p != q).is_some_and(|(p, q)| p < q)
}

/// The smallest position of each variable among the choices. It is one of them.
pub fn least(choices: &[Vec<u32>]) -> Option<Vec<u32>> {
    let vars = 0..choices.first()?.len();
    let smallest = |var: usize| choices.iter().map(|choice| choice[var]).min().unwrap();
    let least: Vec<u32> = vars.map(smallest).collect();
    assert!(choices.contains(&least), "no choice is smallest in every variable: {choices:?}");
    Some(least)
}

impl Searcher {
    pub fn new(volume: &[u8], plan: &[u32]) -> Result<Searcher, Refused> {
        let checked = plan::check(volume, plan)?;
        let row = |words: &[u32]| [words[0], words[1], words[2], words[3]];
        let pattern = |words: &[u32]| {
            let (voices, others): (Vec<Row>, Vec<Row>) =
                words.chunks(4).map(row).partition(|row| row[0] == plan::VOICE);
            Pattern {
                lists: voices.iter().map(|voice| voice[1] as usize).collect(),
                predicates: others.into_iter().filter(|row| row[0] != plan::END).collect(),
            }
        };
        let mut searcher = Searcher {
            lists: lists(volume)?,
            patterns: checked.patterns.into_iter().map(|part| pattern(&plan[part])).collect(),
            plan: plan.chunks(4).map(row).collect(),
            rows: vec![],
            counted: vec![],
        };
        for doc in searcher.docs() {
            let (row, counted) = searcher.settled(doc);
            searcher.rows.extend(row);
            searcher.counted.extend(counted);
        }
        Ok(searcher)
    }

    /// The documents that have a posting. Where there is none no pattern is found, so that no
    /// document but these is true.
    pub fn docs(&self) -> BTreeSet<u32> {
        self.lists.iter().flatten().map(|&posting| posting / 65_536).collect()
    }

    /// The positions (01: places) of a list in a document.
    pub fn positions(&self, list: usize, doc: u32) -> Vec<u32> {
        let inside = self.lists[list].iter().filter(|&&posting| posting / 65_536 == doc);
        inside.map(|&posting| posting % 65_536).collect()
    }

    /// The positions of each variable of a pattern in a document.
    pub fn of_vars(&self, pattern: &Pattern, doc: u32) -> Vec<Vec<u32>> {
        pattern.lists.iter().map(|&list| self.positions(list, doc)).collect()
    }

    /// Every choice that passes for a pattern in a document: smallest first position first, then
    /// second, and so on.
    pub fn passing(&self, pattern: &Pattern, doc: u32) -> Vec<Vec<u32>> {
        let starts = self.positions(0, doc);
        let mut passing = choices(&self.of_vars(pattern, doc));
        passing.retain(|choice| all_hold(pattern, &starts, choice));
        assert!(passing.windows(2).all(|pair| comes_before(&pair[0], &pair[1])), "{passing:?}");
        passing
    }

    /// The earliest positions of a pattern in a document, if it is found there.
    pub fn earliest(&self, pattern: &Pattern, doc: u32) -> Option<Vec<u32>> {
        least(&self.passing(pattern, doc))
    }

    /// Whether the one answer left at the end of the plan is yes, where these patterns are found,
    /// and each AT LEAST with how many of its answers are.
    fn answer(&self, found: &[bool]) -> (bool, Vec<(Row, usize)>) {
        let mut found = found.iter();
        let mut answers: Vec<bool> = vec![];
        let mut counted = vec![];
        for &row in &self.plan {
            let [kind, a, b, _] = row;
            match kind {
                plan::END => answers.push(*found.next().unwrap()),
                plan::BOTH | plan::EITHER | plan::FIRST_NOT_SECOND => {
                    let second = answers.pop().unwrap();
                    let first = answers.pop().unwrap();
                    answers.push(match kind {
                        plan::BOTH => first && second,
                        plan::EITHER => first || second,
                        _ => first && !second,
                    });
                }
                plan::AT_LEAST => {
                    let top = answers.split_off(answers.len() - b as usize);
                    let yes = top.into_iter().filter(|&answer| answer).count();
                    answers.push(yes >= a as usize);
                    counted.push((row, yes));
                }
                _ => {}
            }
        }
        assert!(found.next().is_none() && answers.len() == 1);
        (answers[0], counted)
    }

    /// The row of a document, if it is true: the document, then for each pattern 1 and its earliest
    /// positions, each followed by its title start, or 0 and zeros.
    pub fn row(&self, doc: u32) -> Option<Vec<u32>> {
        self.settled(doc).0
    }

    /// The row of a document, if it is true, and what each AT LEAST counts there.
    fn settled(&self, doc: u32) -> (Option<Vec<u32>>, Vec<(Row, usize)>) {
        let earliest: Vec<Option<Vec<u32>>> =
            self.patterns.iter().map(|pattern| self.earliest(pattern, doc)).collect();
        let found: Vec<bool> = earliest.iter().map(Option::is_some).collect();
        let (is_true, counted) = self.answer(&found);
        if !is_true {
            return (None, counted);
        }
        let starts = self.positions(0, doc);
        let mut row = vec![doc];
        for (pattern, earliest) in self.patterns.iter().zip(earliest) {
            match earliest {
                Some(positions) => {
                    row.push(1);
                    for pos in positions {
                        row.extend([pos, title_start(&starts, pos)]);
                    }
                }
                None => row.extend(vec![0; 1 + 2 * pattern.lists.len()]),
            }
        }
        (Some(row), counted)
    }

    /// What a row shows: for each pattern the position and the title start of each variable, or
    /// `None` where all its words are 0.
    pub fn shown(&self, row: &[u32]) -> Vec<Option<Vec<[u32; 2]>>> {
        assert_eq!(row.len(), self.width(), "the words of {row:?}");
        let mut rest = &row[1..];
        let mut shown = vec![];
        for pattern in &self.patterns {
            let (words, behind) = rest.split_at(1 + 2 * pattern.lists.len());
            shown.push(match words[0] {
                1 => Some(words[1..].chunks(2).map(|pair| [pair[0], pair[1]]).collect()),
                _ => {
                    assert!(words.iter().all(|&word| word == 0), "{words:?} in {row:?}");
                    None
                }
            });
            rest = behind;
        }
        shown
    }

    /// V, the variables of all patterns together.
    pub fn vars(&self) -> usize {
        self.patterns.iter().map(|pattern| pattern.lists.len()).sum()
    }

    /// The words of a row: 1 + F + 2V.
    pub fn width(&self) -> usize {
        1 + self.patterns.len() + 2 * self.vars()
    }

    /// The postings of each variable's list from one document up to another, which is not counted,
    /// summed over the variables.
    pub fn tally(&self, from: u32, to: u32) -> u32 {
        let lists = self.patterns.iter().flat_map(|pattern| &pattern.lists);
        lists.map(|&list| count(&self.lists[list], from, to)).sum()
    }

    /// The printed listing: `scene` and the words of each row, then `done` and the tally.
    pub fn printed(&self) -> String {
        let mut lines = String::new();
        for row in &self.rows {
            let words: Vec<String> = row.iter().map(u32::to_string).collect();
            lines += &format!("scene {}\n", words.join(" "));
        }
        lines + &format!("done {}\n", self.tally(0, 65_536))
    }

    /// The listing call.
    pub fn list(&self, start: u32, out: &mut [u32]) -> Result<Listed, Refused> {
        if start > 65_535 {
            return Err((15, 0));
        }
        if out.len() < self.width() {
            return Err((16, 0));
        }
        let left: Vec<&Vec<u32>> = self.rows.iter().filter(|row| row[0] >= start).collect();
        let fit = out.len() / self.width();
        let written = left.len().min(fit);
        for (i, row) in left[..written].iter().enumerate() {
            out[i * self.width()..(i + 1) * self.width()].copy_from_slice(row);
        }
        let more = left.get(fit).map(|row| row[0]);
        let tally = self.tally(start, more.unwrap_or(65_536));
        Ok(Listed { rows: written as u32, tally, more })
    }

    /// The call that tests positions.
    pub fn test(&self, pattern: u32, doc: u32, choice: &[u32]) -> Result<bool, Refused> {
        let Some(pattern) = self.patterns.get(pattern as usize) else {
            return Err((17, 0));
        };
        if choice.len() != pattern.lists.len() || doc > 65_535 {
            return Err((17, 0));
        }
        if choice.iter().any(|&pos| pos > 65_535) {
            return Err((17, 0));
        }
        let of_vars = self.of_vars(pattern, doc);
        let in_lists = choice.iter().zip(&of_vars).all(|(pos, of_var)| of_var.contains(pos));
        Ok(in_lists && all_hold(pattern, &self.positions(0, doc), choice))
    }

    /// The call that lists matches.
    pub fn matches(
        &self,
        pattern: u32,
        doc: u32,
        from: &[u32],
        out: &mut [u32],
    ) -> Result<Matched, Refused> {
        let Some(pattern) = self.patterns.get(pattern as usize) else {
            return Err((17, 0));
        };
        let vars = pattern.lists.len();
        if from.len() != vars || doc > 65_535 || from.iter().any(|&pos| pos > 65_535) {
            return Err((17, 0));
        }
        if out.len() < vars {
            return Err((16, 0));
        }
        let mut left = self.passing(pattern, doc);
        left.retain(|choice| !comes_before(choice, from));
        let fit = out.len() / vars;
        let written = left.len().min(fit);
        for (i, choice) in left[..written].iter().enumerate() {
            out[i * vars..(i + 1) * vars].copy_from_slice(choice);
        }
        Ok(Matched { count: written as u64, more: left.get(fit).cloned() })
    }
}
