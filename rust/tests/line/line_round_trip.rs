//! Plans as lines, there and back: no bracket could be dropped, whatever the order in which they
//! are tried; a line comes back as it was exactly if none of its own could; and a line's rows are
//! true of the documents that the line is true of.

use crate::inputs::{loosely_written, random_line};
use crate::plain::line::*;
use crate::plain::search::Pattern;
use crate::support::plans::*;
use crate::support::searches::{random_subject, Subject};
use crate::support::*;
use crate::trial::{Lines, Way};
use lihambozy::calls::{check_plan, line_to_plan, list, Next};
use lihambozy::{Plan, Volume, MAX_LINE_BYTES};
use std::collections::BTreeSet;

/// All ways to join so many figures, `[1]` being the first, by operators, and by AT LEAST too where
/// that is asked for.
pub fn trees(from: u32, count: u32, with_at_least: bool) -> Vec<Vec<Row>> {
    if count == 1 {
        return vec![vec![voice(from), END]];
    }
    let mut all = vec![];
    for parts in 2..=if with_at_least { count } else { 2 } {
        let operators = [BOTH, EITHER, FIRST_NOT_SECOND].into_iter().filter(|_| parts == 2);
        let numbers = (1..=parts).filter(|_| with_at_least).map(|least| at_least(least, parts));
        let joins: Vec<Row> = operators.chain(numbers).collect();
        for rows in side_by_side(from, count, parts, with_at_least) {
            all.extend(joins.iter().map(|&join| [&rows[..], &[join]].concat()));
        }
    }
    all
}

/// All ways to make so many answers of so many figures, at least one of each.
fn side_by_side(from: u32, count: u32, parts: u32, with_at_least: bool) -> Vec<Vec<Row>> {
    if parts == 1 {
        return trees(from, count, with_at_least);
    }
    let mut all = vec![];
    for left in 1..=count + 1 - parts {
        for first in trees(from, left, with_at_least) {
            for others in side_by_side(from + left, count - left, parts - 1, with_at_least) {
                all.push([&first[..], &others].concat());
            }
        }
    }
    all
}

/// A line that is written for these rows reads as them, and without any pair of its brackets it
/// does not.
#[track_caller]
pub fn assert_fewest(lines: &mut Lines, line: &str, rows: &[Row]) {
    assert_eq!(lines.read(line).as_deref(), Ok(rows), "{}: {line}", lines.case);
    for pair in pairs(line) {
        let fewer = lines.read(without(line, pair));
        assert_ne!(fewer.as_deref(), Ok(rows), "{}: {line}", lines.case);
    }
}

/// Whether none of a line's brackets could be dropped.
fn is_bare(line: &str) -> bool {
    pairs(line).into_iter().all(|pair| !is_needless(line, pair))
}

/// A volume of so many lists, all empty.
pub fn empty_lists(count: usize) -> Vec<u8> {
    Lists::new(&vec![[0; 0]; count]).volume()
}

/// All plans of up to five figures with one voice each.
#[test]
fn every_tree() {
    let volume = empty_lists(6);
    let mut lines = Lines::default();
    let mut count = 0;
    for figures in 1..=5 {
        for rows in trees(1, figures, false) {
            let line = lines.write(&volume, &rows.concat()).unwrap();
            assert_fewest(&mut lines, &line, &rows);
            count += 1;
        }
    }
    // Catalan's numbers, and three operators for each place of one.
    assert_eq!(count, 1 + 3 + 2 * 9 + 5 * 27 + 14 * 81);
    lines.assert_met(Way::Write, count, &[0, 16]);
}

/// One line of a plan has the fewest brackets, and it is the one written. From every set of
/// brackets with which the line reads as the plan it is left, whatever the order in which pairs are
/// dropped.
#[test]
fn one_line_has_the_fewest_brackets() {
    let seed = 5_401;
    let mut rng = Rng::new(seed);
    let mut lines = Lines::default();
    let volume = empty_lists(6);
    for figures in 1..=5 {
        for rows in trees(1, figures, false) {
            let whole = bracketed(&rows);
            let all = pairs(&whole);
            assert_eq!(all.len(), figures as usize - 1, "{whole}");
            let line = lines.write(&volume, &rows.concat()).unwrap();
            // Every set of pairs, dropped together.
            for set in 0..1u32 << all.len() {
                let is_dropped = |at: usize| {
                    let pair = all.iter().position(|&(open, close)| at == open || at == close);
                    pair.is_some_and(|pair| set >> pair & 1 == 1)
                };
                let signs = whole.char_indices().filter(|&(at, _)| !is_dropped(at));
                let other: String = signs.map(|(_, sign)| sign).collect();
                if plan_of(other.as_bytes()).as_ref() == Ok(&rows) {
                    let left = dropped(&other, |_| {});
                    assert_eq!(left, line, "{other}");
                    assert!(other.len() > line.len() || other == line, "{other}");
                }
            }
            // The pairs in other orders, one at a time.
            assert_eq!(dropped(&whole, |pairs| pairs.reverse()), line, "{whole}");
            let shuffled = dropped(&whole, |pairs| {
                for at in 1..pairs.len() {
                    pairs.swap(at, rng.below(at + 1));
                }
            });
            assert_eq!(shuffled, line, "seed {seed}: {whole}");
        }
    }
}

/// Random accepted plans, there and back, of up to eight figures and 64 rows.
#[test]
fn random_plans() {
    let seed = 5_402;
    let mut rng = Rng::new(seed);
    let mut lines = Lines::default();
    let volumes =
        [(empty_lists(1_024), 1_024), (sample().volume(), 3), (four_blocks().volume(), 5)];
    let (mut longest, mut largest, mut brackets, mut some) = (0, 0, 0, 0);
    for round in 0..400 {
        let (volume, count) = &volumes[rng.below(3)];
        let rows = random_plan(&mut rng, *count);
        lines.case = format!("seed {seed}, round {round}");
        let line = lines.write(volume, &rows.concat()).unwrap();
        assert_fewest(&mut lines, &line, &rows);
        assert!(line.len() <= 26 * rows.len(), "{}: {line}", lines.case);
        let packed = Plan::new(&rows[..]).to_line(&Volume::new(&volume[..]).unwrap());
        assert_eq!(packed.as_deref(), Ok(&line[..]), "{}", lines.case);
        longest = longest.max(line.len());
        largest += usize::from(rows.len() == 64);
        brackets += pairs(&line).len();
        some += line.matches('<').count();
    }
    assert!(longest > 500 && longest <= MAX_LINE_BYTES, "{longest}");
    assert!(largest > 20 && brackets > 200 && some > 200, "{largest} {brackets} {some}");
}

/// The longest lines: a plan of one figure with the longest numbers that are accepted, and one of
/// eight figures that keep a bracket each.
#[test]
fn longest_lines() {
    let volume = empty_lists(1_024);
    let mut lines = Lines::default();
    let wide = [&[voice(1_023); 8][..], &[apart(7, 7, 65_535, 65_535); 55], &[END]].concat();
    let line = lines.write(&volume, &wide.concat()).unwrap();
    assert_eq!((wide.len(), line.len()), (64, 1 + 5 * 8 + 18 * 55));
    let figures: Vec<Row> = (1..=8).flat_map(|list| [voice(list), END]).collect();
    for (operator, sign) in [(BOTH, '&'), (EITHER, '|'), (FIRST_NOT_SECOND, '!')] {
        let nested = [&figures[..], &[operator; 7]].concat();
        let line = lines.write(&volume, &nested.concat()).unwrap();
        let expected =
            "[1]&([2]&([3]&([4]&([5]&([6]&([7]&[8]))))))".replace('&', &sign.to_string());
        assert_eq!(line, expected);
        assert_eq!(lines.read(&line), Ok(nested));
    }
}

/// A line with brackets of every sort comes back as it was exactly if none could be dropped; else
/// it comes back shorter, with the same rows.
#[test]
fn lines_there_and_back() {
    let seed = 5_403;
    let mut rng = Rng::new(seed);
    let mut lines = Lines::default();
    let volume = sample().volume();
    let (mut same, mut shorter) = (0, 0);
    for round in 0..400 {
        let rows = random_plan(&mut rng, 3);
        let line = loosely_written(&mut rng, &rows);
        lines.case = format!("seed {seed}, round {round}");
        assert_eq!(lines.read(&line), Ok(rows.clone()), "{}: {line}", lines.case);
        let back = lines.write(&volume, &rows.concat()).unwrap();
        assert_eq!(back == line, is_bare(&line), "{}: {line} {back}", lines.case);
        assert_eq!(back, dropped(&line, |pairs| pairs.reverse()), "{}: {line}", lines.case);
        if back == line {
            same += 1;
        } else {
            assert!(back.len() < line.len(), "{}: {line} {back}", lines.case);
            shorter += 1;
        }
    }
    assert!(same > 80 && shorter > 80, "{same} {shorter}");
}

/// Random lines whose numbers are brought into range, so that they are accepted.
#[test]
fn random_lines_there_and_back() {
    let seed = 5_404;
    let mut rng = Rng::new(seed);
    let mut lines = Lines::default();
    let volume = empty_lists(1_024);
    let (mut accepted, mut some) = (0, 0);
    for round in 0..1_200 {
        let line = random_line(&mut rng);
        lines.case = format!("seed {seed}, round {round}");
        let Ok(mut rows) = plan_of(line.as_bytes()) else { continue };
        for [kind, a, b, c] in &mut rows {
            use lihambozy::kind;
            match *kind {
                kind::VOICE => *a = 1 + *a % 1_023,
                kind::NEAR => (*a, *b, *c) = (0, 0, *c % 65_536),
                kind::BEFORE | kind::SAME_TITLE => (*a, *b) = (0, 0),
                kind::SPAN => *c = (*c).max(1),
                kind::APART => (*a, *b, *c) = (0, 0, *c | 65_535),
                _ => {}
            }
        }
        if check_plan(&volume, &rows.concat()).is_err() {
            continue;
        }
        accepted += 1;
        some += usize::from(line.contains('<'));
        let back = lines.write(&volume, &rows.concat()).unwrap();
        assert_eq!(lines.read(&back), Ok(rows), "{}: {back}", lines.case);
    }
    assert!(accepted > 200 && some > 60, "{accepted} {some}");
}

/// The documents that a line is true of, read on its own: each figure is judged by the naive
/// searcher, and the line by its figures.
fn true_docs(subject: &Subject, line: &str) -> Vec<u32> {
    let searcher = subject.searcher();
    let found = |inside: &str, doc: u32| {
        let rows = pattern(inside);
        let (voices, others): (Vec<Row>, Vec<Row>) = rows.iter().partition(|row| row[0] == 1);
        let pattern = Pattern {
            lists: voices.iter().map(|voice| voice[1] as usize).collect(),
            predicates: others.into_iter().filter(|row| *row != END).collect(),
        };
        !searcher.passing(&pattern, doc).is_empty()
    };
    let docs: BTreeSet<u32> = searcher.docs();
    docs.into_iter().filter(|&doc| is_true(line, &|inside| found(inside, doc))).collect()
}

/// Where a line's rows are accepted, their true documents are those of the line.
#[test]
fn true_documents() {
    let seed = 5_405;
    let mut rng = Rng::new(seed);
    let mut lines = Lines::default();
    let (mut listed, mut not, mut some) = (0, 0, 0);
    for round in 0..700 {
        let subject = random_subject(&mut rng);
        let rows: Vec<Row> = subject.plan().as_chunks().0.to_vec();
        let line = loosely_written(&mut rng, &rows);
        lines.case = format!("seed {seed}, round {round}: {line}");
        assert_eq!(lines.read(&line), Ok(rows), "{}", lines.case);
        let mut words = [0; 256];
        let read = line_to_plan(line.as_bytes(), &mut words).unwrap();
        let plan = &words[..read.words as usize];
        let expected = true_docs(&subject, &line);
        let width = subject.width();
        let mut out = vec![0; width * (expected.len() + 1)];
        let listing = list(subject.volume(), plan, 0, &mut out).unwrap();
        assert_eq!(listing.next, Next::Done, "{}", lines.case);
        let docs: Vec<u32> =
            out.chunks(width).take(listing.rows as usize).map(|row| row[0]).collect();
        assert_eq!(docs, expected, "{}", lines.case);
        listed += docs.len();
        some += if line.contains('<') { docs.len() } else { 0 };
        not += subject.docs().len() - docs.len();
    }
    assert!(listed > 500 && not > 500 && some > 150, "{listed} {not} {some}");
}
