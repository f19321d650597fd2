//! Searches through buffers of every sort, listing calls from any document, positions to test, and
//! tuples listed through buffers of every sort and from any start.

use crate::case::Case;
use crate::plain::search::Searcher;
use crate::report::Counts;
use crate::support::matches::*;
use crate::support::searches::*;
use crate::support::Rng;

/// Two searches over one volume and plan, and calls that are part of none.
pub fn searches(case: &mut Case) {
    let Case { rng, counts } = case;
    let subject = match rng.below(100) {
        0 => random_large_subject(rng),
        1 => random_skewed_subject(rng, 400),
        2..=19 => random_skewed_subject(rng, 40),
        _ => random_subject(rng),
    };
    counts.trial.case += &format!(", {:?}", subject.plan());
    for _ in 0..2 {
        random_search(rng, &mut counts.trial, &mut counts.searches, &subject);
    }
    count_starts(&mut counts.searches, &subject);
    count_at_least(&mut counts.searches, &subject);
    other_starts(rng, &mut counts.trial, &subject, 3);
}

/// Positions to test, over one volume and plan.
pub fn positions(case: &mut Case) {
    let Case { rng, counts } = case;
    let subject = match rng.below(4) {
        0 => random_skewed_subject(rng, 40),
        _ => random_subject(rng),
    };
    counts.trial.case += &format!(", {:?}", subject.plan());
    for _ in 0..12 {
        any_test(rng, counts, &subject);
    }
}

/// Three enumerations over one volume and plan, and calls that are part of none.
pub fn matches(case: &mut Case) {
    let Case { rng, counts } = case;
    let subject = match rng.below(6) {
        0 => random_subject(rng),
        1 => random_skewed_subject(rng, 40),
        _ => random_crowd(rng),
    };
    counts.trial.case += &format!(", {:?}", subject.plan());
    for _ in 0..3 {
        random_enumeration(rng, &mut counts.trial, &mut counts.searches, &subject);
    }
    other_matches(rng, &mut counts.trial, &subject, 6);
}

/// Listing calls, calls that list matches and tests over a volume and a plan that may be refused,
/// and a search and an enumeration where they are not.
pub fn any_calls(rng: &mut Rng, counts: &mut Counts, subject: &Subject) {
    if subject.naive.is_ok() {
        random_search(rng, &mut counts.trial, &mut counts.searches, subject);
        random_enumeration(rng, &mut counts.trial, &mut counts.searches, subject);
    }
    other_starts(rng, &mut counts.trial, subject, 2);
    other_matches(rng, &mut counts.trial, subject, 2);
    for _ in 0..2 {
        any_test(rng, counts, subject);
    }
}

/// A pattern, a document and positions such as a test may be asked of.
fn fitting_test(rng: &mut Rng, searcher: &Searcher) -> (usize, u32, Vec<u32>) {
    let number = rng.below(searcher.patterns.len());
    let vars = searcher.patterns[number].lists.len();
    if !searcher.rows.is_empty() && rng.below(2) == 0 {
        // The least positions, or zeros.
        let row = &searcher.rows[rng.below(searcher.rows.len())];
        let positions = match &searcher.shown(row)[number] {
            Some(pairs) => pairs.iter().map(|[pos, _]| *pos).collect(),
            None => vec![0; vars],
        };
        return (number, row[0], positions);
    }
    let docs: Vec<u32> = searcher.docs().into_iter().chain([65_535]).collect();
    let doc = rng.pick(&docs);
    let of_vars = searcher.of_vars(&searcher.patterns[number], doc);
    let any = |rng: &mut Rng| rng.word() % 65_536;
    let positions = of_vars
        .iter()
        .map(|of_var| if of_var.is_empty() { any(rng) } else { rng.pick(of_var) })
        .collect();
    (number, doc, positions)
}

/// A test of positions that pass, or nearly so, or that are refused.
pub fn any_test(rng: &mut Rng, counts: &mut Counts, subject: &Subject) {
    let (number, mut doc, mut positions) = match &subject.naive {
        Ok(searcher) => fitting_test(rng, searcher),
        Err(_) => (rng.below(3), rng.below(5) as u32, vec![7; rng.below(4)]),
    };
    let mut number = number as u32;
    let any = rng.word() >> rng.below(32);
    let beyond = rng.pick(&[65_536, 65_537, 1 << 17, 1 << 31, u32::MAX]);
    let at = rng.below(positions.len().max(1));
    let other = rng.below(positions.len().max(1));
    match rng.below(16) {
        0..=4 if !positions.is_empty() => {
            let pos = positions[at];
            let beside = pos.saturating_add_signed(rng.pick(&[-1, 1]));
            let moved = [beside, beside, any % 65_536, beyond, pos.wrapping_add(65_536)];
            positions[at] = rng.pick(&moved);
        }
        5 => positions.push(any % 65_536),
        6 => positions.truncate(at),
        7 => positions.extend(vec![0; rng.below(300)]),
        8 => doc = doc.saturating_add_signed(rng.pick(&[-1, 1])),
        9 => doc = rng.pick(&[beyond, doc + 65_536, any]),
        10 => number = rng.pick(&[number + 1, 8, 256, 65_536, u32::MAX, any]),
        11 if !positions.is_empty() => positions.swap(at, other),
        _ => {}
    }
    let _ = counts.trial.test(subject, number, doc, &positions);
}
