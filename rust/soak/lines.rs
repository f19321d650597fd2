//! Typed lines: as they should be, changed, and bytes of any sort, beside the plain reader; and
//! plans as lines, there and back.

use crate::case::Case;
use crate::inputs::{any_plan, any_volume, short_lists};
use crate::line_inputs::{any_bytes, loosely_written, mutated, random_line};
use crate::package::same;
use crate::plain::line::{dropped, pairs, plan_of, without};
use crate::plain::plan::Row;
use crate::report::Counts;
use crate::support::plans::random_plan;
use crate::support::{pair, Lists, Rng};
use lihambozy::{Plan, Volume};

/// Texts that are lines or not, and plans that have a line or not.
pub fn lines(case: &mut Case) {
    let Case { rng, counts } = case;
    counts.lines.case = counts.trial.case.clone();
    for _ in 0..4 {
        let line = random_line(rng);
        let whole = counts.lines.read(&line);
        let is_line = matches!(whole, Ok(_) | Err((21, 2_048) | (22, _) | (23, 0)));
        assert!(is_line, "{}: {line}: {whole:?}", counts.trial.case);
        from_line(counts, line.as_bytes());
        for _ in 0..3 {
            let text = mutated(rng, line.as_bytes());
            let _ = counts.lines.read(&text);
            from_line(counts, &text);
        }
        let text = any_bytes(rng);
        let _ = counts.lines.read(&text);
        from_line(counts, &text);
    }

    let (volume, lists) = any_volume(rng);
    let plan = any_plan(rng, lists);
    there_and_back(counts, &volume, &plan);
    let lists = short_lists(rng);
    for _ in 0..3 {
        let plan = any_plan(rng, lists.counts.len());
        there_and_back(counts, &lists.volume(), &plan);
    }
    brackets(rng, counts);
}

/// A text as the package reads it.
fn from_line(counts: &mut Counts, text: &[u8]) {
    let answer = Plan::from_line(text).map(|plan| plan.rows().to_vec()).map_err(pair);
    same(counts, "Plan::from_line", answer, plan_of(text));
}

/// A plan is written or refused. A line that is written reads as the plan again, and without any
/// pair of its brackets it does not.
fn there_and_back(counts: &mut Counts, volume: &[u8], words: &[u32]) {
    let line = counts.lines.write(volume, words);
    let rows: Vec<Row> = words.as_chunks().0.to_vec();
    if let (Ok(volume), true) = (Volume::new(volume), words.len().is_multiple_of(4)) {
        let answer = Plan::new(&rows[..]).to_line(&volume).map_err(pair);
        same(counts, "Plan::to_line", answer, line.clone());
    }
    let Ok(line) = line else { return };
    let case = counts.trial.case.clone();
    for pair in pairs(&line) {
        let fewer = counts.lines.read(without(&line, pair));
        assert_ne!(fewer.as_ref(), Ok(&rows), "{case}: {line}");
    }
    assert_eq!(counts.lines.read(&line), Ok(rows), "{case}: {line}");
    counts.searches.count("plans as lines and back", 1);
}

/// A line with some brackets that could be dropped comes back without them, whatever the order in
/// which they are.
fn brackets(rng: &mut Rng, counts: &mut Counts) {
    let volume = Lists::new(&vec![[0; 0]; 20]).volume();
    let rows = random_plan(rng, 20);
    let line = loosely_written(rng, &rows);
    let case = &counts.trial.case;
    assert_eq!(counts.lines.read(&line), Ok(rows.clone()), "{case}: {line}");
    let back = counts.lines.write(&volume, &rows.concat());
    let fewest = dropped(&line, |pairs| {
        for at in 1..pairs.len() {
            pairs.swap(at, rng.below(at + 1));
        }
    });
    assert_eq!(back, Ok(fewest), "{case}: {line}");
    counts.searches.count("lines as plans and back", 1);
}
