//! Large volumes, up to the largest there is: few documents with thousands of positions, or many
//! documents.

use crate::case::Case;
use crate::inputs::{deface, MOST_WORDS};
use crate::package::walk;
use crate::plain;
use crate::report::Counts;
use crate::searches::any_test;
use crate::support::matches::other_matches;
use crate::support::plans::Row;
use crate::support::searches::*;
use crate::support::*;
use lihambozy::{kind, Plan, Volume};

/// The choices that the naive searcher may have for a pattern.
const CHOICES: usize = 200_000;

/// A large volume is written, read, searched and damaged.
pub fn large(case: &mut Case) {
    let Case { rng, counts } = case;
    let (lists, rows) = lists_and_plan(rng);
    counts.trial.case += &format!(", {} words, {rows:?}", lists.words());
    let mut volume = write_and_read(rng, &mut counts.trial, &lists);
    search(rng, counts, &volume, &rows);
    match rng.below(4) {
        0 => volume.resize(512 * 8_193, 0),
        _ => deface(rng, &lists, &mut volume),
    }
    let _ = counts.trial.check(&volume);
}

/// Lists that fill many words, and a plan over some of them.
fn lists_and_plan(rng: &mut Rng) -> (Lists, Vec<Row>) {
    let words = rng.pick(&[60_000, 200_000, 500_000, MOST_WORDS - 1, MOST_WORDS]);
    let is_few = rng.below(2) == 0;
    let count = if is_few { 1 + rng.below(12) } else { 300 + rng.below(1_500) };
    let docs = random_docs(rng, count);
    let mut lists = vec![starts(rng, &docs, words)];
    // The lists that a first variable may take, and those that the others may take.
    let (mut firsts, mut others) = (vec![], vec![]);
    for _ in 0..4 {
        let some: Vec<u32> = docs.iter().copied().filter(|_| rng.below(4) > 0).collect();
        let window: Vec<u32> = (0..rng.pick(&[20, 300, 65_536])).collect();
        let most = 1 + rng.below(3);
        others.push(lists.len() as u32);
        lists.push(random_positions(rng, &some, &window, most));
    }
    if is_few {
        let most = rng.pick(&[1_000, 5_000, 10_000]).min(words / 4 / count);
        let long = 1 + rng.below(most);
        let shorter = (CHOICES / long / count).clamp(1, long);
        for (of, length) in [(&mut firsts, long), (&mut others, shorter)] {
            of.push(lists.len() as u32);
            lists.push(spread(rng, &docs, length * count));
        }
    } else {
        firsts = others.clone();
    }
    let rows = random_rows(rng, &firsts, &others);

    // Other lists take the words that are left.
    let mut left = words - 2 - lists.iter().map(|list| 1 + list.len()).sum::<usize>();
    while left > 0 {
        let most = (left - 1).min(20_000 * count);
        let length = if rng.below(3) == 0 { most } else { rng.below(most + 1) };
        lists.push(spread(rng, &docs, length));
        left -= 1 + length;
    }
    (Lists::new(&lists), rows)
}

/// List 0 of these documents, in a volume of so many words: none at all, few starts in each
/// document or thousands, or one before all words. But for the last, one document in eight has no
/// title, and in most others words stand before the first one.
fn starts(rng: &mut Rng, docs: &[u32], words: usize) -> Vec<u32> {
    let titled: Vec<u32> = docs.iter().copied().filter(|_| rng.below(8) > 0).collect();
    match rng.below(8) {
        0 => vec![],
        1 | 2 => {
            let most = (words / 4).min(20_000 * titled.len());
            spread(rng, &titled, most)
        }
        3 => docs.iter().map(|doc| doc * 65_536).collect(),
        _ => spread(rng, &titled, 4 * docs.len()),
    }
}

/// So many different documents, rising.
fn random_docs(rng: &mut Rng, count: usize) -> Vec<u32> {
    let apart = 1 + rng.below(65_535 / count);
    (0..count).map(|i| (i * apart + rng.below(apart)) as u32).collect()
}

/// So many postings in these documents, evenly apart in each.
fn spread(rng: &mut Rng, docs: &[u32], count: usize) -> Vec<u32> {
    let mut list = Vec::with_capacity(count);
    for (i, doc) in docs.iter().enumerate() {
        let of_doc = count / docs.len() + usize::from(i < count % docs.len());
        let Some(widest) = 65_536_usize.checked_div(of_doc) else { continue };
        let step = 1 + rng.below(widest);
        let first = rng.below(65_536 - (of_doc - 1) * step);
        list.extend((0..of_doc).map(|k| doc * 65_536 + (first + k * step) as u32));
    }
    list
}

/// A plan of few variables.
fn random_rows(rng: &mut Rng, firsts: &[u32], others: &[u32]) -> Vec<Row> {
    let mut rows = loop {
        let (rows, largest) = random_query(rng);
        let vars = rows.iter().filter(|row| row[0] == kind::VOICE).count();
        if vars <= 4 && largest <= 2 {
            break rows;
        }
    };
    let mut lists = firsts;
    for row in &mut rows {
        match row[0] {
            kind::VOICE => {
                row[1] = rng.pick(lists);
                lists = others;
            }
            _ => lists = firsts,
        }
    }
    rows
}

/// Writes the lists and reads one of them back: the volume.
fn write_and_read(rng: &mut Rng, trial: &mut Trial, lists: &Lists) -> Vec<u8> {
    let room = lists.room() + rng.below(600);
    let volume = trial.write(&lists.counts, &lists.postings, room).expect("the lists rise and fit");
    let sizes = (lists.counts.len() as u32, lists.postings.len() as u32);
    assert_eq!(trial.check(&volume), Ok(sizes), "{}", trial.case);
    let list = rng.below(lists.counts.len());
    let (parts, _) = plain::cut(&lists.counts, &lists.postings);
    let read = trial.read(&volume, list as u32, parts[list].len());
    assert_eq!(read.as_deref(), Ok(parts[list]), "{}", trial.case);
    volume
}

/// Searches the volume, in some ten calls and in pages, and lists some of its tuples.
fn search(rng: &mut Rng, counts: &mut Counts, volume: &[u8], rows: &[Row]) {
    let subject = Subject::new(volume, &rows.concat());
    let width = subject.width();
    let mut search = Search::new(&subject);
    while !search.done {
        let rows = 1 + rng.below(1 + subject.searcher().rows.len() / 5);
        let (mut memory, lent) = memory_for(rows * width + rng.below(width));
        let _ = search.call(&mut counts.trial, &mut memory, lent);
    }
    search.assert_whole(&counts.trial.case);
    counts.searches.count("searches", 1);
    counts.searches.count("searches to done", 1);
    count_starts(&mut counts.searches, &subject);
    other_starts(rng, &mut counts.trial, &subject, 3);
    for _ in 0..4 {
        any_test(rng, counts, &subject);
    }
    other_matches(rng, &mut counts.trial, &subject, 2);

    let volume = Volume::new(subject.volume()).expect("the volume is accepted");
    let plan = Plan::new(rows);
    walk(rng, counts, &subject, volume.search(&plan).expect("the plan is accepted"));
}
