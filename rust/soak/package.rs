//! The Rust package: volumes, plans, and searches and matches that page by themselves.

use crate::case::Case;
use crate::inputs::{any_lists, any_plan, any_volume, spoil_lists, NAIVE_STEPS};
use crate::plain::search::{comes_before, Searcher};
use crate::plain::{self, Refused};
use crate::report::Counts;
use crate::support::matches::{random_crowd, random_from};
use crate::support::searches::{random_large_subject, random_subject, Subject};
use crate::support::{pair, Lists, Rng};
use lihambozy::{Matches, Plan, Position, Posting, Search, Volume};
use std::fmt::Debug;

/// Compares one answer of the package.
#[track_caller]
pub fn same<T: PartialEq + Debug>(counts: &mut Counts, what: &str, answer: T, expected: T) {
    assert_eq!(answer, expected, "{}: {what}", counts.trial.case);
    counts.package.count(what, 1);
}

/// The lists as the package takes them, where their counts sum to the number of postings.
pub fn postings_of(lists: &Lists) -> Option<Vec<Vec<Posting>>> {
    let sum: u64 = lists.counts.iter().map(|&count| u64::from(count)).sum();
    (sum == lists.postings.len() as u64).then(|| {
        let (parts, _) = plain::cut(&lists.counts, &lists.postings);
        let postings = |list: &&[u32]| list.iter().map(|&word| Posting::from_word(word)).collect();
        parts.iter().map(postings).collect()
    })
}

/// Lists that become a volume or are refused; a volume and a plan, and a search where they are
/// accepted.
pub fn package(case: &mut Case) {
    let Case { rng, counts } = case;
    let mut lists = any_lists(rng);
    for _ in 0..rng.below(3) {
        spoil_lists(rng, &mut lists);
    }
    if let Some(postings) = postings_of(&lists) {
        let mut volume = vec![0; lists.room()];
        let written = plain::write_volume(&lists.counts, &lists.postings, &mut volume);
        let answer = Volume::of_lists(&postings).map(Volume::into_bytes).map_err(pair);
        same(counts, "Volume::of_lists", answer, written.map(|_| volume));
    }

    let subject = match rng.below(60) {
        0 => Some(random_large_subject(rng)),
        1..=20 => {
            let (volume, lists) = any_volume(rng);
            let mut plan = any_plan(rng, lists);
            plan.truncate(plan.len() / 4 * 4);
            Subject::within(&volume, &plan, NAIVE_STEPS)
        }
        21..=30 => Some(random_crowd(rng)),
        _ => Some(random_subject(rng)),
    };
    if let Some(subject) = subject {
        counts.trial.case += &format!(", {:?}", subject.plan());
        ask(rng, counts, &subject);
    }
}

/// All that a volume and a plan are asked.
fn ask(rng: &mut Rng, counts: &mut Counts, subject: &Subject) {
    let volume = match rng.below(2) {
        0 => Volume::new(subject.volume()),
        _ => Volume::new(subject.volume().to_vec()),
    };
    let sizes = |volume: &Volume| (volume.list_count(), volume.posting_count());
    let answer = volume.as_ref().map(sizes).map_err(|refusal| pair(*refusal));
    same(counts, "Volume::new", answer, plain::check_volume(subject.volume()));
    let (Ok(volume), Ok(lists)) = (volume, plain::lists(subject.volume())) else { return };

    let words = |list: Vec<Posting>| list.into_iter().map(Posting::word).collect::<Vec<u32>>();
    same(counts, "Volume::lists", volume.lists().map(words).collect(), lists.clone());
    let list = rng.pick(&[0, 1, lists.len() as u32, u32::MAX]);
    let expected = lists.get(list as usize).cloned().ok_or((17, 0));
    same(counts, "Volume::list", volume.list(list).map(words).map_err(pair), expected);

    let plan = Plan::new(subject.plan().as_chunks().0);
    let mut bytes = plan.to_bytes();
    let read = Plan::from_bytes(&bytes).map_err(pair);
    let fits = (1..=64).contains(&plan.rows().len());
    same(counts, "Plan::from_bytes", read, if fits { Ok(plan.clone()) } else { Err((9, 0)) });
    bytes.extend(vec![1; 1 + rng.below(15)]);
    same(counts, "Plan::from_bytes", Plan::from_bytes(&bytes).map_err(pair), Err((9, 0)));
    let checked = plain::plan::check(subject.volume(), subject.plan());
    let answer = volume.check(&plan).map(|checked| (checked.patterns, checked.vars));
    let sizes = |plan: &plain::plan::Plan| (plan.patterns.len() as u32, plan.vars);
    let expected = checked.as_ref().map(sizes).map_err(|refused| *refused);
    same(counts, "Volume::check", answer.map_err(pair), expected);

    let pattern = rng.below(9) as u32;
    let part = plain::plan::part(&checked, pattern);
    let expected = match part.is_empty() {
        true => Err(checked.err().unwrap_or((17, 0))),
        false => Ok(subject.plan()[part].to_vec()),
    };
    let answer = volume.pattern_rows(&plan, pattern).map(<[_]>::concat).map_err(pair);
    same(counts, "Volume::pattern_rows", answer, expected);

    let positions = vec![rng.word() % 9; 1 + rng.below(3)];
    let expected = naive(subject, |searcher| searcher.test(pattern, 1, &positions));
    let answer = volume.test(&plan, pattern, 1, &positions).map_err(pair);
    same(counts, "Volume::test", answer, expected);

    all_matches(rng, counts, subject, &volume, &plan);

    let search = volume.search(&plan).map_err(pair);
    let refused = search.as_ref().map(|_| ()).map_err(|refused| *refused);
    same(counts, "Volume::search", refused, naive(subject, |_| Ok(())));
    if let Ok(search) = search {
        walk(rng, counts, subject, search);
    }
}

/// The matches of a pattern in a document, from zeros and from any tuple, or why they are refused.
fn all_matches(
    rng: &mut Rng,
    counts: &mut Counts,
    subject: &Subject,
    volume: &Volume,
    plan: &Plan,
) {
    let docs: Vec<u32> = subject.docs().into_iter().chain([7, 65_535]).collect();
    let doc = if rng.below(12) == 0 { 65_536 } else { rng.pick(&docs) };
    let patterns = subject.naive.as_ref().map_or(1, |searcher| searcher.patterns.len());
    let one_more = usize::from(rng.below(8) == 0);
    let pattern = rng.below(patterns + one_more) as u32;
    let vars = subject.vars(pattern);
    let is_there = subject.naive.is_ok() && (pattern as usize) < patterns && doc < 65_536;
    let from = match is_there {
        true if rng.below(8) > 0 => random_from(rng, subject, pattern, doc),
        _ => vec![rng.pick(&[0, 7, 65_536]); rng.below(9)],
    };
    for from in [None, Some(&from)] {
        let start = from.cloned().unwrap_or(vec![0; vars]);
        let asked = match from {
            None => volume.matches(plan, pattern, doc),
            Some(from) => volume.matches_from(plan, pattern, doc, from),
        };
        let refused = asked.as_ref().map(|_| ()).map_err(|refusal| pair(*refusal));
        let expected = naive(subject, |searcher| {
            searcher.matches(pattern, doc, &start, &mut [0; 8]).map(|_| ())
        });
        let name = if from.is_none() { "Volume::matches" } else { "Volume::matches_from" };
        same(counts, name, refused, expected);
        if let Ok(matches) = asked {
            walk_matches(rng, counts, matches, &start, &subject.passing(pattern, doc));
        }
    }
}

/// The tuples of matches are those of the naive searcher from the start on, whatever the length of
/// their pages is and becomes.
fn walk_matches(
    rng: &mut Rng,
    counts: &mut Counts,
    mut matches: Matches,
    from: &[u32],
    passing: &[Vec<u32>],
) {
    let case = &counts.trial.case;
    let left: Vec<&Vec<u32>> = passing.iter().filter(|tuple| !comes_before(tuple, from)).collect();
    assert_eq!(matches.reached().as_deref(), Some(from), "{case}");
    let seldom = rng.pick(&[1, 4, 20, 100]);
    let page = |rng: &mut Rng| match rng.below(8) {
        0 => rng.pick(&[1_024, 65_536, usize::MAX]),
        1..=3 => rng.below(4),
        _ => rng.below(70),
    };
    if rng.below(4) > 0 {
        matches = matches.page_tuples(page(rng));
    }
    for (handed, &tuple) in left.iter().enumerate() {
        if rng.below(seldom) == 0 {
            matches = matches.page_tuples(page(rng));
        }
        if rng.below(seldom) == 0 {
            matches = matches.clone();
        }
        let (least, most) = matches.size_hint();
        let count = left.len() - handed;
        assert!(
            least <= count && most.is_none_or(|most| most == count),
            "{case}: {least} {most:?}"
        );
        let answer = matches.next().unwrap_or_else(|| panic!("{case}: {tuple:?} is missing"));
        assert_eq!(answer[..], tuple[..], "{case}");
        let shown: String = tuple.iter().map(|pos| format!(" {pos}")).collect();
        assert_eq!(answer.to_string(), format!("places{shown}"), "{case}");
        let is_behind = |reached: lihambozy::Match| {
            answer < reached && left[handed + 1..].iter().any(|tuple| tuple[..] == reached[..])
        };
        assert!(matches.reached().is_none_or(is_behind), "{case}");
    }
    assert!(matches.next().is_none(), "{case}: a tuple too many");
    assert!(matches.next().is_none(), "{case}: a tuple behind the end");
    assert_eq!((matches.size_hint(), matches.reached()), ((0, Some(0)), None), "{case}");
    counts.searches.count("tuples of Matches", left.len());
    counts.searches.count("Matches to their end", 1);
}

/// What the naive searcher answers, or why it refuses.
fn naive<T>(
    subject: &Subject,
    answer: impl FnOnce(&Searcher) -> Result<T, Refused>,
) -> Result<T, Refused> {
    subject.naive.as_ref().map_err(|refused| *refused).and_then(answer)
}

/// The rows of a search are those of the naive searcher, and its tally is theirs at any time,
/// whatever the length of its pages is and becomes.
pub fn walk(rng: &mut Rng, counts: &mut Counts, subject: &Subject, search: Search) {
    let searcher = subject.searcher();
    let case = &counts.trial.case;
    let page_rows = |rng: &mut Rng| match rng.below(40) {
        0 => rng.pick(&[1_024, 65_536, usize::MAX]),
        1..=20 => rng.below(4),
        _ => rng.below(70),
    };
    let mut search = match rng.below(2) {
        0 => search.page_rows(page_rows(rng)),
        _ => search,
    };
    let seldom = rng.pick(&[1, 4, 4, 20]);
    let most = rng.pick(&[3, usize::MAX, usize::MAX, usize::MAX]);
    for (handed, row) in searcher.rows.iter().enumerate().take(most) {
        if rng.below(seldom) == 0 {
            search = search.page_rows(page_rows(rng));
        }
        if rng.below(seldom) == 0 {
            search = search.clone();
        }
        let left = searcher.rows.len() - handed;
        let (least, greatest) = search.size_hint();
        assert!(least <= left && greatest >= Some(left), "{case}: {left}, {least}, {greatest:?}");

        let answer = search.next().unwrap_or_else(|| panic!("{case}: {row:?} is missing"));
        assert_eq!((answer.words(), answer.doc()), (&row[..], row[0]), "{case}");
        let shown: String = row.iter().map(|word| format!(" {word}")).collect();
        assert_eq!(answer.to_string(), format!("scene{shown}"), "{case}");
        let words = |var: Position| [var.pos, var.title_start.unwrap_or(65_536)];
        let pairs =
            answer.patterns().map(|found| found.map(|vars| vars.iter().map(words).collect()));
        assert_eq!(pairs.collect::<Vec<_>>(), searcher.shown(&row), "{case}");
        assert!(row[0] < search.reached() && search.reached() <= 65_536, "{case}");
        assert_eq!(search.tally(), searcher.tally(0, search.reached()).into(), "{case}");
        counts.searches.count("rows of Search", 1);
    }
    if searcher.rows.len() <= most {
        assert!(search.next().is_none(), "{case}: a row too many");
        assert!(search.next().is_none(), "{case}: a row behind the end");
        assert_eq!(search.size_hint(), (0, Some(0)), "{case}");
        let tally = searcher.tally(0, 65_536).into();
        assert_eq!((search.reached(), search.tally()), (65_536, tally), "{case}");
        counts.searches.count("Search to its end", 1);
    }
}
