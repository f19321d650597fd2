//! What must hold between the tuples that a call lists and what other calls say: the positions that
//! a listing shows, the answers of the call that tests positions, and the tuples of plans that are
//! made from each other. All of it would hold without the naive searcher, with which each call is
//! compared as everywhere.

use crate::plain::search::{choices, comes_before};
use crate::support::orders::*;
use crate::support::plans::*;
use crate::support::searches::*;
use crate::support::*;
use std::collections::BTreeSet;

/// The first tuple from zeros is what a listing shows, in each document that it lists and for each
/// pattern; where it shows the pattern as not found, no tuple passes. It is smallest in every
/// variable among all tuples, and they ascend.
#[test]
fn first_tuples_are_those_listed() {
    let seed = 4_101;
    let mut rng = Rng::new(seed);
    let mut trial = Trial::default();
    let (mut found, mut missed, mut several) = (0, 0, 0);
    for round in 0..3_000 {
        let subject = random_subject(&mut rng);
        trial.case = format!("seed {seed}, round {round}, {:?}", subject.plan());
        let (words, _) = trial.search(&subject, 100 * subject.width());
        let docs: Vec<&[u32]> = words.chunks(subject.width()).collect();
        for row in docs.iter().take(4) {
            for (pattern, shown) in (0..).zip(subject.searcher().shown(row)) {
                let vars = subject.vars(pattern);
                let tuples = trial.match_page(&subject, pattern, row[0], &vec![0; vars], 70_000);
                let (tuples, more) = tuples.unwrap();
                assert_eq!(more, None, "{}", trial.case);
                assert_eq!(tuples.is_empty(), shown.is_none(), "{}: {row:?}", trial.case);
                let (Some(first), Some(pairs)) = (tuples.first(), shown) else {
                    missed += 1;
                    continue;
                };
                assert!(first.iter().eq(pairs.iter().map(|[pos, _]| pos)), "{}", trial.case);
                let is_least = |tuple: &Vec<u32>| tuple.iter().zip(first).all(|(p, q)| p >= q);
                assert!(tuples.iter().all(is_least), "{}: {tuples:?}", trial.case);
                let ascend = |pair: &[Vec<u32>]| comes_before(&pair[0], &pair[1]);
                assert!(tuples.windows(2).all(ascend), "{}: {tuples:?}", trial.case);
                found += 1;
                several += usize::from(tuples.len() > 1);
            }
        }
    }
    assert!(found > 3_000 && missed > 1_000 && several > 2_000, "{found} {missed} {several}");
}

/// Of all tuples of a small box the call that tests says yes exactly to those that are listed; from
/// each tuple of the box on, those that are left are listed.
#[test]
fn tests_say_yes_of_those_listed() {
    let seed = 4_102;
    let mut rng = Rng::new(seed);
    let mut trial = Trial::default();
    let (mut yes, mut no) = (0, 0);
    for round in 0..400 {
        let vars = rng.pick(&[1, 2, 2, 3]);
        let width = [0, 24, 9, 5][vars];
        let first = rng.pick(&[0, 0, 700, 65_536 - width]);
        let window: Vec<u32> = (first..first + width).collect();
        let docs = [rng.pick(&[0, 5, 65_534]), 65_535];
        let mut lists = vec![random_positions(&mut rng, &docs, &window, 2)];
        for _ in 0..vars {
            let some: Vec<u32> = window.iter().copied().filter(|_| rng.below(3) > 0).collect();
            lists.push(list_in(&docs, &some));
        }
        let any_list = |rng: &mut Rng| voice(1 + rng.below(vars) as u32);
        let mut rows: Vec<Row> = (0..vars).map(|_| any_list(&mut rng)).collect();
        rows.extend((0..rng.pick(&[0, 1, 1, 2])).map(|_| small_predicate(&mut rng, vars)));
        rows.push(END);
        let subject = Subject::new(&Lists::new(&lists).volume(), &rows.concat());
        trial.case = format!("seed {seed}, round {round}, {rows:?}");
        for doc in docs {
            let all = trial.match_page(&subject, 0, doc, &vec![0; vars], 4_000).unwrap().0;
            let tuples = choices(&vec![window.clone(); vars]);
            let passing: Vec<Vec<u32>> = tuples
                .iter()
                .filter(|tuple| trial.test(&subject, 0, doc, tuple).unwrap())
                .cloned()
                .collect();
            assert_eq!(all, passing, "{}", trial.case);
            yes += all.len();
            no += tuples.len() - all.len();
            for _ in 0..20 {
                let from = &tuples[rng.below(tuples.len())];
                let left = trial.match_page(&subject, 0, doc, from, 4_000).unwrap().0;
                let behind = all.iter().filter(|tuple| !comes_before(tuple, from));
                assert!(left.iter().eq(behind), "{}: {from:?}", trial.case);
            }
        }
    }
    assert!(yes > 5_000 && no > 20_000, "{yes} {no}");
}

/// The tuples of a random pattern with these rows in one document.
fn tuples_of(trial: &mut Trial, pattern: &RandomPattern, rows: &[Row], doc: u32) -> Vec<Vec<u32>> {
    let subject = Subject::new(&pattern.lists.volume(), &rows.concat());
    let vars = pattern.voices.len();
    let (tuples, more) =
        trial.match_page(&subject, 0, doc, &vec![0; vars], 70_000).expect("the plan is accepted");
    assert_eq!(more, None, "{}", trial.case);
    tuples
}

/// A predicate more takes tuples away and adds none, and which row it stands in does not matter.
#[test]
fn another_predicate() {
    let seed = 4_103;
    let mut rng = Rng::new(seed);
    let mut trial = Trial::default();
    let (mut kept, mut lost) = (0, 0);
    for round in 0..1_500 {
        let pattern = RandomPattern::new(&mut rng);
        trial.case = format!("seed {seed}, round {round}");
        let more = small_predicate(&mut rng, pattern.voices.len());
        for doc in pattern.docs().into_iter().take(3) {
            let wide = tuples_of(&mut trial, &pattern, &pattern.with(true, &[]), doc);
            let narrow = tuples_of(&mut trial, &pattern, &pattern.with(true, &[more]), doc);
            let behind = tuples_of(&mut trial, &pattern, &pattern.with(false, &[more]), doc);
            assert_eq!(narrow, behind, "{}: {more:?}", trial.case);
            let wide: BTreeSet<Vec<u32>> = wide.into_iter().collect();
            assert!(narrow.iter().all(|tuple| wide.contains(tuple)), "{}: {more:?}", trial.case);
            kept += narrow.len();
            lost += wide.len() - narrow.len();
        }
    }
    assert!(kept > 5_000 && lost > 5_000, "{kept} {lost}");
}

/// Variables in another order, and the predicates' names with them: the same tuples with their
/// positions in that order.
#[test]
fn variables_in_another_order() {
    let seed = 4_104;
    let mut rng = Rng::new(seed);
    let mut trial = Trial::default();
    let mut listed = 0;
    for round in 0..1_500 {
        let pattern = RandomPattern::new(&mut rng);
        trial.case = format!("seed {seed}, round {round}");
        let rows = pattern.with(true, &[small_predicate(&mut rng, pattern.voices.len())]);
        let order = random_order(&mut rng, pattern.voices.len());
        let moved = in_order(&rows, &order);
        for doc in pattern.docs().into_iter().take(3) {
            let own = tuples_of(&mut trial, &pattern, &rows, doc);
            let others = tuples_of(&mut trial, &pattern, &moved, doc);
            let turned =
                |tuple: &Vec<u32>| -> Vec<u32> { order.iter().map(|&v| tuple[v]).collect() };
            let own: BTreeSet<Vec<u32>> = own.iter().map(turned).collect();
            assert!(own.iter().eq(&others), "{}: {order:?} {rows:?}", trial.case);
            listed += others.len();
        }
    }
    assert!(listed > 5_000, "{listed}");
}

/// What else is in the plan, and what is in other documents, changes no tuple.
#[test]
fn other_patterns_and_documents() {
    let seed = 4_105;
    let mut rng = Rng::new(seed);
    let mut trial = Trial::default();
    let mut listed = 0;
    for round in 0..1_000 {
        let pattern = RandomPattern::new(&mut rng);
        trial.case = format!("seed {seed}, round {round}");
        let rows = pattern.with(true, &[]);
        for doc in pattern.docs().into_iter().take(3) {
            let own = tuples_of(&mut trial, &pattern, &rows, doc);
            let never = [pattern.voices[0], before(0, 0), END];
            let operator = rng.pick(&[BOTH, EITHER, FIRST_NOT_SECOND]);
            let among = [&never[..], &rows, &[operator], &never, &[operator]].concat();
            let subject = Subject::new(&pattern.lists.volume(), &among.concat());
            let zeros = vec![0; pattern.voices.len()];
            let tuples = trial.match_page(&subject, 1, doc, &zeros, 70_000).unwrap().0;
            assert_eq!(tuples, own, "{}: {among:?}", trial.case);

            let (lists, _) = crate::plain::cut(&pattern.lists.counts, &pattern.lists.postings);
            let alone: Vec<Vec<u32>> = { lists.iter() }
                .map(|list| {
                    list.iter().copied().filter(|posting| posting / 65_536 == doc).collect()
                })
                .collect();
            let alone = pattern.over(&alone.iter().map(Vec::as_slice).collect::<Vec<_>>());
            assert_eq!(tuples_of(&mut trial, &alone, &rows, doc), own, "{}", trial.case);
            listed += own.len();
        }
    }
    assert!(listed > 5_000, "{listed}");
}
