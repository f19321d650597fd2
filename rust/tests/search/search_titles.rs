//! SAME TITLE in documents with positions before their first title, or with no title at all
//! (request N3 of document 02), beside the naive searcher: its edges through both calls, among the
//! other predicates and under each operator, chains, starts of other documents, every small
//! document, and what must hold between plans.

use crate::plain;
use crate::plain::search::{choices, least, Listed};
use crate::support::plans::*;
use crate::support::searches::*;
use crate::support::*;
use std::collections::BTreeSet;

/// The number of a position's title in its document: how many starts are not above it. 0 is no
/// title.
fn title(starts: &[u32], pos: u32) -> usize {
    starts.iter().filter(|&&start| start <= pos).count()
}

/// The sentence by itself.
fn in_one_title(starts: &[u32], p: u32, q: u32) -> bool {
    title(starts, p) > 0 && title(starts, p) == title(starts, q)
}

/// One pattern over documents that all have these starts and positions. Exactly these choices pass,
/// by the call that tests, and the least of them is listed.
#[track_caller]
fn passes(trial: &mut Trial, starts: Of, lists: &[Of], predicates: &[Row], passing: &[Vec<u32>]) {
    settles(trial, starts, lists, predicates, least(passing).as_deref());
    let all: Vec<Vec<u32>> =
        [&[starts], lists].concat().iter().map(|positions| list_in(&DOCS, positions)).collect();
    let voices: Vec<Row> = (1..=lists.len() as u32).map(voice).collect();
    let rows = [&voices[..], predicates, &[END]].concat();
    let subject = Subject::new(&Lists::new(&all).volume(), &rows.concat());
    for (doc, choice) in
        DOCS.iter().flat_map(|&doc| choices(lists).into_iter().map(move |c| (doc, c)))
    {
        let answer = trial.test(&subject, 0, doc, &choice);
        assert_eq!(answer, Ok(passing.contains(&choice)), "{}: {choice:?}", trial.case);
    }
}

/// SAME TITLE 0 0: starts, positions of the variable, and those of them that pass.
#[test]
fn a_variable_named_twice() {
    let rows: &[(Of, Of, Of)] = &[
        // no starts
        (&[], &[0], &[]),
        (&[], &[7], &[]),
        (&[], &[65_535], &[]),
        (&[], &[0, 7, 65_535], &[]),
        // all starts behind the positions
        (&[8], &[7], &[]),
        (&[8], &[0, 3, 7], &[]),
        (&[8, 9, 20], &[5, 7], &[]),
        (&[1], &[0], &[]),
        (&[65_535], &[0, 65_534], &[]),
        // a start at a position
        (&[7], &[7], &[7]),
        (&[7], &[3, 7, 9], &[7, 9]),
        (&[7, 9], &[3, 7, 9], &[7, 9]),
        (&[9], &[3, 7, 9], &[9]),
        (&[0], &[0], &[0]),
        (&[65_535], &[65_535], &[65_535]),
        (&[65_535], &[0, 65_535], &[65_535]),
        // a start between the positions
        (&[5], &[3, 7], &[7]),
        (&[5], &[3, 4, 6, 7], &[6, 7]),
        (&[5, 8], &[3, 7, 9], &[7, 9]),
        (&[8], &[3, 7, 9], &[9]),
        (&[1], &[0, 2], &[2]),
        (&[65_534], &[0, 65_533, 65_535], &[65_535]),
        // a start before all positions
        (&[0], &[1, 65_535], &[1, 65_535]),
        (&[2], &[3, 7], &[3, 7]),
        (&[2, 5, 9], &[3, 7], &[3, 7]),
    ];
    let mut trial = Trial::default();
    for &(starts, positions, titled) in rows {
        let alone: Vec<Vec<u32>> = titled.iter().map(|&pos| vec![pos]).collect();
        passes(&mut trial, starts, &[positions], &[same_title(0, 0)], &alone);
        passes(&mut trial, starts, &[positions], &[same_title(0, 0), same_title(0, 0)], &alone);
        // Beside a variable that is free, in a title or not.
        let free: Of = &[0, 6, 65_535];
        passes(
            &mut trial,
            starts,
            &[positions, free],
            &[same_title(0, 0)],
            &choices(&[titled, free]),
        );
        passes(
            &mut trial,
            starts,
            &[free, positions],
            &[same_title(1, 1)],
            &choices(&[free, titled]),
        );
    }
}

/// Starts, positions of one variable and of the other, and the pairs that pass.
#[test]
fn positions_before_the_first_start() {
    let rows: &[(Of, Of, Of, &[[u32; 2]])] = &[
        // no starts
        (&[], &[2], &[3], &[]),
        (&[], &[0, 65_535], &[0, 65_535], &[]),
        // all starts behind the positions
        (&[9], &[2], &[3], &[]),
        (&[9, 12], &[2, 8], &[5, 8], &[]),
        (&[1], &[0], &[0], &[]),
        (&[65_535], &[0, 65_534], &[1, 65_534], &[]),
        // one position before the first start, the other behind it
        (&[5], &[3], &[7], &[]),
        (&[5], &[0], &[65_535], &[]),
        (&[5], &[3, 8], &[7], &[[8, 7]]),
        (&[5], &[3, 8], &[4, 7], &[[8, 7]]),
        (&[5, 8], &[3, 8], &[4, 7], &[]),
        (&[1], &[0], &[2], &[]),
        (&[65_534], &[65_533], &[65_535], &[]),
        // a position equal to the first start
        (&[5], &[5], &[7], &[[5, 7]]),
        (&[5], &[4], &[5], &[]),
        (&[5], &[4, 5], &[5], &[[5, 5]]),
        (&[5], &[4, 5, 6], &[4, 5, 6], &[[5, 5], [5, 6], [6, 5], [6, 6]]),
        (&[5, 6], &[4, 5, 6], &[4, 5, 6], &[[5, 5], [6, 6]]),
        (&[0], &[0], &[0, 65_535], &[[0, 0], [0, 65_535]]),
        (&[65_535], &[65_534, 65_535], &[65_534, 65_535], &[[65_535, 65_535]]),
        // two variables at one position
        (&[], &[4], &[4], &[]),
        (&[5], &[4], &[4], &[]),
        (&[4], &[4], &[4], &[[4, 4]]),
        (&[3], &[4], &[4], &[[4, 4]]),
        (&[], &[0], &[0], &[]),
        (&[65_535], &[65_534], &[65_534], &[]),
        (&[5], &[4, 6], &[4, 6], &[[6, 6]]),
        // a lead-in and two titles
        (&[5, 10], &[2, 7, 12], &[3, 8, 13], &[[7, 8], [12, 13]]),
        (&[5, 10], &[2, 12], &[3, 8, 13], &[[12, 13]]),
        (&[5, 10], &[2, 12], &[3, 8], &[]),
        (&[5, 10], &[2, 7], &[3, 13], &[]),
    ];
    let mut trial = Trial::default();
    for &(starts, one, other, passing) in rows {
        let pairs: Vec<Vec<u32>> = passing.iter().map(|pair| pair.to_vec()).collect();
        let turned: Vec<Vec<u32>> = passing.iter().map(|&[p, q]| vec![q, p]).collect();
        for predicate in [same_title(0, 1), same_title(1, 0)] {
            passes(&mut trial, starts, &[one, other], &[predicate], &pairs);
            passes(&mut trial, starts, &[other, one], &[predicate], &turned);
        }
    }
}

/// SAME TITLE with each of the other predicates, in either order: what meets the other one in the
/// lead-in alone does not pass.
#[test]
fn predicates_together() {
    // In the lead-in 1 and 5 of the one variable, 2 and 6 of the other; titles from 10 and from 20.
    let lists: [Of; 2] = [&[1, 5, 11, 15, 25], &[2, 6, 13, 16, 22]];
    let (both, first) = (same_title(0, 1), same_title(0, 0));
    let mut trial = Trial::default();
    for (title, other, untitled, least) in [
        (both, near(0, 1, 0), Some([1, 2]), Some([15, 16])),
        (both, near(0, 1, 1), Some([1, 2]), Some([11, 13])),
        (both, before(0, 1), Some([1, 2]), Some([11, 13])),
        (both, before(1, 0), Some([5, 2]), Some([15, 13])),
        (both, span(2), Some([1, 2]), Some([15, 16])),
        (both, span(3), Some([1, 2]), Some([11, 13])),
        (both, span(1), None, None),
        (both, apart(0, 1, 0, 0), Some([1, 2]), Some([15, 16])),
        (both, apart(0, 1, 1, 1), Some([11, 13]), Some([11, 13])),
        (both, apart(0, 1, 3, 9), Some([1, 6]), Some([11, 16])),
        (both, apart(1, 0, 1, 1), Some([15, 13]), Some([15, 13])),
        (both, apart(1, 0, 2, 9), Some([5, 2]), Some([25, 22])),
        (both, apart(0, 1, 20, 65_535), Some([1, 22]), None),
        // one of the two in a title, the other wherever it is
        (first, near(0, 1, 5), Some([1, 2]), Some([11, 6])),
        (first, before(0, 1), Some([1, 2]), Some([11, 13])),
        (first, before(1, 0), Some([5, 2]), Some([11, 2])),
        (first, span(7), Some([1, 2]), Some([11, 6])),
        (first, apart(1, 0, 4, 9), Some([11, 2]), Some([11, 2])),
        (first, apart(1, 0, 4, 4), Some([11, 6]), Some([11, 6])),
        (first, apart(0, 1, 20, 65_535), Some([1, 22]), None),
    ] {
        let [untitled, least] = [untitled, least].map(|found| found.map(Vec::from));
        settles(&mut trial, &[10, 20], &lists, &[other], untitled.as_deref());
        for predicates in [[title, other], [other, title]] {
            settles(&mut trial, &[10, 20], &lists, &predicates, least.as_deref());
            settles(&mut trial, &[], &lists, &predicates, None);
            settles(&mut trial, &[26], &lists, &predicates, None);
            // All positions are in one title.
            settles(&mut trial, &[0], &lists, &predicates, untitled.as_deref());
        }
    }
}

/// Up to eight variables, each with a position in the lead-in: all of them move over it, however
/// SAME TITLE ties them.
#[test]
fn chains_through_a_lead_in() {
    let mut trial = Trial::default();
    for vars in 1..=8u32 {
        let lists: Vec<[u32; 3]> = (0..vars).map(|var| [var, 20 + var, 100 + 2 * var]).collect();
        let lists: Vec<Of> = lists.iter().map(|list| &list[..]).collect();
        let last = vars - 1;
        let chain: Vec<Row> =
            (0..vars.max(2) - 1).map(|var| same_title(var, last.min(var + 1))).collect();
        let back: Vec<Row> = chain.iter().rev().map(|&[kind, a, b, c]| [kind, b, a, c]).collect();
        let star: Vec<Row> = (0..vars).map(|var| same_title(var, 0)).collect();
        let ring = [&chain[..], &[same_title(last, 0)]].concat();
        let at = |pos: fn(u32) -> u32| Some((0..vars).map(pos).collect::<Vec<u32>>());
        for (starts, least) in [
            (&[][..], None),
            (&[0], at(|var| var)),
            // The first positions are in the lead-in, or some of them.
            (&[8], at(|var| 20 + var)),
            (&[20], at(|var| 20 + var)),
            (&[3], at(|var| if var < 3 { 20 + var } else { var })),
            // The first two are, or all.
            (&[28], at(|var| 100 + 2 * var)),
            (&[100], at(|var| 100 + 2 * var)),
            (&[200], None),
            // A title starts among the second ones, or among the third.
            (&[20, 24], {
                match vars {
                    ..=4 => at(|var| 20 + var),
                    _ => at(|var| if var < 4 { 100 + 2 * var } else { 20 + var }),
                }
            }),
            (&[28, 102], if vars == 1 { at(|_| 100) } else { None }),
        ] {
            for predicates in [&chain, &back, &star, &ring] {
                settles(&mut trial, starts, &lists, predicates, least.as_deref());
            }
        }
        // SAME TITLE ties the last variable to the first one alone, BEFORE the others to both.
        let rising: Vec<Row> = (0..last).map(|var| before(var, var + 1)).collect();
        for (starts, least) in [
            (&[][..], None),
            (&[0], at(|var| var)),
            (&[1], at(|var| 20 + var)),
            (&[21], at(|var| 100 + 2 * var)),
            (&[101], None),
        ] {
            for predicates in [
                [&rising[..], &[same_title(0, last)]].concat(),
                [&[same_title(last, 0)], &rising[..]].concat(),
            ] {
                settles(&mut trial, starts, &lists, &predicates, least.as_deref());
            }
        }
    }
}

/// Starts in the documents before and behind one that has none, or none up to its positions: they
/// are as near as numbers can be, and put nothing of it in a title.
#[test]
fn starts_of_other_documents() {
    let positions: [Of; 4] = [&[0], &[65_535], &[0, 65_535], &[3, 9, 20]];
    let plans = [
        two(&[same_title(0, 1)]),
        two(&[same_title(1, 0), near(0, 1, 65_535)]),
        two(&[same_title(0, 0), same_title(1, 1)]),
    ];
    let mut trial = Trial::default();
    let mut tried = 0;
    for (doc, titled) in [
        // The document, and those beside it in which titles start.
        (0, &[1][..]),
        (1, &[0, 2]),
        (1, &[0]),
        (1, &[2]),
        (300, &[299, 301]),
        (65_534, &[65_533, 65_535]),
        (65_534, &[65_533]),
        (65_534, &[65_535]),
        (65_535, &[65_534]),
    ] {
        for (own, of) in positions.iter().flat_map(|&own| positions.map(|of| (own, of))) {
            let behind = own.last().unwrap() + 1;
            let own_starts = [None, Some(behind), Some(65_535)].into_iter();
            for own_start in
                own_starts.filter(|start| start.is_none_or(|s| behind <= s && s < 65_536))
            {
                let mut starts: Vec<(u32, u32)> =
                    titled.iter().flat_map(|&other| [(other, 0), (other, 65_535)]).collect();
                starts.extend(own_start.map(|pos| (doc, pos)));
                let mut word: Vec<(u32, u32)> = titled
                    .iter()
                    .flat_map(|&other| of.iter().map(move |&pos| (other, pos)))
                    .collect();
                word.extend(own.iter().map(|&pos| (doc, pos)));
                let [starts, word] = [starts, word].map(rising);
                for rows in &plans {
                    trial.case = format!("document {doc}, {starts:?}, {word:?}, {rows:?}");
                    let subject = Subject::over(&[&starts, &word, &word], rows);
                    let row = |&other: &u32| [other, 1, of[0], of[0]];
                    let words: Vec<u32> = titled.iter().flat_map(row).collect();
                    trial.lists(&subject, &words, 2 * word.len() as u32);
                    for &pos in own {
                        let answer = trial.test(&subject, 0, doc, &[pos, pos]);
                        assert_eq!(answer, Ok(false), "{}: {pos}", trial.case);
                    }
                    tried += 1;
                }
            }
        }
    }
    assert!(tried > 500, "{tried}");
}

/// SAME TITLE in both sides of each operator. In the second side of FIRST NOT SECOND a document
/// whose words stand in its lead-in alone, or that has no title, is listed.
#[test]
fn under_each_operator() {
    // Document 1: both words in a title. 2: both in the lead-in. 3: both in the lead-in, and both
    // in a title. 4: both, and no title. 5: one in the lead-in, one in a title. 6: one word alone.
    let starts = [(1, 0), (2, 10), (3, 10), (5, 10), (6, 0)];
    let first = [(1, 3), (2, 3), (3, 3), (3, 13), (4, 3), (5, 3), (6, 3)];
    let second = [(1, 5), (2, 5), (3, 5), (3, 15), (4, 5), (5, 15)];
    let lists: [&[(u32, u32)]; 3] = [&starts, &first, &second];
    let (all, titled) = (two(&[]), two(&[same_title(0, 1)]));
    let (word, seen) = ([voice(1), END], [voice(1), same_title(0, 0), END]);
    let mut trial = Trial::default();
    for (name, rows, words, tally) in [
        ("in one title", titled.clone(), &[1, 1, 3, 5, 3, 1, 13, 15][..], 13),
        (
            "both words, and not in one title",
            [&all[..], &titled, &[FIRST_NOT_SECOND]].concat(),
            &[
                2, 1, 3, 5, 0, 0, 0, //
                4, 1, 3, 5, 0, 0, 0, //
                5, 1, 3, 15, 0, 0, 0,
            ],
            26,
        ),
        ("turned", [&titled[..], &all, &[FIRST_NOT_SECOND]].concat(), &[], 26),
        (
            "EITHER",
            [&all[..], &titled, &[EITHER]].concat(),
            &[
                1, 1, 3, 5, 1, 3, 5, //
                2, 1, 3, 5, 0, 0, 0, //
                3, 1, 3, 5, 1, 13, 15, //
                4, 1, 3, 5, 0, 0, 0, //
                5, 1, 3, 15, 0, 0, 0,
            ],
            26,
        ),
        (
            "BOTH",
            [&all[..], &titled, &[BOTH]].concat(),
            &[1, 1, 3, 5, 1, 3, 5, 3, 1, 3, 5, 1, 13, 15],
            26,
        ),
        (
            "a word in no title",
            [&word[..], &seen, &[FIRST_NOT_SECOND]].concat(),
            &[2, 1, 3, 0, 0, 4, 1, 3, 0, 0, 5, 1, 3, 0, 0],
            14,
        ),
        (
            "a word, and in a title",
            [&word[..], &seen, &[BOTH]].concat(),
            &[1, 1, 3, 1, 3, 3, 1, 3, 1, 13, 6, 1, 3, 1, 3],
            14,
        ),
        (
            "a second side of a second side",
            [&word[..], &all, &titled, &[FIRST_NOT_SECOND, FIRST_NOT_SECOND]].concat(),
            &[
                1, 1, 3, 1, 3, 5, 1, 3, 5, //
                3, 1, 3, 1, 3, 5, 1, 13, 15, //
                6, 1, 3, 0, 0, 0, 0, 0, 0,
            ],
            33,
        ),
        (
            "EITHER in a second side",
            [
                &word[..],
                &titled,
                &two(&[near(0, 1, 11), same_title(1, 1)]),
                &[EITHER, FIRST_NOT_SECOND],
            ]
            .concat(),
            &[
                2, 1, 3, 0, 0, 0, 0, 0, 0, //
                4, 1, 3, 0, 0, 0, 0, 0, 0, //
                6, 1, 3, 0, 0, 0, 0, 0, 0,
            ],
            33,
        ),
    ] {
        trial.case = name.to_string();
        trial.lists(&Subject::over(&lists, &rows), words, tally);
    }
}

/// Buffers of one row: MORE names the next document with both words in one title, and the tally has
/// the words of the lead-ins before it.
#[test]
fn pages_of_one_row() {
    // Documents 0, 3, 6 and so on have both words in the lead-in, 1, 4, 7 and so on in a title, and
    // 2, 5, 8 and so on have no title. In every sixth document a title has both words once more.
    let docs = 0..30;
    let is_true = |doc: u32| doc % 3 == 1 || doc.is_multiple_of(6);
    let starts: Vec<(u32, u32)> = docs
        .clone()
        .filter(|doc| doc % 3 < 2)
        .map(|doc| (doc, [10, 0][doc as usize % 3]))
        .collect();
    let word = |pos: u32| -> Vec<(u32, u32)> {
        let of_doc =
            move |doc: u32| [Some((doc, pos)), doc.is_multiple_of(6).then_some((doc, pos + 10))];
        docs.clone().flat_map(of_doc).flatten().collect()
    };
    let (one, other) = (word(3), word(5));
    let subject = Subject::over(&[&starts, &one, &other], &two(&[same_title(0, 1)]));
    let postings = |doc: u32| if doc.is_multiple_of(6) { 4 } else { 2 };
    let mut trial = Trial::default();
    let listed: Vec<u32> = docs.clone().filter(|&doc| is_true(doc)).collect();
    assert_eq!(listed[..5], [0, 1, 4, 6, 7]);
    let nexts = listed[1..].iter().copied().map(Some).chain([None]);
    let mut start = 0;
    for (&doc, more) in listed.iter().zip(nexts) {
        let pairs = if doc.is_multiple_of(6) { [13, 10, 15, 10] } else { [3, 0, 5, 0] };
        let tally = (start..more.unwrap_or(30)).map(postings).sum();
        let answer = trial.list_rows(&subject, start, 6);
        let row = [&[doc, 1], &pairs[..]].concat();
        assert_eq!(answer, Ok((row, Listed { rows: 1, tally, more })), "from {start}");
        start = more.unwrap_or(30);
    }
    // From any document: none of those in between is ever named.
    for start in docs {
        let left: Vec<u32> = listed.iter().copied().filter(|&doc| doc >= start).collect();
        let (words, Listed { more, .. }) = trial.list_rows(&subject, start, 11).unwrap();
        assert_eq!((words.first(), more), (left.first(), left.get(1).copied()), "from {start}");
    }
}

/// The sets of some neighbouring positions, the empty one first.
fn sets(first: u32, count: u32) -> Vec<Vec<u32>> {
    let of = |bits: u32| (0..count).filter(|i| bits >> i & 1 == 1).map(|i| first + i).collect();
    (0..1 << count).map(of).collect()
}

/// Compares both calls, in every document, with the sentence by itself. Document i has the starts,
/// and the positions of each list, that are given for it. It answers how many rows are listed, and
/// how many choices do not pass.
#[track_caller]
fn every_document(trial: &mut Trial, docs: &[(&[u32], Vec<Of>)], [a, b]: [u32; 2]) -> [usize; 2] {
    let vars = docs[0].1.len();
    let mut lists = vec![vec![]; 1 + vars];
    for (doc, (starts, of_vars)) in (0..).zip(docs) {
        for (list, positions) in lists.iter_mut().zip([&[*starts], &of_vars[..]].concat()) {
            list.extend(positions.iter().map(|pos| doc * 65_536 + pos));
        }
    }
    let voices: Vec<Row> = (1..=vars as u32).map(voice).collect();
    let rows = [&voices[..], &[same_title(a, b), END]].concat();
    let subject = Subject::new(&Lists::new(&lists).volume(), &rows.concat());
    let mut words = vec![];
    let mut unmet = 0;
    for (doc, (starts, of_vars)) in (0..).zip(docs) {
        let mut passing = vec![];
        for choice in choices(of_vars) {
            let holds = in_one_title(starts, choice[a as usize], choice[b as usize]);
            let answer = trial.test(&subject, 0, doc, &choice);
            assert_eq!(answer, Ok(holds), "{}: starts {starts:?}, {choice:?}", trial.case);
            if holds {
                passing.push(choice);
            } else {
                unmet += 1;
            }
        }
        if let Some(least) = least(&passing) {
            words.extend([doc, 1]);
            for pos in least {
                let before = title(starts, pos).checked_sub(1);
                words.extend([pos, before.map_or(NO_START, |i| starts[i])]);
            }
        }
    }
    let width = 2 + 2 * vars;
    for room in [words.len().max(width), width] {
        assert_eq!(trial.search(&subject, room).0, words, "{}", trial.case);
    }
    [words.len() / width, unmet]
}

/// Every document with starts and one word at five positions, the first or the last there are or
/// between.
#[test]
fn every_small_document_of_one() {
    let mut trial = Trial::default();
    for first in [0, 9_000, 65_531] {
        let sets = sets(first, 5);
        let docs: Vec<(&[u32], Vec<Of>)> = { sets[1..].iter() }
            .flat_map(|word| sets.iter().map(move |starts| (&starts[..], vec![&word[..]])))
            .collect();
        trial.case = format!("from {first}");
        let [found, unmet] = every_document(&mut trial, &docs, [0, 0]);
        // Of 31 sets of positions and 32 sets of starts.
        assert_eq!((docs.len(), found, unmet), (31 * 32, 912, 496), "from {first}");
    }
}

/// The same of two words at four positions.
#[test]
fn every_small_document_of_two() {
    let mut trial = Trial::default();
    for first in [0, 9_000, 65_532] {
        let sets = sets(first, 4);
        let mut counts = [0; 2];
        for word in &sets[1..] {
            let docs: Vec<(&[u32], Vec<Of>)> = { sets[1..].iter() }
                .flat_map(|other| {
                    sets.iter().map(move |starts| (&starts[..], vec![&word[..], &other[..]]))
                })
                .collect();
            for names in [[0, 1], [1, 0], [1, 1]] {
                trial.case = format!("from {first}, {names:?}");
                let [found, unmet] = every_document(&mut trial, &docs, names);
                counts = [counts[0] + found, counts[1] + unmet];
            }
        }
        assert_eq!(counts, [8_352, 24_448], "from {first}");
    }
}

/// Random patterns over archives with lead-ins, one after the other.
fn each_pattern(seed: u64, mut look: impl FnMut(&mut Rng, &mut Trial, &RandomPattern)) {
    let mut rng = Rng::new(seed);
    let mut trial = Trial::default();
    for round in 0..1_000 {
        let pattern = RandomPattern::new(&mut rng);
        trial.case = format!("seed {seed}, round {round}");
        look(&mut rng, &mut trial, &pattern);
    }
}

/// So many variables of a pattern, one of them twice or not.
fn random_vars<const N: usize>(rng: &mut Rng, pattern: &RandomPattern) -> [u32; N] {
    [0; N].map(|_| rng.below(pattern.voices.len()) as u32)
}

/// Each document of the one listing is in the other, with no position later there: how many are in
/// the other alone, and how many have an earlier position there.
#[track_caller]
fn within(case: &str, rows: &[Vec<u32>], wider: &[Vec<u32>]) -> [usize; 2] {
    let mut earlier = 0;
    for row in rows {
        let other = wider.iter().find(|other| other[0] == row[0]);
        let other = other.unwrap_or_else(|| panic!("{case}: {row:?} is not listed"));
        let [row, other] = [row, other].map(|row| without_starts(row));
        assert!(
            other.iter().zip(&row).all(|(other, own)| other <= own),
            "{case}: {row:?}, {other:?}"
        );
        earlier += usize::from(other != row);
    }
    [wider.len() - rows.len(), earlier]
}

/// SAME TITLE of a variable and itself takes away exactly the documents in which no position of the
/// variable is in a title, and moves it to the first one that is. Beside other predicates too no
/// document is added, and no position gets earlier.
#[test]
fn a_variable_in_a_title() {
    let (mut left, mut fewer, mut moved) = (0, [0; 2], [0; 2]);
    each_pattern(3_001, |rng, trial, pattern| {
        let [var] = random_vars(rng, pattern);
        let title = same_title(var, var);
        let bare = |predicates: &[Row]| [&pattern.voices[..], predicates, &[END]].concat();
        let all = pattern.listed(trial, &bare(&[]));
        let (lists, _) = plain::cut(&pattern.lists.counts, &pattern.lists.postings);
        let word = lists[pattern.voices[var as usize][1] as usize];
        let titled = |row: &Vec<u32>| {
            let in_doc = |posting: &&u32| **posting / 65_536 == row[0];
            let start = lists[0].iter().find(in_doc)?;
            let first = word.iter().filter(in_doc).find(|&posting| posting >= start)?;
            let last_start = lists[0].iter().rfind(|&start| start <= first)?;
            let mut row = row.clone();
            row[2 + 2 * var as usize..][..2]
                .copy_from_slice(&[first, last_start].map(|p| p % 65_536));
            Some(row)
        };
        let rows = pattern.listed(trial, &bare(&[title]));
        assert_eq!(rows, all.iter().filter_map(titled).collect::<Vec<_>>(), "{}", trial.case);
        let in_front = rng.below(2) == 0;
        let others = [&[][..], &[title]].map(|more| pattern.with(in_front, more));
        let [wide, narrow] = others.map(|rows| pattern.listed(trial, &rows));
        left += rows.len();
        for (i, (rows, wider)) in [(&rows, &all), (&narrow, &wide)].into_iter().enumerate() {
            let [lost, earlier] = within(&trial.case, rows, wider);
            fewer[i] += lost;
            moved[i] += earlier;
        }
    });
    let all = [fewer, moved].concat();
    assert!(left > 1_000 && all.iter().all(|&count| count > 150), "{left} {all:?}");
}

/// Over random patterns, with the predicates on the left and with those on the right the same rows
/// are listed. Some are, and some documents are not.
#[track_caller]
fn same_rows(seed: u64, mut pair: impl FnMut([u32; 3]) -> (Vec<Row>, Vec<Row>)) {
    let (mut listed, mut missed) = (0, 0);
    each_pattern(seed, |rng, trial, pattern| {
        let (left, right) = pair(random_vars(rng, pattern));
        let in_front = rng.below(2) == 0;
        let [rows, others] =
            [&left, &right].map(|more| pattern.listed(trial, &pattern.with(in_front, more)));
        assert_eq!(rows, others, "{}: {left:?} and {right:?}", trial.case);
        let all = pattern.listed(trial, &pattern.with(in_front, &[]));
        listed += rows.len();
        missed += within(&trial.case, &rows, &all)[0];
    });
    assert!(listed > 500 && missed > 300, "{listed} {missed}");
}

/// Two variables in one title are each in a title.
#[test]
fn one_title_is_a_title_of_each() {
    same_rows(3_002, |[a, b, _]| {
        (vec![same_title(a, b)], vec![same_title(a, b), same_title(a, a), same_title(b, b)])
    });
    same_rows(3_003, |[a, b, _]| {
        (vec![same_title(a, b)], vec![same_title(b, b), same_title(a, a), same_title(a, b)])
    });
}

/// It does not matter which of two variables is named first.
#[test]
fn either_variable_first() {
    same_rows(3_004, |[a, b, _]| (vec![same_title(a, b)], vec![same_title(b, a)]));
}

/// Two variables that are each in one title with a third are in one title.
#[test]
fn one_title_for_three() {
    same_rows(3_005, |[a, b, c]| {
        let two = vec![same_title(a, b), same_title(c, b)];
        (two.clone(), [&two[..], &[same_title(a, c)]].concat())
    });
}

/// With a start at position 0 of each document all positions are in titles: SAME TITLE of a
/// variable and itself says nothing there, and without that start it takes documents away.
#[test]
fn titles_from_the_first_position_on() {
    let (mut listed, mut fewer) = (0, 0);
    each_pattern(3_006, |rng, trial, pattern| {
        let (lists, _) = plain::cut(&pattern.lists.counts, &pattern.lists.postings);
        let fronts = pattern.lists.postings.iter().map(|posting| posting / 65_536 * 65_536);
        let starts: BTreeSet<u32> = lists[0].iter().copied().chain(fronts).collect();
        let starts: Vec<u32> = starts.into_iter().collect();
        let titled = pattern.over(&[&[&starts[..]], &lists[1..]].concat());
        let [a, b] = random_vars(rng, pattern);
        let themselves = [same_title(a, a), same_title(b, b)];
        let rows = titled.listed(trial, &titled.with(true, &themselves));
        assert_eq!(rows, titled.listed(trial, &titled.with(true, &[])), "{}", trial.case);
        let untitled = pattern.listed(trial, &pattern.with(true, &themselves));
        // The predicates beside them may be SAME TITLE too, which the added starts may part.
        if !pattern.with(true, &[]).iter().any(|row| row[0] == lihambozy::kind::SAME_TITLE) {
            fewer += within(&trial.case, &untitled, &rows)[0];
        }
        listed += rows.len();
    });
    assert!(listed > 1_000 && fewer > 300, "{listed} {fewer}");
}

/// Where SAME TITLE ties all variables of a pattern, no word of a lead-in is of use: without these
/// words the same rows are listed.
#[test]
fn words_of_lead_ins_left_out() {
    let (mut listed, mut spoken) = (0, 0);
    each_pattern(3_007, |rng, trial, pattern| {
        let (lists, _) = plain::cut(&pattern.lists.counts, &pattern.lists.postings);
        let is_titled = |posting: &&u32| {
            let up_to = |start: &u32| start / 65_536 == **posting / 65_536 && start <= *posting;
            lists[0].iter().any(up_to)
        };
        let seen = lists.iter().map(|list| list.iter().filter(is_titled).copied().collect());
        let seen: Vec<Vec<u32>> = seen.collect();
        let without = pattern.over(&seen.iter().map(Vec::as_slice).collect::<Vec<_>>());
        let vars = pattern.voices.len() as u32;
        let mut ties: Vec<Row> =
            (1..vars).map(|var| same_title(rng.below(var as usize) as u32, var)).collect();
        ties.rotate_left(rng.below(vars as usize - 1));
        let rows = pattern.with(rng.below(2) == 0, &ties);
        let [own, others] = [pattern, &without].map(|pattern| pattern.listed(trial, &rows));
        assert_eq!(own, others, "{}: {rows:?}", trial.case);
        listed += own.len();
        spoken += pattern.lists.postings.len() - without.lists.postings.len();
    });
    assert!(listed > 500 && spoken > 5_000, "{listed} {spoken}");
}

/// Without the first start of each document no document is added, and no position gets earlier.
#[test]
fn a_later_first_title() {
    let (mut listed, mut counts) = (0, [0; 2]);
    each_pattern(3_008, |rng, trial, pattern| {
        let (lists, _) = plain::cut(&pattern.lists.counts, &pattern.lists.postings);
        let mut docs = BTreeSet::new();
        let later: Vec<u32> =
            lists[0].iter().copied().filter(|start| !docs.insert(start / 65_536)).collect();
        let fewer = pattern.over(&[&[&later[..]], &lists[1..]].concat());
        let [a, b] = random_vars(rng, pattern);
        let rows = pattern.with(true, &[same_title(a, b)]);
        let [own, others] = [pattern, &fewer].map(|pattern| pattern.listed(trial, &rows));
        let [lost, later] = within(&trial.case, &others, &own);
        listed += others.len();
        counts = [counts[0] + lost, counts[1] + later];
    });
    assert!(listed > 200 && counts[0] > 500 && counts[1] > 30, "{listed} {counts:?}");
}

/// Random patterns of several SAME TITLE and now and then another predicate, searched whole through
/// random buffers, and random choices of their positions tested.
#[test]
fn random_patterns_of_titles() {
    let seed = 3_009;
    let mut rng = Rng::new(seed);
    let mut trial = Trial::default();
    let mut met = Met::default();
    for round in 0..4_000 {
        let vars = 1 + rng.below(4);
        let most = most_positions(&mut rng, vars);
        let archive = random_archive(&mut rng, most);
        let mut rows: Vec<Row> = (0..vars).map(|_| voice(rng.pick(&archive.named))).collect();
        for _ in 0..1 + rng.below(3) {
            rows.push(same_title(rng.below(vars) as u32, rng.below(vars) as u32));
        }
        if rng.below(3) == 0 {
            rows.push(small_predicate(&mut rng, vars));
        }
        rows.push(END);
        trial.case = format!("seed {seed}, round {round}, {rows:?}");
        let subject = Subject::new(&archive.lists.volume(), &rows.concat());
        random_search(&mut rng, &mut trial, &mut met, &subject);
        other_starts(&mut rng, &mut trial, &subject, 1);

        let searcher = subject.searcher();
        let pattern = &searcher.patterns[0];
        for doc in searcher.docs() {
            let of_vars = searcher.of_vars(pattern, doc);
            if of_vars.iter().any(Vec::is_empty) {
                continue;
            }
            let start = searcher.positions(0, doc).first().copied();
            let lead_in = match start {
                None => "no title",
                Some(start) if of_vars.iter().any(|of| of[0] < start) => "a lead-in",
                Some(_) => "titles",
            };
            let found = if searcher.earliest(pattern, doc).is_some() { "found" } else { "missed" };
            met.count(&format!("{found}, {lead_in}"), 1);
            for _ in 0..3 {
                let choice: Vec<u32> = of_vars.iter().map(|of| rng.pick(of)).collect();
                let passes = trial.test(&subject, 0, doc, &choice).expect("positions of the lists");
                met.count(if passes { "passes" } else { "does not pass" }, 1);
            }
        }
    }
    // The searcher, with which each listing is compared, finds nothing where there is no title.
    assert!(!met.0.contains_key("found, no title"), "{:?}", met.0);
    met.assert_at_least(&[
        ("found, a lead-in", 800),
        ("missed, a lead-in", 1_000),
        ("missed, no title", 500),
        ("found, titles", 3_000),
        ("missed, titles", 700),
        ("passes", 8_000),
        ("does not pass", 8_000),
        ("more", 1_000),
    ]);
}
