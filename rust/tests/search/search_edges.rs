//! Predicates, operators and listings at their edges, each row with the listing it must give.

use crate::plain;
use crate::plain::search::{Listed, Searcher};
use crate::support::plans::*;
use crate::support::searches::*;
use crate::support::*;
use lihambozy::calls::{Listing, Next};

/// NEAR: positions of one variable and of the other, c, and the least ones.
#[test]
fn near_at_its_edges() {
    let rows: &[(Of, Of, u32, Pair)] = &[
        // a difference of 0, c, c + 1, c + 2
        (&[100], &[100], 0, Some([100, 100])),
        (&[100], &[101], 0, Some([100, 101])),
        (&[100], &[102], 0, None),
        (&[100], &[100], 5, Some([100, 100])),
        (&[100], &[105], 5, Some([100, 105])),
        (&[100], &[106], 5, Some([100, 106])),
        (&[100], &[107], 5, None),
        (&[100], &[108], 5, None),
        // the greatest c, and those below it
        (&[0], &[65_535], 65_535, Some([0, 65_535])),
        (&[0], &[65_535], 65_534, Some([0, 65_535])),
        (&[0], &[65_535], 65_533, None),
        (&[1], &[65_535], 65_533, Some([1, 65_535])),
        (&[0], &[0], 65_535, Some([0, 0])),
        (&[0], &[1], 65_535, Some([0, 1])),
        (&[65_535], &[65_535], 0, Some([65_535, 65_535])),
        (&[0], &[0], 0, Some([0, 0])),
        // the earlier one moves, as far as it must and no further
        (&[1, 5, 9, 20], &[19], 0, Some([20, 19])),
        (&[1, 5, 18, 20], &[19], 0, Some([18, 19])),
        (&[1, 5, 17, 21], &[19], 0, None),
        (&[1, 5, 17, 21], &[19], 1, Some([17, 19])),
        (&[3, 50], &[1, 52, 60], 0, None),
        (&[3, 50], &[1, 52, 60], 1, Some([3, 1])),
        (&[10, 20, 30, 40], &[5, 14, 25, 35, 39], 0, Some([40, 39])),
        (&[10, 20, 30, 40], &[5, 14, 25, 35, 39], 3, Some([10, 14])),
        (&[2, 4, 6, 8], &[100, 102], 3, None),
        (&[2, 4, 6, 65_535], &[0, 65_000, 65_534], 0, Some([65_535, 65_534])),
        (&[0, 65_535], &[30_000], 0, None),
    ];
    let mut trial = Trial::default();
    for &(one, other, c, least) in rows {
        let (least, turned) = (least.map(Vec::from), least.map(|[p, q]| vec![q, p]));
        for predicate in [near(0, 1, c), near(1, 0, c)] {
            settles(&mut trial, &[], &[one, other], &[predicate], least.as_deref());
            settles(&mut trial, &[], &[other, one], &[predicate], turned.as_deref());
        }
    }
}

/// BEFORE: positions of the earlier variable and of the later one, and the least ones.
#[test]
fn before_at_its_edges() {
    let rows: &[(Of, Of, Pair)] = &[
        (&[5], &[5], None),
        (&[5], &[6], Some([5, 6])),
        (&[6], &[5], None),
        (&[0], &[0], None),
        (&[0], &[1], Some([0, 1])),
        (&[0], &[65_535], Some([0, 65_535])),
        (&[65_534], &[65_535], Some([65_534, 65_535])),
        (&[65_535], &[65_535], None),
        (&[65_535], &[0], None),
        (&[5], &[1, 5, 9], Some([5, 9])),
        (&[5], &[1, 5, 6, 9], Some([5, 6])),
        (&[5, 7], &[6], Some([5, 6])),
        (&[3], &[1, 2, 3], None),
        (&[3, 4], &[3, 4], Some([3, 4])),
        (&[0, 65_535], &[0, 65_535], Some([0, 65_535])),
    ];
    let mut trial = Trial::default();
    for &(earlier, later, least) in rows {
        let (least, turned) = (least.map(Vec::from), least.map(|[p, q]| vec![q, p]));
        settles(&mut trial, &[], &[earlier, later], &[before(0, 1)], least.as_deref());
        settles(&mut trial, &[], &[later, earlier], &[before(1, 0)], turned.as_deref());
    }
}

/// SAME TITLE: starts, positions of one variable and of the other, and the least ones.
#[test]
fn same_title_at_its_edges() {
    let rows: &[(Of, Of, Of, Pair)] = &[
        // no starts: there is no title
        (&[], &[0], &[65_535], None),
        (&[], &[7], &[7], None),
        // a start on the larger position parts them, one on the smaller does not
        (&[0, 5], &[4], &[5], None),
        (&[0, 5], &[5], &[6], Some([5, 6])),
        (&[0, 5], &[5], &[5], Some([5, 5])),
        (&[0, 5], &[4], &[6], None),
        (&[0, 5], &[3], &[4], Some([3, 4])),
        (&[0, 5], &[6], &[7], Some([6, 7])),
        (&[4, 5], &[4], &[5], None),
        (&[5, 6], &[5], &[5], Some([5, 5])),
        (&[5, 6], &[5], &[6], None),
        // before the first start there is no title (more of it in `search_titles`)
        (&[5], &[3], &[4], None),
        (&[5], &[4], &[4], None),
        (&[65_535], &[0], &[65_534], None),
        // one before the first start, the other at it or behind
        (&[5], &[4], &[5], None),
        (&[5, 9], &[0], &[65_535], None),
        // at the first start
        (&[5], &[5], &[65_535], Some([5, 65_535])),
        // starts at either end
        (&[0], &[0], &[65_535], Some([0, 65_535])),
        (&[0], &[0], &[0], Some([0, 0])),
        (&[0], &[65_535], &[65_535], Some([65_535, 65_535])),
        (&[0, 65_535], &[65_534], &[65_535], None),
        (&[0, 65_535], &[0], &[65_534], Some([0, 65_534])),
        (&[0, 65_535], &[65_535], &[65_535], Some([65_535, 65_535])),
        // the smaller one moves, to a title's first position or further on
        (&[3, 6, 9], &[4, 7], &[8], Some([7, 8])),
        (&[3, 6, 9], &[4, 6], &[8], Some([6, 8])),
        (&[3, 6, 9], &[4, 5, 6, 7], &[8], Some([6, 8])),
        (&[3, 6, 9], &[1, 4], &[7, 10], None),
        (&[4], &[2, 4], &[5, 9], Some([4, 5])),
        (&[10, 20, 30, 40], &[1, 12, 25, 41], &[11, 22, 33], Some([12, 11])),
        (&[10, 20, 30, 40], &[1, 15, 25, 41], &[22, 33], Some([25, 22])),
        (&[10, 20, 30, 40], &[1, 15, 35, 41], &[20, 29], None),
        (&[10, 20, 30, 40], &[1, 15, 35, 65_535], &[20, 29, 60], Some([65_535, 60])),
        // both move to the first title, or as far behind it as they must
        (&[5], &[2, 8], &[3, 7], Some([8, 7])),
        (&[5], &[2, 5], &[3, 5], Some([5, 5])),
        (&[5], &[0, 1, 2, 3, 4, 5], &[4, 9], Some([5, 9])),
        (&[6], &[2, 8], &[5, 7], Some([8, 7])),
        (&[6], &[2, 8], &[7, 9], Some([8, 7])),
        (&[6], &[2, 8], &[5], None),
        (&[6], &[2], &[5, 7], None),
        (&[6, 9], &[2, 8], &[5, 10], None),
        (&[6, 9], &[2, 8, 12], &[5, 10], Some([12, 10])),
        (&[10, 20, 30, 40], &[1, 15, 25, 41], &[9, 19], Some([15, 19])),
        (&[10, 20, 30, 40], &[1, 25, 41], &[9, 19], None),
        (&[65_535], &[0, 65_535], &[65_534, 65_535], Some([65_535, 65_535])),
        (&[65_535], &[0, 65_535], &[65_534], None),
    ];
    let mut trial = Trial::default();
    for &(starts, one, other, least) in rows {
        let (least, turned) = (least.map(Vec::from), least.map(|[p, q]| vec![q, p]));
        for predicate in [same_title(0, 1), same_title(1, 0)] {
            settles(&mut trial, starts, &[one, other], &[predicate], least.as_deref());
            settles(&mut trial, starts, &[other, one], &[predicate], turned.as_deref());
        }
    }
}

/// SPAN: the positions of each variable, c, and the least ones.
#[test]
fn span_at_its_edges() {
    let rows: &[(&[Of], u32, Option<Of>)] = &[
        // one variable always passes
        (&[&[7]], 1, Some(&[7])),
        (&[&[0, 65_535]], 1, Some(&[0])),
        (&[&[65_535]], 65_536, Some(&[65_535])),
        // a difference of c - 1 and of c
        (&[&[7], &[7]], 1, Some(&[7, 7])),
        (&[&[7], &[8]], 1, None),
        (&[&[7], &[8]], 2, Some(&[7, 8])),
        (&[&[8], &[7]], 2, Some(&[8, 7])),
        (&[&[7], &[9]], 2, None),
        (&[&[7], &[12]], 6, Some(&[7, 12])),
        (&[&[7], &[12]], 5, None),
        // the greatest c, and those below it
        (&[&[0], &[65_535]], 65_536, Some(&[0, 65_535])),
        (&[&[0], &[65_535]], 65_535, None),
        (&[&[1], &[65_535]], 65_535, Some(&[1, 65_535])),
        (&[&[0, 65_535], &[65_535]], 1, Some(&[65_535, 65_535])),
        // all variables count, wherever the largest and the smallest stand
        (&[&[1], &[5], &[9]], 9, Some(&[1, 5, 9])),
        (&[&[1], &[5], &[9]], 8, None),
        (&[&[5], &[9], &[1]], 9, Some(&[5, 9, 1])),
        (&[&[5], &[9], &[1]], 8, None),
        (&[&[5], &[1], &[9]], 8, None),
        (&[&[5], &[5], &[5], &[5], &[5], &[5], &[5], &[8]], 4, Some(&[5, 5, 5, 5, 5, 5, 5, 8])),
        (&[&[5], &[5], &[5], &[5], &[5], &[5], &[5], &[8]], 3, None),
        (&[&[8], &[5], &[5], &[5], &[5], &[5], &[5], &[5]], 3, None),
        // the smallest moves, as far as it must and no further
        (&[&[1, 6], &[5], &[9]], 5, Some(&[6, 5, 9])),
        (&[&[1, 6], &[4], &[9]], 5, None),
        (&[&[1, 4, 5, 6], &[6], &[9]], 5, Some(&[5, 6, 9])),
        (&[&[1, 20], &[5, 21], &[9, 22]], 4, Some(&[20, 21, 22])),
        (&[&[1, 20], &[5, 21], &[9, 24]], 4, None),
        (&[&[1, 2, 3], &[2, 3, 4], &[3, 4, 5]], 1, Some(&[3, 3, 3])),
    ];
    let mut trial = Trial::default();
    for &(lists, c, least) in rows {
        settles(&mut trial, &[], lists, &[span(c)], least);
    }
}

/// A variable that a predicate names twice is near itself and never before itself. It is in one
/// title with itself where it is in a title: from the first start on.
#[test]
fn a_variable_named_twice() {
    let mut trial = Trial::default();
    for positions in [&[0][..], &[9], &[65_535], &[4, 5], &[0, 65_535]] {
        let first = &positions[..1];
        for starts in [&[][..], &[0], &[9], &[0, 9, 65_535], &[1], &[65_535]] {
            for predicate in [near(0, 0, 0), near(0, 0, 65_535), span(1)] {
                settles(&mut trial, starts, &[positions], &[predicate], Some(first));
            }
            settles(&mut trial, starts, &[positions], &[before(0, 0)], None);
            let titled =
                starts.first().and_then(|start| positions.iter().find(|&pos| pos >= start));
            let titled = titled.map(std::slice::from_ref);
            settles(&mut trial, starts, &[positions], &[same_title(0, 0)], titled);
        }
    }
    // Of two variables either one; the other is free.
    let lists: [&[u32]; 2] = [&[9, 10], &[3, 20]];
    for predicate in [near(1, 1, 0), near(0, 0, 0), same_title(0, 0), same_title(1, 1)] {
        settles(&mut trial, &[3, 9, 10, 20], &lists, &[predicate], Some(&[9, 3]));
    }
    for predicates in [[before(0, 0)], [before(1, 1)]] {
        settles(&mut trial, &[], &lists, &predicates, None);
    }
    for (predicate, least) in [(before(1, 0), Some(&[9, 3][..])), (before(0, 1), Some(&[9, 20]))] {
        settles(&mut trial, &[], &lists, &[predicate, near(1, 1, 0)], least);
        settles(&mut trial, &[9], &lists, &[same_title(0, 0), predicate], least);
        settles(&mut trial, &[], &lists, &[same_title(0, 0), predicate], None);
    }
}

/// Several predicates: the least positions are those that meet all of them together.
#[test]
fn predicates_together() {
    let mut trial = Trial::default();
    let (a, b, c): (&[u32], &[u32], &[u32]) = (&[1, 10, 20, 30], &[2, 12, 21, 33], &[5, 15, 22]);
    for (predicates, least) in [
        (&[before(0, 1), before(1, 2)][..], Some(&[1, 2, 5][..])),
        (&[before(2, 1), before(1, 0)], Some(&[20, 12, 5])),
        (&[before(1, 0), before(0, 2)], Some(&[10, 2, 15])),
        (&[before(2, 0), before(2, 1), near(0, 1, 0)], Some(&[20, 21, 5])),
        (&[before(2, 0), near(0, 2, 0)], None),
        (&[before(0, 2), near(0, 2, 0)], None),
        (&[near(0, 1, 0), near(1, 2, 0)], Some(&[20, 21, 22])),
        (&[near(1, 2, 0), near(0, 1, 0), before(2, 0)], None),
        (&[span(3), before(0, 1), before(1, 2)], Some(&[20, 21, 22])),
        (&[span(2)], None),
        (&[span(3), before(1, 0)], None),
        (&[near(0, 2, 4), near(0, 2, 3)], Some(&[1, 2, 5])),
        (&[near(0, 2, 1)], Some(&[20, 2, 22])),
        (&[near(0, 2, 1), before(0, 0)], None),
    ] {
        settles(&mut trial, &[], &[a, b, c], predicates, least);
        let mut turned = predicates.to_vec();
        turned.reverse();
        settles(&mut trial, &[], &[a, b, c], &turned, least);
    }
    // All three in one title, the second before the first.
    for (starts, least) in [
        (&[][..], None),
        (&[0], Some(&[10, 2, 5][..])),
        (&[2], Some(&[10, 2, 5])),
        (&[3], Some(&[20, 12, 5])),
        (&[5], Some(&[20, 12, 5])),
        (&[5, 12], Some(&[20, 12, 15])),
        (&[5, 12, 20], Some(&[30, 21, 22])),
        (&[5, 12, 20, 25], None),
    ] {
        let predicates = [before(1, 0), same_title(1, 2), same_title(0, 1)];
        settles(&mut trial, starts, &[a, b, c], &predicates, least);
    }
}

/// Eight variables, the predicates on all of them or on the first and last.
#[test]
fn eight_variables() {
    let lists: Vec<[u32; 3]> = (0..8).map(|var| [5, 10 + var, 40 - var]).collect();
    let lists: Vec<&[u32]> = lists.iter().map(|list| &list[..]).collect();
    let rising: Vec<Row> = (0..7).map(|var| before(var, var + 1)).collect();
    let falling: Vec<Row> = (0..7).map(|var| before(var + 1, var)).collect();
    let rising_and = |predicate: Row| [&rising[..], &[predicate]].concat();
    let (early, late) = ([5, 11, 12, 13, 14, 15, 16, 17], [10, 11, 12, 13, 14, 15, 16, 17]);
    let mut trial = Trial::default();
    for (predicates, least) in [
        (vec![], Some([5; 8])),
        (rising.clone(), Some(early)),
        (falling, Some([40, 39, 38, 37, 36, 35, 16, 5])),
        (rising_and(before(7, 0)), None),
        (rising_and(span(13)), Some(early)),
        (rising_and(span(12)), Some(late)),
        (rising_and(span(8)), Some(late)),
        (rising_and(span(7)), None),
        (rising_and(near(0, 7, 11)), Some(early)),
        (rising_and(near(7, 0, 10)), Some(late)),
        (rising_and(near(7, 0, 5)), None),
        (vec![same_title(7, 0), before(3, 0)], Some([10, 5, 5, 5, 5, 5, 5, 17])),
    ] {
        let least = least.as_ref().map(|least| &least[..]);
        settles(&mut trial, &[8], &lists, &predicates, least);
    }
}

/// The lists, behind a list 0 that is empty.
fn behind_no_starts(lists: &[Vec<(u32, u32)>]) -> Vec<&[(u32, u32)]> {
    [&[][..]].into_iter().chain(lists.iter().map(Vec::as_slice)).collect()
}

/// Variables of one pattern, or of several, on one list: each moves by itself, and the tally counts
/// the list once for each.
#[test]
fn one_list_under_several_variables() {
    let list: &[(u32, u32)] = &[(1, 3), (1, 4), (1, 9), (2, 5), (6, 1), (6, 2)];
    let mut trial = Trial::default();
    for (name, rows, words, tally) in [
        ("twice", vec![voice(1), voice(1), END], &[1, 1, 3, 3, 2, 1, 5, 5, 6, 1, 1, 1][..], 12),
        ("BEFORE", vec![voice(1), voice(1), before(0, 1), END], &[1, 1, 3, 4, 6, 1, 1, 2], 12),
        (
            "BEFORE, three",
            vec![voice(1), voice(1), voice(1), before(0, 1), before(1, 2), END],
            &[1, 1, 3, 4, 9],
            18,
        ),
        (
            "BEFORE, turned",
            vec![voice(1), voice(1), before(1, 0), END],
            &[1, 1, 4, 3, 6, 1, 2, 1],
            12,
        ),
        (
            "two patterns",
            vec![voice(1), voice(1), before(1, 0), END, voice(1), END, EITHER],
            &[1, 1, 4, 3, 1, 3, 2, 0, 0, 0, 1, 5, 6, 1, 2, 1, 1, 1],
            18,
        ),
        (
            "two patterns, FIRST NOT SECOND",
            vec![voice(1), END, voice(1), voice(1), before(1, 0), END, FIRST_NOT_SECOND],
            &[2, 1, 5, 0, 0, 0],
            18,
        ),
    ] {
        trial.case = name.to_string();
        trial.lists(&Subject::over(&[&[], list], &rows), words, tally);
    }
}

/// The operators over every set of patterns that are found: document d has list i exactly if bit i
/// of d is set.
#[test]
fn operators_over_every_set_of_patterns() {
    type Operator = (Row, fn(bool, bool) -> bool);
    let operators: [Operator; 3] = [
        (BOTH, |first, second| first && second),
        (EITHER, |first, second| first || second),
        (FIRST_NOT_SECOND, |first, second| first && !second),
    ];
    let has = |doc: u32, i: u32| doc >> i & 1 == 1;
    let of_list = |i: u32| -> Vec<(u32, u32)> {
        (0..16).filter(|&doc| has(doc, i)).map(|doc| (doc, 100 + 10 * i + doc)).collect()
    };
    let lists: Vec<Vec<(u32, u32)>> = (0..4).map(of_list).collect();
    let lists = behind_no_starts(&lists);
    let word = |i: u32| [voice(i + 1), END];
    let rows = |patterns: u32, is_true: &dyn Fn(u32) -> bool| -> Vec<u32> {
        let row = |doc: u32| {
            let pos = move |i: u32| if has(doc, i) { [1, 100 + 10 * i + doc] } else { [0, 0] };
            [vec![doc], (0..patterns).flat_map(pos).collect()].concat()
        };
        (0..16).filter(|&doc| is_true(doc)).flat_map(row).collect()
    };
    let mut trial = Trial::default();
    for (one, first) in operators {
        let plan = [&word(0)[..], &word(1), &[one]].concat();
        trial.case = format!("{plan:?}");
        let expected = rows(2, &|doc| first(has(doc, 0), has(doc, 1)));
        trial.lists(&Subject::over(&lists, &plan), &expected, 16);
        for (two, second) in operators {
            let plan = [&word(0)[..], &word(1), &[one], &word(2), &[two]].concat();
            trial.case = format!("{plan:?}");
            let expected = rows(3, &|doc| second(first(has(doc, 0), has(doc, 1)), has(doc, 2)));
            trial.lists(&Subject::over(&lists, &plan), &expected, 24);
            let plan = [&word(0)[..], &word(1), &word(2), &[one, two]].concat();
            trial.case = format!("{plan:?}");
            let expected = rows(3, &|doc| second(has(doc, 0), first(has(doc, 1), has(doc, 2))));
            trial.lists(&Subject::over(&lists, &plan), &expected, 24);
            for (three, third) in operators {
                let pairs = [[word(0), word(1)].concat(), vec![one], [word(2), word(3)].concat()];
                let plan = [&pairs.concat()[..], &[two, three]].concat();
                trial.case = format!("{plan:?}");
                let expected = rows(4, &|doc| {
                    third(first(has(doc, 0), has(doc, 1)), second(has(doc, 2), has(doc, 3)))
                });
                trial.lists(&Subject::over(&lists, &plan), &expected, 32);
            }
        }
    }
}

/// A pattern shows its own state in the row, whichever side of which operator it is on, and also
/// where its variables have gone on to their last positions to settle it.
#[test]
fn patterns_in_the_row_of_an_either() {
    // Pattern 0 is found late in documents 1, 2 and 5, and goes through all of document 3 in vain.
    // Pattern 1 is found in document 2, pattern 2 in documents 1, 2, 3 and 4.
    let lists: [&[(u32, u32)]; 5] = [
        &[],
        &[(1, 1), (1, 5), (1, 9), (2, 1), (2, 30), (3, 1), (3, 2), (5, 8), (5, 40)],
        &[(1, 10), (2, 31), (3, 50), (5, 41)],
        &[(2, 6)],
        &[(1, 77), (2, 78), (3, 79), (4, 80)],
    ];
    let late = [voice(1), voice(2), near(0, 1, 0), END];
    let (one, two) = ([voice(3), END], [voice(4), END]);
    let mut trial = Trial::default();
    for (name, rows, words) in [
        (
            "EITHER over BOTH",
            [&late[..], &one, &[BOTH], &two, &[EITHER]].concat(),
            &[
                1, 1, 9, 10, 0, 0, 1, 77, //
                2, 1, 30, 31, 1, 6, 1, 78, //
                3, 0, 0, 0, 0, 0, 1, 79, //
                4, 0, 0, 0, 0, 0, 1, 80,
            ][..],
        ),
        (
            "EITHER over BOTH, turned",
            [&two[..], &one, &late, &[BOTH, EITHER]].concat(),
            &[
                1, 1, 77, 0, 0, 1, 9, 10, //
                2, 1, 78, 1, 6, 1, 30, 31, //
                3, 1, 79, 0, 0, 0, 0, 0, //
                4, 1, 80, 0, 0, 0, 0, 0,
            ],
        ),
        (
            "a second side",
            [&two[..], &late, &one, &[BOTH, FIRST_NOT_SECOND]].concat(),
            &[
                1, 1, 77, 1, 9, 10, 0, 0, //
                3, 1, 79, 0, 0, 0, 0, 0, //
                4, 1, 80, 0, 0, 0, 0, 0,
            ],
        ),
        (
            "a second side of a second side",
            [&two[..], &late, &one, &[FIRST_NOT_SECOND, FIRST_NOT_SECOND]].concat(),
            &[
                2, 1, 78, 1, 30, 31, 1, 6, //
                3, 1, 79, 0, 0, 0, 0, 0, //
                4, 1, 80, 0, 0, 0, 0, 0,
            ],
        ),
        (
            "EITHER",
            [&late[..], &two, &[EITHER]].concat(),
            &[
                1, 1, 9, 10, 1, 77, //
                2, 1, 30, 31, 1, 78, //
                3, 0, 0, 0, 1, 79, //
                4, 0, 0, 0, 1, 80, //
                5, 1, 40, 41, 0, 0,
            ],
        ),
    ] {
        trial.case = name.to_string();
        let subject = Subject::over(&lists, &rows);
        let lists = subject.searcher().patterns.iter().flat_map(|pattern| &pattern.lists);
        let tally = lists.map(|&list| [0, 9, 4, 1, 4][list]).sum();
        trial.lists(&subject, words, tally);
    }
}

#[test]
fn eight_patterns() {
    // List i is in documents i and 20, list 8 in documents 0 and 8 and 20.
    let lists: Vec<Vec<(u32, u32)>> = (1..=8)
        .map(|i| if i == 8 { vec![(0, 3), (8, 4), (20, 80)] } else { vec![(i, 4), (20, 10 * i)] })
        .collect();
    let lists = behind_no_starts(&lists);
    let patterns: Vec<Row> = (1..=8).flat_map(|i| [voice(i), END]).collect();
    let row = |doc: u32, found: &dyn Fn(u32) -> u32| -> Vec<u32> {
        let pattern = |i| if found(i) > 0 { [1, found(i)] } else { [0, 0] };
        [vec![doc], (1..=8).flat_map(pattern).collect()].concat()
    };
    let all = row(20, &|i| 10 * i);
    let first = row(0, &|i| if i == 8 { 3 } else { 0 });
    let alone = |doc: u32| row(doc, &move |i| if i == doc { 4 } else { 0 });
    let mut trial = Trial::default();
    for (name, operators, words) in [
        ("BOTH", [BOTH; 7], all.clone()),
        ("EITHER", [EITHER; 7], {
            let between: Vec<u32> = (1..=8).flat_map(alone).collect();
            [first, between, all].concat()
        }),
        // 1 not (2 not (3 not (4 not (5 not (6 not (7 not 8)))))): no where all eight are found.
        ("FIRST NOT SECOND", [FIRST_NOT_SECOND; 7], alone(1)),
    ] {
        trial.case = name.to_string();
        let subject = Subject::over(&lists, &[&patterns[..], &operators].concat());
        trial.lists(&subject, &words, 17);
    }
}

/// Variables over empty lists: such a pattern is never found.
#[test]
fn empty_lists() {
    let list: &[(u32, u32)] = &[(0, 0), (65_535, 65_535)];
    let (full, empty) = ([voice(1), END], [voice(2), END]);
    let both = [1, 2].map(|other| [voice(other), voice(3 - other), END]);
    let first = [0, 1, 0, 0, 0, 65_535, 1, 65_535, 0, 0];
    let second = [0, 0, 0, 1, 0, 65_535, 0, 0, 1, 65_535];
    let mut trial = Trial::default();
    for (name, rows, words, tally) in [
        ("alone", empty.to_vec(), &[][..], 0),
        ("beside another variable", both[0].to_vec(), &[], 2),
        ("in front of another variable", both[1].to_vec(), &[], 2),
        ("BOTH", [&full[..], &empty, &[BOTH]].concat(), &[], 2),
        ("EITHER", [&full[..], &empty, &[EITHER]].concat(), &first, 2),
        ("EITHER, turned", [&empty[..], &full, &[EITHER]].concat(), &second, 2),
        ("FIRST NOT SECOND", [&full[..], &empty, &[FIRST_NOT_SECOND]].concat(), &first, 2),
        ("FIRST NOT SECOND, turned", [&empty[..], &full, &[FIRST_NOT_SECOND]].concat(), &[], 2),
        ("EITHER of two", [&empty[..], &empty, &[EITHER]].concat(), &[], 0),
    ] {
        trial.case = name.to_string();
        for starts in [&[][..], list, &[(0, 1), (7, 7)]] {
            let subject = Subject::over(&[starts, list, &[]], &rows);
            trial.lists(&subject, words, tally);
            for room in 0..subject.searcher().width() {
                assert_eq!(trial.list_rows(&subject, 0, room), Err((16, 0)), "{name}");
            }
        }
    }
}

/// The largest plan: 56 variables in 7 patterns and 64 rows, so that a row has 120 words.
#[test]
fn the_widest_row() {
    let rows = widest_plan_on(|var| var + 1, 1);
    assert_eq!((rows[61], rows[63], rows.len()), (voice(56), at_least(1, 7), 64));
    // Variable i stands at 1,000 + i. Document 9 has all of them, document 10 those of the patterns
    // of even number, document 11 those of the others, document 12 all of each pattern but one. A
    // title starts at every tenth position from 1,010 on, but in document 11.
    let in_doc = |doc: u32, var: u32| match doc {
        9 => true,
        10 => (var / 8).is_multiple_of(2),
        11 => var / 8 % 2 == 1,
        _ => var % 8 != 2,
    };
    let docs = 9..13;
    let of_var = |var: u32| -> Vec<(u32, u32)> {
        docs.clone().filter(|&doc| in_doc(doc, var)).map(|doc| (doc, 1_000 + var)).collect()
    };
    let mut lists: Vec<Vec<(u32, u32)>> = (0..56).map(of_var).collect();
    let postings = lists.iter().map(|list| list.len() as u32).sum();
    let starts = [9, 10].into_iter().flat_map(|doc| (1..5).map(move |i| (doc, 1_000 + 10 * i)));
    lists.insert(0, starts.collect());
    let lists: Vec<&[(u32, u32)]> = lists.iter().map(Vec::as_slice).collect();
    let mut expected = Vec::new();
    for doc in 9..12 {
        expected.push(doc);
        for (pattern, size) in (0..).zip(WIDEST) {
            let found = in_doc(doc, 8 * pattern);
            expected.push(u32::from(found));
            for var in 8 * pattern..8 * pattern + size {
                expected.extend(match (found, doc) {
                    (false, _) => [0, 0],
                    (true, 11) => [1_000 + var, NO_START],
                    (true, _) if var < 10 => [1_000 + var, NO_START],
                    (true, _) => [1_000 + var, 1_000 + 10 * 4.min(var / 10)],
                });
            }
        }
    }
    let subject = Subject::over(&lists, &rows);
    let mut trial = Trial::default();
    assert_eq!(subject.searcher().width(), 120);
    assert_eq!(trial.listing(&subject), (expected.clone(), postings));
    for (room, written, more) in [
        (120, 1, Some(10)),
        (121, 1, Some(10)),
        (239, 1, Some(10)),
        (240, 2, Some(11)),
        (359, 2, Some(11)),
        (360, 3, None),
        (900, 3, None),
    ] {
        let (words, listed) = trial.list_rows(&subject, 0, room).unwrap();
        assert_eq!((listed.rows, listed.more), (written, more), "{room} words");
        assert_eq!(words, expected[..120 * written as usize], "{room} words");
    }
    for room in [0, 1, 8, 63, 64, 65, 110, 112, 118, 119] {
        assert_eq!(trial.list_rows(&subject, 0, room), Err((16, 0)), "{room} words");
    }
}

/// MORE is said only where a document is left: a buffer that the last row fills says DONE.
#[test]
fn buffers_that_are_just_full() {
    let docs = [3, 4, 90, 65_535];
    let list: Vec<(u32, u32)> = docs.iter().map(|&doc| (doc, 7)).collect();
    // A document that has the other list does not match; its postings count all the same.
    let other = [(0, 1), (4, 1), (50, 1), (91, 1)];
    let rows = [voice(1), END, voice(2), END, FIRST_NOT_SECOND];
    let subject = Subject::over(&[&[], &list, &other], &rows);
    let mut trial = Trial::default();
    for (start, room, written, tally, more) in [
        (0, 7, &[3][..], 5, Some(90)),
        (0, 13, &[3], 5, Some(90)),
        (0, 14, &[3, 90], 7, Some(65_535)),
        (0, 20, &[3, 90], 7, Some(65_535)),
        (0, 21, &[3, 90, 65_535], 8, None),
        (0, 22, &[3, 90, 65_535], 8, None),
        (0, 28, &[3, 90, 65_535], 8, None),
        (1, 14, &[3, 90], 6, Some(65_535)),
        (3, 7, &[3], 4, Some(90)),
        (4, 7, &[90], 5, Some(65_535)),
        (4, 14, &[90, 65_535], 6, None),
        (5, 7, &[90], 3, Some(65_535)),
        (51, 7, &[90], 2, Some(65_535)),
        (90, 7, &[90], 2, Some(65_535)),
        (91, 7, &[65_535], 2, None),
        (92, 7, &[65_535], 1, None),
        (65_534, 7, &[65_535], 1, None),
        (65_535, 7, &[65_535], 1, None),
        (65_535, 500, &[65_535], 1, None),
    ] {
        trial.case = format!("from {start} into {room} words");
        let words: Vec<u32> =
            written.iter().flat_map(|&doc| [doc, 1, 7, NO_START, 0, 0, 0]).collect();
        let listed = Listed { rows: written.len() as u32, tally, more };
        assert_eq!(trial.list_rows(&subject, start, room), Ok((words, listed)), "{}", trial.case);
    }
}

/// The naive searcher looks at the documents alone that have a posting. No other is true.
#[test]
fn documents_without_postings() {
    let volume = sample().volume();
    let patterns = [voice(1), END, voice(2), before(0, 0), END];
    for operator in [BOTH, EITHER, FIRST_NOT_SECOND] {
        let plan = [&patterns[..], &[operator]].concat().concat();
        let searcher = Searcher::new(&volume, &plan).unwrap();
        let rows: Vec<Vec<u32>> = (0..=65_535).filter_map(|doc| searcher.row(doc)).collect();
        assert_eq!(rows, searcher.rows);
    }
}

/// The sample behind a list of every length, so that its postings stand at every place in a block.
#[test]
fn lists_over_the_edges_of_blocks() {
    let sample = sample();
    let (lists, _) = plain::cut(&sample.counts, &sample.postings);
    let mut trial = Trial::default();
    for length in 0..=130 {
        trial.case = format!("behind {length} postings");
        let front: Vec<u32> = (0..length).map(|pos| 9 * 65_536 + pos).collect();
        let moved = Lists::new(&[lists[0], &front[..], lists[1], lists[2]]);
        let rows = [voice(2), voice(3), before(0, 1), same_title(0, 1), END];
        let subject = Subject::new(&moved.volume(), &rows.concat());
        assert_eq!(trial.search(&subject, 6), (vec![1, 1, 2, 0, 5, 0], 6));
    }
}

/// A volume may start at any address.
#[test]
fn any_alignment() {
    let volume = sample().volume();
    let plan = SAMPLE.concat();
    for offset in 0..=16 {
        let mut memory = vec![0x5a; 16 + volume.len() + 16];
        let lent = offset..offset + volume.len();
        memory[lent.clone()].copy_from_slice(&volume);
        let mut out = [7; 11];
        let listing = lihambozy::calls::list(&memory[lent.clone()], &plan, 0, &mut out);
        assert_eq!(listing, Ok(Listing { rows: 1, tally: 6, next: Next::Done }), "{offset}");
        assert_eq!(out, [1, 1, 2, 0, 5, 0, 7, 7, 7, 7, 7], "{offset}");
        let passes = lihambozy::calls::test_positions(&memory[lent], &plan, 0, 1, &[8, 7]);
        assert_eq!(passes, Ok(false), "{offset}");
    }
}

/// Every document matches, and each call has room for some of them. A title starts at position 3 of
/// every fifth document.
#[test]
fn every_document() {
    let list: Vec<u32> = (0..65_536).map(|doc| doc * 65_536 + doc % 7).collect();
    let starts: Vec<u32> = (0..65_536).step_by(5).map(|doc| doc * 65_536 + 3).collect();
    let volume = Lists::new(&[&starts[..], &list]).volume();
    let plan = [voice(1), voice(1), END].concat();
    for fit in [1_000, 65_535, 65_536, 65_537] {
        let mut out = vec![0; 6 * fit + 5];
        let (mut start, mut done) = (0, false);
        while !done {
            out.fill(9);
            let listing = lihambozy::calls::list(&volume, &plan, start, &mut out).unwrap();
            let end = 65_536.min(start + fit as u32);
            done = end == 65_536;
            let next = if done { Next::Done } else { Next::More(end) };
            let rows = end - start;
            assert_eq!(listing, Listing { rows, tally: 2 * rows, next }, "{start}, {fit} rows");
            let (rows, behind) = out.split_at(6 * rows as usize);
            for (row, doc) in rows.chunks(6).zip(start..end) {
                let title = if doc % 5 == 0 && doc % 7 >= 3 { 3 } else { NO_START };
                assert_eq!(row, [doc, 1, doc % 7, title, doc % 7, title]);
            }
            assert!(behind.iter().all(|&word| word == 9), "{start}, {fit} rows");
            start = end;
        }
    }
}

/// A document with every position, and lists of every size beside it.
#[test]
fn every_position() {
    let all: Vec<u32> = (0..65_536).collect();
    let tens: Vec<u32> = (0..65_536).step_by(10).collect();
    let odd: Vec<u32> = (0..65_536).skip(1).step_by(2).collect();
    let titles: Vec<u32> = (0..65_536).step_by(100).collect();
    let lists: Vec<Vec<u32>> = [&titles, &all, &tens, &odd, &vec![65_535], &vec![]]
        .map(|of| list_in(&[7, 8], of))
        .to_vec();
    let volume = Lists::new(&lists).volume();
    let chain: Vec<Row> = (0..7).map(|var| before(var, var + 1)).collect();
    let last = 65_535;
    for (name, rows, least, tally) in [
        ("NEAR", vec![voice(1), voice(4), near(0, 1, 0), END], Some(vec![65_534, last]), 131_074),
        ("NEAR, c", vec![voice(4), voice(2), near(0, 1, 9), END], Some(vec![last, 65_530]), 13_110),
        ("SPAN", vec![voice(1), voice(3), voice(4), span(1), END], Some(vec![last; 3]), 196_610),
        ("BEFORE", vec![voice(1), voice(4), before(1, 0), END], None, 131_074),
        ("BEFORE, last", vec![voice(1), voice(4), before(0, 1), END], Some(vec![0, last]), 131_074),
        (
            "SAME TITLE",
            vec![voice(1), voice(4), same_title(0, 1), END],
            Some(vec![65_500, last]),
            131_074,
        ),
        (
            "eight variables",
            [&[voice(1); 8][..], &chain, &[END]].concat(),
            Some((0..8).collect()),
            1_048_576,
        ),
        (
            "eight variables, never",
            [&[voice(2); 8][..], &chain, &[near(0, 7, 68), END]].concat(),
            None,
            104_864,
        ),
        (
            "APART",
            vec![voice(1), voice(4), apart(0, 1, 9, 99), END],
            Some(vec![65_435, last]),
            131_074,
        ),
        (
            "APART, tens and odd",
            vec![voice(2), voice(3), apart(0, 1, 30_000, 30_000), END],
            Some(vec![0, 30_001]),
            78_644,
        ),
        ("APART, never", vec![voice(3), voice(3), apart(0, 1, 30_000, 30_000), END], None, 131_072),
        ("APART, itself", vec![voice(1), apart(0, 0, 0, 65_535), END], None, 131_072),
        ("an empty list", vec![voice(1), voice(5), near(0, 1, 65_535), END], None, 131_072),
    ] {
        let mut out = vec![9; 40];
        let listing = lihambozy::calls::list(&volume, &rows.concat(), 0, &mut out).unwrap();
        let mut words = vec![];
        for doc in [7, 8] {
            let Some(least) = &least else { continue };
            words.extend([doc, 1]);
            words.extend(least.iter().flat_map(|&pos| [pos, pos / 100 * 100]));
        }
        let found = if least.is_some() { 2 } else { 0 };
        assert_eq!(listing, Listing { rows: found, tally, next: Next::Done }, "{name}");
        words.resize(40, 9);
        assert_eq!(out, words, "{name}");
    }
}

/// The largest volume under the plan of most variables: the greatest tally there is.
#[test]
fn the_greatest_tally() {
    let postings = 1_032_192 - 2 - 2;
    let list: Vec<u32> = (0..postings).collect();
    let volume = Lists::new(&[&[][..], &list]).volume();
    assert_eq!(volume.len(), 512 * 8_192);
    let plan = widest_plan_on(|_| 1, 7).concat();
    assert_eq!(plan.len(), 256);
    // Documents 0 to 14 have every position, document 15 those up to the last posting.
    let mut out = vec![9; 120 * 16];
    let listing = lihambozy::calls::list(&volume, &plan, 0, &mut out).unwrap();
    assert_eq!(listing, Listing { rows: 16, tally: 56 * postings, next: Next::Done });
    let found = |vars: usize| [&[1][..], &[0, NO_START].repeat(vars)].concat();
    let patterns = found(8).repeat(7);
    for (row, doc) in out.chunks(120).zip(0..) {
        assert_eq!((row[0], &row[1..]), (doc, &patterns[..]));
    }
    let listing = lihambozy::calls::list(&volume, &plan, 0, &mut out[..120 * 15]).unwrap();
    assert_eq!(listing, Listing { rows: 15, tally: 56 * 15 * 65_536, next: Next::More(15) });
    let listing = lihambozy::calls::list(&volume, &plan, 15, &mut out).unwrap();
    let left = postings - 15 * 65_536;
    assert_eq!(listing, Listing { rows: 1, tally: 56 * left, next: Next::Done });
}
