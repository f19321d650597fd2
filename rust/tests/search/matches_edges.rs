//! Listing the tuples that pass, beside the naive searcher: starts at every edge, positions that
//! variables share, the first and the last document and position, each predicate alone and with
//! the others, patterns of every width, and plans of several patterns.

use crate::plain::search::{choices, comes_before};
use crate::support::matches::*;
use crate::support::plans::*;
use crate::support::searches::*;
use crate::support::*;

/// All tuples of a page.
#[track_caller]
fn page(
    trial: &mut Trial,
    subject: &Subject,
    pattern: u32,
    doc: u32,
    from: &[u32],
) -> Vec<Vec<u32>> {
    let (tuples, more) = trial.match_page(subject, pattern, doc, from, 4_000).unwrap();
    assert_eq!(more, None, "{}", trial.case);
    tuples
}

/// Starts about each tuple: at it, one position before or behind it in each variable, and at the
/// ends of the positions. Variables with few positions, next to each other or far apart.
#[test]
fn starts_about_each_tuple() {
    let mut trial = Trial::default();
    for lists in [
        &[&[3, 7][..], &[2, 5, 9]][..],
        &[&[0, 1], &[0, 1]],
        &[&[0, 65_535], &[0, 65_535]],
        &[&[65_534, 65_535], &[65_535]],
        &[&[4, 5, 6], &[5], &[4, 6]],
        &[&[0, 9, 65_535]],
        &[&[0, 65_535], &[1, 2], &[0, 65_535]],
    ] {
        for predicates in [&[][..], &[span(5)], &[before(0, lists.len() as u32 - 1)]] {
            let subject = Subject::one_pattern(&DOCS, &[], lists, predicates);
            trial.case = format!("{lists:?}, {predicates:?}");
            let passing = subject.passing(0, 300);
            let mut near: Vec<Vec<u32>> = vec![];
            for of_var in lists {
                let beside = of_var.iter().flat_map(|&pos| [pos.saturating_sub(1), pos, pos + 1]);
                let mut beside: Vec<u32> =
                    beside.chain([0, 65_535]).filter(|&pos| pos < 65_536).collect();
                beside.sort_unstable();
                beside.dedup();
                near.push(beside);
            }
            for from in choices(&near) {
                let left: Vec<Vec<u32>> =
                    passing.iter().filter(|tuple| !comes_before(tuple, &from)).cloned().collect();
                for doc in DOCS {
                    let tuples = page(&mut trial, &subject, 0, doc, &from);
                    assert_eq!(tuples, left, "{}: {doc} {from:?}", trial.case);
                }
            }
        }
    }
}

/// Starts by the table: before all, at the first, between two, at the last, behind all; a later
/// variable that is larger than all its positions; positions that no list has.
#[test]
fn starts_by_the_table() {
    let lists = [vec![], list_in(&[5], &[10, 20, 30]), list_in(&[5], &[15, 25])];
    let subject = Subject::new(&Lists::new(&lists).volume(), &two(&[]).concat());
    let all: [[u32; 2]; 6] = [[10, 15], [10, 25], [20, 15], [20, 25], [30, 15], [30, 25]];
    let mut trial = Trial::default();
    for (from, left_out) in [
        ([0, 0], 0),
        ([0, 65_535], 0),
        ([9, 65_535], 0),
        ([10, 0], 0),
        ([10, 15], 0),
        ([10, 16], 1),
        ([10, 24], 1),
        ([10, 25], 1),
        ([10, 26], 2),
        ([10, 65_535], 2),
        ([11, 0], 2),
        ([11, 65_535], 2),
        ([19, 25], 2),
        ([20, 0], 2),
        ([20, 15], 2),
        ([20, 16], 3),
        ([20, 25], 3),
        ([20, 26], 4),
        ([29, 0], 4),
        ([30, 0], 4),
        ([30, 15], 4),
        ([30, 16], 5),
        ([30, 25], 5),
        ([30, 26], 6),
        ([30, 65_535], 6),
        ([31, 0], 6),
        ([65_535, 0], 6),
        ([65_535, 65_535], 6),
    ] {
        assert_eq!(page(&mut trial, &subject, 0, 5, &from), all[left_out..], "{from:?}");
    }
}

/// Two variables that share a position, and variables on one list: each tuple comes, those with one
/// position twice too.
#[test]
fn shared_positions() {
    let mut trial = Trial::default();
    lists_tuples(&mut trial, &[], &[&[4], &[4]], &[], &[&[4, 4]]);
    lists_tuples(&mut trial, &[], &[&[4], &[4], &[4]], &[span(1)], &[&[4, 4, 4]]);
    lists_tuples(&mut trial, &[], &[&[4, 6], &[4, 6]], &[], &[&[4, 4], &[4, 6], &[6, 4], &[6, 6]]);
    lists_tuples(&mut trial, &[], &[&[4, 6], &[4, 6]], &[span(1)], &[&[4, 4], &[6, 6]]);
    lists_tuples(&mut trial, &[], &[&[4, 6], &[4, 6]], &[near(0, 1, 0)], &[&[4, 4], &[6, 6]]);
    lists_tuples(&mut trial, &[], &[&[4, 6], &[4, 6]], &[before(1, 0)], &[&[6, 4]]);
    lists_tuples(
        &mut trial,
        &[0],
        &[&[0, 65_535], &[0, 65_535]],
        &[same_title(0, 1)],
        &[&[0, 0], &[0, 65_535], &[65_535, 0], &[65_535, 65_535]],
    );
    for vars in 1..=8 {
        let list: Vec<(u32, u32)> = [2, 3].map(|pos| (6, pos)).to_vec();
        let rows = [vec![voice(1); vars], vec![END]].concat();
        let subject = Subject::over(&[&[], &list], &rows);
        trial.case = format!("{vars} variables on one list");
        let tuples = page(&mut trial, &subject, 0, 6, &vec![0; vars]);
        let bits = |i: usize| (0..vars).map(|var| 2 + (i >> (vars - 1 - var) & 1) as u32).collect();
        assert_eq!(tuples, (0..1 << vars).map(bits).collect::<Vec<Vec<u32>>>(), "{}", trial.case);
    }
}

/// Patterns of one variable to eight, each variable with one position or two; and the last tuples
/// of all, from starts about them.
#[test]
fn every_width() {
    let mut trial = Trial::default();
    for vars in 1..=8 {
        let lists: Vec<Vec<u32>> =
            (0..vars as u32).map(|var| vec![70 - 3 * var, 90 - var]).collect();
        let lists: Vec<Of> = lists.iter().map(|list| &list[..]).collect();
        let all = choices(&lists);
        let all: Vec<Of> = all.iter().map(|tuple| &tuple[..]).collect();
        assert_eq!(all.len(), 1 << vars);
        lists_tuples(&mut trial, &[], &lists, &[], &all);
        let firsts: Vec<Of> = lists.iter().map(|list| &list[..1]).collect();
        lists_tuples(&mut trial, &[], &firsts, &[], &all[..1]);

        let subject = Subject::one_pattern(&[9], &[], &lists, &[]);
        let last_var = vars - 1;
        let mut from = all[all.len() - 1].to_vec();
        for (pos, left) in [(from[last_var], 1), (from[last_var] - 1, 1), (0, 2), (65_535, 0)] {
            from[last_var] = pos;
            let tuples = page(&mut trial, &subject, 0, 9, &from);
            assert_eq!(tuples, all[all.len() - left..], "{vars} variables, {from:?}");
        }
    }
}

/// An empty list, one without postings in the document, and a document without any: no tuple
/// passes, and from every start the call is DONE with none.
#[test]
fn nothing_there() {
    let full = list_in(&[2, 4], &[0, 5, 65_535]);
    let third = list_in(&[2], &[7]);
    let volume = Lists::new(&[vec![], full, vec![], third]).volume();
    let mut trial = Trial::default();
    for (rows, docs) in [
        (&[voice(2), END][..], &[0, 2, 4, 65_535][..]),
        (&[voice(1), voice(2), END], &[2, 4]),
        (&[voice(2), voice(1), END], &[2, 4]),
        (&[voice(1), voice(3), END], &[4, 3, 1]),
        (&[voice(3), voice(1), END], &[4, 3, 1]),
        (&[voice(1), voice(1), END], &[0, 1, 3, 5, 65_535]),
        (&[voice(1), voice(1), apart(0, 0, 0, 65_535), END], &[2, 4]),
        (&[voice(1), voice(1), before(1, 1), END], &[2, 4]),
        (&[voice(1), voice(1), same_title(0, 0), END], &[2, 4]),
    ] {
        let subject = Subject::new(&volume, &rows.concat());
        let vars = subject.vars(0);
        for &doc in docs {
            for from in [0, 1, 5, 65_535] {
                for room in [vars, vars + 1, 100] {
                    let answer = trial.match_page(&subject, 0, doc, &vec![from; vars], room);
                    assert_eq!(answer, Ok((vec![], None)), "{rows:?} {doc} {from}");
                }
            }
        }
    }
}

/// Documents next to others that are full of postings, at both ends: only the document's own
/// positions count, the first and the last of them too, and its own starts.
#[test]
fn documents_between_full_ones() {
    let all: Vec<u32> = (0..20).chain(65_516..65_536).collect();
    let mut trial = Trial::default();
    for doc in [0, 1, 255, 256, 65_534, 65_535u32] {
        for (p, q, tuples) in [
            (&[0][..], &[65_535][..], &[[0, 65_535]][..]),
            (&[65_535], &[0], &[[65_535, 0]]),
            (&[0, 65_535], &[0], &[[0, 0], [65_535, 0]]),
            (&[65_535], &[65_535], &[[65_535, 65_535]]),
            (&[0], &[0], &[[0, 0]]),
            (&[7, 9], &[8], &[[7, 8], [9, 8]]),
            (&[], &[8], &[]),
            (&[8], &[], &[]),
        ] {
            let list = |own: &[u32]| -> Vec<u32> {
                let docs = [doc.wrapping_sub(1), doc, doc + 1];
                let there = docs.into_iter().filter(|&doc| doc < 65_536);
                let of = |other: u32| list_in(&[other], if other == doc { own } else { &all });
                there.flat_map(of).collect()
            };
            let lists = [list(&[]), list(p), list(q)];
            let subject = Subject::new(&Lists::new(&lists).volume(), &two(&[]).concat());
            trial.case = format!("document {doc}, {p:?} and {q:?}");
            assert_eq!(page(&mut trial, &subject, 0, doc, &[0, 0]), tuples, "{}", trial.case);
            // The starts of the neighbours are no starts of this one.
            let titled =
                Subject::new(&Lists::new(&lists).volume(), &two(&[same_title(0, 1)]).concat());
            assert!(page(&mut trial, &titled, 0, doc, &[0, 0]).is_empty(), "{}", trial.case);
            let lists = [list(&[0]), list(p), list(q)];
            let titled =
                Subject::new(&Lists::new(&lists).volume(), &two(&[same_title(0, 1)]).concat());
            assert_eq!(page(&mut trial, &titled, 0, doc, &[0, 0]), tuples, "{}", trial.case);
        }
    }
}

/// Each predicate alone, with limits at its edges.
#[test]
fn each_predicate() {
    let (p, q): (Of, Of) = (&[2, 6, 9], &[3, 6, 20]);
    let mut trial = Trial::default();
    type Case<'a> = (Row, &'a [[u32; 2]]);
    let cases: &[Case] = &[
        (near(0, 1, 0), &[[2, 3], [6, 6]]),
        (near(0, 1, 1), &[[2, 3], [6, 6]]),
        (near(1, 0, 2), &[[2, 3], [6, 3], [6, 6], [9, 6]]),
        (near(0, 1, 10), &[[2, 3], [2, 6], [6, 3], [6, 6], [9, 3], [9, 6], [9, 20]]),
        (near(0, 0, 0), &ALL),
        (near(0, 1, 65_535), &ALL),
        (before(0, 1), &[[2, 3], [2, 6], [2, 20], [6, 20], [9, 20]]),
        (before(1, 0), &[[6, 3], [9, 3], [9, 6]]),
        (before(0, 0), &[]),
        (span(1), &[[6, 6]]),
        (span(2), &[[2, 3], [6, 6]]),
        (span(4), &[[2, 3], [6, 3], [6, 6], [9, 6]]),
        (span(65_536), &ALL),
        (apart(0, 1, 0, 0), &[[2, 3]]),
        (apart(0, 1, 0, 3), &[[2, 3], [2, 6]]),
        (apart(0, 1, 0, 2), &[[2, 3]]),
        (apart(0, 1, 10, 13), &[[6, 20], [9, 20]]),
        (apart(0, 1, 11, 12), &[]),
        (apart(0, 1, 4, 65_535), &[[2, 20], [6, 20], [9, 20]]),
        (apart(1, 0, 2, 2), &[[6, 3], [9, 6]]),
        (apart(1, 1, 0, 65_535), &[]),
    ];
    for &(predicate, pairs) in cases {
        let tuples: Vec<Of> = pairs.iter().map(|pair| &pair[..]).collect();
        for starts in [&[][..], &[0], &[6], &[30]] {
            lists_tuples(&mut trial, starts, &[p, q], &[predicate], &tuples);
            lists_tuples(&mut trial, starts, &[p, q], &[predicate; 2], &tuples);
        }
    }
}

/// All pairs of `each_predicate`.
const ALL: [[u32; 2]; 9] =
    [[2, 3], [2, 6], [2, 20], [6, 3], [6, 6], [6, 20], [9, 3], [9, 6], [9, 20]];

/// SAME TITLE: starts, and the pairs that pass. Positions before the first start are in no title.
#[test]
fn titles_and_lead_ins() {
    let (p, q): (Of, Of) = (&[2, 6, 9], &[3, 6, 20]);
    let mut trial = Trial::default();
    type Case<'a> = (&'a [u32], Row, &'a [[u32; 2]]);
    let cases: &[Case] = &[
        (&[], same_title(0, 1), &[]),
        (&[], same_title(1, 1), &[]),
        (&[0], same_title(0, 1), &ALL),
        (&[2], same_title(0, 1), &ALL),
        (&[3], same_title(1, 0), &[[6, 3], [6, 6], [6, 20], [9, 3], [9, 6], [9, 20]]),
        (&[6], same_title(0, 1), &[[6, 6], [6, 20], [9, 6], [9, 20]]),
        (&[7], same_title(0, 1), &[[9, 20]]),
        (&[10], same_title(0, 1), &[]),
        (&[65_535], same_title(0, 0), &[]),
        (&[0, 6], same_title(0, 1), &[[2, 3], [6, 6], [6, 20], [9, 6], [9, 20]]),
        (&[0, 4, 9], same_title(0, 1), &[[2, 3], [6, 6], [9, 20]]),
        (&[0, 10], same_title(0, 1), &[[2, 3], [2, 6], [6, 3], [6, 6], [9, 3], [9, 6]]),
        (&[6, 9], same_title(0, 1), &[[6, 6], [9, 20]]),
        (&[6], same_title(0, 0), &[[6, 3], [6, 6], [6, 20], [9, 3], [9, 6], [9, 20]]),
        (&[7], same_title(1, 1), &[[2, 20], [6, 20], [9, 20]]),
        (&[10], same_title(0, 0), &[]),
    ];
    for &(starts, predicate, pairs) in cases {
        let tuples: Vec<Of> = pairs.iter().map(|pair| &pair[..]).collect();
        lists_tuples(&mut trial, starts, &[p, q], &[predicate], &tuples);
    }
}

/// Predicates of each kind together with each other kind, on two variables and three: the tuples
/// are those that pass both alone, in either order of the rows.
#[test]
fn predicates_together() {
    let lists: [Of; 3] = [&[1, 5, 8, 11], &[2, 5, 9, 16], &[0, 7, 8, 12]];
    let kinds = [
        near(0, 1, 2),
        near(2, 1, 3),
        before(0, 1),
        before(1, 2),
        same_title(0, 1),
        same_title(2, 2),
        span(5),
        span(9),
        apart(0, 2, 1, 5),
        apart(1, 0, 0, 65_535),
    ];
    let mut trial = Trial::default();
    let mut listed = |predicates: &[Row]| {
        let subject = Subject::one_pattern(&[9], &[4, 8], &lists, predicates);
        trial.case = format!("{predicates:?}");
        page(&mut trial, &subject, 0, 9, &[0, 0, 0])
    };
    let alone = kinds.map(|kind| listed(&[kind]));
    let mut passed = 0;
    for (one, of_one) in kinds.into_iter().zip(&alone) {
        assert!((1..64).contains(&of_one.len()), "{one:?}: {}", of_one.len());
        for (other, of_other) in kinds.into_iter().zip(&alone) {
            let both: Vec<Vec<u32>> =
                of_one.iter().filter(|tuple| of_other.contains(tuple)).cloned().collect();
            assert_eq!(listed(&[one, other]), both, "{one:?} {other:?}");
            passed += both.len();
        }
    }
    assert!(passed > 300, "{passed}");
}

/// Plans of several patterns under each operator: the pattern's number picks its own variables,
/// lists and predicates, whatever the operators make of the document.
#[test]
fn patterns_by_number() {
    let lists = [vec![], list_in(&[7], &[3, 4]), list_in(&[7], &[4, 9]), list_in(&[8], &[1])];
    let volume = Lists::new(&lists).volume();
    let first = [voice(1), voice(2), before(0, 1), END];
    let second = [voice(2), END];
    let third = [voice(2), voice(1), voice(1), near(0, 1, 0), END];
    let fourth = [voice(3), END];
    let mut trial = Trial::default();
    for [a, b, c] in [
        [BOTH, EITHER, FIRST_NOT_SECOND],
        [EITHER, BOTH, BOTH],
        [FIRST_NOT_SECOND, FIRST_NOT_SECOND, EITHER],
    ] {
        for rows in [
            [&first[..], &second, &[a], &third, &[b], &fourth, &[c]].concat(),
            [&first[..], &second, &third, &fourth, &[a], &[b], &[c]].concat(),
            [&first[..], &second, &[a], &third, &fourth, &[b], &[c]].concat(),
        ] {
            let subject = Subject::new(&volume, &rows.concat());
            trial.case = format!("{rows:?}");
            let zeros = [0; 3];
            let mut of = |pattern: u32, vars: usize, doc: u32| {
                page(&mut trial, &subject, pattern, doc, &zeros[..vars])
            };
            assert_eq!(of(0, 2, 7), [[3, 4], [3, 9], [4, 9]]);
            assert_eq!(of(1, 1, 7), [[4], [9]]);
            assert_eq!(of(2, 3, 7), [[4, 3, 3], [4, 3, 4], [4, 4, 3], [4, 4, 4]]);
            assert!(of(3, 1, 7).is_empty());
            assert_eq!(of(3, 1, 8), [[1]]);
            assert!(of(0, 2, 8).is_empty());
            // Another pattern's number of positions is refused.
            for (pattern, vars) in [(0, 1), (0, 3), (1, 2), (1, 3), (2, 2), (2, 1), (3, 2), (4, 1)]
            {
                let answer = trial.match_page(&subject, pattern, 7, &zeros[..vars], 40);
                assert_eq!(answer, Err((17, 0)), "{pattern} {vars}");
            }
        }
    }
}

/// The plan with the most variables, and eight patterns: the last pattern's tuples are its own.
#[test]
fn the_last_of_many_patterns() {
    let lists: Vec<Vec<u32>> =
        (0..60).map(|list| if list == 0 { vec![] } else { list_in(&[3], &[list]) }).collect();
    let volume = Lists::new(&lists).volume();
    let mut trial = Trial::default();
    let subject = Subject::new(&volume, &widest_plan_on(|var| 1 + var, 7).concat());
    let mut var = 0;
    for (pattern, vars) in (0..).zip(WIDEST) {
        let tuple: Vec<u32> = (1 + var..=vars + var).collect();
        let tuples = page(&mut trial, &subject, pattern, 3, &vec![0; vars as usize]);
        assert_eq!(tuples, [tuple], "pattern {pattern}");
        var += vars;
    }
    let eight: Vec<Row> = (1..=8).flat_map(|list| [voice(list), END]).collect();
    let subject = Subject::new(&volume, &[eight, vec![EITHER; 7]].concat().concat());
    for pattern in 0..8 {
        assert_eq!(page(&mut trial, &subject, pattern, 3, &[0]), [[pattern + 1]]);
    }
    assert_eq!(trial.match_page(&subject, 8, 3, &[0], 4), Err((17, 0)));
}
