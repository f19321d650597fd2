//! The variables of a pattern in every order. The engine takes them by the lengths of their lists,
//! and nothing that it answers may tell so: rows, tallies, tuples and tests are those of the naive
//! searcher, whichever variable has the shortest list, and also where lists are equally long, empty
//! or one and the same.

use crate::support::matches::*;
use crate::support::orders::*;
use crate::support::plans::*;
use crate::support::searches::*;
use crate::support::*;
use std::collections::BTreeSet;

/// All rows and the sum of the tallies, in buffers of one row and more, and calls from starts at
/// the documents and beside them.
#[track_caller]
fn listed(trial: &mut Trial, subject: &Subject) -> (Vec<Vec<u32>>, u32) {
    let width = subject.width();
    let (words, tally) = trial.listing(subject);
    for doc in subject.docs().into_iter().step_by(4) {
        for (start, room) in [(doc, width), (doc + 1, 2 * width), (doc.saturating_sub(1), width)] {
            let _ = trial.list_rows(subject, start, room);
        }
    }
    (words.chunks(width).map(<[u32]>::to_vec).collect(), tally)
}

/// One pattern in each of the orders: the same documents, and in them the same positions and the
/// same tuples, each at its variable's place. How many rows there are.
#[track_caller]
fn same_in_each(trial: &mut Trial, lists: &Lists, rows: &[Row], orders: &[Vec<usize>]) -> usize {
    let volume = lists.volume();
    let mut first = None;
    for order in orders {
        let subject = Subject::new(&volume, &in_order(rows, order).concat());
        trial.case = format!("{rows:?} in the order {order:?}");
        let (rows, tally) = listed(trial, &subject);
        let row = |row: &Vec<u32>| [&row[..2], &pairs_turned_back(&row[2..], order)].concat();
        let mut tuples = BTreeSet::new();
        for doc in rows.iter().step_by(5).map(|row| row[0]).chain([6]) {
            let all = trial.enumerate(&subject, 0, doc, 3 * order.len());
            tuples.extend(all.iter().map(|tuple| (doc, turned_back(tuple, order))));
        }
        let all = (rows.iter().map(row).collect::<Vec<_>>(), tally, tuples);
        assert_eq!(first.get_or_insert_with(|| all.clone()), &all, "{}", trial.case);
    }
    first.map_or(0, |(rows, ..)| rows.len())
}

/// So many of the positions below 12, in each of the documents.
fn crowd(rng: &mut Rng, docs: &[u32], count: usize) -> Vec<u32> {
    let of_doc = |&doc: &u32| {
        let mut positions = BTreeSet::new();
        while positions.len() < count {
            positions.insert(rng.below(12) as u32);
        }
        positions.into_iter().map(move |pos| doc * 65_536 + pos).collect::<Vec<_>>()
    };
    docs.iter().flat_map(of_doc).collect()
}

/// Lists 1 and 2 are long and 3 and 4 are short, equally so; 5 has one posting, 6 none, and 7 and 8
/// are between. Catches an order that lacks a variable or has one twice, where lists are equally
/// long or one; positions written, or predicates read, by rank and not by variable; a variable that
/// is not looked for where its list is empty.
#[test]
fn lists_of_every_length_in_every_order() {
    let mut rng = Rng::new(6_001);
    let docs: Vec<u32> = (0..24).map(|i| 3 * i).chain([65_535]).collect();
    let all = &docs[..];
    let [titled, third, half] = [(1, 2), (0, 3), (0, 2)]
        .map(|(from, step)| docs[from..].iter().copied().step_by(step).collect::<Vec<u32>>());
    let mut lists = vec![crowd(&mut rng, &titled, 2)];
    for (docs, count) in [(all, 3), (all, 3), (&third, 1), (&half[..9], 1), (&all[3..4], 1)] {
        lists.push(crowd(&mut rng, docs, count));
    }
    lists.extend([vec![], crowd(&mut rng, all, 1), crowd(&mut rng, &all[2..20], 1)]);
    let lists = Lists::new(&lists);
    assert_eq!(lists.counts, [24, 75, 75, 9, 9, 1, 0, 25, 18]);

    let mut trial = Trial::default();
    let mut found = 0;
    // The list of each variable.
    let two_or_three = ["13", "12", "34", "51", "61", "11", "123", "317", "113", "432"];
    let more = ["1237", "1331", "6123", "5123", "8888", "17387381", "78788727"];
    for lists_of in two_or_three.into_iter().chain(more) {
        let voices: Vec<Row> = lists_of.bytes().map(|digit| voice((digit - b'0').into())).collect();
        let orders = many_orders(&mut rng, voices.len());
        let last = voices.len() as u32 - 1;
        let mixed = [before(0, last), near(1, last, 6), span(9), apart(last, 1, 0, 8)];
        for predicates in [
            &[][..],
            &[near(0, last, 1)],
            &[before(last, 0)],
            &[same_title(0, last)],
            &[span(5)],
            &[apart(0, last, 1, 4)],
            &[span(11), before(0, last), same_title(1, last)],
            &mixed[..3],
            &mixed,
        ] {
            let rows = [&voices[..], predicates, &[END]].concat();
            found += same_in_each(&mut trial, &lists, &rows, &orders);
        }
    }
    assert!(found > 600 && trial.matched > 5_000, "{found} {}", trial.matched);
}

/// Documents 4 and 9 have the given positions of each variable, and every variable has a document
/// of its own, with so many positions that the lists have each order of lengths, or all the same
/// length. The pattern is found at the least positions given, or not found.
#[track_caller]
fn settles_at_each_rank(
    trial: &mut Trial,
    rng: &mut Rng,
    starts: Of,
    lists: &[Of],
    predicates: &[Row],
    least: Option<Of>,
) {
    let voices: Vec<Row> = (1..=lists.len() as u32).map(voice).collect();
    let rows = [&voices[..], predicates, &[END]].concat();
    for ranks in many_orders(rng, lists.len()).into_iter().chain([vec![0; lists.len()]]) {
        let mut all = vec![list_in(&[4, 9], starts)];
        for (var, (positions, rank)) in (0..).zip(lists.iter().zip(&ranks)) {
            let alone: Vec<u32> = (0..(40 + rank - 2 * positions.len()) as u32).collect();
            all.push([list_in(&[4, 9], positions), list_in(&[20 + var], &alone)].concat());
        }
        let tally = all[1..].iter().map(|list| list.len() as u32).sum();
        let subject = Subject::new(&Lists::new(&all).volume(), &rows.concat());
        trial.case = format!("starts {starts:?}, lists {lists:?}, ranks {ranks:?}, {predicates:?}");
        let of_doc =
            |doc: u32| least.map(|least| subject.with_starts(&[&[doc, 1], least].concat()));
        let expected: Vec<Vec<u32>> = [4, 9].into_iter().filter_map(of_doc).collect();
        assert_eq!(listed(trial, &subject), (expected, tally), "{}", trial.case);
        let (tuples, _) =
            trial.match_page(&subject, 0, 9, &vec![0; lists.len()], lists.len()).unwrap();
        assert_eq!(tuples.first().map(Vec::as_slice), least, "{}", trial.case);
    }
}

/// Several variables too far in front at once; one that moves over the largest; two SPAN; SPAN with
/// predicates that move the largest. Catches a SPAN that looks at some variables only, that keeps
/// an old largest position, or that is not tried again.
#[test]
fn spans_at_each_rank() {
    let (mut trial, mut rng) = (Trial::default(), Rng::new(6_002));
    let rows: &[(&[Of], &[Row], Option<Of>)] = &[
        // three of four are too far in front, or two, or one
        (&[&[1, 50, 100], &[2, 3, 101], &[103], &[0, 99]], &[span(5)], Some(&[100, 101, 103, 99])),
        (&[&[1, 98, 100], &[2, 3, 101], &[103], &[0, 98]], &[span(5)], None),
        (&[&[1, 7], &[5, 8], &[9], &[7, 9]], &[span(5)], Some(&[7, 5, 9, 7])),
        (&[&[1, 7], &[2, 8], &[7, 9], &[9]], &[span(3)], Some(&[7, 8, 7, 9])),
        (&[&[3], &[5], &[0, 1, 2, 3], &[4]], &[span(3)], Some(&[3, 5, 3, 4])),
        // each one that moves is the largest, and leaves the others too far in front
        (&[&[1, 20], &[10, 21], &[2, 3, 19, 22]], &[span(4)], Some(&[20, 21, 19])),
        (&[&[0, 10, 20], &[2, 13, 21], &[5, 16, 22]], &[span(3)], Some(&[20, 21, 22])),
        (&[&[0, 10, 20], &[2, 13, 23], &[5, 16, 26]], &[span(3)], None),
        (&[&[0, 65_535], &[1, 65_535], &[65_534]], &[span(2)], Some(&[65_535, 65_535, 65_534])),
        // two SPAN, the wider one first or last
        (&[&[0, 30], &[9, 31], &[5, 33]], &[span(20), span(5)], Some(&[30, 31, 33])),
        (&[&[0, 30], &[9, 31], &[5, 33]], &[span(4), span(20)], Some(&[30, 31, 33])),
        (&[&[0, 30], &[9, 31], &[5, 33]], &[span(3), span(20)], None),
        // BEFORE, APART and NEAR move the largest on, and SPAN the others behind it
        (&[&[5, 40], &[3, 41], &[1, 6, 39]], &[span(6), before(0, 1)], Some(&[40, 41, 39])),
        (&[&[5, 40], &[3, 41], &[1, 6, 39]], &[before(0, 1), span(6)], Some(&[40, 41, 39])),
        (
            &[&[5, 20, 40], &[6, 26, 44], &[5, 21, 41], &[4, 22, 42]],
            &[span(6), apart(0, 1, 1, 9)],
            Some(&[40, 44, 41, 42]),
        ),
        (
            &[&[0, 50], &[9, 52], &[9, 60], &[4, 55]],
            &[near(0, 1, 5), span(20), before(1, 2)],
            Some(&[50, 52, 60, 55]),
        ),
    ];
    for (lists, predicates, least) in rows {
        settles_at_each_rank(&mut trial, &mut rng, &[], lists, predicates, *least);
    }
    // seven of eight
    let eight = [&[0, 40][..], &[1, 41], &[2, 42], &[9, 44], &[3, 43], &[4, 41], &[5, 40], &[6]];
    settles_at_each_rank(&mut trial, &mut rng, &[], &eight, &[span(8)], None);
    let lists = [&eight[..7], &[&[6, 47]]].concat();
    let least = [40, 41, 42, 44, 43, 41, 40, 47];
    settles_at_each_rank(&mut trial, &mut rng, &[], &lists, &[span(8)], Some(&least));
    settles_at_each_rank(&mut trial, &mut rng, &[], &lists, &[span(7)], None);
}

/// As many conditions as a pattern can have. The last one moves the first variable, the others the
/// next ones one by one, until the last one moves the first again. Catches an engine that does not
/// come back to the conditions in front, or that counts those that hold wrongly.
#[test]
fn conditions_tried_again() {
    let (mut trial, mut rng) = (Trial::default(), Rng::new(6_003));
    for vars in [2, 3, 4, 8] {
        let rounds = [0, 0, 9, 6, 4, 0, 0, 0, 2][vars as usize];
        // Variable i stands at 100 k + i; but for the last k, the last variable is one too far off.
        let position =
            |var: u32, k: u32| 100 * k + var + u32::from(var == vars - 1 && k < rounds - 1);
        let lists: Vec<Vec<u32>> =
            (0..vars).map(|var| (0..rounds).map(|k| position(var, k)).collect()).collect();
        let lists: Vec<&[u32]> = lists.iter().map(Vec::as_slice).collect();
        let least: Vec<u32> = (0..vars).map(|var| position(var, rounds - 1)).collect();
        let rising = (0..vars - 1).map(|var| before(var, var + 1));
        let falling: Vec<Row> = rising.clone().rev().collect();
        let (rising, last) = (rising.collect::<Vec<Row>>(), vars - 1);
        for count in [rising.len(), 20, 62 - vars as usize] {
            for chain in [&rising, &falling] {
                let others: Vec<Row> = chain.iter().copied().cycle().take(count).collect();
                for tie in [near(0, last, vars - 2), apart(0, last, 0, vars as u16 - 2), span(vars)]
                {
                    let found = [&others[..], &[tie]].concat();
                    settles_at_each_rank(&mut trial, &mut rng, &[], &lists, &found, Some(&least));
                }
            }
        }
        let never = [&rising[..], &[near(0, last, vars - 2), before(last, 0)]].concat();
        settles_at_each_rank(&mut trial, &mut rng, &[], &lists, &never, None);
    }
    // SAME TITLE moves by starts, and the others by what it has moved.
    let titles: &[Row] = &[before(0, 1), near(1, 2, 1), same_title(0, 2)];
    let lists: [Of; 3] = [&[1, 12, 22, 35], &[3, 14, 24, 36], &[11, 21, 31, 37]];
    let (starts, least) = ([0, 10, 20, 30], [35, 36, 37]);
    settles_at_each_rank(&mut trial, &mut rng, &starts, &lists, titles, Some(&least));
}

/// The documents of each list, and those that all have. The shortest list ends first or another one
/// does, it is far behind the others or far ahead of them, and they pass each other by turns.
/// Catches a leader that is not asked again, a follower that is passed by unasked, and a list that
/// is read behind its end.
#[test]
fn lists_that_end_first_or_lag_behind() {
    let (mut trial, mut rng) = (Trial::default(), Rng::new(6_004));
    let all: Vec<u32> = (0..60).collect();
    let even: Vec<u32> = (0..40).map(|i| 2 * i).collect();
    let high: Vec<u32> = (0..30).map(|i| 60_000 + i).collect();
    let far: Vec<u32> = [&all[..20], &high].concat();
    let rows: &[(&[Of], &[u32])] = &[
        // the shortest ends first, at once, and in the middle
        (&[&[5, 9], &all], &[5, 9]),
        (&[&[0], &all, &even], &[0]),
        (&[&[7, 8, 9], &all, &even], &[8]),
        // another one ends first
        (&[&[5, 70, 71], &all, &even], &[]),
        (&[&[4, 65_535], &all, &even], &[4]),
        (&[&[60_003, 60_010], &all], &[]),
        (&[&[2, 4, 60_001, 60_002], &even, &far], &[2, 4]),
        // the shortest is far behind, and far ahead
        (&[&[1, 2, 3, 60_004], &high], &[60_004]),
        (&[&[60_004], &far, &high], &[60_004]),
        (&[&[60_029, 60_030], &far], &[60_029]),
        (&[&[0, 1, 60_000], &far, &high], &[60_000]),
        (&[&[0, 1, 2, 65_535], &[3, 4, 5, 6, 65_535]], &[65_535]),
        // they pass each other by turns: where the third stands the second must be asked again
        (&[&[1, 4, 7, 10], &[1, 3, 5, 7, 9], &[2, 4, 6, 7, 8, 11]], &[7]),
        (&[&[1, 5], &[1, 2, 3, 6], &[2, 3, 4, 5, 7]], &[]),
        (&[&[1, 3, 6], &[1, 2, 5, 6], &[3, 4, 5, 6, 7], &[1, 2, 3, 4, 6, 8]], &[6]),
        (&[&[10, 20, 30], &[10, 11, 20, 21, 30], &[9, 19, 20, 29, 30, 31]], &[20, 30]),
        // one document alone, at either end
        (&[&[65_535], &[65_534, 65_535], &[0, 65_534, 65_535]], &[65_535]),
        (&[&[0], &[0, 1], &[0, 1, 2]], &[0]),
        // none
        (&[&[], &all], &[]),
        (&[&[5], &[6], &[5, 6]], &[]),
    ];
    for (docs, found) in rows {
        // List i has position 10 i + 1 in each of its documents.
        let of_list = |(i, docs): (u32, &Of)| list_in(docs, &[10 * i + 1]);
        let lists: Vec<Vec<u32>> = (1..).zip(*docs).map(of_list).collect();
        let lists = Lists::new(&[&[vec![]][..], &lists].concat());
        let count = docs.len() as u32;
        let voices: Vec<Row> = (1..=count).map(voice).collect();
        let expected: Vec<u32> = found
            .iter()
            .flat_map(|&doc| [doc, 1].into_iter().chain((1..=count).map(|i| 10 * i + 1)))
            .collect();
        for predicates in [vec![], vec![before(0, count - 1), span(100)]] {
            let rows = [&voices[..], &predicates, &[END]].concat();
            let subject = Subject::new(&lists.volume(), &rows.concat());
            trial.case = format!("{docs:?}");
            let words = subject.with_starts(&expected);
            assert_eq!(trial.listing(&subject).0, words, "{}", trial.case);
            let orders = many_orders(&mut rng, docs.len());
            assert_eq!(same_in_each(&mut trial, &lists, &rows, &orders), found.len());
        }
    }
}

/// What a call gives that has room for one row: the tally, and the row told without title starts.
type Answer<'a> = (u32, &'a [u32]);

/// In each document both variables of `pair` go on to their last positions there. Calls have room
/// for one row, and the document behind it is named with MORE. Catches a tally, or a row of the
/// next call, that is taken from where settling that document has left the cursors.
#[test]
fn tallies_before_a_settled_document() {
    let mut trial = Trial::default();
    let long = list_in(&[3, 4, 8], &[3, 4, 5, 6, 7, 8]);
    let lists =
        [vec![], list_in(&[3, 4, 8], &[1, 2, 3, 9]), long, vec![4 << 16 | 8, 8 << 16, 8 << 16 | 8]];
    let volume = Lists::new(&lists).volume();
    let pair = [voice(1), voice(2), before(1, 0), near(0, 1, 0), END];
    let beside = [voice(3), voice(2), span(1), END];
    let plans: [(Vec<Row>, &[Answer]); 4] = [
        (pair.to_vec(), &[(10, &[3, 1, 9, 8]), (10, &[4, 1, 9, 8]), (10, &[8, 1, 9, 8])]),
        (
            [&pair[..], &[voice(3), END, EITHER]].concat(),
            &[(10, &[3, 1, 9, 8, 0, 0]), (11, &[4, 1, 9, 8, 1, 8]), (12, &[8, 1, 9, 8, 1, 0])],
        ),
        (
            [&beside[..], &pair, &[EITHER]].concat(),
            &[
                (16, &[3, 0, 0, 0, 1, 9, 8]),
                (17, &[4, 1, 8, 8, 1, 9, 8]),
                (18, &[8, 1, 8, 8, 1, 9, 8]),
            ],
        ),
        (
            [&pair[..], &beside, &[BOTH]].concat(),
            &[(33, &[4, 1, 9, 8, 1, 8, 8]), (18, &[8, 1, 9, 8, 1, 8, 8])],
        ),
    ];
    for (rows, answers) in plans {
        let subject = Subject::new(&volume, &rows.concat());
        trial.case = format!("{rows:?}");
        let mut start = Some(0);
        for &(tally, row) in answers {
            let (from, row) = (start.expect("a row is left"), subject.with_starts(row));
            let (words, answer) = trial.list_rows(&subject, from, row.len()).unwrap();
            assert_eq!((words, answer.tally), (row, tally), "{}", trial.case);
            start = answer.more;
        }
        assert_eq!(start, None, "{}", trial.case);
        listed(&mut trial, &subject);
    }
}

/// A volume of 1,024 lists. List l has positions l and 4,000 + l in document 7, 3,000 - l in
/// document 9, and a few in document 5, so that the lists are not equally long; or the last list
/// alone has any.
fn most_lists(last_alone: bool) -> Vec<u8> {
    let of_list = |list: u32| {
        let of_5: Vec<u32> = (0..list % 4).collect();
        let (of_7, of_9) = ([list, 4_000 + list], [3_000 - list]);
        match last_alone && list < 1_023 {
            true => vec![],
            false => [list_in(&[5], &of_5), list_in(&[7], &of_7), list_in(&[9], &of_9)].concat(),
        }
    };
    Lists::new(&(0..1_024).map(of_list).collect::<Vec<_>>()).volume()
}

/// The list of each variable: the last for all, or the first; the first ones, the last ones, these
/// turned around; far apart from each other; the first and the last by turns.
const LISTS_OF_VARS: [fn(u32) -> u32; 7] = [
    |_| 1_023,
    |_| 1,
    |var| 1 + var,
    |var| 968 + var,
    |var| 1_023 - var,
    |var| 1 + var * 397 % 1_023,
    |var| if var.is_multiple_of(2) { 1_023 } else { 1 },
];

/// 56 variables. In document 7 a title starts at 0, in document 9 behind all of them. Catches a
/// list that is taken to start elsewhere, and an order, a position or a title start that a variable
/// of another pattern gets.
#[test]
fn most_variables_over_most_lists() {
    let mut trial = Trial::default();
    let [full, last_alone] = [false, true].map(most_lists);
    let plans = LISTS_OF_VARS.map(|list| (&full, list, 0)).into_iter().chain([(
        &last_alone,
        LISTS_OF_VARS[0],
        NO_START,
    )]);
    for (volume, list, start) in plans {
        let subject = Subject::new(volume, &widest_plan_on(list, 1).concat());
        trial.case = format!("56 variables on lists {}, {}, ..", list(0), list(1));
        let (rows, _) = listed(&mut trial, &subject);
        let (mut of_7, mut of_9, mut vars) = (vec![7], vec![9], 0..);
        for count in WIDEST {
            of_7.push(1);
            of_9.push(1);
            for list in vars.by_ref().take(count as usize).map(list) {
                of_7.extend([list, start]);
                of_9.extend([3_000 - list, NO_START]);
            }
        }
        assert_eq!(rows[rows.len() - 2..], [of_7, of_9], "{}", trial.case);
    }
}

/// The tuples of eight variables there, each of which has two positions in document 7.
#[test]
fn tuples_over_most_lists() {
    let mut trial = Trial::default();
    for (volume, lists) in
        [(most_lists(false), &LISTS_OF_VARS[..]), (most_lists(true), &LISTS_OF_VARS[..1])]
    {
        for list in lists {
            let voices: Vec<Row> = (0..8).map(|var| voice(list(var))).collect();
            for (predicates, count) in [(&[][..], 256), (&[span(1_024)], 2)] {
                let rows = [&voices[..], predicates, &[END]].concat();
                let subject = Subject::new(&volume, &rows.concat());
                trial.case = format!("{rows:?}");
                let tuples = trial.enumerate(&subject, 0, 7, 8 * 100 + 3);
                assert_eq!(tuples.len(), count, "{}", trial.case);
                assert!(tuples[0].iter().copied().eq((0..8).map(list)), "{}", trial.case);
            }
        }
    }
}

/// Plans of several patterns over lists of very different lengths, the variables of each pattern in
/// another order: the same documents and tallies, and the positions and title starts at their
/// variables' places.
/// Catches an order that is another pattern's.
#[test]
fn patterns_in_another_order() {
    let seed = 6_005;
    let mut rng = Rng::new(seed);
    let mut trial = Trial::default();
    for round in 0..1_000 {
        let subject = random_skewed_subject(&mut rng, 40);
        let (moved, orders) = in_other_orders(&mut rng, subject.plan());
        trial.case = format!("seed {seed}, round {round}, {:?}, {orders:?}", subject.plan());
        let turned = |row: &Vec<u32>| {
            let (mut back, mut rest) = (vec![row[0]], &row[1..]);
            for order in &orders {
                back.push(rest[0]);
                back.extend(pairs_turned_back(&rest[1..][..2 * order.len()], order));
                rest = &rest[1 + 2 * order.len()..];
            }
            back
        };
        let own = listed(&mut trial, &subject);
        let other = Subject::new(subject.volume(), &moved.concat());
        let (rows, tally) = listed(&mut trial, &other);
        assert_eq!(own, (rows.iter().map(turned).collect(), tally), "{}", trial.case);
    }
    assert!(trial.listed > 10_000, "{}", trial.listed);
}

/// What the patterns of a subject ask of an order.
fn count_orders(met: &mut Met, subject: &Subject) {
    let searcher = subject.searcher();
    for pattern in searcher.patterns.iter().filter(|pattern| pattern.lists.len() > 1) {
        let lengths: Vec<usize> =
            pattern.lists.iter().map(|&list| searcher.lists[list].len()).collect();
        let (shortest, longest) = (lengths.iter().min().unwrap(), lengths.iter().max().unwrap());
        met.count("patterns", 1);
        met.count("with an empty list", usize::from(*shortest == 0));
        met.count("ten times as long", usize::from(*shortest > 0 && *longest >= 10 * shortest));
        let different: BTreeSet<usize> = pattern.lists.iter().copied().collect();
        met.count("with one list twice", usize::from(different.len() < lengths.len()));
        let different_lengths: BTreeSet<usize> = lengths.iter().copied().collect();
        met.count("equally long", usize::from(different_lengths.len() < different.len()));
        met.count("not in their own order", usize::from(!lengths.is_sorted()));
    }
}

/// Whole searches and enumerations through random buffers, calls from any start, and tests of
/// positions that pass and of their neighbours.
#[test]
fn random_lists_of_different_lengths() {
    let seed = 6_006;
    let mut rng = Rng::new(seed);
    let (mut trial, mut met) = (Trial::default(), Met::default());
    for round in 0..2_000 {
        let subject = random_skewed_subject(&mut rng, 40);
        trial.case = format!("seed {seed}, round {round}, {:?}", subject.plan());
        random_search(&mut rng, &mut trial, &mut met, &subject);
        other_starts(&mut rng, &mut trial, &subject, 3);
        random_enumeration(&mut rng, &mut trial, &mut met, &subject);
        other_matches(&mut rng, &mut trial, &subject, 2);
        count_orders(&mut met, &subject);
        let docs: Vec<u32> = subject.docs().into_iter().collect();
        for pattern in 0..subject.searcher().patterns.len() as u32 {
            let Some(&doc) = docs.get(rng.below(docs.len() + 1)) else { continue };
            for mut tuple in subject.passing(pattern, doc).into_iter().take(2) {
                assert_eq!(trial.test(&subject, pattern, doc, &tuple), Ok(true));
                met.count("tests of tuples that pass", 1);
                let var = rng.below(tuple.len());
                tuple[var] = tuple[var].saturating_add_signed(rng.pick(&[-1, 1]));
                let _ = trial.test(&subject, pattern, doc, &tuple);
            }
        }
    }
    met.assert_at_least(&[
        ("patterns", 2_000),
        ("ten times as long", 400),
        ("equally long", 300),
        ("with one list twice", 500),
        ("with an empty list", 300),
        ("not in their own order", 1_000),
        ("tests of tuples that pass", 1_000),
        ("searches of several calls", 300),
        ("enumerations of several calls", 150),
    ]);
}
