//! Searches of a joined volume beside searches of both works: the first work's rows, then the
//! second's with their documents raised, each once, and the tallies add up.

use crate::support::joins::*;
use crate::support::plans::*;
use crate::support::searches::*;
use crate::support::*;

/// Postings told by document and position, list by list.
type Of<'a> = &'a [&'a [(u32, u32)]];

fn lists(lists: Of) -> Lists {
    let posting = |&(doc, pos): &(u32, u32)| doc * 65_536 + pos;
    let list = |list: &&[(u32, u32)]| list.iter().map(posting).collect();
    Lists::new(&lists.iter().map(list).collect::<Vec<Vec<u32>>>())
}

/// The works, what is added, the plan, and the rows and the tally of the joined volume.
type Evening<'a> = (&'a str, Of<'a>, Of<'a>, u32, &'a [Row], &'a [&'a [u32]], u32);

#[test]
fn works_in_a_table() {
    let sample: Of = &[&[(1, 0), (1, 6)], &[(1, 2), (1, 8), (2, 4)], &[(1, 5), (1, 7), (2, 9)]];
    let none: Of = &[&[], &[], &[]];
    let ordered = two(&[before(0, 1)]);
    // Two documents that lie side by side, with words at the last position and at the first.
    let edge: Of = &[&[(7, 0)], &[(7, 65_535)], &[(7, 65_534)]];
    let front: Of = &[&[(0, 1)], &[(0, 1)], &[(0, 0)]];
    let rows: &[Evening] = &[
        (
            "the sample twice, by its plan",
            sample,
            sample,
            2,
            &SAMPLE,
            &[&[1, 1, 2, 0, 5, 0], &[3, 1, 2, 0, 5, 0]],
            12,
        ),
        (
            "the sample twice",
            sample,
            sample,
            2,
            &ordered,
            &[
                &[1, 1, 2, 0, 5, 0],
                &[2, 1, 4, NO_START, 9, NO_START],
                &[3, 1, 2, 0, 5, 0],
                &[4, 1, 4, NO_START, 9, NO_START],
            ],
            12,
        ),
        (
            "rows of the first alone",
            sample,
            none,
            9,
            &ordered,
            &[&[1, 1, 2, 0, 5, 0], &[2, 1, 4, NO_START, 9, NO_START]],
            6,
        ),
        (
            "rows of the second alone",
            none,
            sample,
            0,
            &ordered,
            &[&[1, 1, 2, 0, 5, 0], &[2, 1, 4, NO_START, 9, NO_START]],
            6,
        ),
        ("no rows", none, none, u32::MAX, &ordered, &[], 0),
        (
            "the last documents",
            sample,
            sample,
            65_533,
            &two(&[near(0, 1, 0)]),
            &[&[1, 1, 8, 6, 7, 6], &[65_534, 1, 8, 6, 7, 6]],
            12,
        ),
        (
            "FIRST NOT SECOND",
            sample,
            sample,
            100,
            &[&two(&[before(0, 1)])[..], &two(&[near(0, 1, 0)]), &[FIRST_NOT_SECOND]].concat(),
            &[
                &[2, 1, 4, NO_START, 9, NO_START, 0, 0, 0, 0, 0],
                &[102, 1, 4, NO_START, 9, NO_START, 0, 0, 0, 0, 0],
            ],
            24,
        ),
        // 7:65,535 and 8:0 are neighbours as numbers, and in no document.
        (
            "no NEAR from work to work",
            edge,
            front,
            8,
            &two(&[near(0, 1, 0)]),
            &[&[7, 1, 65_535, 0, 65_534, 0], &[8, 1, 1, 1, 0, NO_START]],
            4,
        ),
        ("no BEFORE from work to work", edge, front, 8, &two(&[before(0, 1)]), &[], 4),
        // The first work's title ends with its document: 8:0 stands before a title, 8:1 in one.
        (
            "no title from work to work",
            edge,
            front,
            8,
            &[voice(2), same_title(0, 0), END],
            &[&[7, 1, 65_534, 0]],
            2,
        ),
        (
            "the second work's own titles",
            edge,
            front,
            8,
            &[voice(1), same_title(0, 0), END],
            &[&[7, 1, 65_535, 0], &[8, 1, 1, 1]],
            2,
        ),
        (
            "EITHER, a list in each work alone",
            &[&[], &[(3, 3)], &[]],
            &[&[], &[], &[(3, 4)]],
            1,
            &[voice(1), END, voice(2), END, EITHER],
            &[&[3, 1, 3, NO_START, 0, 0, 0], &[4, 0, 0, 0, 1, 4, NO_START]],
            2,
        ),
        (
            "BOTH, a list in each work alone",
            &[&[], &[(3, 3)], &[]],
            &[&[], &[], &[(3, 4)]],
            1,
            &[voice(1), END, voice(2), END, BOTH],
            &[],
            2,
        ),
        // Each work has two of three lists, but not in each of its documents.
        (
            "AT LEAST 2 of 3, a list in each work alone",
            &[&[(3, 4)], &[(2, 1), (3, 3)], &[(3, 5)], &[]],
            &[&[], &[], &[(0, 4), (1, 4)], &[(0, 9)]],
            4,
            &[voice(1), END, voice(2), END, voice(3), END, at_least(2, 3)],
            &[
                &[3, 1, 3, NO_START, 1, 5, 4, 0, 0, 0],
                &[4, 0, 0, 0, 1, 4, NO_START, 1, 9, NO_START],
            ],
            6,
        ),
        (
            "AT LEAST 1 of 2, beside AT LEAST 2 of 2",
            &[&[], &[(2, 1), (3, 3)], &[(3, 5)], &[]],
            &[&[], &[], &[(0, 4), (1, 4)], &[(0, 9)]],
            4,
            &[voice(1), END, voice(2), END, voice(3), END, at_least(2, 2), at_least(1, 2)],
            &[
                &[2, 1, 1, NO_START, 0, 0, 0, 0, 0, 0],
                &[3, 1, 3, NO_START, 1, 5, NO_START, 0, 0, 0],
                &[4, 0, 0, 0, 1, 4, NO_START, 1, 9, NO_START],
            ],
            6,
        ),
    ];
    let (mut rng, mut trial, mut met) = (Rng::new(7), Trial::default(), Met::default());
    for &(name, first, second, raise, rows, expected, tally) in rows {
        trial.case = name.to_string();
        let bill = Bill { first: lists(first), second: lists(second), raise };
        let works = Works { bill, rows: rows.to_vec() };
        for _ in 0..4 {
            let answer = search_works(&mut rng, &mut trial, &mut met, &works);
            let expected: Vec<Vec<u32>> = expected.iter().map(|row| row.to_vec()).collect();
            assert_eq!(answer, (expected, tally), "{name}");
        }
    }
}

/// A buffer that the rows of the first work fill: MORE names the second's first row, raised, and a
/// call from there lists the second work as if it were alone.
#[test]
fn more_between_the_works() {
    let mut trial = Trial::default();
    let volume = sample().volume();
    for raise in [2, 3, 1_000, 65_533] {
        trial.case = format!("raise {raise}");
        let joined = trial.join(&volume, &volume, raise, 512).unwrap();
        let subject = Subject::new(&joined, &two(&[before(0, 1)]).concat());
        let (words, first) = trial.list_rows(&subject, 0, 12).unwrap();
        assert_eq!(words, [1, 1, 2, 0, 5, 0, 2, 1, 4, NO_START, 9, NO_START]);
        assert_eq!((first.tally, first.more), (6, Some(1 + raise)));
        for start in [3, 1 + raise] {
            let (words, second) = trial.list_rows(&subject, start, 12).unwrap();
            let told = [1 + raise, 1, 2, 5, 2 + raise, 1, 4, 9];
            assert_eq!(words, subject.with_starts(&told), "from {start}");
            assert_eq!((second.tally, second.more), (6, None), "from {start}");
        }
    }
}

#[test]
fn random_works_searched() {
    let seed = 7_007;
    let mut rng = Rng::new(seed);
    let mut trial = Trial::default();
    let mut met = Met::default();
    for round in 0..800 {
        let works = random_works(&mut rng, 20_000);
        trial.case = format!("seed {seed}, round {round}, {:?}", works.rows);
        let (rows, _) = search_works(&mut rng, &mut trial, &mut met, &works);

        // All tuples of a document of either work are those of the joined volume's document.
        let [first, second] = works.bill.volumes();
        let joined = trial.join(&first, &second, works.bill.raise, works.bill.room()).unwrap();
        let plan = works.rows.concat();
        let joined = Subject::new(&joined, &plan);
        let docs: Vec<u32> = rows.iter().map(|row| row[0]).chain(joined.docs()).collect();
        if docs.is_empty() {
            continue;
        }
        let doc = rng.pick(&docs);
        let of_first = Subject::new(&first, &plan);
        let (work, in_work) = match of_first.docs().contains(&doc) {
            true => (of_first, doc),
            false => (Subject::new(&second, &plan), doc - works.bill.raise),
        };
        let tuples = trial.enumerate(&joined, 0, doc, 24);
        assert_eq!(trial.enumerate(&work, 0, in_work, 24), tuples, "{}", trial.case);
        met.count("tuples", tuples.len());
        let is_some = works.rows.iter().any(|row| row[0] == lihambozy::kind::AT_LEAST);
        met.count("works: rows of AT LEAST", if is_some { rows.len() } else { 0 });
    }
    met.assert_at_least(&[
        ("works: searched", 800),
        ("works: rows", 1_500),
        ("works: rows of both", 150),
        ("works: rows of AT LEAST", 300),
        ("works: more", 1_000),
        ("tuples", 800),
    ]);
    trial.assert_met(Call::Plan, 2_400, &[0]);
}

/// A plan is accepted over all three volumes or over none. Where it is refused, the refusal is the
/// same, also as that of a listing.
#[test]
fn plans_refused_alike() {
    let seed = 7_008;
    let mut rng = Rng::new(seed);
    let mut trial = Trial::default();
    let mut accepted = 0;
    for round in 0..800 {
        let works = random_works(&mut rng, 20_000);
        let lists = works.bill.first.counts.len();
        let mut rows = works.rows.clone();
        let plan = match rng.below(4) {
            0 => {
                let changes = 1 + rng.below(3);
                spoiled_plan(&mut rng, lists, changes)
            }
            1 => nonsense_plan(&mut rng, lists),
            _ => {
                spoil(&mut rng, &mut rows, lists);
                rows.concat()
            }
        };
        trial.case = format!("seed {seed}, round {round}, {plan:?}");
        let [first, second] = works.bill.volumes();
        let joined = trial.join(&first, &second, works.bill.raise, works.bill.room()).unwrap();
        let volumes = [first, second, joined];
        let answers = volumes.each_ref().map(|volume| trial.plan(volume, &plan));
        assert_eq!(answers, [answers[0]; 3], "{}", trial.case);
        if answers[0].is_ok() {
            accepted += 1;
            continue;
        }
        for volume in &volumes {
            let subject = Subject::new(volume, &plan);
            let listed = trial.list_rows(&subject, 0, 120).map(|_| ());
            assert_eq!(listed, answers[0].map(|_| ()), "{}", trial.case);
        }
    }
    trial.assert_met(Call::Plan, 10, &[0, 9, 10, 11, 12, 13, 14]);
    assert!(accepted > 100, "{accepted} plans are accepted");
}
