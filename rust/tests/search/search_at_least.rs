//! AT LEAST in searches: all sets of answers under all its numbers, AT LEAST of AT LEAST and beside
//! operators, what it is the same as, the widest rows, and tuples and tests in a plan with it.

use crate::support::plans::*;
use crate::support::searches::*;
use crate::support::*;

/// The patterns that are found in a document, as bits.
type Found = u32;

/// How a pattern is not found.
#[derive(Clone, Copy, Debug)]
enum Missing {
    /// Its one variable has no position there.
    Absent,
    /// Its two variables have positions there, and its predicate never holds.
    Missed,
}

/// So many patterns, over documents in which each set of them is found, one document for a set. The
/// sets come in their order, or turned around, so that each list starts late or runs out early.
struct Sets {
    patterns: usize,
    missing: Missing,
    /// The document of the empty set, and that of the full one.
    docs: [u32; 2],
}

impl Sets {
    fn all(patterns: usize) -> Vec<Sets> {
        let last = (1 << patterns) - 1;
        let mut all = vec![];
        for missing in [Missing::Absent, Missing::Missed] {
            for docs in [[0, last], [65_535, 65_535 - last]] {
                all.push(Sets { patterns, missing, docs });
            }
        }
        all
    }

    /// The set of a document.
    fn found(&self, doc: u32) -> Found {
        doc.abs_diff(self.docs[0])
    }

    /// All documents, rising.
    fn docs(&self) -> Vec<u32> {
        let [one, other] = self.docs;
        (one.min(other)..=one.max(other)).collect()
    }

    fn volume(&self) -> Vec<u8> {
        let mut lists = vec![vec![]];
        for pattern in 0..self.patterns {
            let posting = |doc: u32| doc * 65_536 + pattern as u32;
            let is_found = |doc: &u32| self.found(*doc) >> pattern & 1 == 1;
            let docs = self.docs();
            match self.missing {
                Missing::Absent => {
                    lists.push(docs.into_iter().filter(is_found).map(posting).collect());
                }
                Missing::Missed => {
                    // The second variable stands behind the first, or where it is.
                    let second = |&doc: &u32| posting(doc) + u32::from(is_found(&doc));
                    lists.push(docs.iter().map(|&doc| posting(doc)).collect());
                    lists.push(docs.iter().map(second).collect());
                }
            }
        }
        Lists::new(&lists).volume()
    }

    /// The rows of a pattern.
    fn pattern(&self, pattern: usize) -> Vec<Row> {
        let pattern = pattern as u32;
        match self.missing {
            Missing::Absent => vec![voice(1 + pattern), END],
            Missing::Missed => {
                vec![voice(1 + 2 * pattern), voice(2 + 2 * pattern), before(0, 1), END]
            }
        }
    }

    /// The words of the documents in which this holds of the set, and the tally of all.
    fn listing(&self, holds: impl Fn(Found) -> bool) -> (Vec<u32>, u32) {
        let mut words = vec![];
        for doc in self.docs() {
            let found = self.found(doc);
            if !holds(found) {
                continue;
            }
            words.push(doc);
            for pattern in 0..self.patterns {
                let pos = pattern as u32;
                match (found >> pattern & 1, self.missing) {
                    (1, Missing::Absent) => words.extend([1, pos, NO_START]),
                    (1, Missing::Missed) => words.extend([1, pos, NO_START, pos + 1, NO_START]),
                    (_, Missing::Absent) => words.extend([0; 3]),
                    (_, Missing::Missed) => words.extend([0; 5]),
                }
            }
        }
        let sets = 1u32 << self.patterns;
        let tally = match self.missing {
            Missing::Absent => self.patterns as u32 * sets / 2,
            Missing::Missed => self.patterns as u32 * sets * 2,
        };
        (words, tally)
    }

    /// Over every kind of volume the plan lists the documents in which this holds of the set.
    /// `rows` makes the plan of its patterns' rows.
    #[track_caller]
    fn lists(
        trial: &mut Trial,
        patterns: usize,
        rows: impl Fn(&[Vec<Row>]) -> Vec<Row>,
        holds: impl Fn(Found) -> bool,
    ) {
        for sets in Sets::all(patterns) {
            let of_patterns: Vec<Vec<Row>> = (0..patterns).map(|i| sets.pattern(i)).collect();
            let rows = rows(&of_patterns);
            trial.case = format!("{:?}, {rows:?}", sets.missing);
            let subject = Subject::new(&sets.volume(), &rows.concat());
            let listing = sets.listing(&holds);
            let width = subject.width();
            for room in [1_000 * width, width, 7 * width + width / 2] {
                assert_eq!(trial.search(&subject, room), listing, "{}", trial.case);
            }
        }
    }
}

/// How many of the patterns from one to another, which is not counted, are found.
fn count(found: Found, from: u32, to: u32) -> u32 {
    (from..to).filter(|i| found >> i & 1 == 1).count() as u32
}

/// All sets of two to eight answers, under all numbers.
#[test]
fn all_sets_of_answers() {
    let mut trial = Trial::default();
    for of in 2..=8 {
        for least in 1..=of {
            Sets::lists(
                &mut trial,
                of as usize,
                |patterns| [patterns.concat(), vec![at_least(least, of)]].concat(),
                |found| count(found, 0, of) >= least,
            );
        }
    }
}

/// AT LEAST takes the top answers, and those below stay.
#[test]
fn the_top_answers() {
    let mut trial = Trial::default();
    for patterns in 3..=8 {
        for of in 2..patterns {
            let least = 1 + (patterns + of) % of;
            let below = patterns - of;
            for (operator, answer) in [
                (BOTH, (|below: &[bool], top| below.iter().all(|&yes| yes) && top) as Answer),
                (EITHER, |below, top| below.iter().any(|&yes| yes) || top),
                (FIRST_NOT_SECOND, |below, top| {
                    // Each takes the two on top, so that the last one is taken from the one below.
                    below.iter().rev().fold(top, |second, &first| first && !second)
                }),
            ] {
                Sets::lists(
                    &mut trial,
                    patterns as usize,
                    |rows| {
                        let joins = vec![operator; below as usize];
                        [rows.concat(), vec![at_least(least, of)], joins].concat()
                    },
                    |found| {
                        let of_below: Vec<bool> = (0..below).map(|i| found >> i & 1 == 1).collect();
                        answer(&of_below, count(found, below, patterns) >= least)
                    },
                );
            }
        }
    }
}

/// What the answers below and the one on top make together.
type Answer = fn(&[bool], bool) -> bool;

/// AT LEAST of AT LEAST, and operators inside it and around it, over all sets of eight answers.
#[test]
fn nested() {
    let bit = |found: Found, pattern: u32| found >> pattern & 1;
    let mut trial = Trial::default();
    let two = |one: u32, other: u32| u32::from(one + other >= 2);
    // The rows behind each pattern, and whether a set of patterns makes the plan true.
    type Nested<'a> = (&'a str, [&'a [Row]; 8], &'a dyn Fn(Found) -> bool);
    let rows: &[Nested] = &[
        (
            "the first of four",
            [&[], &[], &[at_least(2, 3)], &[], &[], &[], &[], &[at_least(3, 6)]],
            &|found| u32::from(count(found, 0, 3) >= 2) + count(found, 3, 8) >= 3,
        ),
        (
            "the last of four",
            [&[], &[], &[], &[], &[], &[], &[], &[at_least(4, 5), at_least(2, 4)]],
            &|found| count(found, 0, 3) + u32::from(count(found, 3, 8) >= 4) >= 2,
        ),
        (
            "each of three",
            [&[], &[at_least(1, 2)], &[], &[], &[at_least(2, 3)], &[], &[], {
                &[at_least(3, 3), at_least(2, 3)]
            }],
            &|found| {
                let first = u32::from(count(found, 0, 2) >= 1);
                let second = u32::from(count(found, 2, 5) >= 2);
                let third = u32::from(count(found, 5, 8) >= 3);
                first + second + third >= 2
            },
        ),
        (
            "seven, one in the other",
            [&[], &[], &[], &[], &[], &[], &[], &[at_least(2, 2); 7]],
            &|found| found == 255,
        ),
        (
            "by turns",
            [
                &[],
                &[at_least(1, 2)],
                &[at_least(2, 2)],
                &[at_least(1, 2)],
                &[at_least(2, 2)],
                &[at_least(1, 2)],
                &[at_least(2, 2)],
                &[at_least(1, 2)],
            ],
            &|found| {
                let turns = (1..8).fold(bit(found, 0), |before, i| match i % 2 {
                    1 => before | bit(found, i),
                    _ => before & bit(found, i),
                });
                turns == 1
            },
        ),
        (
            "of operators",
            [&[], &[BOTH], &[], &[EITHER], &[], &[FIRST_NOT_SECOND], &[], &[BOTH, at_least(2, 4)]],
            &|found| {
                let both = bit(found, 0) & bit(found, 1);
                let either = bit(found, 2) | bit(found, 3);
                let not = bit(found, 4) & !bit(found, 5);
                both + either + not + (bit(found, 6) & bit(found, 7)) >= 2
            },
        ),
        (
            "the second side of FIRST NOT SECOND",
            [&[], &[], &[], &[], &[], &[], &[], &[at_least(3, 7), FIRST_NOT_SECOND]],
            &|found| bit(found, 0) == 1 && count(found, 1, 8) < 3,
        ),
        (
            "the first side of FIRST NOT SECOND",
            [&[], &[], &[], &[], &[], &[], &[at_least(3, 7)], &[FIRST_NOT_SECOND]],
            &|found| count(found, 0, 7) >= 3 && bit(found, 7) == 0,
        ),
        (
            "both sides of FIRST NOT SECOND",
            [&[], &[], &[], &[at_least(2, 4)], &[], &[], &[], {
                &[at_least(2, 4), FIRST_NOT_SECOND]
            }],
            &|found| count(found, 0, 4) >= 2 && count(found, 4, 8) < 2,
        ),
        (
            "FIRST NOT SECOND of it, counted",
            [
                &[],
                &[],
                &[at_least(2, 2), FIRST_NOT_SECOND],
                &[],
                &[],
                &[at_least(1, 2), FIRST_NOT_SECOND],
                &[],
                &[at_least(2, 4)],
            ],
            &|found| {
                let one = bit(found, 0) & !two(bit(found, 1), bit(found, 2));
                let other = bit(found, 3) & !(bit(found, 4) | bit(found, 5));
                one + other + bit(found, 6) + bit(found, 7) >= 2
            },
        ),
    ];
    for (name, joins, holds) in rows {
        let plan = |patterns: &[Vec<Row>]| {
            let behind = patterns.iter().zip(joins);
            behind.flat_map(|(rows, joins)| [&rows[..], joins].concat()).collect()
        };
        let listed = trial.listed;
        Sets::lists(&mut trial, 8, plan, holds);
        assert!(trial.listed > listed, "{name} lists no document");
    }
}

/// The answer and the buffer of a call are the same for two plans of as many words, from any start
/// and into any buffer.
#[track_caller]
fn same_calls(rng: &mut Rng, trial: &mut Trial, one: &Subject, other: &Subject) {
    assert_eq!(one.width(), other.width(), "{}", trial.case);
    let docs: Vec<u32> = one.docs().into_iter().chain([0, 65_535]).collect();
    for _ in 0..4 {
        let start = rng.pick(&docs).saturating_add_signed(rng.pick(&[-1, 0, 0, 1]));
        let room = random_room(rng, one.width());
        let calls = [one, other].map(|subject| trial.list_rows(subject, start, room));
        assert_eq!(calls[0], calls[1], "{}: from {start} into {room}", trial.case);
    }
    let searches = [one, other].map(|subject| trial.listing(subject));
    assert_eq!(searches[0], searches[1], "{}", trial.case);
}

/// A random volume, and the rows of so many patterns that are often found in it.
fn random_patterns(rng: &mut Rng, count: usize) -> (Vec<u8>, Vec<Vec<Row>>) {
    let archive = random_archive(rng, 3);
    let mut pattern = || {
        let vars = 1 + rng.below(if count < 5 { 3 } else { 2 });
        let mut rows: Vec<Row> = (0..vars).map(|_| voice(rng.pick(&archive.named))).collect();
        rows.extend((0..rng.pick(&[0, 0, 1])).map(|_| small_predicate(rng, vars)));
        rows.push(END);
        rows
    };
    let patterns = (0..count).map(|_| pattern()).collect();
    (archive.lists.volume(), patterns)
}

/// AT LEAST 1 is EITHER of all, and AT LEAST b of b is BOTH of all: the same rows are listed, call
/// by call.
#[test]
fn of_one_and_of_all() {
    let seed = 9_001;
    let mut rng = Rng::new(seed);
    let mut trial = Trial::default();
    for count in 2..=8 {
        let mut rows = [0; 2];
        for round in 0..60 {
            let (volume, patterns) = random_patterns(&mut rng, count as usize);
            let with = |joins: Vec<Row>| {
                Subject::new(&volume, &[patterns.concat(), joins].concat().concat())
            };
            for (i, (least, operator)) in [(1, EITHER), (count, BOTH)].into_iter().enumerate() {
                trial.case = format!("seed {seed}, {count} patterns, round {round}, {least}");
                let some = with(vec![at_least(least, count)]);
                let joined = with(vec![operator; count as usize - 1]);
                same_calls(&mut rng, &mut trial, &some, &joined);
                rows[i] += some.searcher().rows.len();
            }
        }
        assert!(rows[0] > 100 && rows[1] > 10, "{count}: {rows:?}");
    }
}

/// AT LEAST 2 of 3 is EITHER of BOTH of each two: the same documents, also in place of an answer
/// below.
#[test]
fn two_of_three() {
    let seed = 9_002;
    let mut rng = Rng::new(seed);
    let mut trial = Trial::default();
    let (mut listed, mut missed) = (0, 0);
    for round in 0..300 {
        let (volume, patterns) = random_patterns(&mut rng, 4);
        let [a, b, c, d] = [0, 1, 2, 3].map(|i| &patterns[i][..]);
        trial.case = format!("seed {seed}, round {round}");
        for (front, behind) in [(&[][..], &[][..]), (d, &[BOTH]), (d, &[FIRST_NOT_SECOND])] {
            let some = [front, a, b, c, &[at_least(2, 3)], behind].concat();
            let both = [&[BOTH][..], &[BOTH, EITHER], &[BOTH, EITHER]];
            let pairs = [a, b, both[0], b, c, both[1], a, c, both[2]].concat();
            let pairs = [front, &pairs, behind].concat();
            let [some, pairs] = [some, pairs].map(|rows| {
                let subject = Subject::new(&volume, &rows.concat());
                let width = subject.width();
                let (words, _) = trial.search(&subject, 40 * width);
                words.chunks(width).map(|row| row[0]).collect::<Vec<u32>>()
            });
            assert_eq!(some, pairs, "{}", trial.case);
            listed += some.len();
            missed += Subject::new(&volume, &a.concat()).docs().len() - some.len();
        }
    }
    assert!(listed > 500 && missed > 500, "{listed} {missed}");
}

/// The order of what is counted does not matter: the same documents and the same tally, and each
/// pattern's words in its new place.
#[test]
fn patterns_in_another_order() {
    let seed = 9_003;
    let mut rng = Rng::new(seed);
    let mut trial = Trial::default();
    let mut listed = 0;
    for round in 0..300 {
        let count = 2 + rng.below(7);
        let (volume, patterns) = random_patterns(&mut rng, count);
        let order = orders::random_order(&mut rng, count);
        let least = at_least(1 + rng.below(count) as u32, count as u32);
        trial.case = format!("seed {seed}, round {round}, {order:?}");
        let moved: Vec<Vec<Row>> = order.iter().map(|&old| patterns[old].clone()).collect();
        let [one, other] = [&patterns, &moved].map(|patterns| {
            Subject::new(&volume, &[&patterns.concat()[..], &[least]].concat().concat())
        });
        let [(rows, tally), (moved, tally_moved)] = [&one, &other].map(|s| trial.listing(s));
        assert_eq!(tally, tally_moved, "{}", trial.case);
        let shown = |subject: &Subject, words: &[u32]| -> Vec<_> {
            let rows = words.chunks(subject.width());
            rows.map(|row| (row[0], subject.searcher().shown(row))).collect()
        };
        let (rows, moved) = (shown(&one, &rows), shown(&other, &moved));
        assert_eq!(rows.len(), moved.len(), "{}", trial.case);
        for ((doc, shown), (moved_doc, moved)) in rows.iter().zip(moved) {
            let expected: Vec<_> = order.iter().map(|&old| shown[old].clone()).collect();
            assert_eq!((*doc, expected), (moved_doc, moved), "{}", trial.case);
            listed += 1;
        }
    }
    assert!(listed > 500, "{listed}");
}

/// With a greater number the documents are some of those before, with the same words, and the tally
/// is the same.
#[test]
fn greater_numbers() {
    let seed = 9_004;
    let mut rng = Rng::new(seed);
    let mut trial = Trial::default();
    let (mut kept, mut lost) = (0, 0);
    for round in 0..200 {
        let count = 2 + rng.below(7);
        let (volume, patterns) = random_patterns(&mut rng, count);
        trial.case = format!("seed {seed}, round {round}");
        let mut before: Option<(Vec<Vec<u32>>, u32)> = None;
        for least in 1..=count as u32 {
            let rows = [&patterns.concat()[..], &[at_least(least, count as u32)]].concat();
            let subject = Subject::new(&volume, &rows.concat());
            let width = subject.width();
            let (words, tally) = trial.search(&subject, 40 * width);
            let rows: Vec<Vec<u32>> = words.chunks(width).map(<[u32]>::to_vec).collect();
            if let Some((wider, tally_before)) = &before {
                assert_eq!(tally, *tally_before, "{}", trial.case);
                let flags = |row: &Vec<u32>| {
                    subject.searcher().shown(row).iter().filter(|shown| shown.is_some()).count()
                };
                let expected = wider.iter().filter(|row| flags(row) >= least as usize);
                assert!(rows.iter().eq(expected), "{}: {least} of {count}", trial.case);
                kept += rows.len();
                lost += wider.len() - rows.len();
            }
            before = Some((rows, tally));
        }
    }
    assert!(kept > 300 && lost > 300, "{kept} {lost}");
}

/// The most variables, of 7 patterns and of 8, under every number: 56 and rows of 120 words, 55 and
/// rows of 119. A buffer of one word less is refused with 16.
#[test]
fn the_widest_rows() {
    let mut trial = Trial::default();
    let sizes: [(&[u32], usize); 4] = [
        (&[8; 7], 120),
        (&[8, 8, 8, 8, 8, 8, 6, 1], 119),
        (&[1, 6, 8, 8, 8, 8, 8, 8], 119),
        (&[7, 7, 7, 7, 7, 7, 7, 6], 119),
    ];
    for (sizes, width) in sizes {
        let vars: u32 = sizes.iter().sum();
        let of = sizes.len() as u32;
        // The first variable of each pattern. In document i the patterns from i on are found, and
        // of the one before them all variables but the last have a position.
        let firsts: Vec<u32> = (0..sizes.len()).map(|i| sizes[..i].iter().sum::<u32>()).collect();
        let pattern = |var: u32| firsts.iter().rposition(|&first| first <= var).unwrap() as u32;
        let is_last = |var: u32| var + 1 == vars || firsts.contains(&(var + 1));
        let mut lists = vec![vec![(2, 100), (3, 130)]];
        for var in 0..vars {
            let is_there =
                |doc: &u32| pattern(var) >= *doc || pattern(var) + 1 == *doc && !is_last(var);
            lists.push((0..=of).filter(is_there).map(|doc| (doc, 100 + var)).collect());
        }
        let lists: Vec<&[(u32, u32)]> = lists.iter().map(Vec::as_slice).collect();
        let start = |doc: u32, var: u32| match doc {
            2 => 100,
            3 if var >= 30 => 130,
            _ => NO_START,
        };
        for least in 1..=of {
            let mut rows = vec![];
            for (&first, &size) in firsts.iter().zip(sizes) {
                rows.extend((first..first + size).map(|var| voice(1 + var)));
                rows.push(END);
            }
            rows.push(at_least(least, of));
            assert_eq!(rows.len(), 64);
            trial.case = format!("{least} of {sizes:?}");
            let mut expected = vec![];
            for doc in 0..=of - least {
                expected.push(doc);
                for (i, (&first, &size)) in (0..).zip(firsts.iter().zip(sizes)) {
                    expected.push(u32::from(i >= doc));
                    expected.extend((first..first + size).flat_map(|var| {
                        if i >= doc {
                            [100 + var, start(doc, var)]
                        } else {
                            [0, 0]
                        }
                    }));
                }
            }
            let subject = Subject::over(&lists, &rows);
            assert_eq!(subject.width(), width, "{}", trial.case);
            assert_eq!(trial.listing(&subject).0, expected, "{}", trial.case);
            for (room, fit) in [(0, 0), (width - 1, 0), (width, 1), (2 * width - 1, 1)] {
                let answer = trial.list_rows(&subject, 0, room).map(|(words, _)| words);
                let expected = match fit {
                    0 => Err((16, 0)),
                    _ => Ok(expected[..fit * width].to_vec()),
                };
                assert_eq!(answer, expected, "{}: {room} words", trial.case);
            }
        }
    }
}

/// All tuples and tests of a pattern are those that it has alone, whether its document is true or
/// not and whether the pattern is counted or not.
#[test]
fn tuples_and_tests_of_a_pattern() {
    let seed = 9_005;
    let mut rng = Rng::new(seed);
    let mut trial = Trial::default();
    let (mut tuples, mut untrue) = (0, 0);
    for round in 0..120 {
        let count = 2 + rng.below(7);
        let (volume, patterns) = random_patterns(&mut rng, count);
        let least = 1 + rng.below(count) as u32;
        let rows = [&patterns.concat()[..], &[at_least(least, count as u32)]].concat();
        let subject = Subject::new(&volume, &rows.concat());
        trial.case = format!("seed {seed}, round {round}, {rows:?}");
        let true_docs: Vec<u32> = subject.searcher().rows.iter().map(|row| row[0]).collect();
        for (number, pattern) in (0..).zip(&patterns) {
            let alone = Subject::new(&volume, &pattern.concat());
            for doc in subject.docs().into_iter().take(5) {
                let room = subject.vars(number) * (1 + rng.below(4));
                let all = trial.enumerate(&subject, number, doc, room);
                assert_eq!(trial.enumerate(&alone, 0, doc, room), all, "{}", trial.case);
                for tuple in all.iter().take(3) {
                    let tests = [(&subject, number), (&alone, 0)]
                        .map(|(subject, number)| trial.test(subject, number, doc, tuple));
                    assert_eq!(tests, [Ok(true); 2], "{}", trial.case);
                }
                tuples += all.len();
                untrue += if true_docs.contains(&doc) { 0 } else { all.len() };
            }
        }
        let none = trial.match_page(&subject, count as u32, 0, &[0], 9);
        assert_eq!(none, Err((17, 0)), "{}", trial.case);
    }
    assert!(tuples > 1_000 && untrue > 100, "{tuples} {untrue}");
}
