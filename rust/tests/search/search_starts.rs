//! Title starts beside the positions of a row (request N8 of document 02): tables of edges, rows of
//! every shape, buffers and pages of every length, long lists of starts, what must hold between the
//! starts that a row shows and SAME TITLE, and random volumes beside the naive searcher. Each test
//! tells what mistakes it catches.

use crate::support::matches::*;
use crate::support::plans::*;
use crate::support::searches::*;
use crate::support::*;
use lihambozy::calls::{list, list_matches, Listing, Next};

/// The listing has exactly these words, in pages of every sort.
#[track_caller]
fn shows(trial: &mut Trial, lists: &[&[(u32, u32)]], rows: &[Row], words: &[u32]) {
    let subject = Subject::over(lists, rows);
    assert_eq!(trial.listing(&subject).0, words, "{}: {rows:?}", trial.case);
}

/// The last of the starts that is not above the position.
fn last_start(starts: &[u32], pos: u32) -> u32 {
    starts.iter().rev().find(|&&start| start <= pos).copied().unwrap_or(NO_START)
}

/// "The sample's line reads `scene 1 1 2 0 5 0`, its 4-word buffer now gets 16, and the row of 01's
/// FIRST NOT SECOND case becomes 2 1 4 65536 9 65536 0 0 0 0 0." Catches a row without starts or
/// with all of them behind its positions, a width of 1 + F + V or of 1 + 2 (F + V), and starts for
/// a pattern that is not found.
#[test]
fn the_examples_of_document_02() {
    let volume = sample().volume();
    let mut out = [7; 14];
    let listed = list(&volume, &SAMPLE.concat(), 0, &mut out);
    assert_eq!(listed, Ok(Listing { rows: 1, tally: 6, next: Next::Done }));
    assert_eq!(out, [1, 1, 2, 0, 5, 0, 7, 7, 7, 7, 7, 7, 7, 7]);

    for room in 0..6 {
        let mut out = [7; 14];
        let refused = list(&volume, &SAMPLE.concat(), 0, &mut out[..room]).map_err(pair);
        assert_eq!((refused, out), (Err((16, 0)), [7; 14]), "{room} words");
    }

    let not = [two(&[before(0, 1)]), two(&[near(0, 1, 0)]), vec![FIRST_NOT_SECOND]].concat();
    let listed = list(&volume, &not.concat(), 0, &mut out);
    assert_eq!(listed, Ok(Listing { rows: 1, tally: 12, next: Next::Done }));
    assert_eq!(out, [2, 1, 4, 65_536, 9, 65_536, 0, 0, 0, 0, 0, 7, 7, 7]);
    for room in 0..11 {
        let mut out = [7; 14];
        let refused = list(&volume, &not.concat(), 0, &mut out[..room]).map_err(pair);
        assert_eq!((refused, out), (Err((16, 0)), [7; 14]), "{room} words");
    }
}

/// The starts of a document, a position in it, and its title start. The documents beside it have no
/// starts, or starts at either end and at the same position; they have the word too or not. Catches
/// a start that is taken from another document, a comparison that is off by one at a start, the
/// first start or the next one in place of the greatest that is not above, a 0 or the position in
/// place of 65,536, 65,536 in 16 bits, and a number over 32 bits behind the last posting of all.
#[test]
fn starts_at_their_edges() {
    let rows: &[(Of, u32, u32)] = &[
        // no starts
        (&[], 0, NO_START),
        (&[], 7, NO_START),
        (&[], 65_535, NO_START),
        // at the position, right behind it, right in front of it
        (&[7], 7, 7),
        (&[8], 7, NO_START),
        (&[6], 7, 6),
        // before the first start
        (&[7], 0, NO_START),
        (&[1], 0, NO_START),
        (&[7, 20], 6, NO_START),
        (&[65_535], 65_534, NO_START),
        (&[65_535], 0, NO_START),
        // right before the next start, at it, behind it
        (&[3, 9], 3, 3),
        (&[3, 9], 8, 3),
        (&[3, 9], 9, 9),
        (&[3, 9], 10, 9),
        (&[3, 9, 11], 10, 9),
        (&[5, 6, 7], 5, 5),
        (&[5, 6, 7], 6, 6),
        (&[5, 6, 7], 7, 7),
        (&[5, 6, 7], 8, 7),
        // a start at 0
        (&[0], 0, 0),
        (&[0], 1, 0),
        (&[0], 65_535, 0),
        (&[0, 1], 0, 0),
        (&[0, 65_535], 65_534, 0),
        // a start at 65,535, and the position there
        (&[65_535], 65_535, 65_535),
        (&[0, 65_535], 65_535, 65_535),
        (&[65_534, 65_535], 65_535, 65_535),
        (&[65_534], 65_535, 65_534),
        // 8 and 15 bits
        (&[255, 257], 256, 255),
        (&[255, 256], 256, 256),
        (&[256], 255, NO_START),
        (&[32_767, 32_769], 32_768, 32_767),
        (&[32_768], 32_767, NO_START),
        // among many, with eight in front or behind, and seventeen
        (&[1, 2, 3, 4, 5, 6, 7, 8, 10], 9, 8),
        (&[1, 2, 3, 4, 5, 6, 7, 8], 9, 8),
        (&[10, 11, 12, 13, 14, 15, 16, 17], 9, NO_START),
        (&[9, 11, 12, 13, 14, 15, 16, 17, 18], 10, 9),
        (&[1, 2, 3, 4, 5, 6, 7, 8, 9, 10, 11, 12, 13, 14, 15, 16, 17], 17, 17),
        (&[1, 2, 3, 4, 5, 6, 7, 8, 9, 10, 11, 12, 13, 14, 15, 16, 18], 17, 16),
    ];
    let mut trial = Trial::default();
    for &(own, pos, start) in rows {
        for doc in DOCS {
            let beside = [doc.checked_sub(1), (doc < 65_535).then_some(doc + 1)];
            for (side, has_word) in (0..4).flat_map(|side| [false, true].map(|word| (side, word))) {
                let others: Vec<u32> =
                    (0..2).filter(|i| side >> i & 1 == 1).filter_map(|i| beside[i]).collect();
                let of_others = others.iter().flat_map(|&doc| [0, pos, 65_535].map(|p| (doc, p)));
                let starts = own.iter().map(|&start| (doc, start)).chain(of_others);
                let with_word = others.iter().filter(|_| has_word).chain([&doc]);
                let word = rising(with_word.map(|&doc| (doc, pos)).collect());
                let words: Vec<u32> = word
                    .iter()
                    .flat_map(|&(other, _)| [other, 1, pos, if other == doc { start } else { pos }])
                    .collect();
                trial.case = format!("{doc}:{pos}, starts {own:?}, beside {others:?} {has_word}");
                shows(&mut trial, &[&rising(starts.collect()), &word], &[voice(1), END], &words);
            }
        }
    }
}

/// Every set of starts among five positions, the first, the last or others, with each pair of
/// positions of two words: 800 documents, listed whole. Catches a cursor that is carried over into
/// the next document, or that goes wrong where the second position is in front of the first.
#[test]
fn every_small_document() {
    let mut trial = Trial::default();
    for first in [0, 9_000, 65_531] {
        let window: Vec<u32> = (first..first + 5).collect();
        let mut docs: Vec<(Vec<u32>, u32, u32)> = vec![];
        for (bits, p, q) in (0..32)
            .flat_map(|bits| window.iter().map(move |&p| (bits, p)))
            .flat_map(|(bits, p)| window.iter().map(move |&q| (bits, p, q)))
        {
            let starts = window.iter().filter(|&pos| bits >> (pos - first) & 1 == 1);
            docs.push((starts.copied().collect(), p, q));
        }
        let mut lists: [Vec<u32>; 3] = Default::default();
        for (doc, (starts, p, q)) in (0..).zip(&docs) {
            for (list, positions) in lists.iter_mut().zip([&starts[..], &[*p], &[*q]]) {
                list.extend(list_in(&[doc], positions));
            }
        }
        let volume = Lists::new(&lists).volume();
        // The list of each variable, with a gap between two patterns.
        for vars in [&[1][..], &[1, 2], &[2, 1], &[1, 2, 1, 2], &[2, 0, 1], &[2, 1, 0, 1, 2]] {
            let mut rows: Vec<Row> =
                vars.iter().map(|&list| if list == 0 { END } else { voice(list) }).collect();
            rows.push(END);
            rows.extend(vars.iter().filter(|&&list| list == 0).map(|_| BOTH));
            let mut words = vec![];
            for (doc, (starts, p, q)) in (0..).zip(&docs) {
                words.extend([doc, 1]);
                for &list in vars {
                    let pos = [0, *p, *q][list as usize];
                    match list {
                        0 => words.push(1),
                        _ => words.extend([pos, last_start(starts, pos)]),
                    }
                }
            }
            trial.case = format!("from {first}, {rows:?}");
            let subject = Subject::new(&volume, &rows.concat());
            let width = subject.width();
            for fit in [1_000, 7] {
                assert_eq!(trial.search(&subject, fit * width).0, words, "{}", trial.case);
            }
        }
    }
}

/// Variables whose positions fall from one to the next, in one pattern and from pattern to pattern,
/// with and without predicates that have moved them there. Catches one cursor for all variables,
/// which has passed the start of the next one, and starts in the order of the positions.
#[test]
fn positions_that_go_backwards_in_a_row() {
    let starts = [(7, 0), (7, 10), (7, 20), (7, 30), (8, 10), (9, 40)];
    let of = |positions: &[u32]| -> Vec<(u32, u32)> {
        [7, 8, 9].iter().flat_map(|&doc| positions.iter().map(move |&pos| (doc, pos))).collect()
    };
    let (late, early, middle, tenth) = (of(&[35]), of(&[5]), of(&[25]), of(&[10]));
    let both = of(&[5, 35]);
    let lists: [&[(u32, u32)]; 6] = [&starts, &late, &early, &middle, &tenth, &both];
    let n = NO_START;
    let mut trial = Trial::default();
    for (rows, words) in [
        (
            vec![voice(1), voice(2), END],
            &[7, 1, 35, 30, 5, 0, 8, 1, 35, 10, 5, n, 9, 1, 35, n, 5, n][..],
        ),
        (
            vec![voice(2), voice(1), END],
            &[7, 1, 5, 0, 35, 30, 8, 1, 5, n, 35, 10, 9, 1, 5, n, 35, n],
        ),
        (
            vec![voice(1), voice(3), voice(4), voice(2), END],
            &[
                7, 1, 35, 30, 25, 20, 10, 10, 5, 0, //
                8, 1, 35, 10, 25, 10, 10, 10, 5, n, //
                9, 1, 35, n, 25, n, 10, n, 5, n,
            ],
        ),
        (
            vec![voice(1), voice(3), voice(2), before(1, 0), before(2, 1), span(31), END],
            &[
                7, 1, 35, 30, 25, 20, 5, 0, //
                8, 1, 35, 10, 25, 10, 5, n, //
                9, 1, 35, n, 25, n, 5, n,
            ],
        ),
        // The first one has moved on before the second is shown.
        (
            vec![voice(5), voice(2), before(1, 0), END],
            &[7, 1, 35, 30, 5, 0, 8, 1, 35, 10, 5, n, 9, 1, 35, n, 5, n],
        ),
        // SAME TITLE looks for the start of the later one alone.
        (
            vec![voice(1), voice(2), voice(5), same_title(0, 2), END],
            &[7, 1, 35, 30, 5, 0, 35, 30, 8, 1, 35, 10, 5, n, 35, 10],
        ),
        (
            vec![voice(3), voice(4), same_title(0, 0), same_title(1, 1), END],
            &[7, 1, 25, 20, 10, 10, 8, 1, 25, 10, 10, 10],
        ),
        // From pattern to pattern.
        (
            vec![voice(1), END, voice(3), voice(2), END, BOTH, voice(4), END, EITHER],
            &[
                7, 1, 35, 30, 1, 25, 20, 5, 0, 1, 10, 10, //
                8, 1, 35, 10, 1, 25, 10, 5, n, 1, 10, 10, //
                9, 1, 35, n, 1, 25, n, 5, n, 1, 10, n,
            ],
        ),
    ] {
        shows(&mut trial, &lists, &rows, words);
    }

    // Eight variables, each in a title of its own, in every order of many.
    let mut rng = Rng::new(8_001);
    let starts: Vec<(u32, u32)> = (0..8).map(|i| (3, 100 * i + i)).collect();
    let words: Vec<[(u32, u32); 1]> = (0..8).map(|i| [(3, 100 * i + 50)]).collect();
    let lists: Vec<&[(u32, u32)]> =
        [&starts[..]].into_iter().chain(words.iter().map(|word| &word[..])).collect();
    for order in orders::many_orders(&mut rng, 8) {
        let vars: Vec<u32> = order.iter().map(|&var| var as u32).collect();
        let voices: Vec<Row> = vars.iter().map(|var| voice(1 + var)).collect();
        let pairs: Vec<u32> = vars.iter().flat_map(|i| [100 * i + 50, 101 * i]).collect();
        let row = [&[3, 1], &pairs[..]].concat();
        shows(&mut trial, &lists, &[&voices[..], &[END]].concat(), &row);
    }
}

/// One list under several variables of a pattern and of several patterns, which stand at different
/// positions of it. Catches a cursor for each list in place of one for each variable, and a start
/// that a variable takes from another one of the same list.
#[test]
fn one_list_under_several_variables() {
    let starts = [(1, 4), (1, 9), (6, 0), (6, 2)];
    let word = [(1, 3), (1, 4), (1, 9), (1, 12), (2, 5), (6, 1), (6, 2), (6, 3), (6, 4)];
    let lists: [&[(u32, u32)]; 2] = [&starts, &word];
    let v = voice(1);
    let n = NO_START;
    let mut trial = Trial::default();
    for (rows, words) in [
        (vec![v, v, END], &[1, 1, 3, n, 3, n, 2, 1, 5, n, 5, n, 6, 1, 1, 0, 1, 0][..]),
        (vec![v, v, before(0, 1), END], &[1, 1, 3, n, 4, 4, 6, 1, 1, 0, 2, 2]),
        (vec![v, v, before(1, 0), END], &[1, 1, 4, 4, 3, n, 6, 1, 2, 2, 1, 0]),
        (
            vec![v, v, v, v, before(3, 2), before(2, 1), before(1, 0), END],
            &[1, 1, 12, 9, 9, 9, 4, 4, 3, n, 6, 1, 4, 2, 3, 2, 2, 2, 1, 0],
        ),
        (vec![v, v, apart(1, 0, 6, 8), END], &[1, 1, 12, 9, 3, n]),
        (vec![v, v, apart(1, 0, 6, 7), END], &[1, 1, 12, 9, 4, 4]),
        (vec![v, v, before(1, 0), same_title(0, 1), END], &[1, 1, 12, 9, 9, 9, 6, 1, 3, 2, 2, 2]),
        (
            vec![v, v, before(1, 0), END, v, END, EITHER],
            &[
                1, 1, 4, 4, 3, n, 1, 3, n, //
                2, 0, 0, 0, 0, 0, 1, 5, n, //
                6, 1, 2, 2, 1, 0, 1, 1, 0,
            ],
        ),
        (
            vec![v, END, v, same_title(0, 0), END, EITHER],
            &[
                1, 1, 3, n, 1, 4, 4, //
                2, 1, 5, n, 0, 0, 0, //
                6, 1, 1, 0, 1, 1, 0,
            ],
        ),
    ] {
        shows(&mut trial, &lists, &rows, words);
    }
}

/// Eight patterns, found in every set of them: document d has list i + 1 exactly if bit i of d is
/// set. Each document has a start at 0, at the words or behind them, or none. Catches a start
/// beside a 0, be it 0's own start, 65,536, or what the pattern showed in a document before, a zero
/// that is not written, and the pairs of one pattern in the place of another's.
#[test]
fn unfound_patterns_stay_zeros() {
    let starts_of = |doc: u32| -> &[u32] { [&[][..], &[0], &[0, 30], &[200]][doc as usize % 4] };
    let has = |doc: u32, i: u32| doc >> i & 1 == 1;
    let pos = |doc: u32, i: u32| 10 * (7 - i) + doc % 9;
    let mut lists = vec![vec![]; 9];
    for doc in 0..256 {
        lists[0].extend(list_in(&[doc], starts_of(doc)));
        for i in (0..8).filter(|&i| has(doc, i)) {
            lists[1 + i as usize].push(doc * 65_536 + pos(doc, i));
        }
    }
    let volume = Lists::new(&lists).volume();
    let patterns: Vec<Row> = (1..=8).flat_map(|i| [voice(i), END]).collect();
    let mut trial = Trial::default();
    for (name, operators) in [
        ("EITHER", [EITHER; 7]),
        // All patterns but the first in the second side.
        ("FIRST NOT SECOND", [BOTH, BOTH, BOTH, BOTH, BOTH, BOTH, FIRST_NOT_SECOND]),
    ] {
        let is_true = |doc: u32| match name {
            "EITHER" => doc != 0,
            _ => has(doc, 0) && doc != 255,
        };
        let mut words = vec![];
        for doc in (0..256).filter(|&doc| is_true(doc)) {
            words.push(doc);
            for i in 0..8 {
                let pos = pos(doc, i);
                match has(doc, i) {
                    true => words.extend([1, pos, last_start(starts_of(doc), pos)]),
                    false => words.extend([0; 3]),
                }
            }
        }
        trial.case = name.to_string();
        let subject = Subject::new(&volume, &[&patterns[..], &operators].concat().concat());
        assert_eq!(subject.width(), 25);
        assert_eq!(trial.listing(&subject).0, words, "{name}");
    }

    // Patterns of several variables whose words all stand there, but not as the predicate says.
    let lists: [&[(u32, u32)]; 3] = [&[(4, 0), (5, 3)], &[(4, 2), (5, 9)], &[(4, 9), (5, 2)]];
    let turned = [two(&[before(0, 1)]), two(&[before(1, 0)]), vec![EITHER]].concat();
    let words = [
        4, 1, 2, 0, 9, 0, 0, 0, 0, 0, 0, //
        5, 0, 0, 0, 0, 0, 1, 9, 3, 2, NO_START,
    ];
    shows(&mut trial, &lists, &turned, &words);
    let titled = [two(&[]), two(&[same_title(0, 1)]), vec![EITHER]].concat();
    let words = [
        4, 1, 2, 0, 9, 0, 1, 2, 0, 9, 0, //
        5, 1, 9, 3, 2, NO_START, 0, 0, 0, 0, 0,
    ];
    shows(&mut trial, &lists, &titled, &words);
}

/// 56 variables in 7 patterns: 120 words. Every variable stands in a title of its own, and neither
/// positions nor starts are in the order of the variables. Catches a table of cursors that is
/// shorter than 56 or is shared by two patterns, a start at another variable's place, and a row
/// that is measured or written too short.
#[test]
fn the_widest_row() {
    let title = |var: u32| var * 25 % 56;
    let pos = |var: u32| 100 * title(var) + 60;
    // Document 20 has a start in front of each variable, document 21 one at each, and one in front
    // of all, document 22 none. In document 21 the patterns of odd number have no words.
    let starts_of = |doc: u32| -> Vec<u32> {
        match doc {
            20 => (0..56).map(|title| 101 * title).collect(),
            21 => [3].into_iter().chain((0..56).map(|title| 100 * title + 60)).collect(),
            _ => vec![],
        }
    };
    let is_found = |doc: u32, pattern: u32| doc != 21 || pattern.is_multiple_of(2);
    let docs = [20, 21, 22];
    let mut lists = vec![docs.iter().flat_map(|&doc| list_in(&[doc], &starts_of(doc))).collect()];
    let in_docs = |var: u32| docs.into_iter().filter(move |&doc| is_found(doc, var / 8));
    lists.extend((0..56).map(|var| in_docs(var).map(|doc| doc * 65_536 + pos(var)).collect()));
    let mut words = vec![];
    for doc in docs {
        words.push(doc);
        for (pattern, size) in (0..).zip(WIDEST) {
            words.push(u32::from(is_found(doc, pattern)));
            for var in 8 * pattern..8 * pattern + size {
                words.extend(match doc {
                    _ if !is_found(doc, pattern) => [0, 0],
                    20 => [pos(var), 101 * title(var)],
                    21 => [pos(var), pos(var)],
                    _ => [pos(var), NO_START],
                });
            }
        }
    }
    assert_eq!(words.len(), 360);
    let plan = widest_plan_on(|var| var + 1, 1).concat();
    let subject = Subject::new(&Lists::new::<Vec<u32>>(&lists).volume(), &plan);
    let mut trial = Trial::default();
    assert_eq!(trial.listing(&subject).0, words);
    for room in (0..=361).filter(|room| room % 12 < 3 || room % 120 > 117) {
        let answer = trial.list_rows(&subject, 0, room);
        match room / 120 {
            0 => assert_eq!(answer, Err((16, 0)), "{room}"),
            fit => {
                let (listed, answer) = answer.unwrap();
                assert_eq!(listed, words[..120 * fit], "{room}");
                assert_eq!(answer.more, docs.get(fit).copied(), "{room}");
            }
        }
    }

    // All on one list: the positions are the same, and each has its own cursor all the same.
    let word: Vec<u32> = docs.iter().map(|doc| doc * 65_536 + 777).collect();
    let plan = widest_plan_on(|_| 1, 7).concat();
    let subject = Subject::new(&Lists::new(&[&lists[0][..], &word]).volume(), &plan);
    let row = |doc: u32, start: u32| {
        let pairs = |vars: u32| [&[1][..], &[777, start].repeat(vars as usize)].concat();
        [vec![doc], WIDEST.iter().flat_map(|&vars| pairs(vars)).collect()].concat()
    };
    let words = [row(20, 707), row(21, 760), row(22, NO_START)].concat();
    assert_eq!(trial.listing(&subject).0, words);
}

/// Rows of every width in buffers of one row exactly, of one word less, and of several rows and
/// some words. Catches a word written where 16 is said or behind the last row, and a row that is
/// thought to fit where its last start does not.
#[test]
fn buffers_of_every_length() {
    const FILL: u32 = 0xabcd_1234;
    let starts = list_in(&[3, 5], &[1, 6]);
    let word = list_in(&[3, 4, 5], &[2, 7]);
    let volume = Lists::new(&[&starts, &word]).volume();
    for (patterns, vars) in (1..=7).flat_map(|patterns| (1..=7).map(move |vars| (patterns, vars))) {
        let pattern = [vec![voice(1); vars], vec![END]].concat();
        let plan = [pattern.repeat(patterns), vec![EITHER; patterns - 1]].concat().concat();
        let width = 1 + patterns * (1 + 2 * vars);
        let row = |doc: u32, start: u32| {
            let found = [vec![1], [2, start].repeat(vars)].concat();
            [vec![doc], found.repeat(patterns)].concat()
        };
        let rows = [row(3, 1), row(4, NO_START), row(5, 1)].concat();
        assert_eq!(rows.len(), 3 * width);
        for room in 0..=3 * width + 3 {
            let mut memory = vec![FILL; 4 * width + 8];
            let answer = list(&volume, &plan, 0, &mut memory[2..2 + room]).map_err(pair);
            let written = 3.min(room / width);
            let case = format!("{patterns} patterns of {vars}, {room} words");
            let next = [Next::More(4), Next::More(5), Next::Done];
            let tally = |written: usize| (2 * written * patterns * vars) as u32;
            let expected = match written {
                0 => Err((16, 0)),
                _ => Ok(Listing {
                    rows: written as u32,
                    tally: tally(written),
                    next: next[written - 1],
                }),
            };
            assert_eq!(answer, expected, "{case}");
            let (front, behind) = memory[2..].split_at(written * width);
            assert_eq!(front, &rows[..written * width], "{case}");
            let others = memory[..2].iter().chain(behind);
            assert!(others.into_iter().all(|&word| word == FILL), "{case}: {memory:?}");
        }
    }
}

/// Thirty documents, of which 23 are true, in pages of every size, and from every document on.
/// Catches a cursor on list 0 that begins anew, or too far on, where a call goes on from MORE.
#[test]
fn pages_of_every_size() {
    let starts_of = |doc: u32| -> &[u32] {
        [&[0, 5, 20][..], &[], &[8], &[0], &[19, 20, 21, 22]][doc as usize % 5]
    };
    let (in_first, in_second) = (|doc: u32| doc % 3 != 1, |doc: u32| doc % 4 == 1);
    let docs = 0..30;
    let docs_in = |is_in: fn(u32) -> bool| -> Vec<u32> { (0..30).filter(|&d| is_in(d)).collect() };
    let lists = [
        docs.clone().flat_map(|doc| list_in(&[doc], starts_of(doc))).collect(),
        list_in(&docs_in(|_| true), &[3, 20]),
        list_in(&docs_in(in_first), &[9]),
        list_in(&docs_in(in_second), &[1]),
    ];
    let rows = [voice(1), voice(2), before(1, 0), END, voice(3), END, EITHER];
    let subject = Subject::new(&Lists::new::<Vec<u32>>(&lists).volume(), &rows.concat());
    let mut expected: Vec<Vec<u32>> = vec![];
    for doc in docs.filter(|&doc| in_first(doc) || in_second(doc)) {
        let start = |pos: u32| last_start(starts_of(doc), pos);
        let first = if in_first(doc) { [1, 20, start(20), 9, start(9)] } else { [0; 5] };
        let second = if in_second(doc) { [1, 1, start(1)] } else { [0; 3] };
        expected.push([&[doc], &first[..], &second].concat());
    }
    let mut trial = Trial::default();
    let width = subject.width();
    assert_eq!((width, expected.len()), (9, 23));
    for room in width..=(expected.len() + 1) * width + 1 {
        assert_eq!(trial.search(&subject, room).0, expected.concat(), "{room} words");
    }
    for start in 0..32 {
        let left: Vec<&Vec<u32>> = expected.iter().filter(|row| row[0] >= start).collect();
        for fit in [1, 2, 5, 30] {
            let (words, answer) = trial.list_rows(&subject, start, fit * width).unwrap();
            let written = &left[..fit.min(left.len())];
            assert!(words.iter().eq(written.iter().copied().flatten()), "from {start}, {fit}");
            assert_eq!(answer.more, left.get(fit).map(|row| row[0]), "from {start}, {fit}");
        }
    }
}

/// A choice that has greater positions and smaller starts than the earliest, or a smaller sum of
/// starts, is not the earliest: the first positions stand before the first title, where the start
/// is 65,536. Catches a choice that is made by the starts, by the pairs as numbers, or among the
/// positions in titles alone.
#[test]
fn least_by_positions_alone() {
    let n = NO_START;
    let mut trial = Trial::default();
    for (starts, lists, predicates, pairs) in [
        // one variable: 3 in the lead-in, 12 in the title from 10 on
        (&[10][..], &[&[3, 12][..]][..], &[][..], &[3, n][..]),
        (&[0], &[&[3, 12]], &[], &[3, 0]),
        (&[4, 10], &[&[3, 12]], &[], &[3, n]),
        (&[4, 10], &[&[3, 12]], &[same_title(0, 0)], &[12, 10]),
        // two, near each other in the lead-in and again in the title
        (&[10], &[&[3, 12], &[4, 13]], &[near(0, 1, 0)], &[3, n, 4, n]),
        (&[10], &[&[3, 12], &[4, 13]], &[before(0, 1)], &[3, n, 4, n]),
        (&[10], &[&[3, 12], &[4, 13]], &[before(1, 0)], &[12, 10, 4, n]),
        (&[10], &[&[3, 12], &[4, 13]], &[span(2)], &[3, n, 4, n]),
        (&[10], &[&[3, 12], &[4, 13]], &[apart(0, 1, 0, 0)], &[3, n, 4, n]),
        (&[10], &[&[3, 12], &[4, 13]], &[same_title(0, 1)], &[12, 10, 13, 10]),
        (&[10], &[&[3, 12], &[4, 13]], &[same_title(1, 1)], &[3, n, 13, 10]),
        (&[10], &[&[3, 12], &[4, 13]], &[same_title(0, 0)], &[12, 10, 4, n]),
        // the earlier choice has the sum 2 × 65,536, the later one 20
        (&[10], &[&[9, 65_535], &[8, 65_535]], &[near(0, 1, 9)], &[9, n, 8, n]),
        // three of which one stands in a title
        (&[10], &[&[3, 12], &[4, 13], &[20]], &[before(0, 1)], &[3, n, 4, n, 20, 10]),
        (&[10, 15], &[&[3, 12], &[4, 16], &[20]], &[near(1, 2, 4)], &[3, n, 16, 15, 20, 15]),
    ] {
        let subject = Subject::one_pattern(&DOCS, starts, lists, predicates);
        trial.case = format!("starts {starts:?}, lists {lists:?}, {predicates:?}");
        let words: Vec<u32> = DOCS.iter().flat_map(|&doc| [&[doc, 1], pairs].concat()).collect();
        assert_eq!(trial.listing(&subject).0, words, "{}", trial.case);
    }
}

/// "N4's choices carry no starts": a choice has as many words as the pattern has variables, and 16
/// is measured by that. Catches starts among the choices, a buffer of one choice that is refused,
/// and MORE where the next choice would still fit.
#[test]
fn matches_carry_no_starts() {
    let volume = sample().volume();
    let plan = two(&[]).concat();
    for room in 0..=10 {
        let mut out = [7; 10];
        let answer = list_matches(&volume, &plan, 0, 1, &[0, 0], &mut out[..room]).map_err(pair);
        let written = room / 2;
        let words = [2, 5, 2, 7, 8, 5, 8, 7];
        match (written, answer) {
            (0, answer) => assert_eq!(answer.map(|_| ()), Err((16, 0)), "{room} words"),
            (_, Err(refused)) => panic!("{room} words: refused {refused:?}"),
            (_, Ok(listed)) => {
                assert_eq!(listed.count as usize, written.min(4), "{room} words");
                let next = words.get(2 * written..2 * written + 2);
                assert_eq!(listed.next.as_deref(), next, "{room} words");
            }
        }
        let end = 2 * written.min(4);
        assert_eq!(out[..end], words[..end], "{room} words");
        assert!(out[end..].iter().all(|&word| word == 7), "{room} words: {out:?}");
    }

    // Beside the rows of the same patterns.
    let seed = 8_002;
    let mut rng = Rng::new(seed);
    let mut trial = Trial::default();
    let mut found = 0;
    for round in 0..400 {
        let subject = random_crowd(&mut rng);
        trial.case = format!("seed {seed}, round {round}, {:?}", subject.plan());
        let (words, _) = trial.search(&subject, 10 * subject.width());
        for row in words.chunks(subject.width()) {
            for (pattern, pairs) in (0..).zip(subject.searcher().shown(row)) {
                let Some(pairs) = pairs else { continue };
                let vars = pairs.len();
                let from = vec![0; vars];
                let (page, _) = trial.match_page(&subject, pattern, row[0], &from, vars).unwrap();
                let positions: Vec<u32> = pairs.iter().map(|[pos, _]| *pos).collect();
                assert_eq!(page, [positions], "{}: {row:?}", trial.case);
                let short = trial.match_page(&subject, pattern, row[0], &from, vars - 1);
                assert_eq!(short, Err((16, 0)), "{}", trial.case);
                found += 1;
            }
        }
    }
    assert!(found > 300, "{found}");
}

/// Choices of two and three variables in one title, of which there are several: where the first
/// variable goes on, the others go back to the front. Catches a cursor on list 0 that stays where
/// it was when its variable goes back.
#[test]
fn matches_that_go_back_to_earlier_titles() {
    // Three titles of three positions each, behind a lead-in of two.
    let starts: Of = &[2, 5, 8];
    let word: Of = &[0, 1, 2, 3, 4, 5, 6, 7, 8, 9, 10];
    let title = |pos: u32| (pos + 1) / 3;
    let mut trial = Trial::default();
    for vars in [2, 3] {
        let ties: Vec<Row> = (1..vars).map(|var| same_title(0, var)).collect();
        let subject = Subject::one_pattern(&DOCS, starts, &vec![word; vars as usize], &ties);
        let mut tuples: Vec<Vec<u32>> = word.iter().map(|&pos| vec![pos]).collect();
        for _ in 1..vars {
            let longer = |tuple: &Vec<u32>| {
                let tuple = tuple.clone();
                let same = move |pos: &&u32| title(**pos) == title(tuple[0]);
                word.iter().filter(same).copied().collect::<Vec<u32>>()
            };
            tuples = tuples
                .iter()
                .flat_map(|tuple| {
                    longer(tuple).into_iter().map(|pos| [&tuple[..], &[pos]].concat())
                })
                .collect();
        }
        tuples.retain(|tuple| title(tuple[0]) > 0);
        assert_eq!(tuples.len(), if vars == 2 { 27 } else { 81 });
        for doc in DOCS {
            for fit in [1, 2, 7, 100] {
                let listed = trial.enumerate(&subject, 0, doc, fit * vars as usize);
                assert_eq!(listed, tuples, "{vars} variables, {fit} fit");
            }
        }
    }
}

/// Two words with one position each in every document. A first pattern shows both, a second one
/// asks for SAME TITLE: it is found exactly where the two starts that the first shows are equal and
/// not 65,536. Catches a SAME TITLE that is decided otherwise than by the starts that a row shows.
#[test]
fn same_title_exactly_where_the_starts_are_equal() {
    let seed = 8_003;
    let mut rng = Rng::new(seed);
    let mut trial = Trial::default();
    let mut met = Met::default();
    for round in 0..300 {
        let docs: Vec<u32> = (0..40).map(|i| 3 * i + rng.below(3) as u32).collect();
        let width = rng.pick(&[4, 12, 100]);
        let first = rng.pick(&[0, 0, 5_000, 65_536 - width]);
        let window: Vec<u32> = (first..first + width).collect();
        let one = |rng: &mut Rng| -> Vec<u32> {
            docs.iter().map(|doc| doc * 65_536 + rng.pick(&window)).collect()
        };
        let starts = random_starts(&mut rng, &docs, &window);
        let lists = Lists::new(&[starts, one(&mut rng), one(&mut rng)]);
        let title = rng.pick(&[same_title(0, 1), same_title(1, 0)]);
        let rows = [two(&[]), two(&[title]), vec![EITHER]].concat();
        let subject = Subject::new(&lists.volume(), &rows.concat());
        trial.case = format!("seed {seed}, round {round}");
        let (words, _) = trial.search(&subject, 13 * subject.width());
        assert_eq!(words.len(), 40 * 11, "{}", trial.case);
        for row in words.chunks(11) {
            let (all, titled) = (&row[1..6], &row[6..]);
            let [p, start_of_p, q, start_of_q] = [all[1], all[2], all[3], all[4]];
            let is_one = start_of_p == start_of_q && start_of_p != NO_START;
            let expected = if is_one { all.to_vec() } else { vec![0; 5] };
            assert_eq!(titled, expected, "{}: {row:?}", trial.case);
            assert_eq!(trial.test(&subject, 1, row[0], &[p, q]), Ok(is_one), "{}", trial.case);
            met.count("one title", usize::from(is_one));
            let neither = [start_of_p, start_of_q] == [NO_START; 2];
            met.count("both in no title", usize::from(neither));
            met.count("one in no title", {
                usize::from(!neither && [start_of_p, start_of_q].contains(&NO_START))
            });
            met.count("two titles", usize::from(start_of_p != start_of_q));
        }
    }
    met.assert_at_least(&[("one title", 2_000), ("both in no title", 1_000)]);
    met.assert_at_least(&[("one in no title", 500), ("two titles", 2_000)]);
}

/// Patterns of any predicates, each without SAME TITLE and with it. Where it is found with it, the
/// two starts are equal and not 65,536; where they are so without it, it is found with it at the
/// same positions. A start is never above its position, and the later one of two positions has no
/// earlier start, but for 65,536. Catches a SAME TITLE and a row that take their starts from
/// different cursors of which one is wrong, and a start that is left from before a variable moved.
#[test]
fn shown_starts_and_same_title() {
    let seed = 8_004;
    let mut rng = Rng::new(seed);
    let mut trial = Trial::default();
    let (mut same, mut moved, mut lost) = (0, 0, 0);
    for round in 0..2_000 {
        let pattern = RandomPattern::new(&mut rng);
        let vars = pattern.voices.len();
        let [a, b] = [rng.below(vars), rng.below(vars)];
        let title = same_title(a as u32, b as u32);
        let rows = [pattern.with(true, &[]), pattern.with(true, &[title]), vec![EITHER]].concat();
        trial.case = format!("seed {seed}, round {round}, {rows:?}");
        let subject = Subject::new(&pattern.lists.volume(), &rows.concat());
        let (words, _) = trial.search(&subject, 7 * subject.width());
        for row in words.chunks(subject.width()) {
            let shown = subject.searcher().shown(row);
            for pairs in shown.iter().flatten() {
                for &[pos, start] in pairs {
                    assert!(start <= pos || start == NO_START, "{}: {row:?}", trial.case);
                    for &[other, of_other] in pairs.iter().filter(|[other, _]| *other >= pos) {
                        let rises = start == NO_START || start <= of_other && of_other <= other;
                        assert!(rises, "{}: {row:?}", trial.case);
                    }
                }
            }
            let in_one = |pairs: &[[u32; 2]]| pairs[a][1] == pairs[b][1] && pairs[a][1] != NO_START;
            let [Some(all), titled] = &shown[..] else { panic!("{}: {row:?}", trial.case) };
            match titled {
                Some(titled) => {
                    assert!(in_one(titled), "{}: {row:?}", trial.case);
                    assert_eq!(in_one(all), all == titled, "{}: {row:?}", trial.case);
                    *if all == titled { &mut same } else { &mut moved } += 1;
                }
                None => {
                    assert!(!in_one(all), "{}: {row:?}", trial.case);
                    lost += 1;
                }
            }
        }
    }
    assert!(same > 1_000 && moved > 200 && lost > 500, "{same} {moved} {lost}");
}

/// How list 0 is made in random subjects.
const WAYS: [&str; 4] = ["empty", "sparse", "dense", "crowded"];

/// A plan over a few documents, with list 0 made in one of these ways: no start; one in every third
/// document or so; starts at about half of the positions, also such as no word has; all starts in
/// one document, at every position up to the words and among them, and none in the others.
fn random_titled(rng: &mut Rng, way: &str) -> Subject {
    let (mut rows, largest) = random_query(rng);
    let most = most_positions(rng, largest).min(40);
    let (count, apart) = (1 + rng.below(9) as u32, rng.pick(&[1, 1, 2, 900]));
    let first = rng.pick(&[0, 500, 65_535 - (count - 1) * apart]);
    let docs: Vec<u32> = (0..count).map(|i| first + i * apart).collect();
    let width = rng.pick(&[6, 20, 60]);
    let first = rng.pick(&[0, 300, 1_500, 65_536 - width]);
    let window: Vec<u32> = (first..first + width).collect();
    let crowded = rng.pick(&docs);
    let mut starts = vec![];
    for &doc in &docs {
        let of_doc: Vec<u32> = match way {
            "sparse" if rng.below(3) == 0 => vec![rng.pick(&window)],
            "dense" => {
                let from = first.saturating_sub(rng.pick(&[0, 0, 9]));
                let end = 65_536.min(first + width + rng.pick(&[0, 9]));
                (from..end).filter(|_| rng.below(2) == 0).collect()
            }
            "crowded" if doc == crowded => {
                let among = window.iter().copied().filter(|_| rng.below(4) > 0);
                (first.saturating_sub(2_000)..first).chain(among).collect()
            }
            _ => vec![],
        };
        starts.extend(list_in(&[doc], &of_doc));
    }
    let mut lists = vec![starts];
    for _ in 0..1 + rng.below(4) {
        lists.push(random_positions(rng, &docs, &window, most));
    }
    for row in rows.iter_mut().filter(|row| row[0] == lihambozy::kind::VOICE) {
        row[1] = 1 + rng.below(lists.len() - 1) as u32;
    }
    Subject::new(&Lists::new(&lists).volume(), &rows.concat())
}

/// Whole searches through random buffers, and calls from any start, beside the naive searcher:
/// every answer and every word of the memory. Catches what the tables have not thought of: a start
/// that is wrong after some way of the cursors through documents, patterns and calls.
#[test]
fn random_lists_of_starts() {
    let seed = 8_005;
    let mut rng = Rng::new(seed);
    let mut trial = Trial::default();
    let mut all = Met::default();
    for way in WAYS {
        let mut met = Met::default();
        for round in 0..1_500 {
            let subject = random_titled(&mut rng, way);
            trial.case = format!("seed {seed}, {way}, round {round}, {:?}", subject.plan());
            random_search(&mut rng, &mut trial, &mut met, &subject);
            other_starts(&mut rng, &mut trial, &subject, 2);
            count_starts(&mut met, &subject);
            met.count("rows", subject.searcher().rows.len());
        }
        met.assert_at_least(&[("rows", 1_000), ("more", 500), ("searches to done", 1_000)]);
        let [none, behind, at, first, between, last] = STARTS;
        match way {
            "empty" => assert!(STARTS[1..].iter().all(|what| !met.0.contains_key(*what))),
            "sparse" => met.assert_at_least(&[(none, 1_000), (behind, 300), (first, 300)]),
            "dense" => met.assert_at_least(&[(at, 1_000), (between, 1_000), (last, 100)]),
            _ => met.assert_at_least(&[(none, 1_000), (at, 500), (between, 100)]),
        }
        met.0.iter().for_each(|(what, &times)| all.count(what, times));
    }
    all.assert_at_least(&STARTS.map(|what| (what, 150)));
    trial.assert_met(Call::List, 500, &[0, 15, 16]);
}

/// Document 5 has three starts, behind so many starts of document 4 that they stand at every place
/// in a block, and so many more behind them. Catches a start that is looked for in the wrong word
/// of a block, at its edge or beyond it, and a leap that ends one word off.
#[test]
fn starts_at_every_place_in_a_block() {
    let mut trial = Trial::default();
    let positions = [30, 5, 65_535, 10, 29, 9, 15, 31];
    let starts = [30, NO_START, 30, 10, 20, NO_START, 10, 30];
    let pairs: Vec<u32> = positions.iter().zip(starts).flat_map(|(&pos, s)| [pos, s]).collect();
    let voices: Vec<Row> = (1..=8).map(voice).collect();
    for (front, behind) in (0..=260).map(|front| (front, front * 7 % 20)) {
        let mut lists = vec![list_in(&[4], &(0..front).collect::<Vec<u32>>())];
        lists[0].extend(list_in(&[5], &[10, 20, 30]));
        lists[0].extend(list_in(&[6], &(0..behind).collect::<Vec<u32>>()));
        lists.extend(positions.map(|pos| list_in(&[5], &[pos])));
        for (predicates, found) in [
            (&[][..], true),
            (&[same_title(0, 7), same_title(2, 0), same_title(3, 6), same_title(4, 4)], true),
            (&[same_title(0, 4)], false),
            (&[same_title(1, 1)], false),
        ] {
            trial.case = format!("{front} in front, {behind} behind, {predicates:?}");
            let rows = [&voices[..], predicates, &[END]].concat();
            let subject = Subject::new(&Lists::new(&lists).volume(), &rows.concat());
            let words = if found { [&[5, 1], &pairs[..]].concat() } else { vec![] };
            assert_eq!(trial.search(&subject, 18), (words, 8), "{}", trial.case);
        }
    }
}

/// 400,000 starts, ten thousand in each of forty documents. Some words stand in every document, one
/// in the first and the last alone, so that its cursor lies far behind in list 0 when it is shown
/// again. Catches a cursor that is lost or begins anew where others have gone on, a leap over
/// blocks that is too short, and numbers that grow over 16 bits.
#[test]
fn long_lists_of_starts() {
    let docs: Vec<u32> = (0..40).map(|i| 1_600 * i + i % 7).collect();
    let starts: Vec<u32> = (0..10_000).map(|i| 6 * i).collect();
    let start = |pos: u32| (pos / 6 * 6).min(59_994);
    let tall: Vec<u32> = (0..65_536).step_by(97).collect();
    let lists = [
        list_in(&docs, &starts),
        list_in(&docs, &[59_999]),
        list_in(&docs, &[1]),
        list_in(&[docs[0], docs[39]], &[30_003]),
        list_in(&docs, &tall),
        list_in(&docs[13..], &[65_535]),
    ];
    let volume = Lists::new(&lists).volume();
    assert!(volume.len() > 3_000 * 512);
    let v = [0, 1, 2, 3, 4, 5].map(voice);
    // The document of each number, and the positions of each pattern in it, none where it is not
    // found.
    type Found = fn(usize) -> Vec<Vec<u32>>;
    let plans: &[(&str, Vec<Row>, Found)] = &[
        ("no predicate", vec![v[1], v[2], v[4], END], |_| vec![vec![59_999, 1, 0]]),
        ("a variable that lags behind", vec![v[3], END, v[1], END, EITHER], |i| {
            vec![if i % 39 == 0 { vec![30_003] } else { vec![] }, vec![59_999]]
        }),
        (
            "several that lag behind",
            vec![v[3], v[2], v[1], END, v[5], v[2], END, EITHER, v[1], v[1], END, EITHER],
            |i| {
                vec![
                    if i % 39 == 0 { vec![30_003, 1, 59_999] } else { vec![] },
                    if i >= 13 { vec![65_535, 1] } else { vec![] },
                    vec![59_999, 59_999],
                ]
            },
        ),
        ("NEAR the last start", vec![v[4], v[1], near(0, 1, 50), END], |_| {
            vec![vec![60_043, 59_999]]
        }),
        ("the last title", vec![v[4], v[1], same_title(0, 1), END], |_| vec![vec![60_043, 59_999]]),
        ("the first title", vec![v[2], v[4], same_title(0, 1), END], |_| vec![vec![1, 0]]),
        (
            "SAME TITLE beside a variable that lags behind",
            vec![v[4], v[1], same_title(0, 1), END, v[3], v[5], END, EITHER],
            |i| vec![vec![60_043, 59_999], if i == 39 { vec![30_003, 65_535] } else { vec![] }],
        ),
        ("BEFORE, through the document", vec![v[4], v[1], before(1, 0), END], |_| {
            vec![vec![60_043, 59_999]]
        }),
    ];
    for (name, rows, found) in plans {
        let plan = rows.concat();
        let sizes: Vec<usize> = rows
            .split(|row| *row == END)
            .map(|part| part.iter().filter(|row| row[0] == lihambozy::kind::VOICE).count())
            .filter(|&vars| vars > 0)
            .collect();
        let mut words = vec![];
        for (i, &doc) in docs.iter().enumerate() {
            words.push(doc);
            for (positions, vars) in found(i).iter().zip(&sizes) {
                match positions.is_empty() {
                    true => words.extend(vec![0; 1 + 2 * vars]),
                    false => {
                        words.push(1);
                        words.extend(positions.iter().flat_map(|&pos| [pos, start(pos)]));
                    }
                }
            }
        }
        let width = words.len() / 40;
        for fit in [41, 40, 17, 1] {
            let mut listed: Vec<u32> = vec![];
            let mut next = Next::More(0);
            while let Next::More(from) = next {
                let mut out = vec![7; fit * width + width / 2];
                let answer = list(&volume, &plan, from, &mut out).unwrap();
                let (rows, behind) = out.split_at(answer.rows as usize * width);
                listed.extend(rows);
                assert!(behind.iter().all(|&word| word == 7), "{name}, {fit}");
                next = answer.next;
            }
            assert!(listed == words, "{name}, pages of {fit}: {listed:?}, not {words:?}");
        }
    }
}

/// As many starts as a volume holds beside some words: 15 documents in which a title starts at
/// every position. The start of each position is the position itself. Catches a start in front of
/// the position where one is at it, and a cursor that ends behind the last document's last start.
#[test]
fn a_start_at_every_position() {
    let docs: Vec<u32> = (65_521..65_536).collect();
    let all: Vec<u32> = (0..65_536).collect();
    let positions = [65_535, 0, 32_768, 1];
    let mut lists = vec![list_in(&docs, &all)];
    lists.extend(positions.map(|pos| list_in(&docs, &[pos])));
    let every_third: Vec<u32> = docs.iter().copied().step_by(3).collect();
    lists.push(list_in(&every_third, &all[..3_000]));
    let volume = Lists::new(&lists).volume();
    let voices: Vec<Row> = (1..=4).map(voice).collect();
    let plan = [&voices[..], &[END, voice(5), voice(2), near(0, 1, 0), END, EITHER]].concat();
    let pairs: Vec<u32> = positions.iter().flat_map(|&pos| [pos, pos]).collect();
    let mut words = vec![];
    for doc in &docs {
        let second = if every_third.contains(doc) { [1, 0, 0, 0, 0] } else { [0; 5] };
        words.extend([&[*doc, 1], &pairs[..], &second].concat());
    }
    let mut out = vec![7; words.len() + 3];
    let answer = list(&volume, &plan.concat(), 0, &mut out).unwrap();
    assert_eq!((answer.rows, answer.next), (15, Next::Done));
    assert_eq!((&out[..words.len()], &out[words.len()..]), (&words[..], &[7; 3][..]));

    // No two different positions are in one title.
    for (one, other, found) in [(1, 1, 15), (1, 2, 0), (2, 5, 5), (3, 4, 0), (4, 5, 5)] {
        let plan = [voice(one), voice(other), same_title(0, 1), END].concat();
        let mut out = vec![7; 15 * 6];
        let answer = list(&volume, &plan, 0, &mut out).unwrap();
        assert_eq!((answer.rows, answer.next), (found, Next::Done), "{one} {other}");
        for row in out.chunks(6).take(found as usize) {
            assert!(row[2..].iter().all(|&word| word == positions[one as usize - 1]), "{row:?}");
        }
    }
}
