//! Request N4 of document 02, "All the places in a scene", sentence by sentence, over the sample of
//! document 01 and over small volumes beside it.

use crate::support::matches::*;
use crate::support::plans::*;
use crate::support::searches::*;
use crate::support::*;

/// The sample's two variables with these predicates.
fn over_sample(predicates: &[Row]) -> Subject {
    Subject::new(&sample().volume(), &two(predicates).concat())
}

/// Two lists with the positions 1 to 4 of scene 9: sixteen choices, all of which pass.
fn sixteen() -> Subject {
    let list: Vec<(u32, u32)> = (1..5).map(|pos| (9, pos)).collect();
    Subject::over(&[&[], &list, &list], &two(&[]))
}

/// "A new call takes a figure, a scene and a starting choice, and writes each passing choice from
/// there on": over the sample, each figure, scene and start with what is written.
#[test]
fn each_passing_choice_from_there_on() {
    type Case<'a> = (&'a [Row], u32, [u32; 2], &'a [[u32; 2]]);
    let cases: &[Case] = &[
        (&[before(0, 1), same_title(0, 1)], 1, [0, 0], &[[2, 5]]),
        (&[before(0, 1), same_title(0, 1)], 1, [2, 5], &[[2, 5]]),
        (&[before(0, 1), same_title(0, 1)], 1, [2, 6], &[]),
        (&[before(0, 1), same_title(0, 1)], 2, [0, 0], &[]),
        (&[before(0, 1)], 1, [0, 0], &[[2, 5], [2, 7]]),
        (&[before(0, 1)], 1, [2, 6], &[[2, 7]]),
        (&[before(0, 1)], 2, [0, 0], &[[4, 9]]),
        (&[before(0, 1)], 0, [0, 0], &[]),
        (&[before(0, 1)], 3, [0, 0], &[]),
        (&[same_title(0, 1)], 1, [0, 0], &[[2, 5], [8, 7]]),
        (&[same_title(0, 1)], 1, [2, 7], &[[8, 7]]),
        (&[], 1, [0, 0], &[[2, 5], [2, 7], [8, 5], [8, 7]]),
        (&[], 1, [2, 7], &[[2, 7], [8, 5], [8, 7]]),
        (&[], 1, [3, 0], &[[8, 5], [8, 7]]),
        (&[], 1, [8, 6], &[[8, 7]]),
        (&[], 1, [8, 8], &[]),
        (&[], 1, [9, 0], &[]),
        (&[near(0, 1, 0)], 1, [0, 0], &[[8, 7]]),
        (&[span(4)], 1, [0, 0], &[[2, 5], [8, 5], [8, 7]]),
        (&[apart(1, 0, 0, 2)], 1, [0, 0], &[[8, 5], [8, 7]]),
    ];
    let mut trial = Trial::default();
    for &(predicates, doc, from, choices) in cases {
        let subject = over_sample(predicates);
        let (written, more) = trial.match_page(&subject, 0, doc, &from, 40).unwrap();
        assert_eq!((&written[..], more), (&as_choices(choices)[..], None), "{predicates:?}");
    }
}

fn as_choices(pairs: &[[u32; 2]]) -> Vec<Vec<u32>> {
    pairs.iter().map(|pair| pair.to_vec()).collect()
}

/// ".. smallest first voice first, then second, and so on. Each comes once."
#[test]
fn smallest_first_voice_first() {
    let mut trial = Trial::default();
    let all: Vec<Vec<u32>> = (1..5).flat_map(|p| (1..5).map(move |q| vec![p, q])).collect();
    assert_eq!(trial.match_page(&sixteen(), 0, 9, &[0, 0], 32).unwrap(), (all, None));

    let three: [&[(u32, u32)]; 4] =
        [&[], &[(9, 7), (9, 30)], &[(9, 5), (9, 40)], &[(9, 6), (9, 50)]];
    let subject = Subject::over(&three, &[voice(1), voice(2), voice(3), END]);
    let (written, _) = trial.match_page(&subject, 0, 9, &[0, 0, 0], 24).unwrap();
    assert_eq!(
        written,
        [
            [7, 5, 6],
            [7, 5, 50],
            [7, 40, 6],
            [7, 40, 50],
            [30, 5, 6],
            [30, 5, 50],
            [30, 40, 6],
            [30, 40, 50]
        ]
    );
}

/// "The answer is the number written, and MORE with the next passing choice only where one is left
/// and no further whole choice fits, otherwise DONE."
#[test]
fn more_or_done() {
    let subject = sixteen();
    let choice = |i: usize| vec![1 + i as u32 / 4, 1 + i as u32 % 4];
    let mut trial = Trial::default();
    for first in 0..16 {
        for room in 2..=40 {
            let (mut memory, lent) = memory_for(room);
            let from = choice(first);
            let answer = trial.matches(&subject, 0, 9, &from, &mut memory, lent).unwrap();
            let (left, fit) = (16 - first, room / 2);
            assert_eq!(answer.count as usize, left.min(fit), "{first} {room}");
            let next = (left > fit).then(|| choice(first + fit));
            assert_eq!(answer.more, next, "{first} {room}");
        }
    }
}

/// "From the all-zero choice the first one written, where any passes, is the figure's earliest,
/// which a listing shows where the scene is true."
#[test]
fn the_first_is_the_earliest() {
    let mut trial = Trial::default();
    for predicates in [
        &[][..],
        &[before(0, 1)],
        &[before(1, 0)],
        &[same_title(0, 1)],
        &[before(1, 0), same_title(0, 1)],
        &[near(0, 1, 0)],
        &[near(0, 1, 4)],
        &[span(3)],
        &[apart(0, 1, 3, 65_535)],
        &[before(0, 0)],
    ] {
        let subject = over_sample(predicates);
        let (rows, _) = trial.search(&subject, 40);
        for doc in 0..4 {
            let row = rows.chunks(6).find(|row| row[0] == doc);
            let shown = row.map(|row| vec![row[2], row[4]]);
            let (written, _) = trial.match_page(&subject, 0, doc, &[0, 0], 2).unwrap();
            assert_eq!(written.first().cloned(), shown, "{predicates:?} {doc}");
        }
    }

    // A scene that is not true has its choices too: the second figure is found in scene 1, so that
    // FIRST NOT SECOND leaves it out.
    let rows = [&two(&[before(0, 1)])[..], &two(&[near(0, 1, 0)]), &[FIRST_NOT_SECOND]].concat();
    let subject = Subject::new(&sample().volume(), &rows.concat());
    let row = [2, 1, 4, NO_START, 9, NO_START, 0, 0, 0, 0, 0];
    assert_eq!(trial.search(&subject, 110).0, row);
    let zeros = [0, 0];
    let first = trial.match_page(&subject, 0, 1, &zeros, 9).unwrap();
    assert_eq!(first, (vec![vec![2, 5], vec![2, 7]], None));
    assert_eq!(trial.match_page(&subject, 1, 1, &zeros, 9).unwrap(), (vec![vec![8, 7]], None));
    assert_eq!(trial.match_page(&subject, 0, 2, &zeros, 9).unwrap(), (vec![vec![4, 9]], None));
    assert_eq!(trial.match_page(&subject, 1, 2, &zeros, 9).unwrap(), (vec![], None));
}

/// "Words behind the choices stay untouched."
#[test]
fn words_behind_the_choices() {
    let (subject, volume) = (over_sample(&[]), sample().volume());
    let plan = two(&[]).concat();
    for room in 2..=12 {
        let mut out = [7; 12];
        let listed =
            lihambozy::calls::list_matches(&volume, &plan, 0, 1, &[0, 0], &mut out[..room])
                .expect("a choice fits");
        let words = 2 * (room / 2).min(4);
        assert_eq!(listed.count as usize, words / 2);
        assert_eq!(out[..words], [2, 5, 2, 7, 8, 5, 8, 7][..words], "{room}");
        assert!(out[words..].iter().all(|&word| word == 7), "{room}: {out:?}");
    }
    // Nothing passes, and nothing is touched.
    let mut trial = Trial::default();
    for room in [2, 3, 20] {
        assert_eq!(trial.match_page(&subject, 0, 0, &[0, 0], room).unwrap(), (vec![], None));
    }
}

/// "17 covers a bad figure, scene or starting choice, and after it 16 a buffer too small for one
/// choice."
#[test]
fn refused_with_17_and_then_16() {
    let subject = over_sample(&[before(0, 1)]);
    let mut trial = Trial::default();
    let bad: [(u32, u32, &[u32]); 6] = [
        (1, 1, &[0, 0]),      // figure
        (0, 65_536, &[0, 0]), // scene
        (0, 1, &[0]),         // starting choice: a place less
        (0, 1, &[0, 0, 0]),   // a place more
        (0, 1, &[65_536, 0]), // a place over 65,535
        (0, 1, &[0, 65_536]),
    ];
    for room in [0, 1, 2, 20] {
        for (pattern, doc, from) in bad {
            let answer = trial.match_page(&subject, pattern, doc, from, room);
            assert_eq!(answer, Err((17, 0)), "{pattern} {doc} {from:?} {room}");
        }
    }
    for room in [0, 1] {
        for (doc, from) in
            [(1, [0, 0]), (1, [2, 7]), (1, [65_535; 2]), (0, [0, 0]), (65_535, [9; 2])]
        {
            let answer = trial.match_page(&subject, 0, doc, &from, room);
            assert_eq!(answer, Err((16, 0)), "{doc} {from:?} {room}");
        }
    }
    assert!(trial.match_page(&subject, 0, 65_535, &[65_535; 2], 2).is_ok());
}

/// The calls from zeros, and after each MORE from the choice that it names, write together exactly
/// the passing choices, whatever the buffers, refused calls included.
#[test]
fn one_enumeration() {
    let subject = sixteen();
    let mut trial = Trial::default();
    let mut all = Enumeration::new(&subject, 0, 9);
    let (mut memory, lent) = memory_for(40);
    for (room, count, next) in [
        (1, None, [0, 0]),
        (2, Some(1), [1, 2]),
        (0, None, [1, 2]),
        (7, Some(3), [2, 1]),
        (1, None, [2, 1]),
        (2, Some(1), [2, 2]),
        (19, Some(9), [4, 3]),
        (0, None, [4, 3]),
        (2, Some(1), [4, 4]),
        (2, Some(1), [4, 4]),
    ] {
        let part = lent.start..lent.start + room;
        let answer = all.call(&mut trial, &mut memory, part);
        assert_eq!(answer.ok().map(|matched| matched.count), count, "{room}");
        assert_eq!(all.from, next, "{room}");
        all.assert_whole(&trial.case);
    }
    assert!(all.done);
    assert_eq!((all.tuples.len(), all.answered), (16, 6));
}
