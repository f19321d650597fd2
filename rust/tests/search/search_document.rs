//! What document 01 itself says of listings: its table of cases, starred and not, the sample
//! listing, and the traps it names. Where requests N3 and N8 of document 02 give other rows, these
//! stand here.

use crate::plain::search::Listed;
use crate::support::plans::*;
use crate::support::searches::*;
use crate::support::*;

/// A plan over the sample volume.
fn over_sample(rows: &[Row]) -> Subject {
    Subject::new(&sample().volume(), &rows.concat())
}

#[test]
fn the_sample_listing() {
    let mut trial = Trial::default();
    let subject = over_sample(&SAMPLE);
    let (words, Listed { rows, tally, more }) = trial.list_rows(&subject, 0, 4_000).unwrap();
    assert_eq!((rows, more), (1, None));
    let mut printed = String::new();
    for row in words.chunks(6) {
        let words: Vec<String> = row.iter().map(u32::to_string).collect();
        printed += &format!("scene {}\n", words.join(" "));
    }
    printed += &format!("done {tally}\n");
    assert_eq!(printed, "scene 1 1 2 0 5 0\ndone 6\n");
}

/// The plans of the table, each with the words of its rows and its tally, and BOTH and EITHER in
/// the place of its FIRST NOT SECOND. A buffer of every length gives them, in as many calls as it
/// takes.
#[test]
fn the_table_of_cases() {
    let before_and_near =
        |operator: Row| [two(&[before(0, 1)]), two(&[near(0, 1, 0)]), vec![operator]].concat();
    let rows: &[(&str, Vec<Row>, &[u32], u32)] = &[
        ("the listing", SAMPLE.to_vec(), &[1, 1, 2, 0, 5, 0], 6),
        ("NEAR 0 1, c = 0", two(&[near(0, 1, 0)]), &[1, 1, 8, 6, 7, 6], 6),
        ("NEAR 0 1, c = 3", two(&[near(0, 1, 3)]), &[1, 1, 2, 0, 5, 0], 6),
        (
            "NEAR 0 1, c = 4",
            two(&[near(0, 1, 4)]),
            &[1, 1, 2, 0, 5, 0, 2, 1, 4, NO_START, 9, NO_START],
            6,
        ),
        ("SPAN 4", two(&[span(4)]), &[1, 1, 2, 0, 5, 0], 6),
        ("SPAN 3", two(&[span(3)]), &[1, 1, 8, 6, 7, 6], 6),
        (
            "BEFORE 1 0, SAME TITLE 0 1",
            two(&[before(1, 0), same_title(0, 1)]),
            &[1, 1, 8, 6, 7, 6],
            6,
        ),
        (
            "both voices on list 1",
            vec![voice(1), voice(1), END],
            &[1, 1, 2, 0, 2, 0, 2, 1, 4, NO_START, 4, NO_START],
            6,
        ),
        ("BEFORE 0 0", vec![voice(1), before(0, 0), END], &[], 3),
        (
            "BEFORE 0 1 FIRST NOT SECOND NEAR c = 0",
            before_and_near(FIRST_NOT_SECOND),
            &[2, 1, 4, NO_START, 9, NO_START, 0, 0, 0, 0, 0],
            12,
        ),
        (
            "BEFORE 0 1 BOTH NEAR c = 0",
            before_and_near(BOTH),
            &[1, 1, 2, 0, 5, 0, 1, 8, 6, 7, 6],
            12,
        ),
        (
            "BEFORE 0 1 EITHER NEAR c = 0",
            before_and_near(EITHER),
            &[
                1, 1, 2, 0, 5, 0, 1, 8, 6, 7, 6, //
                2, 1, 4, NO_START, 9, NO_START, 0, 0, 0, 0, 0,
            ],
            12,
        ),
    ];
    let mut trial = Trial::default();
    for (name, plan, words, tally) in rows {
        trial.case = name.to_string();
        let subject = over_sample(plan);
        let width = subject.searcher().width();
        for room in width..=3 * width {
            assert_eq!(trial.search(&subject, room), (words.to_vec(), *tally), "{name}, {room}");
        }
        for room in 0..width {
            assert_eq!(trial.list_rows(&subject, 0, room), Err((16, 0)), "{name}, {room}");
        }
    }
}

/// A buffer of three or four words, or of five, is refused. In one of six words the call from 0 is
/// DONE and has tallied both documents, the call from 2 gives no row. Without SAME TITLE there are
/// two rows, and the first call says MORE.
#[test]
fn a_buffer_of_four_words() {
    let mut trial = Trial::default();
    let subject = over_sample(&SAMPLE);
    for (start, room) in [(0, 3), (0, 4), (0, 5), (2, 3), (2, 4), (2, 5)] {
        assert_eq!(trial.list_rows(&subject, start, room), Err((16, 0)), "{start}, {room}");
    }
    let first = Listed { rows: 1, tally: 6, more: None };
    assert_eq!(trial.list_rows(&subject, 0, 6), Ok((vec![1, 1, 2, 0, 5, 0], first)));
    let second = Listed { rows: 0, tally: 2, more: None };
    assert_eq!(trial.list_rows(&subject, 2, 6), Ok((vec![], second)));

    let subject = over_sample(&two(&[before(0, 1)]));
    let first = Listed { rows: 1, tally: 4, more: Some(2) };
    assert_eq!(trial.list_rows(&subject, 0, 6), Ok((vec![1, 1, 2, 0, 5, 0], first)));
    let second = Listed { rows: 1, tally: 2, more: None };
    assert_eq!(trial.list_rows(&subject, 2, 6), Ok((vec![2, 1, 4, NO_START, 9, NO_START], second)));
}

/// The sample from every document near its own, and from the ends.
#[test]
fn starts_of_the_sample() {
    let mut trial = Trial::default();
    let subject = over_sample(&SAMPLE);
    let untitled = over_sample(&two(&[before(0, 1)]));
    let rows = [1, 1, 2, 0, 5, 0, 2, 1, 4, NO_START, 9, NO_START];
    for (start, words, all_words, tally) in [
        (0, &rows[..6], &rows[..], 6),
        (1, &rows[..6], &rows, 6),
        (2, &[], &rows[6..], 2),
        (3, &[], &[], 0),
        (4, &[], &[], 0),
        (65_534, &[], &[], 0),
        (65_535, &[], &[], 0),
    ] {
        for (subject, words) in [(&subject, words), (&untitled, all_words)] {
            let listed = Listed { rows: words.len() as u32 / 6, tally, more: None };
            let answer = trial.list_rows(subject, start, 12);
            assert_eq!(answer, Ok((words.to_vec(), listed)), "{start}");
        }
    }
    for start in [65_536, 65_537, 65_538, 131_072, 1 << 31, u32::MAX] {
        for room in [0, 5, 6, 12] {
            assert_eq!(trial.list_rows(&subject, start, room), Err((15, 0)), "{start}");
        }
    }
}

/// The listing of a plan over lists that are told by document and position.
#[track_caller]
fn listing(lists: &[&[(u32, u32)]], rows: &[Row]) -> (Vec<u32>, u32) {
    Trial::default().listing(&Subject::over(lists, rows))
}

/// Trap: 1:65,535 and 2:0 are neighbours as numbers and not in any document.
#[test]
fn neighbours_across_a_documents_edge() {
    let near_and_span = [near(0, 1, 0), near(0, 1, 65_535), span(2), span(65_536)];
    let in_order = [before(0, 1), apart(0, 1, 0, 0), apart(0, 1, 0, 65_535)];
    for predicate in near_and_span.into_iter().chain(in_order) {
        let (words, tally) = listing(&[&[], &[(1, 65_535)], &[(2, 0)]], &two(&[predicate]));
        assert_eq!((words, tally), (vec![], 2), "{predicate:?}");
        let both = [&[(1, 65_535), (3, 7)][..], &[(2, 0), (3, 8)]];
        let (words, tally) = listing(&[&[], both[0], both[1]], &two(&[predicate]));
        assert_eq!((words, tally), (vec![3, 1, 7, NO_START, 8, NO_START], 4), "{predicate:?}");
    }
    assert_eq!(listing(&[&[], &[(1, 65_535)], &[(2, 0)]], &two(&[])), (vec![], 2));
    // A variable that has passed its last position in document 1 does not take one of document 2.
    let lists: [&[(u32, u32)]; 3] = [&[], &[(1, 3), (2, 9)], &[(1, 9), (2, 3)]];
    assert_eq!(listing(&lists, &two(&[near(0, 1, 0)])), (vec![], 4));
    assert_eq!(listing(&lists, &two(&[before(1, 0)])), (vec![2, 1, 9, NO_START, 3, NO_START], 4));
    // Nor does a title start of another document part two positions, or put them in a title.
    let words: [&[(u32, u32)]; 2] = [&[(0, 4), (1, 4), (2, 4)], &[(0, 6), (1, 6), (2, 6)]];
    for (starts, listed) in [
        (&[(0, 0), (0, 5), (1, 0), (2, 0), (2, 5)][..], vec![1, 1, 4, 0, 6, 0]),
        (&[(0, 0), (2, 0)], vec![0, 1, 4, 0, 6, 0, 2, 1, 4, 0, 6, 0]),
        (&[(0, 0), (0, 65_535), (2, 0)], vec![0, 1, 4, 0, 6, 0, 2, 1, 4, 0, 6, 0]),
        (&[(0, 5), (0, 65_535), (2, 5)], vec![]),
    ] {
        let lists = [starts, words[0], words[1]];
        assert_eq!(listing(&lists, &two(&[same_title(0, 1)])), (listed, 6), "{starts:?}");
    }
}

/// Trap: on a failed NEAR the earlier variable moves, and never the later one.
#[test]
fn a_failed_near_moves_the_earlier_variable() {
    let lists: [&[(u32, u32)]; 3] = [&[], &[(4, 1), (4, 9)], &[(4, 10), (4, 90)]];
    assert_eq!(listing(&lists, &two(&[near(0, 1, 0)])).0, [4, 1, 9, NO_START, 10, NO_START]);
    assert_eq!(listing(&lists, &two(&[near(1, 0, 0)])).0, [4, 1, 9, NO_START, 10, NO_START]);
    let lists: [&[(u32, u32)]; 3] = [&[], &[(4, 10), (4, 90)], &[(4, 1), (4, 9)]];
    assert_eq!(listing(&lists, &two(&[near(0, 1, 0)])).0, [4, 1, 10, NO_START, 9, NO_START]);
    assert_eq!(listing(&lists, &two(&[near(1, 0, 0)])).0, [4, 1, 10, NO_START, 9, NO_START]);
}

/// Trap: an EITHER goes on when one list has run out.
#[test]
fn either_goes_on_when_one_list_runs_out() {
    let either = [voice(1), END, voice(2), END, EITHER];
    let (early, late): ([(u32, u32); 1], _) = ([(1, 5)], [(2, 6), (9, 7)]);
    let (words, tally) = listing(&[&[], &early, &late], &either);
    assert_eq!(
        words,
        [
            1, 1, 5, NO_START, 0, 0, 0, //
            2, 0, 0, 0, 1, 6, NO_START, //
            9, 0, 0, 0, 1, 7, NO_START,
        ]
    );
    assert_eq!(tally, 3);
    let (words, _) = listing(&[&[], &late, &early], &either);
    assert_eq!(
        words,
        [
            1, 0, 0, 0, 1, 5, NO_START, //
            2, 1, 6, NO_START, 0, 0, 0, //
            9, 1, 7, NO_START, 0, 0, 0,
        ]
    );
    let (words, _) = listing(&[&[], &[], &late], &either);
    assert_eq!(words, [2, 0, 0, 0, 1, 6, NO_START, 9, 0, 0, 0, 1, 7, NO_START]);
    let (words, _) = listing(&[&[], &late, &[]], &either);
    assert_eq!(words, [2, 1, 6, NO_START, 0, 0, 0, 9, 1, 7, NO_START, 0, 0, 0]);
}

/// Trap: FIRST NOT SECOND drops whole documents, and not positions that both sides have.
#[test]
fn first_not_second_drops_documents() {
    let not = [voice(1), END, voice(2), END, FIRST_NOT_SECOND];
    // Document 1 shares a position, document 2 has other ones, document 3 has the first alone.
    let first = [(1, 4), (1, 5), (2, 4), (3, 4), (3, 5)];
    let second = [(1, 4), (2, 8), (4, 4)];
    let (words, tally) = listing(&[&[], &first, &second], &not);
    assert_eq!((&words[..], tally), (&[3, 1, 4, NO_START, 0, 0, 0][..], 8));
    let (words, _) = listing(&[&[], &second, &first], &not);
    assert_eq!(words, [4, 1, 4, NO_START, 0, 0, 0]);
    assert_eq!(listing(&[&[], &first, &first], &not).0, []);
    assert_eq!(listing(&[&[], &first, &[]], &not).0.len(), 3 * 7);
    assert_eq!(listing(&[&[], &[], &first], &not).0, []);
}
