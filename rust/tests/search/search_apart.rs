//! APART, beside the naive searcher: its edges, among the other predicates and under each operator,
//! needs that pass the end of a document, every small document, and what must hold between APART
//! and the other predicates.

use crate::support::plans::*;
use crate::support::searches::*;
use crate::support::*;

/// Positions of variable a and of variable b, least, most, and the least positions of both.
#[test]
fn apart_at_its_edges() {
    let rows: &[(Of, Of, u16, u16, Pair)] = &[
        // a phrase
        (&[100], &[101], 0, 0, Some([100, 101])),
        (&[100], &[100], 0, 0, None),
        (&[100], &[102], 0, 0, None),
        (&[100], &[99], 0, 0, None),
        (&[0], &[1], 0, 0, Some([0, 1])),
        (&[65_534], &[65_535], 0, 0, Some([65_534, 65_535])),
        // least is most
        (&[100], &[103], 3, 3, None),
        (&[100], &[104], 3, 3, Some([100, 104])),
        (&[100], &[105], 3, 3, None),
        (&[100], &[96], 3, 3, None),
        // one below least, least, most, one over most
        (&[100], &[102], 2, 4, None),
        (&[100], &[103], 2, 4, Some([100, 103])),
        (&[100], &[104], 2, 4, Some([100, 104])),
        (&[100], &[105], 2, 4, Some([100, 105])),
        (&[100], &[106], 2, 4, None),
        // b at a or in front of it, as far as it may be and further
        (&[100], &[100], 0, 65_535, None),
        (&[100], &[99], 0, 65_535, None),
        (&[100], &[98], 0, 65_535, None),
        (&[100], &[97], 2, 4, None),
        (&[100], &[95], 2, 4, None),
        (&[65_535], &[0], 0, 65_535, None),
        (&[65_535], &[0], 65_534, 65_535, None),
        (&[65_535], &[0], 0, 0, None),
        (&[0], &[0], 0, 65_535, None),
        (&[65_535], &[65_535], 0, 65_535, None),
        // the ends of a document
        (&[0], &[65_535], 0, 65_535, Some([0, 65_535])),
        (&[0], &[65_535], 0, 65_534, Some([0, 65_535])),
        (&[0], &[65_535], 0, 65_533, None),
        (&[1], &[65_535], 0, 65_533, Some([1, 65_535])),
        (&[0], &[65_535], 65_534, 65_534, Some([0, 65_535])),
        (&[0], &[65_535], 65_534, 65_535, Some([0, 65_535])),
        (&[1], &[65_535], 65_534, 65_535, None),
        (&[0], &[65_534], 65_534, 65_535, None),
        (&[1], &[65_535], 65_533, 65_535, Some([1, 65_535])),
        (&[0], &[65_535], 65_535, 65_535, None),
        (&[65_535], &[0], 65_535, 65_535, None),
        (&[0], &[0], 65_535, 65_535, None),
        // 8 and 15 bits
        (&[0], &[256], 255, 255, Some([0, 256])),
        (&[0], &[256], 256, 256, None),
        (&[0], &[257], 256, 256, Some([0, 257])),
        (&[0], &[32_768], 32_767, 32_767, Some([0, 32_768])),
        (&[0], &[32_769], 32_768, 40_000, Some([0, 32_769])),
        (&[40_000], &[7_232], 0, 32_768, None),
        // b moves behind a as far as it must and no further
        (&[5], &[1, 5, 6, 9], 0, 65_535, Some([5, 6])),
        (&[5], &[1, 5, 6, 9], 1, 65_535, Some([5, 9])),
        (&[5], &[1, 5, 6, 8, 9], 2, 9, Some([5, 8])),
        (&[5], &[1, 5, 6, 9], 4, 65_535, None),
        (&[5], &[1, 5, 6, 65_535], 4, 65_535, Some([5, 65_535])),
        // a moves up to b as far as it must and no further
        (&[1, 5, 9, 20], &[20], 0, 10, Some([9, 20])),
        (&[1, 5, 9, 20], &[20], 0, 9, None),
        (&[1, 5, 9, 10, 11, 20], &[20], 0, 9, Some([10, 20])),
        (&[1, 5, 9, 20], &[20], 0, 65_535, Some([1, 20])),
        (&[1, 18, 19], &[20], 0, 0, Some([19, 20])),
        // both by turns
        (&[1, 10, 30, 33], &[2, 20, 31, 40], 0, 0, Some([1, 2])),
        (&[1, 10, 30, 33], &[3, 20, 31, 40], 0, 0, Some([30, 31])),
        (&[1, 10, 30, 33], &[4, 21, 32, 40], 6, 6, Some([33, 40])),
        (&[1, 10, 30, 33], &[4, 21, 32, 41], 6, 6, None),
        (&[1, 10, 30, 33], &[3, 20, 31, 40], 9, 9, Some([10, 20])),
        (&[0, 20, 40, 60], &[15, 35, 55, 75], 14, 14, Some([0, 15])),
        (&[0, 20, 40, 60], &[16, 36, 55, 75], 14, 14, Some([40, 55])),
        (&[0, 20, 40, 65_000], &[16, 36, 56, 65_535], 534, 534, Some([65_000, 65_535])),
    ];
    let mut trial = Trial::default();
    for &(a, b, least, most, found) in rows {
        let (found, turned) = (found.map(Vec::from), found.map(|[p, q]| vec![q, p]));
        settles(&mut trial, &[], &[a, b], &[apart(0, 1, least, most)], found.as_deref());
        settles(&mut trial, &[], &[b, a], &[apart(1, 0, least, most)], turned.as_deref());
    }
}

/// A variable never stands apart from itself, whatever the limits, and then its pattern is never
/// found.
#[test]
fn a_variable_named_twice() {
    let limits = [(0, 0), (0, 65_535), (1, 9), (65_534, 65_535), (65_535, 65_535)];
    let mut trial = Trial::default();
    for (least, most) in limits {
        for positions in [&[0][..], &[9], &[65_535], &[4, 5], &[0, 65_535], &[3, 4, 5, 6, 7]] {
            settles(&mut trial, &[], &[positions], &[apart(0, 0, least, most)], None);
        }
        // Beside a variable that could stand apart from it, and among other predicates.
        let lists: [&[u32]; 2] = [&[9, 10], &[3, 10, 11, 20]];
        for var in [0, 1] {
            let itself = apart(var, var, least, most);
            settles(&mut trial, &[0], &lists, &[itself], None);
            settles(&mut trial, &[0], &lists, &[apart(0, 1, 0, 0), itself], None);
            settles(&mut trial, &[0], &lists, &[itself, same_title(0, 1), span(9)], None);
        }
    }
    // Two variables on one list are two, and may take one position and the next.
    let rows = [voice(1), voice(1), apart(0, 1, 0, 0), END];
    let list = [(1, 4), (1, 6), (1, 7), (2, 5), (2, 7), (3, 0), (3, 1), (3, 2)];
    trial.lists(&Subject::over(&[&[], &list], &rows), &[1, 1, 6, 7, 3, 1, 0, 1], 16);
}

/// APART with each of the other predicates and with all of them: the least positions are those that
/// meet all of them together, in whatever order they stand.
#[test]
fn predicates_together() {
    let (a, b, c): (Of, Of, Of) = (&[1, 10, 20, 30], &[2, 12, 21, 33], &[5, 15, 22, 40]);
    let mut trial = Trial::default();
    for (predicates, least) in [
        (&[apart(0, 1, 0, 0), apart(1, 2, 0, 0)][..], Some(&[20, 21, 22][..])),
        (&[apart(0, 1, 1, 65_535), apart(1, 2, 1, 65_535)], Some(&[1, 12, 15])),
        (&[apart(0, 1, 1, 3), apart(1, 2, 1, 3)], Some(&[10, 12, 15])),
        (&[apart(0, 1, 1, 3), apart(1, 2, 6, 6)], Some(&[30, 33, 40])),
        (&[apart(0, 1, 3, 65_535), apart(1, 2, 6, 6)], Some(&[1, 33, 40])),
        // with NEAR
        (&[apart(0, 1, 1, 65_535), near(0, 1, 2)], Some(&[10, 12, 5])),
        (&[apart(0, 1, 2, 65_535), near(0, 1, 2)], Some(&[30, 33, 5])),
        (&[apart(0, 1, 3, 65_535), near(0, 1, 2)], None),
        (&[apart(0, 1, 0, 2), near(1, 2, 0)], Some(&[20, 21, 22])),
        // with BEFORE
        (&[apart(0, 1, 0, 65_535), before(2, 0)], Some(&[10, 12, 5])),
        (&[apart(0, 1, 0, 0), before(2, 0)], Some(&[20, 21, 5])),
        (&[apart(0, 1, 0, 65_535), before(1, 0)], None),
        (&[apart(0, 1, 0, 65_535), before(1, 2), before(2, 0)], None),
        // with SPAN
        (&[apart(0, 1, 0, 65_535), span(3)], Some(&[20, 21, 22])),
        (&[apart(0, 1, 1, 65_535), span(6)], Some(&[10, 12, 15])),
        (&[apart(0, 1, 1, 65_535), span(5)], None),
        (&[apart(2, 1, 5, 7), span(11)], Some(&[10, 12, 5])),
        // with all
        (&[apart(0, 1, 1, 2), near(1, 2, 9), before(0, 2), span(11)], Some(&[10, 12, 15])),
        (&[apart(0, 1, 2, 2), near(1, 2, 9), before(0, 2), span(11)], Some(&[30, 33, 40])),
        (&[apart(0, 1, 2, 2), near(1, 2, 9), before(0, 2), span(10)], None),
    ] {
        let orders = [predicates.to_vec(), predicates.iter().rev().copied().collect()];
        for predicates in orders {
            settles(&mut trial, &[], &[a, b, c], &predicates, least);
        }
    }
    // With SAME TITLE.
    let lists = [a, b, c];
    for (starts, least) in [
        (&[][..], None),
        (&[0], Some(&[1, 2, 5][..])),
        (&[1, 5, 12], Some(&[1, 2, 5])),
        (&[5, 12], None),
        (&[2], Some(&[10, 2, 15])),
        (&[2, 7], Some(&[10, 12, 15])),
        (&[2, 7, 11], None),
    ] {
        for predicates in
            [[apart(0, 2, 3, 4), same_title(0, 1)], [same_title(1, 0), apart(0, 2, 3, 4)]]
        {
            settles(&mut trial, starts, &lists, &predicates, least);
        }
    }
    // All five kinds, each of them first in turn.
    let mut five = [apart(0, 1, 1, 2), near(1, 2, 6), before(1, 2), same_title(0, 2), span(11)];
    for (starts, least) in [
        (&[][..], None),
        (&[0], Some(&[10, 12, 15][..])),
        (&[10], Some(&[10, 12, 15])),
        (&[11], Some(&[30, 33, 40])),
        (&[15], Some(&[30, 33, 40])),
        (&[31], None),
        (&[5, 12], Some(&[30, 33, 40])),
        (&[5, 12, 35], None),
    ] {
        for _ in 0..five.len() {
            settles(&mut trial, starts, &lists, &five, least);
            five.rotate_left(1);
        }
    }
}

/// Chains: what the least of one APART moves on, the most of another lets follow, from the front to
/// the back and from the back to the front.
#[test]
fn chains() {
    let mut trial = Trial::default();
    // Each variable has a first position that is of no use, so that all of them move.
    let ends: [Of; 4] = [&[0, 10, 20], &[1, 13, 23], &[2, 14, 26], &[3, 15, 29]];
    for (predicates, least) in [
        // from the front: each least moves the next variable on
        (
            &[apart(0, 1, 2, 9), apart(1, 2, 0, 9), apart(2, 3, 0, 9)][..],
            Some(&[10, 13, 14, 15][..]),
        ),
        (&[apart(0, 1, 2, 65_535), apart(1, 2, 0, 0), apart(2, 3, 0, 0)], Some(&[0, 13, 14, 15])),
        (&[apart(0, 1, 2, 2), apart(1, 2, 2, 2), apart(2, 3, 2, 2)], Some(&[20, 23, 26, 29])),
        // from the back: each most lets the variable in front of it follow
        (&[apart(2, 3, 2, 9), apart(1, 2, 0, 3), apart(0, 1, 0, 3)], Some(&[20, 23, 26, 29])),
        (&[apart(2, 3, 13, 14), apart(1, 2, 0, 0), apart(0, 1, 0, 2)], Some(&[10, 13, 14, 29])),
        (&[apart(2, 3, 13, 14), apart(1, 2, 0, 0), apart(0, 1, 0, 1)], None),
        (&[apart(0, 3, 28, 28)], Some(&[0, 1, 2, 29])),
        (&[apart(0, 3, 18, 18), apart(3, 2, 0, 9)], None),
        (&[apart(0, 3, 18, 18), apart(1, 3, 5, 5), apart(1, 2, 0, 2)], Some(&[10, 23, 26, 29])),
        // there and back
        (&[apart(0, 1, 2, 2), apart(3, 2, 10, 10)], Some(&[10, 13, 14, 3])),
        (&[apart(0, 1, 2, 2), apart(3, 2, 10, 10), before(0, 3)], Some(&[10, 13, 26, 15])),
        (&[apart(0, 1, 2, 2), apart(3, 2, 10, 10), before(1, 3)], Some(&[10, 13, 26, 15])),
        (&[apart(0, 1, 2, 2), apart(3, 2, 10, 10), before(3, 0)], Some(&[10, 13, 14, 3])),
        (&[apart(0, 1, 2, 2), apart(1, 2, 2, 2), apart(3, 0, 4, 4)], Some(&[20, 23, 26, 15])),
        // round in a ring
        (&[apart(0, 1, 0, 9), apart(1, 2, 0, 9), apart(2, 0, 0, 65_535)], None),
        (&[apart(0, 1, 0, 9), apart(1, 2, 0, 9), apart(0, 2, 5, 5)], Some(&[20, 23, 26, 3])),
    ] {
        for predicates in [predicates.to_vec(), predicates.iter().rev().copied().collect()] {
            settles(&mut trial, &[], &ends, &predicates, least);
        }
    }

    // Eight variables, each with three positions: the first ones stand 1 apart, the second ones 3,
    // the third ones 7.
    let lists: Vec<Vec<u32>> =
        (0..8).map(|var| vec![2 * var, 100 + 4 * var, 1_000 + 8 * var]).collect();
    let lists: Vec<Of> = lists.iter().map(Vec::as_slice).collect();
    let chain = |least: u16, most: u16| -> Vec<Row> {
        (0..7).map(|var| apart(var, var + 1, least, most)).collect()
    };
    for (least, most, found) in [
        (0, 65_535, Some([0, 2, 4, 6, 8, 10, 12, 14])),
        (1, 1, Some([0, 2, 4, 6, 8, 10, 12, 14])),
        (2, 6, Some([100, 104, 108, 112, 116, 120, 124, 128])),
        (4, 7, Some([1_000, 1_008, 1_016, 1_024, 1_032, 1_040, 1_048, 1_056])),
        (2, 2, None),
        (8, 65_535, None),
    ] {
        let mut rows = chain(least, most);
        for _ in 0..rows.len() {
            settles(&mut trial, &[], &lists, &rows, found.as_ref().map(|found| &found[..]));
            rows.rotate_left(3);
        }
    }
}

/// APART in both sides of each operator, and flags and zeros of a pattern that is not found.
#[test]
fn under_each_operator() {
    // Document 1: a phrase. 2: five between. 3: both. 4: neither, the words turned. 5: one word.
    // All but 2 have a title around the words.
    let starts = [(1, 0), (3, 0), (4, 0), (5, 0)];
    let first = [(1, 7), (2, 7), (3, 7), (3, 20), (4, 9), (5, 7)];
    let second = [(1, 8), (2, 13), (3, 13), (3, 21), (4, 8)];
    let lists: [&[(u32, u32)]; 3] = [&starts, &first, &second];
    let phrase = two(&[apart(0, 1, 0, 0)]);
    let remote = two(&[apart(0, 1, 4, 6)]);
    let mut trial = Trial::default();
    for (name, operator, words) in [
        ("BOTH", BOTH, &[3, 1, 20, 21, 1, 7, 13][..]),
        (
            "EITHER",
            EITHER,
            &[
                1, 1, 7, 8, 0, 0, 0, //
                2, 0, 0, 0, 1, 7, 13, //
                3, 1, 20, 21, 1, 7, 13,
            ],
        ),
        ("FIRST NOT SECOND", FIRST_NOT_SECOND, &[1, 1, 7, 8, 0, 0, 0]),
    ] {
        trial.case = name.to_string();
        let rows = [&phrase[..], &remote, &[operator]].concat();
        trial.lists(&Subject::over(&lists, &rows), words, 22);
    }
    trial.case = "the second without the first".to_string();
    let rows = [&remote[..], &phrase, &[FIRST_NOT_SECOND]].concat();
    trial.lists(&Subject::over(&lists, &rows), &[2, 1, 7, 13, 0, 0, 0], 22);

    // Beside patterns of each other kind.
    for (predicate, docs) in [
        (near(0, 1, 0), &[1, 3, 4][..]),
        (before(1, 0), &[3, 4]),
        (same_title(0, 1), &[1, 3, 4]),
        (same_title(1, 1), &[1, 3, 4]),
        (span(2), &[1, 3, 4]),
    ] {
        let other = two(&[predicate]);
        for (operator, answer) in [
            (BOTH, (|one, two| one && two) as fn(bool, bool) -> bool),
            (EITHER, |one, two| one || two),
            (FIRST_NOT_SECOND, |one, two| one && !two),
        ] {
            for turned in [false, true] {
                let sides = if turned { [&other, &phrase] } else { [&phrase, &other] };
                let rows = [&sides[0][..], sides[1], &[operator]].concat();
                trial.case = format!("{predicate:?}, {operator:?}, turned {turned}");
                let (words, _) = trial.listing(&Subject::over(&lists, &rows));
                let listed: Vec<u32> = words.chunks(11).map(|row| row[0]).collect();
                let is_true = |doc: &u32| {
                    let found = [[1, 3].contains(doc), docs.contains(doc)];
                    let [one, two] = if turned { [found[1], found[0]] } else { found };
                    answer(one, two)
                };
                let expected: Vec<u32> = (1..=5).filter(is_true).collect();
                assert_eq!(listed, expected, "{}", trial.case);
            }
        }
    }
}

/// What a least asks for may lie behind the end of the document: at 65,536 or further on, where, as
/// numbers, the next document has its postings. None of these is taken, and each document is
/// settled by its own.
#[test]
fn needs_beyond_a_document() {
    let positions = [0, 1, 255, 32_767, 32_768, 65_000, 65_533, 65_534, 65_535];
    let limits = [0, 1, 254, 535, 32_767, 32_768, 65_280, 65_533, 65_534, 65_535];
    let mut trial = Trial::default();
    let [mut within, mut beyond] = [0; 2];
    for (pos, least) in positions.iter().flat_map(|&pos| limits.map(|least| (pos, least))) {
        let needed = pos + u32::from(least) + 1;
        // The second word stands right in front of what is needed and, if that is in the document,
        // there. In the next document it stands about where the need, as a number, would be.
        let own = [pos.saturating_sub(1), pos, needed - 1, needed];
        let over = needed.saturating_sub(65_536);
        let next = [over.saturating_sub(1), over, over + 1, 65_535];
        let inside = |doc: u32, of: [u32; 4]| {
            of.into_iter().filter(|&pos| pos < 65_536).map(move |pos| (doc, pos))
        };
        for (doc, most) in [0, 1, 300, 65_533, 65_534]
            .iter()
            .flat_map(|&doc| [least, 65_535].map(|most| (doc, most)))
        {
            let first = [(doc, pos), (doc + 1, 0)];
            let second = rising(inside(doc, own).chain(inside(doc + 1, next)).collect());
            let alone = two(&[apart(0, 1, least, most)]);
            let joined = [&alone[..], &[voice(2), END, BOTH]].concat();
            let turned = vec![voice(2), voice(1), span(65_536), apart(1, 0, least, most), END];
            for (rows, [p, q]) in
                [(alone, [pos, needed]), (joined, [pos, needed]), (turned, [needed, pos])]
            {
                trial.case = format!("{doc}:{pos}, {rows:?}");
                let subject = Subject::over(&[&[], &first, &second], &rows);
                let (words, _) = trial.listing(&subject);
                let row = words.get(..6).filter(|row| row[0] == doc);
                let found = [doc, 1, p, NO_START, q, NO_START];
                let expected = (needed < 65_536).then_some(&found[..]);
                assert_eq!(row, expected, "{}", trial.case);
                *if needed < 65_536 { &mut within } else { &mut beyond } += 1;
            }
        }
    }
    assert!(within > 1_000 && beyond > 1_000, "{within} {beyond}");

    // The last document of all: what is needed is no number of 32 bits.
    for least in [0, 1, 535, 65_000, 65_534, 65_535] {
        let first = [(0, 65_535), (65_535, 65_535)];
        let second = [(0, 0), (0, 535), (1, 0), (1, least), (65_535, 0), (65_535, 65_535)];
        let second = rising(second.to_vec());
        let rows = two(&[apart(0, 1, least as u16, 65_535)]);
        trial.case = format!("the last document, {rows:?}");
        let subject = Subject::over(&[&[], &first, &second], &rows);
        assert_eq!(trial.listing(&subject), (vec![], 2 + second.len() as u32), "{}", trial.case);
    }
}

/// The sets of some neighbouring positions that are not empty.
fn sets(first: u32, count: u32) -> Vec<Vec<u32>> {
    let of = |bits: u32| (0..count).filter(|i| bits >> i & 1 == 1).map(|i| first + i).collect();
    (1..1 << count).map(of).collect()
}

/// A volume whose documents give so many words each choice of these sets, in lists 1, 2 and so on.
fn volume_of_all(words: u32, sets: &[Vec<u32>]) -> Vec<u8> {
    let mut lists = vec![vec![]; 1 + words as usize];
    for doc in 0..sets.len().pow(words) {
        for (list, power) in lists[1..].iter_mut().zip(0..) {
            let positions = &sets[doc / sets.len().pow(power) % sets.len()];
            list.extend(positions.iter().map(|pos| doc as u32 * 65_536 + pos));
        }
    }
    Lists::new(&lists).volume()
}

/// Every document of two words at four positions, the first or the last there are or between, under
/// every pair of small limits and some large ones.
#[test]
fn every_small_document() {
    let limits = [0, 1, 2, 3, 65_532, 65_534, 65_535];
    let mut trial = Trial::default();
    let mut found = 0;
    for first in [0, 9_000, 65_532] {
        let volume = volume_of_all(2, &sets(first, 4));
        for (least, most) in limits.iter().flat_map(|least| limits.map(|most| (*least, most))) {
            for (a, b) in [(0, 1), (1, 0)] {
                let subject = Subject::new(&volume, &two(&[apart(a, b, least, most)]).concat());
                trial.case = format!("from {first}, APART {a} {b} {least} {most}");
                if least > most {
                    assert_eq!(trial.list_rows(&subject, 0, 6), Err((10, 2)), "{}", trial.case);
                } else {
                    found += trial.search(&subject, 6 * 1_000).0.len() / 6;
                }
            }
        }
    }
    assert!(found > 7_000, "{found}");
}

/// Every document of three words at three positions, under two APART that form a chain, a fork or a
/// ring.
#[test]
fn every_small_document_of_three() {
    let volume = volume_of_all(3, &sets(65_533, 3));
    let limits = [(0, 0), (0, 1), (1, 1), (0, 65_535), (1, 65_535)];
    let mut trial = Trial::default();
    let mut found = 0;
    for (first, second) in limits.iter().flat_map(|one| limits.map(|other| (*one, other))) {
        for (a, b) in [(1, 2), (2, 1), (0, 2), (2, 0)] {
            let predicates = [apart(0, 1, first.0, first.1), apart(a, b, second.0, second.1)];
            let rows = [&[voice(1), voice(2), voice(3)], &predicates[..], &[END]].concat();
            trial.case = format!("{predicates:?}");
            let subject = Subject::new(&volume, &rows.concat());
            found += trial.search(&subject, 8 * 1_000).0.len() / 8;
        }
    }
    assert!(found > 4_000, "{found}");
}

/// Random chains: each variable but the first stands apart from one in front of it or behind it, at
/// limits that few positions meet, so that both least and most move variables on, often by turns.
#[test]
fn random_chains() {
    let seed = 1_000;
    let mut rng = Rng::new(seed);
    let mut trial = Trial::default();
    let (mut found, mut moved, mut missed) = (0, 0, 0);
    for round in 0..800 {
        let vars = 3 + rng.below(4);
        let first = rng.pick(&[0, 40_000, 65_476]);
        let window: Vec<u32> = (first..first + 60).collect();
        let docs: Vec<u32> = rng.pick(&[[0, 1, 2], [7, 8, 9], [65_533, 65_534, 65_535]]).to_vec();
        // About so many positions of each list are in a document.
        let many = [0, 0, 0, 14, 9, 6, 5][vars];
        let list = |rng: &mut Rng| -> Vec<u32> {
            let all = docs.iter().flat_map(|doc| window.iter().map(move |pos| doc * 65_536 + pos));
            all.filter(|_| rng.below(window.len()) < many).collect()
        };
        let lists: Vec<Vec<u32>> = (0..=vars).map(|_| list(&mut rng)).collect();
        let mut rows: Vec<Row> = (1..=vars as u32).map(voice).collect();
        for var in 1..vars {
            let names = [rng.below(var) as u32, var as u32];
            let [a, b] = if rng.below(3) == 0 { [names[1], names[0]] } else { names };
            let least = rng.below(12) as u16;
            let more = rng.pick(&[0, 4, 12, 30, 65_535]);
            rows.push(apart(a, b, least, least.saturating_add(more)));
        }
        rows.push(END);
        trial.case = format!("seed {seed}, round {round}, {rows:?}");
        let subject = Subject::new(&Lists::new(&lists).volume(), &rows.concat());
        let (words, _) = trial.listing(&subject);
        let searcher = subject.searcher();
        let pattern = &searcher.patterns[0];
        for row in words.chunks(subject.width()).map(without_starts) {
            let of_vars = searcher.of_vars(pattern, row[0]);
            let on = of_vars.iter().zip(&row[2..]).filter(|(of, pos)| of[0] != **pos).count();
            found += 1;
            moved += usize::from(on >= 2);
        }
        let all = |doc: &&u32| searcher.of_vars(pattern, **doc).iter().all(|of| !of.is_empty());
        missed += docs.iter().filter(all).count() - words.len() / subject.width();
    }
    assert!(found > 500 && moved > 500 && missed > 500, "{found} {moved} {missed}");
}

/// Two different variables, and a limit that is small, at an edge or any.
fn random_names(rng: &mut Rng, pattern: &RandomPattern) -> (u32, u32, u16) {
    let vars = pattern.voices.len();
    let a = rng.below(vars);
    let b = (a + 1 + rng.below(vars - 1)) % vars;
    let (small, any) = (rng.below(6) as u16, rng.word() as u16);
    (a as u32, b as u32, rng.pick(&[0, small, small, small, any, 65_533, 65_534, 65_535]))
}

/// Over random patterns, with the predicates on the left and with those on the right the same rows
/// are listed. Some are, and some documents are not.
#[track_caller]
fn same_rows(seed: u64, mut pair: impl FnMut(&mut Rng, u32, u32, u16) -> (Vec<Row>, Vec<Row>)) {
    let mut rng = Rng::new(seed);
    let mut trial = Trial::default();
    let (mut listed, mut missed) = (0, 0);
    for round in 0..1_500 {
        let pattern = RandomPattern::new(&mut rng);
        let (a, b, limit) = random_names(&mut rng, &pattern);
        let (left, right) = pair(&mut rng, a, b, limit);
        trial.case = format!("seed {seed}, round {round}");
        let in_front = rng.below(2) == 0;
        let rows = pattern.listed(&mut trial, &pattern.with(in_front, &left));
        let others = pattern.listed(&mut trial, &pattern.with(in_front, &right));
        assert_eq!(rows, others, "{}: {left:?} and {right:?}", trial.case);
        listed += rows.len();
        missed += pattern.listed(&mut trial, &pattern.with(in_front, &[])).len() - rows.len();
    }
    assert!(listed > 500 && missed > 500, "{listed} {missed}");
}

/// No least and no upper end: that is BEFORE.
#[test]
fn apart_0_65535_is_before() {
    same_rows(1_001, |_, a, b, _| (vec![apart(a, b, 0, 65_535)], vec![before(a, b)]));
}

/// No least: that is BEFORE and NEAR together. So APART 0 c implies NEAR c.
#[test]
fn apart_0_c_is_before_and_near() {
    let near_of = |a: u32, b: u32, c: u16| near(a, b, c.into());
    same_rows(1_002, |_, a, b, c| (vec![apart(a, b, 0, c)], vec![before(a, b), near_of(a, b, c)]));
    same_rows(1_003, |_, a, b, c| {
        (vec![apart(a, b, 0, c)], vec![apart(a, b, 0, c), near_of(a, b, c)])
    });
}

/// No two positions have over 65,534 between them, so that this most sets no upper end either.
#[test]
fn the_most_of_65534() {
    same_rows(1_004, |rng, a, b, _| {
        let least = rng.below(4) as u16;
        (vec![apart(a, b, least, 65_534)], vec![apart(a, b, least, 65_535)])
    });
}

/// Two APART on the same variables are the one with the larger least and the smaller most.
#[test]
fn limits_that_overlap() {
    same_rows(1_005, |rng, a, b, most| {
        let least = (rng.below(3) as u16).min(most);
        let lower = rng.below(1 + least as usize) as u16;
        (vec![apart(a, b, lower, most), apart(a, b, least, 65_535)], vec![apart(a, b, least, most)])
    });
}

/// Of two variables never both stand behind the other, whatever the limits.
#[test]
fn never_both_ways() {
    let seed = 1_006;
    let mut rng = Rng::new(seed);
    let mut trial = Trial::default();
    let mut one_way = 0;
    for round in 0..1_500 {
        let pattern = RandomPattern::new(&mut rng);
        let (a, b, _) = random_names(&mut rng, &pattern);
        trial.case = format!("seed {seed}, round {round}");
        let ways = [(a, b), (b, a)].map(|(a, b)| {
            let least = rng.pick(&[0, 0, 1, 3, 65_534, 65_535]);
            let most = rng.pick(&[0, 1, 9, 65_534, 65_535, 65_535]);
            apart(a, b, least, most.max(least))
        });
        for way in ways {
            one_way += pattern.listed(&mut trial, &pattern.with(true, &[way])).len();
        }
        let rows = pattern.with(rng.below(2) == 0, &ways);
        assert!(pattern.listed(&mut trial, &rows).is_empty(), "{}: {ways:?}", trial.case);
    }
    assert!(one_way > 1_000, "{one_way}");
}

/// With wider limits no document is lost and no position gets later. The documents of two limits
/// side by side are those of both together.
#[test]
fn wider_limits() {
    let seed = 1_007;
    let mut rng = Rng::new(seed);
    let mut trial = Trial::default();
    let (mut kept, mut earlier, mut more) = (0, 0, 0);
    for round in 0..2_500 {
        let pattern = RandomPattern::new(&mut rng);
        let (a, b, _) = random_names(&mut rng, &pattern);
        trial.case = format!("seed {seed}, round {round}");
        let [least, middle, most] = [0, 1, 2].map(|i| 10 * i + rng.below(10) as u16);
        let most = rng.pick(&[most, most, 65_535]);
        let mut of = |least: u16, most: u16| {
            pattern.listed(&mut trial, &pattern.with(true, &[apart(a, b, least, most)]))
        };
        let (wide, low, high) = (of(least, most), of(least, middle), of(middle + 1, most));
        for narrow in low.iter().chain(&high) {
            let row = wide.iter().find(|row| row[0] == narrow[0]);
            let row = row.unwrap_or_else(|| panic!("{}: {narrow:?} is lost", trial.case));
            let [row, narrow] = [row, narrow].map(|row| without_starts(row));
            assert!(row.iter().zip(&narrow).all(|(wide, narrow)| wide <= narrow), "{}", trial.case);
            earlier += usize::from(row != narrow);
            kept += 1;
        }
        let docs = |rows: &[Vec<u32>]| rows.iter().map(|row| row[0]).collect::<Vec<u32>>();
        let mut both = [docs(&low), docs(&high)].concat();
        both.sort_unstable();
        both.dedup();
        assert_eq!(docs(&wide), both, "{}", trial.case);
        let sides = [(least, middle), (middle + 1, most)];
        let sides = sides.map(|(least, most)| pattern.with(false, &[apart(a, b, least, most)]));
        let either = [&sides[0][..], &sides[1], &[EITHER]].concat();
        assert_eq!(docs(&pattern.listed(&mut trial, &either)), both, "{}", trial.case);
        more += usize::from(low.len() < wide.len());
    }
    assert!(kept > 1_000 && earlier > 50 && more > 100, "{kept} {earlier} {more}");
}
