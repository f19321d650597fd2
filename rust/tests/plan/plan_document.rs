//! What document 01 itself says of plans: the kinds, with those of document 02, the limits, the
//! sample plan, and the plans of its table of cases.

use crate::support::plans::*;
use crate::support::*;
use lihambozy::{kind, MAX_PATTERNS, MAX_ROWS, MAX_VARS, ROW_WORDS};

/// Document 01's nine, APART and AT LEAST.
#[test]
fn the_eleven_kinds() {
    assert_eq!(
        [
            kind::VOICE,
            kind::NEAR,
            kind::BEFORE,
            kind::SAME_TITLE,
            kind::SPAN,
            kind::END,
            kind::BOTH,
            kind::EITHER,
            kind::FIRST_NOT_SECOND,
            kind::APART,
            kind::AT_LEAST,
        ],
        [1, 2, 3, 4, 5, 6, 7, 8, 9, 10, 11]
    );
}

/// c = least × 65,536 + most.
#[test]
fn the_limits_of_apart() {
    for (least, most, c) in [
        (0, 0, 0),
        (0, 1, 1),
        (0, 65_535, 65_535),
        (1, 0, 65_536),
        (1, 1, 65_537),
        (3, 7, 196_615),
        (65_535, 65_534, 4_294_967_294),
        (65_535, 65_535, 4_294_967_295),
    ] {
        assert_eq!(apart(5, 6, least, most), [10, 5, 6, c], "{least} {most}");
    }
}

#[test]
fn the_limits() {
    assert_eq!([ROW_WORDS, MAX_ROWS, MAX_PATTERNS, MAX_VARS], [4, 64, 8, 8]);
}

#[test]
fn the_sample_plan() {
    let plan = [
        1, 1, 0, 0, // VOICE 1
        1, 2, 0, 0, // VOICE 2
        3, 0, 1, 0, // BEFORE 0 1
        4, 0, 1, 0, // SAME TITLE 0 1
        6, 0, 0, 0, // END
    ];
    assert_eq!(SAMPLE.concat(), plan);
    let volume = sample().volume();
    let mut trial = Trial::default();
    assert_eq!(trial.plan(&volume, &plan), Ok((1, 2)));
    assert_eq!(lihambozy::calls::pattern_rows(&volume, &plan, 0), plan);
    assert_eq!(lihambozy::calls::pattern_rows(&volume, &plan, 1), []);
}

/// The plans of the table of cases: F and V, and each pattern's own rows.
#[test]
fn the_table_of_cases() {
    let one = |rows: Vec<Row>| (rows.clone(), vec![rows]);
    let (first, second) = (two(&[before(0, 1)]), two(&[near(0, 1, 0)]));
    let joined = [&first[..], &second[..], &[FIRST_NOT_SECOND]].concat();
    let rows = [
        ("the listing", one(SAMPLE.to_vec()), (1, 2)),
        ("NEAR 0 1, c = 0", one(two(&[near(0, 1, 0)])), (1, 2)),
        ("NEAR 0 1, c = 3", one(two(&[near(0, 1, 3)])), (1, 2)),
        ("NEAR 0 1, c = 4", one(two(&[near(0, 1, 4)])), (1, 2)),
        ("SPAN 4", one(two(&[span(4)])), (1, 2)),
        ("SPAN 3", one(two(&[span(3)])), (1, 2)),
        ("BEFORE 1 0, SAME TITLE 0 1", one(two(&[before(1, 0), same_title(0, 1)])), (1, 2)),
        ("both voices on list 1", one(vec![voice(1), voice(1), END]), (1, 2)),
        ("BEFORE 0 0", one(vec![voice(1), before(0, 0), END]), (1, 1)),
        ("BEFORE FIRST NOT SECOND NEAR", (joined, vec![first, second]), (2, 4)),
    ];
    let volume = sample().volume();
    let mut trial = Trial::default();
    for (name, (rows, patterns), sizes) in rows {
        trial.case = name.to_string();
        let plan = rows.concat();
        assert_eq!(trial.plan(&volume, &plan), Ok(sizes), "{name}");
        for (pattern, rows) in (0..).zip(patterns) {
            let shown = lihambozy::calls::pattern_rows(&volume, &plan, pattern);
            assert_eq!(shown, rows.concat(), "{name}, pattern {pattern}");
        }
    }
}

/// A row of a listing has 1 + F + 2V words. The documents list these plans over the sample.
#[test]
fn words_of_a_listing_row() {
    let volume = sample().volume();
    let joined = [two(&[before(0, 1)]), two(&[near(0, 1, 0)]), vec![FIRST_NOT_SECOND]].concat();
    for (rows, row) in [
        (SAMPLE.to_vec(), &[1, 1, 2, 0, 5, 0][..]),
        (two(&[near(0, 1, 4)]), &[1, 1, 2, 0, 5, 0]),
        (joined, &[2, 1, 4, 65_536, 9, 65_536, 0, 0, 0, 0, 0]),
    ] {
        let plan = rows.concat();
        let checked = lihambozy::calls::check_plan(&volume, &plan).unwrap();
        let width = (1 + checked.patterns + 2 * checked.vars) as usize;
        // There is room for one row and all words but one of a second.
        let mut out = vec![99; 2 * width - 1];
        let listing = lihambozy::calls::list(&volume, &plan, 0, &mut out).unwrap();
        assert_eq!(listing.rows, 1, "{row:?}");
        assert_eq!((&out[..width], &out[width..]), (row, &vec![99; width - 1][..]), "{row:?}");
        let short = lihambozy::calls::list(&volume, &plan, 0, &mut out[..width - 1]);
        assert_eq!(short.map_err(pair), Err((16, 0)), "{row:?}");
    }
}
