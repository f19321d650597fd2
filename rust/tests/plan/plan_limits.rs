//! Plans of every length, and the largest ones.

use crate::support::plans::*;
use crate::support::*;

const V: Row = voice(1);

/// A pattern of so many variables and predicates.
fn pattern(vars: usize, predicates: usize) -> Vec<Row> {
    [vec![V; vars], vec![span(9); predicates], vec![END]].concat()
}

/// Every number of words, cut from rows that are in order as far as they go: whole rows end in an
/// open pattern.
#[test]
fn every_length() {
    let volume = sample().volume();
    let words = [vec![V], vec![span(1); 80]].concat().concat();
    let mut trial = Trial::default();
    for length in 0..=words.len() {
        trial.case = format!("{length} words");
        let whole = length % 4 == 0 && 0 < length && length <= 256;
        let refused = if whole { (14, 0) } else { (9, 0) };
        assert_eq!(trial.plan(&volume, &words[..length]), Err(refused), "{length} words");
    }
}

/// The same with END as the last row.
#[test]
fn every_number_of_rows() {
    let volume = sample().volume();
    let mut trial = Trial::default();
    for rows in 2..=80 {
        trial.case = format!("{rows} rows");
        let answer = if rows <= 64 { Ok((1, 1)) } else { Err((9, 0)) };
        assert_eq!(trial.plan(&volume, &pattern(1, rows - 2).concat()), answer, "{rows} rows");
    }
}

/// 9 comes before a look at any row, and has no place.
#[test]
fn lengths_before_rows() {
    let volume = sample().volume();
    let mut trial = Trial::default();
    for length in [1, 2, 3, 5, 7, 19, 21, 255, 257, 258, 259, 260, 264, 1_024] {
        for word in [0, 1, 6, u32::MAX] {
            trial.case = format!("{length} words of {word}");
            let plan = vec![word; length];
            assert_eq!(trial.plan(&volume, &plan), Err((9, 0)), "{}", trial.case);
        }
    }
}

/// The greatest number of variables: 56 in 7 patterns, so that a row of a listing has 120 words.
/// One AT LEAST joins them. Where operators of two answers do, there are 51.
#[test]
fn the_largest_plans() {
    let volume = sample().volume();
    let seven = [vec![8; 6], vec![3]].concat();
    let eight = [vec![8; 5], vec![7, 1, 1]].concat();
    let equal = [vec![7; 5], vec![5, 5, 4]].concat();
    let most = [vec![8; 5], vec![7, 7, 1]].concat();
    let rows: [(&str, Vec<usize>, (u32, u32)); 9] = [
        ("6 patterns of 8", vec![8; 6], (6, 48)),
        ("7 patterns, the last of 3", seven.clone(), (7, 51)),
        ("7 patterns, the first of 3", seven.into_iter().rev().collect(), (7, 51)),
        ("8 patterns, the last of 1", eight.clone(), (8, 49)),
        ("8 patterns, the first of 1", eight.into_iter().rev().collect(), (8, 49)),
        ("8 patterns, about equal", equal, (8, 49)),
        ("7 patterns of 8", vec![8; 7], (7, 56)),
        ("8 patterns, 55 variables", most.clone(), (8, 55)),
        ("8 patterns, 55 variables, the first of 1", most.into_iter().rev().collect(), (8, 55)),
    ];
    let mut trial = Trial::default();
    for (name, sizes, answer) in rows {
        let patterns: Vec<Vec<Row>> = sizes.iter().map(|&vars| pattern(vars, 0)).collect();
        let operators = patterns.len() - 1;
        let at_the_end = [patterns.concat(), vec![EITHER; operators]].concat();
        let one_by_one = [
            patterns[0].clone(),
            patterns[1..].iter().flat_map(|rows| [&rows[..], &[BOTH]].concat()).collect(),
        ]
        .concat();
        let of_all = sizes.len() as u32;
        let in_one = [patterns.concat(), vec![at_least(of_all / 2, of_all)]].concat();
        for mut rows in [at_the_end, one_by_one, in_one] {
            trial.case = name.to_string();
            if answer.1 > 51 && rows.len() > 64 {
                assert_eq!(trial.plan(&volume, &rows.concat()), Err((9, 0)), "{name}");
                continue;
            }
            assert!(rows.len() <= 64, "{name}");
            assert_eq!(trial.plan(&volume, &rows.concat()), Ok(answer), "{name}");

            // Predicates up to 64 rows, and one more.
            let end = rows.iter().position(|&row| row == END).unwrap();
            rows.splice(end..end, vec![span(1); 64 - rows.len()]);
            trial.case = format!("{name}, 64 rows");
            assert_eq!(trial.plan(&volume, &rows.concat()), Ok(answer), "{name}");
            rows.insert(end, span(1));
            trial.case = format!("{name}, 65 rows");
            assert_eq!(trial.plan(&volume, &rows.concat()), Err((9, 0)), "{name}");
        }
    }
}

/// The last row of the largest plan is looked at like any other.
#[test]
fn the_last_of_64_rows() {
    let volume = sample().volume();
    let front = [vec![V; 7], vec![span(1); 56]].concat();
    let mut trial = Trial::default();
    for (last, answer) in [
        (END, Ok((1, 7))),
        (span(1), Err((14, 0))),
        (span(0), Err((10, 63))),
        (apart(0, 6, 1, 1), Err((14, 0))),
        (apart(0, 6, 1, 0), Err((10, 63))),
        (apart(0, 7, 0, 1), Err((13, 63))),
        (voice(3), Err((11, 63))),
        (V, Err((13, 63))),
        (before(0, 7), Err((13, 63))),
        (BOTH, Err((13, 63))),
        (at_least(1, 2), Err((13, 63))),
        (at_least(3, 2), Err((10, 63))),
    ] {
        trial.case = format!("{last:?}");
        let plan = [&front[..], &[last]].concat().concat();
        assert_eq!(trial.plan(&volume, &plan), answer, "{last:?}");
    }
    // A ninth pattern in the last row.
    let front = [pattern(1, 40), pattern(1, 0).repeat(7), vec![BOTH; 7]].concat();
    let plan = [&front[..], &[V]].concat().concat();
    trial.case = "a ninth pattern".to_string();
    assert_eq!(plan.len(), 256);
    assert_eq!(trial.plan(&volume, &plan), Err((12, 63)));
}

/// Lengths that are those of a plan in 8, in 16, and as bytes in 32 bits. The memory of the longest
/// is never touched but for its first words.
#[test]
#[cfg(target_pointer_width = "64")]
fn lengths_over_8_16_and_32_bits() {
    let volume = sample().volume();
    let plan = SAMPLE.concat();
    for longer in [1 << 8, 1 << 16, 1 << 30] {
        let mut words = vec![0; longer + plan.len()];
        words[..plan.len()].copy_from_slice(&plan);
        assert_eq!(
            lihambozy::calls::check_plan(&volume, &words).map_err(pair).unwrap_err(),
            (9, 0)
        );
        assert!(lihambozy::calls::pattern_rows(&volume, &words, 0).is_empty(), "{longer}");
    }
}
