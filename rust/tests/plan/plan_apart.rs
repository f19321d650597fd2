//! APART in plans: which limits are in order, and a least over its most at every row.

use crate::support::plans::*;
use crate::support::*;

const V: Row = voice(1);

/// Limits at the edges of 8, 15 and 16 bits.
const LIMITS: [u16; 14] =
    [0, 1, 2, 3, 127, 128, 255, 256, 257, 32_767, 32_768, 32_769, 65_534, 65_535];

/// APART with each pair of limits: in order exactly if least does not exceed most.
#[test]
fn every_pair_of_limits() {
    let volume = sample().volume();
    let mut trial = Trial::default();
    for least in LIMITS {
        for most in LIMITS {
            trial.case = format!("APART 0 1 {least} {most}");
            let plan = two(&[apart(0, 1, least, most)]).concat();
            let answer = if least <= most { Ok((1, 2)) } else { Err((10, 2)) };
            assert_eq!(trial.plan(&volume, &plan), answer, "{}", trial.case);
        }
    }
    trial.assert_met(Call::Plan, 91, &[0, 10]);
}

/// Limits out of order, with a and b that are there and that are not.
const WRONG: [Row; 6] = [
    apart(0, 0, 1, 0),
    apart(0, 1, 8, 7),
    apart(1, 0, 65_535, 65_534),
    apart(0, 8, 256, 255),
    apart(9, 9, 65_535, 0),
    apart(u32::MAX, u32::MAX, 32_768, 32_767),
];

/// Plans in order with so many rows: one pattern with many predicates, or several patterns, the
/// operators behind each or at the end.
fn plans_of(count: usize) -> Vec<Vec<Row>> {
    let one = [vec![V], vec![span(1); count - 2], vec![END]].concat();
    let mut plans = vec![one];
    if count == 64 {
        plans.push(widest_plan());
    }
    // A pattern of two rows, and one of two or more with an operator behind it.
    if count >= 5 {
        let second = [vec![V], vec![apart(0, 0, 0, 9); count - 5], vec![END, EITHER]].concat();
        plans.push([vec![V, END], second].concat());
    }
    if count >= 23 {
        let front = [vec![V], vec![near(0, 0, 9); count - 23], vec![END]].concat();
        plans.push([front, [V, END].repeat(7), vec![BOTH; 7]].concat());
    }
    plans
}

/// A least over its most in every row of plans of 2 to 64 rows is 10 at that row, whatever stands
/// there otherwise and whatever else is wrong with the row. A fault in a row in front of it is told
/// first, and one behind it is not told.
#[test]
fn least_over_most_at_every_row() {
    let volume = sample().volume();
    let mut trial = Trial::default();
    for count in 2..=64 {
        for plan in plans_of(count) {
            assert_eq!(plan.len(), count);
            trial.case = format!("{count} rows");
            assert!(trial.plan(&volume, &plan.concat()).is_ok(), "{plan:?}");
            for at in 0..count {
                let wrong = WRONG[(at + count) % WRONG.len()];
                let mut rows = plan.clone();
                rows[at] = wrong;
                trial.case = format!("{wrong:?} is row {at} of {count}");
                let refused = Err((10, at as u32));
                assert_eq!(trial.plan(&volume, &rows.concat()), refused, "{}", trial.case);
                if at + 1 < count {
                    rows[count - 1] = if at % 2 == 0 { voice(0) } else { [0; 4] };
                    assert_eq!(trial.plan(&volume, &rows.concat()), refused, "{}", trial.case);
                }
                if at > 0 {
                    let (fault, number) = [(voice(3), 11), ([12, 0, 0, 0], 10)][at % 2];
                    rows[at / 2] = fault;
                    trial.case += &format!(", {fault:?} is row {}", at / 2);
                    let refused = Err((number, at as u32 / 2));
                    assert_eq!(trial.plan(&volume, &rows.concat()), refused, "{}", trial.case);
                }
            }
        }
    }
    trial.assert_met(Call::Plan, 100, &[0, 10, 11]);
    trial.assert_met_at(Call::Plan, 64, &[10]);
}

/// The same with 13 in the row in front: a variable that is not there, named in the first row that
/// may be a predicate.
#[test]
fn a_missing_variable_in_front_of_a_least_over_its_most() {
    let volume = sample().volume();
    let mut trial = Trial::default();
    for at in 2..63 {
        let missing = [apart(0, 1, 0, 0), apart(1, 0, 0, 0), apart(8, 0, 3, 9)][at % 3];
        let mut rows = [vec![V], vec![apart(0, 0, 2, 5); 62], vec![END]].concat();
        (rows[at - 1], rows[at]) = (missing, apart(0, 0, 6, 5));
        trial.case = format!("{missing:?}, then 10 at row {at}");
        assert_eq!(trial.plan(&volume, &rows.concat()), Err((13, at as u32 - 1)), "{}", trial.case);
        rows[at - 1] = apart(0, 0, 5, 5);
        assert_eq!(trial.plan(&volume, &rows.concat()), Err((10, at as u32)), "{}", trial.case);
    }
}
