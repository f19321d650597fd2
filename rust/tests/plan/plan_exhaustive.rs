//! All plans of a few rows, and all rows behind all fronts that differ for them.

use crate::support::plans::*;
use crate::support::*;

/// Every plan of up to six rows out of these: how many are accepted by the number of patterns, and
/// what else was met.
fn every_plan_of(choices: &[Row]) -> ([usize; 3], Trial) {
    let volume = sample().volume();
    let mut trial = Trial::default();
    let mut accepted = [0; 3];
    for count in 1..=6 {
        for number in 0..choices.len().pow(count) {
            let digit = |i| number / choices.len().pow(i) % choices.len();
            let rows: Vec<Row> = (0..count).map(|i| choices[digit(i)]).collect();
            trial.case = format!("{rows:?}");
            match trial.plan(&volume, &rows.concat()) {
                Ok((patterns, _)) => accepted[patterns as usize] += 1,
                Err((14, 0)) => {
                    // Rows that are in order one by one never leave no answer and no open pattern.
                    let count = |row| rows.iter().filter(|&&other| other == row).count();
                    let open = ![END, BOTH].contains(&rows[rows.len() - 1]);
                    assert!(open || count(END) - count(BOTH) > 1, "{}", trial.case);
                }
                Err(_) => {}
            }
        }
    }
    (accepted, trial)
}

/// Every plan of up to six rows, out of seven that differ in all that an order can turn on.
#[test]
fn every_small_plan() {
    let choices = [voice(1), voice(0), before(0, 0), before(1, 0), span(1), END, BOTH];
    let (accepted, trial) = every_plan_of(&choices);
    // By the variables of a pattern, 1 to 5, and the predicates behind them: one variable leaves
    // two predicates to choose from, more of them three. Two patterns and BOTH have two rows each,
    // or two and three, or three and two; there are three patterns of three rows.
    let one = (1 + 2 + 4 + 8 + 16) + (1 + 3 + 9 + 27) + (1 + 3 + 9) + (1 + 3) + 1;
    let two = 1 + 3 + 3;
    assert_eq!(accepted, [0, one, two]);
    trial.assert_met(Call::Plan, 96, &[0, 11, 13, 14]);
}

/// The same with APART for every predicate, one of them with a least over its most.
#[test]
fn every_small_plan_with_apart() {
    let predicates = [apart(0, 0, 0, 0), apart(1, 0, 2, 65_535), apart(0, 0, 1, 0)];
    let (accepted, trial) = every_plan_of(&[&[voice(1)], &predicates[..], &[END, BOTH]].concat());
    // One variable leaves one predicate to choose from, more of them two; so there are two patterns
    // of three rows.
    let one = 5 + (1 + 2 + 4 + 8) + (1 + 2 + 4) + (1 + 2) + 1;
    let two = 1 + 2 + 2;
    assert_eq!(accepted, [0, one, two]);
    trial.assert_met(Call::Plan, 36, &[0, 10, 13, 14]);
    trial.assert_met_at(Call::Plan, 6, &[10, 13]);
}

/// Every kind with every edge of its words, in every state that the rows in front can leave.
#[test]
fn every_row_behind_every_front() {
    let v = voice(1);
    let p = [v, END];
    let fronts: &[(&str, &[&[Row]])] = &[
        ("nothing", &[]),
        ("one variable", &[&[v]]),
        ("two variables", &[&[v, v]]),
        ("seven variables", &[&[v; 7]]),
        ("eight variables", &[&[v; 8]]),
        ("one variable, a predicate", &[&[v, span(1)]]),
        ("seven variables, a predicate", &[&[v; 7], &[before(0, 6)]]),
        ("eight variables, a predicate", &[&[v; 8], &[near(7, 7, 0)]]),
        ("one answer", &[&p]),
        ("one answer, one variable", &[&p, &[v]]),
        ("two answers", &[&p, &p]),
        ("two answers, two variables", &[&p, &p, &[v, v]]),
        ("two answers, a predicate", &[&p, &p, &[v, same_title(0, 0)]]),
        ("two variables, an APART", &[&[v, v, apart(0, 1, 3, 3)]]),
        ("an operator", &[&p, &p, &[EITHER]]),
        ("an AT LEAST", &[&p, &p, &p, &[at_least(2, 3)]]),
        ("an answer, an AT LEAST", &[&p, &p, &p, &[at_least(1, 2)]]),
        ("seven answers", &[&p.repeat(7)]),
        ("eight answers", &[&p.repeat(8)]),
        ("the eighth pattern is open", &[&p.repeat(7), &[v]]),
        ("eight patterns, one answer", &[&p.repeat(8), &[BOTH; 7]]),
        ("eight patterns, one AT LEAST", &[&p.repeat(8), &[at_least(3, 8)]]),
    ];
    let kinds = [0, 1, 2, 3, 4, 5, 6, 7, 8, 9, 10, 11, 12, 13, 257, 266, 267, u32::MAX];
    let edges = [0, 1, 2, 3, 6, 7, 8, 9, 65_536, u32::MAX];
    // As limits of APART: 0 0, 0 1, 0 65535, 1 0, 1 1, 65535 65534, 65535 65535.
    let limits = [0, 1, 65_535, 65_536, 65_537, u32::MAX - 1, u32::MAX];
    let volume = sample().volume();
    let mut trial = Trial::default();
    for (name, front) in fronts {
        let front = front.concat().concat();
        for kind in kinds {
            for a in edges {
                for b in edges {
                    for c in limits {
                        let row = [kind, a, b, c];
                        trial.case = format!("{name}, then {row:?}");
                        let _ = trial.plan(&volume, &[&front[..], &row].concat());
                    }
                }
            }
        }
    }
    trial.assert_met(Call::Plan, 8, &[0, 10, 11, 12, 13, 14]);
}
