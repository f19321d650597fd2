//! AT LEAST in plans: which numbers are in order, how many answers have to be stacked, and what is
//! told first where several things are wrong.

use crate::support::plans::*;
use crate::support::*;

const V: Row = voice(1);
/// The smallest pattern.
const P: [Row; 2] = [V, END];

/// An AT LEAST of any c.
fn at_least_of(a: u32, b: u32, c: u32) -> Row {
    [lihambozy::kind::AT_LEAST, a, b, c]
}

/// Numbers about the limits, and such as are within them in 8, in 16 and in 31 bits.
const WORDS: [u32; 18] =
    [0, 1, 2, 3, 4, 5, 6, 7, 8, 9, 255, 256, 258, 65_536, 65_538, 1 << 31, (1 << 31) + 2, u32::MAX];

/// Every a and b behind eight answers: in order exactly if b is 2 to 8 and a is 1 to b. The answers
/// that are left are joined, so that b of them were taken and one was stacked.
#[test]
fn every_a_and_b() {
    let volume = sample().volume();
    let mut trial = Trial::default();
    let mut accepted = 0;
    for a in WORDS {
        for b in WORDS {
            trial.case = format!("AT LEAST {a} {b}");
            let left = 8usize.saturating_sub(b as usize);
            let plan = [P.repeat(8), vec![at_least(a, b)], vec![EITHER; left]].concat();
            let is_in_order = 1 <= a && a <= b && (2..=8).contains(&b);
            let answer = if is_in_order { Ok((8, 8)) } else { Err((10, 16)) };
            assert_eq!(trial.plan(&volume, &plan.concat()), answer, "{}", trial.case);
            accepted += usize::from(is_in_order);
        }
    }
    assert_eq!(accepted, 2 + 3 + 4 + 5 + 6 + 7 + 8);
}

/// Any c but 0 is 10, whatever a and b are.
#[test]
fn every_c() {
    let volume = sample().volume();
    let mut trial = Trial::default();
    for (a, b) in [(1, 2), (2, 2), (0, 2), (3, 2), (1, 1), (1, 9), (u32::MAX, u32::MAX)] {
        for c in WORDS {
            trial.case = format!("AT LEAST {a} {b}, c is {c}");
            let plan = [P, P].concat().into_iter().chain([at_least_of(a, b, c)]);
            let answer = match (a, b, c) {
                (1 | 2, 2, 0) => Ok((2, 2)),
                _ => Err((10, 4)),
            };
            let plan = plan.collect::<Vec<Row>>().concat();
            assert_eq!(trial.plan(&volume, &plan), answer, "{}", trial.case);
        }
    }
}

/// So many patterns, with as many answers left of them: some are joined, by operators or by an AT
/// LEAST.
fn stacks(patterns: usize) -> Vec<(Vec<Row>, usize)> {
    let all = P.repeat(patterns);
    let mut stacks = vec![(all.clone(), patterns)];
    for joined in 1..patterns {
        stacks.push(([&all[..], &vec![BOTH; joined]].concat(), patterns - joined));
        let one = at_least(1, joined as u32 + 1);
        stacks.push(([&all[..], &[one]].concat(), patterns - joined));
        let first = [P.repeat(joined + 1), vec![one], P.repeat(patterns - joined - 1)].concat();
        stacks.push((first, patterns - joined));
    }
    stacks
}

/// Of every number of answers stacked: too few is 13 at the row, as many as are taken leave one,
/// and more leave more, which is 14 at the end.
#[test]
fn every_number_of_answers() {
    let volume = sample().volume();
    let mut trial = Trial::default();
    for patterns in 0..=8 {
        for (front, answers) in stacks(patterns) {
            for b in 2..=8 {
                for a in [1, b] {
                    let at = front.len();
                    let plan = [&front[..], &[at_least(a, b)]].concat();
                    trial.case = format!("AT LEAST {a} {b} of {answers}: {plan:?}");
                    let answer = match answers.cmp(&(b as usize)) {
                        std::cmp::Ordering::Less => Err((13, at as u32)),
                        std::cmp::Ordering::Equal => Ok((patterns as u32, patterns as u32)),
                        std::cmp::Ordering::Greater => Err((14, 0)),
                    };
                    assert_eq!(trial.plan(&volume, &plan.concat()), answer, "{}", trial.case);
                }
            }
        }
    }
    trial.assert_met(Call::Plan, 100, &[0, 13, 14]);
    trial.assert_met_at(Call::Plan, 15, &[13]);
}

/// With a pattern open it is 13, however many answers are stacked and whatever the pattern has.
#[test]
fn a_pattern_is_open() {
    let volume = sample().volume();
    let mut trial = Trial::default();
    let open: [&[Row]; 5] = [&[V], &[V; 8], &[V, span(1)], &[V, V, before(0, 1)], &[V, V, END, V]];
    for answers in 0..=6 {
        for open in open {
            for (a, b) in [(1, 2), (2, 2), (1, 6), (6, 6), (8, 8)] {
                let front = [&P.repeat(answers)[..], open].concat();
                let refused = Err((13, front.len() as u32));
                for behind in [&[][..], &[END], &[EITHER], &[[0; 4]]] {
                    let plan = [&front[..], &[at_least(a, b)], behind].concat();
                    trial.case = format!("{plan:?}");
                    assert_eq!(trial.plan(&volume, &plan.concat()), refused, "{}", trial.case);
                }
            }
        }
    }
}

/// On one row 10 comes before 13. Rows go upward.
#[test]
fn the_order_of_refusals() {
    let volume = sample().volume();
    let mut trial = Trial::default();
    let wrong = [(0, 2, 0), (3, 2, 0), (1, 1, 0), (1, 9, 0), (1, 2, 1), (9, 9, 9), (1, 0, 0)];
    for (a, b, c) in wrong {
        let row = at_least_of(a, b, c);
        let rows: [(&str, Vec<Row>, (u32, u32)); 7] = [
            ("10 before 13, first", vec![row], (10, 0)),
            ("10 before 13, one answer", [&P[..], &[row]].concat(), (10, 2)),
            ("10 before 13, open", [&P[..], &P, &[V, row]].concat(), (10, 5)),
            ("10 before 14", [&P[..], &P, &P, &[row]].concat(), (10, 6)),
            ("13 of the row before", [&P[..], &[BOTH, row]].concat(), (13, 2)),
            ("11 of the row before", [&P[..], &[voice(3), row]].concat(), (11, 2)),
            ("10 before 13 behind it", [&P[..], &P, &[row, at_least(1, 8)]].concat(), (10, 4)),
        ];
        for (name, plan, refused) in rows {
            trial.case = format!("{name}: {plan:?}");
            assert_eq!(trial.plan(&volume, &plan.concat()), Err(refused), "{}", trial.case);
        }
    }
    // 13 before 10 of a row behind it, and before 14.
    for (a, b) in [(1, 2), (8, 8)] {
        for behind in [&[][..], &[[0; 4]], &[at_least_of(0, 0, 0)], &[voice(0)]] {
            let plan = [&P[..], &[at_least(a, b)], behind].concat();
            trial.case = format!("{plan:?}");
            assert_eq!(trial.plan(&volume, &plan.concat()), Err((13, 2)), "{}", trial.case);
        }
    }
}

/// A wrong number in every row of plans of 2 to 64 rows is 10 at that row, whatever stands there
/// otherwise.
#[test]
fn wrong_at_every_row() {
    let volume = sample().volume();
    let mut trial = Trial::default();
    for count in 2..=64 {
        let one = [vec![V], vec![span(1); count - 2], vec![END]].concat();
        let plans = if count == 64 { vec![one, widest_plan()] } else { vec![one] };
        for plan in plans {
            assert!(trial.plan(&volume, &plan.concat()).is_ok(), "{plan:?}");
            for at in 0..count {
                let wrong = [(0, 2), (3, 2), (1, 1), (1, 9), (u32::MAX, u32::MAX)][at % 5];
                let mut rows = plan.clone();
                rows[at] = at_least(wrong.0, wrong.1);
                trial.case = format!("{wrong:?} is row {at} of {count}");
                let refused = Err((10, at as u32));
                assert_eq!(trial.plan(&volume, &rows.concat()), refused, "{}", trial.case);
            }
        }
    }
    trial.assert_met_at(Call::Plan, 64, &[10]);
}

/// AT LEAST of answers that are AT LEAST themselves.
#[test]
fn nested() {
    let volume = sample().volume();
    let mut trial = Trial::default();
    let two = at_least(2, 2);
    let rows: &[(&str, &[&[Row]], u32)] = &[
        ("seven in a row", &[&P.repeat(8), &[two; 7]], 8),
        ("one behind each", &[&P, &[&P[..], &P, &[at_least(1, 3)]].concat().repeat(3)], 7),
        ("the first of three", &[&P, &P, &[two], &P, &P, &[at_least(3, 3)]], 4),
        ("the second of three", &[&P, &P, &P, &[two], &P, &[at_least(3, 3)]], 4),
        ("the third of three", &[&P, &P, &P, &P, &[two, at_least(3, 3)]], 4),
        ("all of three", &[&[&P[..], &P, &[two]].concat().repeat(3), &[at_least(1, 3)]], 6),
        ("of operators", &[&P, &P, &[BOTH], &P, &P, &[FIRST_NOT_SECOND, two]], 4),
        ("under operators", &[&P, &P, &[two], &P, &P, &[two, FIRST_NOT_SECOND]], 4),
    ];
    for &(name, pieces, patterns) in rows {
        let plan = pieces.concat();
        trial.case = name.to_string();
        assert_eq!(trial.plan(&volume, &plan.concat()), Ok((patterns, patterns)), "{name}");
        // Without one pattern an answer is missing somewhere, and with one more there are two.
        let fewer = [&plan[2..]].concat();
        let answer = trial.plan(&volume, &fewer.concat());
        assert!(matches!(answer, Err((13, _))), "{name}: {answer:?}");
        if patterns < 8 {
            let more = [&P[..], &plan].concat();
            assert_eq!(trial.plan(&volume, &more.concat()), Err((14, 0)), "{name}");
        }
    }
}

/// Every plan of up to seven rows, out of five with which up to three answers are joined.
#[test]
fn every_small_plan() {
    let choices = [V, END, EITHER, at_least(1, 2), at_least(2, 3)];
    let volume = sample().volume();
    let mut trial = Trial::default();
    let mut accepted = [0; 4];
    for count in 1..=7 {
        for number in 0..choices.len().pow(count) {
            let digit = |i| number / choices.len().pow(i) % choices.len();
            let rows: Vec<Row> = (0..count).map(|i| choices[digit(i)]).collect();
            trial.case = format!("{rows:?}");
            if let Ok((patterns, _)) = trial.plan(&volume, &rows.concat()) {
                accepted[patterns as usize] += 1;
            }
        }
    }
    // One pattern of 1 to 6 variables; two with 2 to 4 together, and one of two rows behind them;
    // three of one each, and an AT LEAST of three.
    assert_eq!(accepted, [0, 6, 2 * (1 + 2 + 3), 1]);
    trial.assert_met(Call::Plan, 19, &[0, 13, 14]);
    trial.assert_met_at(Call::Plan, 7, &[13]);
}
