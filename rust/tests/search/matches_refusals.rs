//! What a call that lists matches refuses, in which order, and that its buffer then is as it was.

use crate::plain::Refused;
use crate::support::matches::*;
use crate::support::plans::*;
use crate::support::searches::*;
use crate::support::*;

/// Plans over the volume of four blocks, an accepted one of a pattern of two variables and one of
/// three first, each with what it is refused with.
fn plans() -> Vec<(Vec<u32>, Option<Refused>)> {
    let v = voice(3);
    vec![
        ([v, voice(4), END, v, v, v, END, EITHER].concat(), None),
        (vec![], Some((9, 0))),
        ([v, voice(4), END].concat()[..11].to_vec(), Some((9, 0))),
        ([&[v][..], &[span(1); 63], &[END]].concat().concat(), Some((9, 0))),
        ([v, span(0), END].concat(), Some((10, 1))),
        ([v, v, apart(0, 1, 3, 2), END].concat(), Some((10, 2))),
        ([v, voice(5), END].concat(), Some((11, 1))),
        ([v; 9].concat(), Some((12, 8))),
        ([v, v, before(0, 2), END].concat(), Some((13, 2))),
        ([v, v].concat(), Some((14, 0))),
        ([v, v, END, v, END].concat(), Some((14, 0))),
    ]
}

/// What is asked of pattern 0, whose variables are two, and of pattern 1, whose variables are
/// three: pattern, document, start, and whether that is refused with 17.
const ASKED: [(u32, u32, &[u32], bool); 24] = [
    (0, 0, &[0, 0], false),
    (0, 0, &[6_000, 5_000], false),
    (0, 65_535, &[65_535, 65_535], false),
    (1, 0, &[0, 0, 0], false),
    (1, 65_535, &[65_535, 0, 65_535], false),
    (2, 0, &[0, 0], true),
    (2, 0, &[0, 0, 0], true),
    (8, 0, &[0, 0], true),
    (256, 0, &[0, 0], true),
    (65_536, 0, &[0, 0], true),
    (u32::MAX, 0, &[0, 0], true),
    (0, 0, &[], true),
    (0, 0, &[0], true),
    (0, 0, &[0, 0, 0], true),
    (0, 0, &[0; 9], true),
    (1, 0, &[0, 0], true),
    (1, 0, &[0; 4], true),
    (0, 65_536, &[0, 0], true),
    (0, u32::MAX, &[0, 0], true),
    (0, 0, &[65_536, 0], true),
    (0, 0, &[0, 65_536], true),
    (0, 0, &[0, u32::MAX], true),
    (1, 0, &[0, 65_536, 0], true),
    (1, 65_536, &[0, 65_536], true),
];

/// The volume's refusals before the plan's, then 17, then 16.
#[test]
fn refused_in_order() {
    let mut trial = Trial::default();
    let damaged = refused::volumes().into_iter().map(|(volume, why)| (volume, Some(why)));
    for (volume, of_volume) in [(four_blocks().volume(), None)].into_iter().chain(damaged) {
        for (plan, of_plan) in plans() {
            let subject = Subject::new(&volume, &plan);
            trial.case = format!("volume {of_volume:?}, plan {of_plan:?}");
            for (pattern, doc, from, is_bad) in ASKED {
                let of_call = is_bad.then_some((17, 0));
                for room in [0, 1, 2, 3, 100] {
                    let of_room = (room < from.len()).then_some((16, 0));
                    let first = of_volume.or(of_plan).or(of_call).or(of_room);
                    let answer = trial.match_page(&subject, pattern, doc, from, room);
                    assert_eq!(answer.err(), first, "{}: {pattern} {from:?}", trial.case);
                }
            }
        }
    }
    let numbers: Vec<u32> = (0..=14).chain([16, 17]).collect();
    trial.assert_met(Call::Matches, 9, &numbers);
    trial.assert_met_at(Call::Matches, 2, &[2, 3, 7, 8, 10]);
}

/// Each refusal of a plan at several rows, over the sample.
#[test]
fn refused_plans() {
    let mut trial = Trial::default();
    for (rows, refused) in refused::plans() {
        let subject = Subject::new(&sample().volume(), &rows.concat());
        trial.case = format!("{rows:?}");
        for (pattern, doc, from) in [(0, 1, &[0][..]), (0, 1, &[0, 0]), (9, 65_536, &[])] {
            for room in [0, 1, 60] {
                let answer = trial.match_page(&subject, pattern, doc, from, room);
                assert_eq!(answer, Err(refused), "{}", trial.case);
            }
        }
    }
    trial.assert_met(Call::Matches, 9, &[10, 11, 12, 13, 14]);
    trial.assert_met_at(Call::Matches, 3, &[10, 11, 13]);
}

/// 17 for each cause alone, at every variable, and just inside of it.
#[test]
fn out_of_range() {
    let mut trial = Trial::default();
    for vars in 1..=8 {
        let rows = [vec![voice(1); vars], vec![END]].concat();
        let subject = Subject::new(&sample().volume(), &rows.concat());
        trial.case = format!("{vars} variables");
        let zeros = [0; 12];
        for count in 0..=12 {
            let answer = trial.match_page(&subject, 0, 1, &zeros[..count], 100);
            assert_eq!(answer.is_err(), count != vars, "{}: {count}", trial.case);
        }
        for var in 0..vars {
            for beyond in [65_536, 65_538, 131_072, 1 << 31, (1 << 31) + 2, u32::MAX] {
                let mut from = vec![2; vars];
                from[var] = beyond;
                for room in [0, vars, 100] {
                    let answer = trial.match_page(&subject, 0, 1, &from, room);
                    assert_eq!(answer, Err((17, 0)), "{}: {from:?}", trial.case);
                }
            }
            let mut from = vec![2; vars];
            from[var] = 65_535;
            assert!(trial.match_page(&subject, 0, 1, &from, vars).is_ok(), "{}", trial.case);
        }
        for doc in [65_536, 65_537, 131_073, (1 << 31) + 1, u32::MAX] {
            let answer = trial.match_page(&subject, 0, doc, &vec![0; vars], 100);
            assert_eq!(answer, Err((17, 0)), "{}: {doc}", trial.case);
        }
        for pattern in [1, 2, 8, 256, 65_536, 1 << 31, u32::MAX] {
            let answer = trial.match_page(&subject, pattern, 1, &vec![0; vars], 100);
            assert_eq!(answer, Err((17, 0)), "{}: {pattern}", trial.case);
        }
    }
}

/// 16 tells nothing but the length: the same in documents with tuples and without, from starts
/// before and behind them.
#[test]
fn short_buffers() {
    let mut trial = Trial::default();
    for vars in 1..=8 {
        let rows = [vec![voice(1); vars], vec![END]].concat();
        let subject = Subject::new(&sample().volume(), &rows.concat());
        for doc in [0, 1, 2, 3, 65_535] {
            for from in [0, 2, 8, 65_535] {
                for room in 0..=2 * vars + 1 {
                    let answer = trial.match_page(&subject, 0, doc, &vec![from; vars], room);
                    let refused = (room < vars).then_some((16, 0));
                    assert_eq!(answer.err(), refused, "{vars} variables, {doc} {from} {room}");
                }
            }
        }
    }
}

/// Damaged volumes and spoiled plans, short buffers and bad starts, all at once.
#[test]
fn random_faults() {
    let seed = 4_001;
    let mut rng = Rng::new(seed);
    let mut trial = Trial::default();
    for round in 0..20_000 {
        let (volume, plan) = random_fault(&mut rng);
        trial.case = format!("seed {seed}, round {round}, {plan:?}");
        let subject = Subject::new(&volume, &plan);
        other_matches(&mut rng, &mut trial, &subject, 4);
    }
    let numbers: Vec<u32> = (0..=14).chain([16, 17]).collect();
    trial.assert_met(Call::Matches, 50, &numbers);
}
