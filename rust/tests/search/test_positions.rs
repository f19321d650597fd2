//! Testing given positions: what passes, what is refused, and that the least positions of every
//! listing pass and no smaller ones do.

use crate::support::plans::*;
use crate::support::searches::*;
use crate::support::*;

/// The sample's two variables with other predicates.
fn over_sample(predicates: &[Row]) -> Subject {
    Subject::new(&sample().volume(), &two(predicates).concat())
}

#[test]
fn positions_of_the_sample() {
    let mut trial = Trial::default();
    let subject = over_sample(&[before(0, 1), same_title(0, 1)]);
    for (doc, positions, passes) in [
        (1, [2, 5], true),
        (1, [2, 7], false), // two titles
        (1, [8, 7], false), // not before
        (1, [8, 5], false),
        (1, [5, 2], false), // each in the other's list
        (1, [2, 6], false),
        (1, [0, 5], false),
        (2, [4, 9], false), // no title
        (2, [2, 5], false), // in another document
        (1, [4, 9], false),
        (0, [2, 5], false),
        (3, [4, 9], false),
        (65_535, [65_535, 65_535], false),
    ] {
        assert_eq!(trial.test(&subject, 0, doc, &positions), Ok(passes), "{doc} {positions:?}");
    }
    for (predicate, doc, positions, passes) in [
        (near(0, 1, 0), 1, [8, 7], true),
        (near(0, 1, 0), 1, [2, 5], false),
        (near(0, 1, 1), 1, [2, 5], false),
        (near(0, 1, 2), 1, [2, 5], true),
        (near(1, 0, 2), 1, [8, 5], true),
        (near(0, 1, 3), 2, [4, 9], false),
        (near(0, 1, 4), 2, [4, 9], true),
        (span(4), 1, [2, 5], true),
        (span(3), 1, [2, 5], false),
        (span(3), 1, [8, 7], true),
        (span(6), 2, [4, 9], true),
        (span(5), 2, [4, 9], false),
        (before(1, 0), 1, [8, 5], true),
        (before(1, 0), 1, [2, 5], false),
        (same_title(0, 1), 1, [8, 7], true),
        (same_title(0, 1), 1, [8, 5], false),
        (same_title(0, 0), 1, [8, 5], true),
        (same_title(1, 0), 2, [4, 9], false), // no title
        (same_title(0, 0), 2, [4, 9], false),
        (same_title(1, 1), 2, [4, 9], false),
        (apart(0, 1, 2, 2), 1, [2, 5], true),
        (apart(0, 1, 3, 9), 1, [2, 5], false), // below least
        (apart(0, 1, 0, 1), 1, [2, 5], false), // over most
        (apart(0, 1, 2, 4), 1, [2, 7], true),
        (apart(0, 1, 2, 3), 1, [2, 7], false),
        (apart(1, 0, 0, 0), 1, [8, 7], true),
        (apart(0, 1, 0, 65_535), 1, [8, 7], false), // the other way round
        (apart(1, 0, 0, 65_535), 1, [2, 5], false),
        (apart(0, 1, 4, 65_535), 2, [4, 9], true),
        (apart(0, 1, 5, 65_535), 2, [4, 9], false),
        (apart(0, 0, 0, 65_535), 2, [4, 9], false), // from itself
        (apart(0, 1, 2, 2), 2, [2, 5], false),      // in another document
    ] {
        let subject = over_sample(&[predicate]);
        let answer = trial.test(&subject, 0, doc, &positions);
        assert_eq!(answer, Ok(passes), "{predicate:?} {doc} {positions:?}");
    }
}

/// Every position up to 10 for both variables, in each document, under each predicate: as many
/// choices pass as there are among the five that the lists have.
#[test]
fn every_small_choice() {
    let mut trial = Trial::default();
    for (predicate, passing) in [
        (near(0, 1, 0), 1),
        (near(1, 0, 2), 3),
        (near(0, 0, 0), 5),
        (before(0, 1), 3),
        (before(1, 0), 2),
        (before(1, 1), 0),
        (same_title(0, 1), 2),
        (same_title(1, 1), 4),
        (span(1), 0),
        (span(4), 3),
        (apart(0, 1, 0, 65_535), 3),
        (apart(0, 1, 2, 2), 1),
        (apart(0, 1, 3, 4), 2),
        (apart(0, 1, 5, 65_535), 0),
        (apart(1, 0, 0, 0), 1),
        (apart(1, 0, 0, 2), 2),
        (apart(1, 1, 0, 65_535), 0),
    ] {
        let subject = over_sample(&[predicate]);
        let mut passed = 0;
        for doc in 0..4 {
            for p in 0..=10 {
                for q in 0..=10 {
                    passed += u32::from(trial.test(&subject, 0, doc, &[p, q]).unwrap());
                }
            }
        }
        assert_eq!(passed, passing, "{predicate:?}");
    }
}

/// APART at the ends of a document: every choice of some positions, under limits at their edges.
#[test]
fn apart_at_the_ends() {
    let positions = [0, 1, 2, 32_767, 32_768, 65_533, 65_534, 65_535];
    let list: Vec<(u32, u32)> = [4, 5].iter().flat_map(|&d| positions.map(|p| (d, p))).collect();
    let limits = [0, 1, 32_766, 32_767, 32_768, 65_532, 65_533, 65_534, 65_535];
    let mut trial = Trial::default();
    let (mut passed, mut unmet) = (0, 0);
    for (least, most) in limits.iter().flat_map(|&least| limits.map(|most| (least, most))) {
        if least > most {
            continue;
        }
        let subject = Subject::over(&[&[], &list, &list], &two(&[apart(0, 1, least, most)]));
        for (p, q) in positions.iter().flat_map(|&p| positions.map(|q| (p, q))) {
            // By differences in 64 bits with their sign.
            let between = i64::from(q) - i64::from(p) - 1;
            let passes = i64::from(least) <= between && between <= i64::from(most);
            assert_eq!(trial.test(&subject, 0, 5, &[p, q]), Ok(passes), "{least} {most} {p} {q}");
            *if passes { &mut passed } else { &mut unmet } += 1;
        }
    }
    assert!(passed > 300 && unmet > 1_000, "{passed} {unmet}");
}

/// 17: the pattern's number, the number of positions, the document, and each position.
#[test]
fn refused_with_17() {
    let patterns = [voice(1), voice(2), before(0, 1), END, voice(2), END, EITHER];
    let subject = Subject::new(&sample().volume(), &patterns.concat());
    let mut trial = Trial::default();
    let refused = Err((17, 0));
    for pattern in [2, 3, 8, 256, 65_536, 1 << 31, u32::MAX] {
        for positions in [&[2, 5][..], &[5], &[]] {
            assert_eq!(trial.test(&subject, pattern, 1, positions), refused, "pattern {pattern}");
        }
    }
    let enough = [2, 5, 5, 5, 5, 5, 5, 5, 5, 5];
    for count in (0..=10).filter(|&count| count != 2) {
        assert_eq!(trial.test(&subject, 0, 1, &enough[..count]), refused, "{count} positions");
    }
    for count in (0..=10).filter(|&count| count != 1) {
        assert_eq!(trial.test(&subject, 1, 1, &enough[..count]), refused, "{count} positions");
    }
    for more in [256, 65_536] {
        let positions = [&[2, 5][..], &vec![5; more]].concat();
        assert_eq!(trial.test(&subject, 0, 1, &positions), refused, "{more} positions more");
    }
    // The document and the positions that pass, in 16 bits or nearly.
    for doc in [65_536, 65_537, 131_073, (1 << 31) + 1, u32::MAX] {
        for positions in [[2, 5], [5, 2]] {
            assert_eq!(trial.test(&subject, 0, doc, &positions), refused, "document {doc}");
        }
    }
    for beyond in [65_536, 131_072, 1 << 31] {
        for positions in [[beyond + 2, 5], [2, beyond + 5], [beyond + 2, beyond + 5], [beyond; 2]] {
            for doc in [0, 1, 65_535] {
                assert_eq!(trial.test(&subject, 0, doc, &positions), refused, "{positions:?}");
            }
        }
        assert_eq!(trial.test(&subject, 1, 1, &[beyond + 5]), refused);
    }
    assert_eq!(trial.test(&subject, 0, 1, &[u32::MAX, 5]), refused);
    assert_eq!(trial.test(&subject, 0, 1, &[2, u32::MAX]), refused);
    assert_eq!(trial.test(&subject, u32::MAX, u32::MAX, &[u32::MAX]), refused);

    // Just inside.
    for (pattern, doc, positions, passes) in [
        (0, 1, &[2, 5][..], true),
        (0, 1, &[5, 2], false),
        (1, 1, &[5], true),
        (1, 2, &[5], false),
        (1, 65_535, &[5], false),
        (1, 0, &[65_535], false),
        (0, 65_535, &[65_535, 65_535], false),
        (0, 0, &[0, 0], false),
    ] {
        assert_eq!(trial.test(&subject, pattern, doc, positions), Ok(passes), "{positions:?}");
    }

    // Eight variables.
    let eight = Subject::new(&sample().volume(), &[[voice(1); 8].concat(), END.to_vec()].concat());
    assert_eq!(trial.test(&eight, 0, 1, &[2, 8, 2, 8, 2, 8, 2, 8]), Ok(true));
    assert_eq!(trial.test(&eight, 0, 1, &[2, 8, 2, 8, 2, 8, 2, 5]), Ok(false));
    assert_eq!(trial.test(&eight, 0, 1, &[2, 8, 2, 8, 2, 8, 2, 65_544]), refused);
    assert_eq!(trial.test(&eight, 0, 1, &[2; 7]), refused);
    assert_eq!(trial.test(&eight, 0, 1, &[2; 9]), refused);
}

/// The volume's refusals before the plan's, and both before 17.
#[test]
fn volumes_and_plans_before_17() {
    let v = voice(1);
    let mut unsealed = sample().volume();
    unsealed[40] ^= 1;
    let mut version = sample().volume();
    set(&mut version, 0, 2);
    let volumes = [
        (sample().volume(), None),
        (vec![], Some((1, 0))),
        (unsealed, Some((3, 0))),
        (version, Some((4, 0))),
    ];
    let plans = [
        (vec![v, v, END], None),
        (vec![], Some((9, 0))),
        (vec![v, span(0), END], Some((10, 1))),
        (vec![v, voice(3), END], Some((11, 1))),
        (vec![v; 9], Some((12, 8))),
        (vec![v, v, before(0, 2)], Some((13, 2))),
        (vec![v, v], Some((14, 0))),
    ];
    let mut trial = Trial::default();
    for (volume, of_volume) in &volumes {
        for (plan, of_plan) in &plans {
            let subject = Subject::new(volume, &plan.concat());
            trial.case = format!("volume {of_volume:?}, plan {of_plan:?}");
            for (pattern, doc, positions, of_call) in [
                (0, 1, &[2, 2][..], None),
                (1, 1, &[2, 2], Some((17, 0))),
                (u32::MAX, 1, &[], Some((17, 0))),
                (0, 1, &[2], Some((17, 0))),
                (0, 65_536, &[2, 2], Some((17, 0))),
                (0, 1, &[2, 65_536], Some((17, 0))),
                (0, 1, &[65_536, 2], Some((17, 0))),
                (u32::MAX, u32::MAX, &[u32::MAX; 9], Some((17, 0))),
            ] {
                let answer = trial.test(&subject, pattern, doc, positions);
                assert_eq!(answer.err(), of_volume.or(*of_plan).or(of_call), "{}", trial.case);
            }
        }
    }
}

/// Random positions of random patterns, most of them such as their lists have.
#[test]
fn random_choices() {
    let seed = 1_717;
    let mut rng = Rng::new(seed);
    let mut trial = Trial::default();
    let (mut passed, mut outside, mut unmet) = (0, 0, 0);
    for round in 0..10_000 {
        let subject = random_subject(&mut rng);
        let searcher = subject.searcher();
        trial.case = format!("seed {seed}, round {round}, {:?}", subject.plan());
        let docs: Vec<u32> = searcher.docs().into_iter().chain([7]).collect();
        let all: Vec<u32> = searcher.lists.concat().into_iter().chain([7]).collect();
        for _ in 0..20 {
            let number = rng.below(searcher.patterns.len());
            let doc = rng.pick(&docs);
            let of_vars = searcher.of_vars(&searcher.patterns[number], doc);
            let mut positions = Vec::new();
            for of_var in &of_vars {
                let pos = match of_var.is_empty() {
                    true => rng.pick(&all) % 65_536,
                    false => rng.pick(of_var),
                };
                let beside = pos.saturating_add_signed(rng.pick(&[-1, 1])).min(65_535);
                positions.push(if rng.below(24) == 0 { beside } else { pos });
            }
            let is_inside = positions.iter().zip(&of_vars).all(|(pos, of)| of.contains(pos));
            match (trial.test(&subject, number as u32, doc, &positions), is_inside) {
                (Ok(true), _) => passed += 1,
                (Ok(false), true) => unmet += 1,
                (Ok(false), false) => outside += 1,
                (Err(refused), _) => panic!("{}: {refused:?}", trial.case),
            }
        }
    }
    assert!(passed > 20_000 && outside > 20_000 && unmet > 20_000, "{passed} {outside} {unmet}");
    assert!(trial.made(Call::Test) >= 100_000);
}

/// The positions that a listing shows pass; with one of them moved back to any position before it
/// in its list, the others as they are or at any later position, they do not. Where a pattern is
/// shown as not found, no choice passes.
#[test]
fn listed_positions_are_least() {
    let seed = 2_025;
    let mut rng = Rng::new(seed);
    let mut trial = Trial::default();
    let (mut shown, mut lower, mut unfound) = (0, 0, 0);
    for round in 0..6_000 {
        let subject = random_subject(&mut rng);
        let searcher = subject.searcher();
        trial.case = format!("seed {seed}, round {round}, {:?}", subject.plan());
        let (words, _) = trial.search(&subject, 4 * searcher.width());
        for row in words.chunks(searcher.width()) {
            let doc = row[0];
            for ((number, pattern), pairs) in (0..).zip(&searcher.patterns).zip(searcher.shown(row))
            {
                let inside = searcher.of_vars(pattern, doc);
                if let Some(pairs) = pairs {
                    let positions: Vec<u32> = pairs.iter().map(|[pos, _]| *pos).collect();
                    assert_eq!(trial.test(&subject, number, doc, &positions), Ok(true));
                    shown += 1;
                    for (var, before) in inside.iter().enumerate() {
                        for &pos in before.iter().filter(|&&pos| pos < positions[var]).take(4) {
                            let mut choice = positions.to_vec();
                            choice[var] = pos;
                            assert_eq!(trial.test(&subject, number, doc, &choice), Ok(false));
                            for (other, of_other) in inside.iter().enumerate() {
                                if other != var {
                                    choice[other] = rng.pick(of_other);
                                }
                            }
                            assert_eq!(trial.test(&subject, number, doc, &choice), Ok(false));
                            lower += 2;
                        }
                    }
                } else if inside.iter().all(|of_var| !of_var.is_empty()) {
                    for _ in 0..4 {
                        let choice: Vec<u32> = inside.iter().map(|of| rng.pick(of)).collect();
                        assert_eq!(trial.test(&subject, number, doc, &choice), Ok(false));
                        unfound += 1;
                    }
                }
            }
        }
    }
    assert!(shown > 10_000 && lower > 1_000 && unfound > 1_000, "{shown} {lower} {unfound}");
}
