//! What a listing call refuses, in which order, and that its buffer then is as it was.

use crate::plain::Refused;
use crate::support::plans::*;
use crate::support::searches::*;
use crate::support::*;
use lihambozy::calls::{Listing, Next};

/// Plans of two variables over the volume of four blocks, an accepted one first, each with what it
/// is refused with.
fn plans() -> Vec<(Vec<u32>, Option<Refused>)> {
    let v = voice(3);
    vec![
        ([v, voice(4), END].concat(), None),
        (vec![], Some((9, 0))),
        ([v, voice(4), END].concat()[..11].to_vec(), Some((9, 0))),
        ([&[v][..], &[span(1); 63], &[END]].concat().concat(), Some((9, 0))),
        ([v, span(0), END].concat(), Some((10, 1))),
        ([v, voice(5), END].concat(), Some((11, 1))),
        ([v; 9].concat(), Some((12, 8))),
        ([v, v, before(0, 2), END].concat(), Some((13, 2))),
        ([v, v].concat(), Some((14, 0))),
    ]
}

/// The volume's refusals before the plan's, then 15, then 16.
#[test]
fn refused_in_order() {
    let mut trial = Trial::default();
    let damaged = refused::volumes().into_iter().map(|(volume, why)| (volume, Some(why)));
    for (volume, of_volume) in [(four_blocks().volume(), None)].into_iter().chain(damaged) {
        for (plan, of_plan) in plans() {
            let subject = Subject::new(&volume, &plan);
            trial.case = format!("volume {of_volume:?}, plan {of_plan:?}");
            for start in [0, 1, 65_535, 65_536, 65_537, 1 << 31, u32::MAX] {
                let of_start = (start > 65_535).then_some((15, 0));
                for room in [0, 1, 4, 5, 6, 7, 100] {
                    let of_room = (room < 6).then_some((16, 0));
                    let first = of_volume.or(of_plan).or(of_start).or(of_room);
                    let answer = trial.list_rows(&subject, start, room);
                    assert_eq!(answer.err(), first, "{}: {start}, {room}", trial.case);
                }
            }
        }
    }
    let numbers: Vec<u32> = (0..=16).collect();
    trial.assert_met(Call::List, 9, &numbers);
}

/// A buffer of every length about a row's, for rows of every width, from documents that match, do
/// not, or lie behind the last: 16 tells nothing but the length.
#[test]
fn buffers_of_every_length() {
    let list: Vec<u32> = (3..6).map(|doc| doc * 65_536 + 1).collect();
    let mut trial = Trial::default();
    for lists in [[vec![], list.clone(), vec![]], [vec![], vec![], list]] {
        let volume = Lists::new(&lists).volume();
        for vars in 1..=8 {
            for patterns in 1..=if vars < 5 { 8 } else { 4 } {
                let pattern = [vec![voice(1); vars], vec![END]].concat();
                let plan = [pattern.repeat(patterns), vec![EITHER; patterns - 1]].concat();
                let subject = Subject::new(&volume, &plan.concat());
                let width = 1 + patterns * (1 + 2 * vars);
                trial.case = format!("{patterns} patterns of {vars} variables");
                for start in [0, 4, 5, 6, 65_535] {
                    for room in 0..=2 * width + 1 {
                        let answer = trial.list_rows(&subject, start, room);
                        let refused = (room < width).then_some((16, 0));
                        assert_eq!(answer.err(), refused, "{}, {start}, {room}", trial.case);
                    }
                }
            }
        }
    }
}

/// A refused call changes nothing for the ones that follow it.
#[test]
fn calls_behind_a_refused_one() {
    let subject = Subject::new(&sample().volume(), &two(&[before(0, 1)]).concat());
    let mut trial = Trial::default();
    let mut search = Search::new(&subject);
    let (mut memory, lent) = memory_for(6);
    for _ in 0..2 {
        for short in [0, 1, 4, 5, 5] {
            let short = lent.start..lent.start + short;
            assert_eq!(search.call(&mut trial, &mut memory, short), Err((16, 0)));
            search.assert_whole(&trial.case);
        }
        assert!(search.call(&mut trial, &mut memory, lent.clone()).is_ok());
        search.assert_whole(&trial.case);
    }
    assert!(search.done);
    let words = vec![1, 1, 2, 0, 5, 0, 2, 1, 4, NO_START, 9, NO_START];
    assert_eq!((search.words, search.tally), (words, 6));
}

/// Damaged volumes and spoiled plans, short buffers and late starts, all at once.
#[test]
fn random_faults() {
    let seed = 1_516;
    let mut rng = Rng::new(seed);
    let mut trial = Trial::default();
    for round in 0..30_000 {
        let (volume, plan) = random_fault(&mut rng);
        trial.case = format!("seed {seed}, round {round}, {plan:?}");
        let subject = Subject::new(&volume, &plan);
        for _ in 0..3 {
            let start = rng.pick(&[0, 0, 1, 2, 65_535, 65_536, u32::MAX]);
            let room = rng.pick(&[0, 3, 4, 6, 12, 30, 120, 240, 500]);
            let _ = trial.list_rows(&subject, start, room);
            let (pattern, doc) = (rng.below(3) as u32, rng.pick(&[0, 1, 2, 65_535, 65_536]));
            let given = (0..1 + rng.below(3)).map(|_| rng.pick(&[0, 1, 2, 9, 9, 65_535, 65_536]));
            let given: Vec<u32> = given.collect();
            let _ = trial.test(&subject, pattern, doc, &given);
        }
    }
    let to_14: Vec<u32> = (0..=14).collect();
    trial.assert_met(Call::List, 50, &[&to_14[..], &[15, 16]].concat());
    trial.assert_met(Call::Test, 50, &[&to_14[..], &[17]].concat());
}

/// Lengths that are too short for a row in 8, in 16, and as bytes in 32 bits. The memory of the
/// longest is never touched but for its first words.
#[test]
#[cfg(target_pointer_width = "64")]
fn lengths_over_8_16_and_32_bits() {
    let volume = sample().volume();
    let plan = SAMPLE.concat();
    for longer in [1 << 8, 1 << 16, 1 << 30] {
        let mut out = vec![0; longer + 5];
        let listing = lihambozy::calls::list(&volume, &plan, 0, &mut out);
        assert_eq!(listing, Ok(Listing { rows: 1, tally: 6, next: Next::Done }), "{longer}");
        assert_eq!(out[..6], [1, 1, 2, 0, 5, 0], "{longer}");
        assert!(out[6..261].iter().all(|&word| word == 0), "{longer}");
        let refused = lihambozy::calls::list(&volume, &out, 0, &mut [0; 9]).map_err(pair);
        assert_eq!(refused, Err((9, 0)), "{longer}");
    }
}
