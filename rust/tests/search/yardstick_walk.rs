//! The yardstick of the benchmarks beside the naive searcher: it is timed for the same work.

use crate::plain::search::Listed;
use crate::support::searches::*;
use crate::support::*;
use crate::yardstick::walk;

/// Volumes and plans of every sort, also such as are refused, from every sort of start.
#[test]
fn the_yardstick_lists_as_the_naive_searcher() {
    let seed = 6_601;
    let mut rng = Rng::new(seed);
    let mut met = Met::default();
    for round in 0..6_000 {
        let subject = match rng.below(8) {
            0..=2 => random_skewed_subject(&mut rng, 40),
            3..=6 => random_subject(&mut rng),
            _ => {
                let (volume, plan) = random_fault(&mut rng);
                Subject::new(&volume, &plan)
            }
        };
        let case = format!("seed {seed}, round {round}, {:?}", subject.plan());
        if subject.naive.is_ok() {
            count_starts(&mut met, &subject);
        }
        for _ in 0..3 {
            let docs: Vec<u32> = subject.docs().into_iter().chain([0, 0, 65_536]).collect();
            let start = rng.pick(&docs).saturating_add_signed(rng.pick(&[-1, 0, 0, 1]));
            let mut out = vec![7; random_room(&mut rng, subject.width())];
            let mut expected = out.clone();
            let naive = match &subject.naive {
                Ok(searcher) => searcher.list(start, &mut expected),
                Err(refused) => Err(*refused),
            };
            let answer = walk::list(subject.volume(), subject.plan(), start, &mut out);
            let answer = answer.map(|walk::Listing { rows, tally, next }| Listed {
                rows,
                tally,
                more: next,
            });
            assert_eq!(answer, naive, "{case}: from {start} into {} words", out.len());
            assert!(out == expected, "{case}: from {start}, {out:?} and not {expected:?}");
            met.count(&answer.map_or_else(|(number, _)| number.to_string(), |_| "0".into()), 1);
        }
    }
    met.assert_at_least(&[("0", 9_000), ("3", 50), ("10", 50), ("13", 50), ("15", 300)]);
    met.assert_at_least(&[("16", 600)]);
    met.assert_at_least(&STARTS.map(|what| (what, 500)));
}
