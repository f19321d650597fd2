//! Plans: in order, spoiled, or words of any sort, over volumes that are accepted and such as are
//! not.

use crate::case::Case;
use crate::inputs::*;
use crate::searches::any_calls;
use crate::support::damage;
use crate::support::searches::{random_archive, Subject};

/// A few plans over one volume and all calls over them, and more over a small one that are only
/// checked.
pub fn plans(case: &mut Case) {
    let Case { rng, counts } = case;
    let (volume, lists) = match rng.below(3) {
        0 => any_volume(rng),
        _ => {
            let most = rng.pick(&[1, 1, 2, 3, 6]);
            let lists = random_archive(rng, most).lists;
            let mut volume = lists.volume();
            if rng.below(8) == 0 {
                damage(rng, &lists, &mut volume);
            }
            (volume, lists.counts.len())
        }
    };
    let of_seed = counts.trial.case.clone();
    for _ in 0..3 {
        let plan = any_plan(rng, lists);
        counts.trial.case = format!("{of_seed}, {plan:?}");
        let _ = counts.trial.plan(&volume, &plan);
        if let Some(subject) = Subject::within(&volume, &plan, NAIVE_STEPS) {
            any_calls(rng, counts, &subject);
        }
    }
    let lists = short_lists(rng);
    let volume = lists.volume();
    for _ in 0..10 {
        let plan = any_plan(rng, lists.counts.len());
        counts.trial.case = format!("{of_seed}, {plan:?}");
        let _ = counts.trial.plan(&volume, &plan);
    }
}
