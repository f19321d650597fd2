//! Random plans beside the plain reader: in order, nearly so, and nonsense.

use crate::support::plans::*;
use crate::support::*;
use lihambozy::kind;
use std::collections::BTreeMap;

/// Volumes of 2 to 1,024 lists, with the number of their lists.
fn volumes(rng: &mut Rng) -> Vec<(Vec<u8>, usize)> {
    let many: Vec<Vec<u32>> = (0..1_024).map(|list| vec![9; list % 300 / 299]).collect();
    let mut all = vec![sample(), four_blocks(), Lists::new(&[vec![5], vec![]]), Lists::new(&many)];
    while all.len() < 8 {
        let lists = random_lists(rng, 12);
        if lists.counts.len() > 1 {
            all.push(lists);
        }
    }
    all.iter().map(|lists| (lists.volume(), lists.counts.len())).collect()
}

/// Plans in order are accepted, those of every number of patterns and of 64 rows among them, and
/// those with AT LEAST of every number of answers.
#[test]
fn plans_in_order() {
    let seed = 5_101;
    let mut rng = Rng::new(seed);
    let mut trial = Trial::default();
    let volumes = volumes(&mut rng);
    let (mut met, mut taken) = (BTreeMap::new(), BTreeMap::new());
    let (mut largest, mut most_vars) = (0, 0);
    for round in 0..10_000 {
        let (volume, lists) = &volumes[rng.below(volumes.len())];
        let rows = random_plan(&mut rng, *lists);
        trial.case = format!("seed {seed}, round {round}, {rows:?}");
        let (patterns, vars) = trial.plan(volume, &rows.concat()).unwrap();
        let count = |kind| rows.iter().filter(|row| row[0] == kind).count() as u32;
        assert_eq!((patterns, vars), (count(kind::END), count(kind::VOICE)), "{}", trial.case);
        *met.entry(patterns).or_insert(0) += 1;
        for row in rows.iter().filter(|row| row[0] == kind::AT_LEAST) {
            *taken.entry((row[1], row[2])).or_insert(0) += 1;
        }
        largest += usize::from(rows.len() == 64);
        most_vars = vars.max(most_vars);
    }
    assert!(met.keys().copied().eq(1..=8) && met.values().all(|&times| times > 100), "{met:?}");
    let numbers = (1..=8).flat_map(|least| (least.max(2)..=8).map(move |of| (least, of)));
    assert!(taken.keys().copied().eq(numbers), "{taken:?}");
    assert!(taken.values().all(|&times| times > 5), "{taken:?}");
    assert!(largest > 100 && most_vars == 56, "{largest} of 64 rows, {most_vars} variables");
}

/// One to three changes in a plan that is in order.
#[test]
fn plans_nearly_in_order() {
    let seed = 1_314;
    let mut rng = Rng::new(seed);
    let mut trial = Trial::default();
    let volumes = volumes(&mut rng);
    for round in 0..20_000 {
        let (volume, lists) = &volumes[rng.below(volumes.len())];
        let changes = rng.pick(&[1, 1, 2, 3]);
        let plan = spoiled_plan(&mut rng, *lists, changes);
        trial.case = format!("seed {seed}, round {round}, {plan:?}");
        let _ = trial.plan(volume, &plan);
    }
    trial.assert_met(Call::Plan, 300, &[0, 9, 10, 11, 12, 13, 14]);
    trial.assert_met_at(Call::Plan, 50, &[10, 11, 12, 13]);
}

/// Rows without order, and words without rows.
#[test]
fn nonsense() {
    let seed = 97;
    let mut rng = Rng::new(seed);
    let mut trial = Trial::default();
    let volumes = volumes(&mut rng);
    for round in 0..20_000 {
        let (volume, lists) = &volumes[rng.below(volumes.len())];
        let plan = nonsense_plan(&mut rng, *lists);
        trial.case = format!("seed {seed}, round {round}, {plan:?}");
        let _ = trial.plan(volume, &plan);
    }
    trial.assert_met(Call::Plan, 30, &[0, 9, 10, 11, 12, 13, 14]);
    trial.assert_met_at(Call::Plan, 6, &[10, 11, 12, 13]);
}

/// Damaged volumes under plans that may be at fault too.
#[test]
fn damaged_volumes() {
    let seed = 2_718;
    let mut rng = Rng::new(seed);
    let mut trial = Trial::default();
    for round in 0..20_000 {
        let lists = random_lists(&mut rng, 12);
        let mut volume = lists.volume();
        for _ in 0..rng.below(3) {
            damage(&mut rng, &lists, &mut volume);
        }
        let changes = rng.below(3);
        let plan = spoiled_plan(&mut rng, lists.counts.len(), changes);
        trial.case = format!("seed {seed}, round {round}, {plan:?}");
        let _ = trial.plan(&volume, &plan);
    }
    trial.assert_met(Call::Plan, 50, &[0, 1, 2, 3, 4, 5, 6, 7, 8, 9, 10, 11, 12, 13, 14]);
}
