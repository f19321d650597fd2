//! The yardstick that the benchmarks time the library beside does the same as the plain reader and
//! writer.

use crate::plain;
use crate::support::*;
use crate::yardstick::late;

#[test]
fn late_reduction_agrees_with_a_remainder_for_each_byte() {
    let seed = 508;
    let mut rng = Rng::new(seed);
    let mut met = std::collections::BTreeMap::new();
    for round in 0..20_000 {
        let lists = random_lists(&mut rng, 12);
        let mut volume = lists.volume();
        for _ in 0..rng.below(3) {
            damage(&mut rng, &lists, &mut volume);
        }
        let answer = late::check_volume(&volume);
        assert_eq!(answer, plain::check_volume(&volume), "round {round}");
        *met.entry(answer.err().map_or(0, |refused| refused.0)).or_insert(0) += 1;
    }
    assert!(met.keys().copied().eq(0..=8), "met {met:?}");
    assert!(met.values().all(|&times| times > 300), "met {met:?}");
}

#[test]
fn the_writers_agree() {
    let seed = 126;
    let mut rng = Rng::new(seed);
    for round in 0..2_000 {
        let mut lists = random_lists(&mut rng, 40);
        let mut room = lists.room() + rng.pick(&[0, 0, 1, 600]);
        match rng.below(10) {
            0 => lists.counts.resize(rng.pick(&[0, 1_025]), 0),
            1 => lists.postings.push(5),
            2 => lists.postings.iter_mut().for_each(|posting| *posting /= 2),
            3 => room = rng.below(room),
            _ => {}
        }
        let (mut late, mut plain) = (vec![9; room], vec![9; room]);
        assert_eq!(
            late::write_volume(&lists.counts, &lists.postings, &mut late),
            plain::write_volume(&lists.counts, &lists.postings, &mut plain),
            "round {round}"
        );
        assert!(late == plain, "round {round}");
    }
    let postings: Vec<u32> = (0..1_032_190).collect();
    for count in [1_032_189, 1_032_190] {
        let (mut late, mut plain) = (vec![9; 4_200_000], vec![9; 4_200_000]);
        assert_eq!(
            late::write_volume(&[count], &postings[..count as usize], &mut late),
            plain::write_volume(&[count], &postings[..count as usize], &mut plain),
        );
        assert!(late == plain);
    }
}
