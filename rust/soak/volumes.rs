//! Volumes: lists written and read back, lists that are no volume, and volumes with damage of every
//! sort.

use crate::case::Case;
use crate::inputs::*;
use crate::plain;
use crate::searches::any_calls;
use crate::support::searches::Subject;
use crate::support::*;

/// Every other value of every byte of a block of this run's own.
pub fn bytes_changed(case: &mut Case) {
    let Case { rng, counts } = case;
    let lists = loop {
        let lists = random_lists(rng, 6);
        if lists.room() == 512 && !lists.postings.is_empty() {
            break lists;
        }
    };
    counts.trial.each_byte_changed(&lists.volume());
}

/// Bytes for a volume that needs so many: enough, or too few.
fn random_output(rng: &mut Rng, needed: usize) -> usize {
    let short = rng.below(needed);
    let more = needed + rng.pick(&[0, 0, 1, 511, 512, 4_000]);
    rng.pick(&[more, more, more, short, needed - 1, needed - 512, 0])
}

/// Lists go into a volume and come out again; lists that are none are refused.
pub fn writing(case: &mut Case) {
    let Case { rng, counts } = case;
    let trial = &mut counts.trial;
    if rng.below(200) == 0 {
        too_long(rng, trial);
    }
    let lists = any_lists(rng);
    let needed = lists.room();
    let volume = lists.volume();
    for _ in 0..2 {
        let room = random_output(rng, needed);
        let written = trial.write(&lists.counts, &lists.postings, room);
        let expected = if room < needed { Err((20, 0)) } else { Ok(&volume) };
        assert_eq!(written.as_ref().map_err(|refused| *refused), expected, "{}", trial.case);
    }

    let sizes = (lists.counts.len() as u32, lists.postings.len() as u32);
    assert_eq!(trial.examine(&volume), Ok(sizes), "{}", trial.case);
    let (parts, _) = plain::cut(&lists.counts, &lists.postings);
    for _ in 0..3 {
        let list = rng.below(parts.len());
        let room = parts[list].len() + rng.pick(&[0, 0, 1, 200]);
        let read = trial.read(&volume, list as u32, room);
        assert_eq!(read.as_deref(), Ok(parts[list]), "{}", trial.case);
    }

    for round in 0..12 {
        let mut spoiled = if round < 3 { lists.clone() } else { short_lists(rng) };
        for _ in 0..rng.below(4) {
            spoil_lists(rng, &mut spoiled);
        }
        let room = random_output(rng, spoiled.room());
        if let Ok(volume) = trial.write(&spoiled.counts, &spoiled.postings, room) {
            assert!(trial.check(&volume).is_ok(), "{}", trial.case);
        }
    }
}

/// Lists of one word more than the largest volume has, or some more, or as many.
fn too_long(rng: &mut Rng, trial: &mut Trial) {
    let t = 1 + rng.below(1_024);
    let more = rng.pick(&[0, 1, 1, 2, 126, 100_000]);
    let postings: Vec<u32> = (0..(MOST_WORDS - 2 - t + more) as u32).collect();
    let mut counts = vec![0; t];
    let mut left = postings.len();
    for count in &mut counts[1..] {
        *count = rng.below(left / t + 1) as u32;
        left -= *count as usize;
    }
    counts[0] = left as u32;
    let room = rng.pick(&[0, 512 * 8_191, 512 * 8_192 - 1]);
    let refused = if more == 0 { 20 } else { 19 };
    assert_eq!(trial.write(&counts, &postings, room), Err((refused, 0)), "{}", trial.case);
}

/// A damaged volume and all calls over it, and small ones that are only checked.
pub fn damaged(case: &mut Case) {
    let Case { rng, counts } = case;
    let (volume, lists) = any_volume(rng);
    let _ = counts.trial.examine(&volume);
    for list in [rng.below(lists + 2) as u32, rng.word()] {
        let room = rng.below(40);
        let _ = counts.trial.read(&volume, list, room);
    }
    let plan = any_plan(rng, lists);
    let _ = counts.trial.plan(&volume, &plan);
    if let Some(subject) = Subject::within(&volume, &plan, NAIVE_STEPS) {
        any_calls(rng, counts, &subject);
    }
    for _ in 0..8 {
        let lists = short_lists(rng);
        let volume = defaced(rng, &lists);
        let _ = counts.trial.check(&volume);
    }
}
