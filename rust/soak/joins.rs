//! Two volumes joined: such as join and such as do not, damaged ones, the largest, and joined
//! volumes searched beside both works.

use crate::case::Case;
use crate::inputs::{any_volume, deface, MOST_WORDS, NAIVE_STEPS};
use crate::package::same;
use crate::plain;
use crate::report::Counts;
use crate::support::joins::*;
use crate::support::{pair, Lists, Rng, Trial};
use lihambozy::Volume;

/// Bytes for a joined volume that needs so many: enough, or too few.
fn random_output(rng: &mut Rng, needed: usize) -> usize {
    let short = rng.below(needed);
    let more = needed + rng.pick(&[0, 0, 1, 511, 512, 4_000]);
    rng.pick(&[more, more, more, more, short, needed - 1, 0])
}

/// Pairs of volumes, and two works that are searched.
pub fn joins(case: &mut Case) {
    let Case { rng, counts } = case;
    if rng.below(60) == 0 {
        long(rng, &mut counts.trial);
    }
    for _ in 0..6 {
        let bill = random_bill(rng);
        let [mut first, mut second] = bill.volumes();
        let defaced = rng.below(12);
        if [0, 1].contains(&defaced) {
            deface(rng, &bill.first, &mut first);
        }
        if [1, 2, 3].contains(&defaced) {
            deface(rng, &bill.second, &mut second);
        }
        let room = random_output(rng, bill.room());
        let _ = counts.trial.join(&first, &second, bill.raise, room);
        package(counts, &first, &second, bill.raise);
    }
    let (first, _) = any_volume(rng);
    let (second, _) = any_volume(rng);
    let second = if rng.below(3) == 0 { &first } else { &second };
    let room = random_output(rng, (first.len() + second.len()).max(512));
    let raise = rng.word() >> rng.below(32);
    let _ = counts.trial.join(&first, second, raise, room);

    let works = random_works(rng, NAIVE_STEPS);
    counts.trial.case += &format!(", {:?}", works.rows);
    search_works(rng, &mut counts.trial, &mut counts.searches, &works);
}

/// The package joins two accepted volumes, or says why not, and by how much it would.
fn package(counts: &mut Counts, first: &[u8], second: &[u8], raise: u32) {
    let (Ok(one), Ok(other)) = (Volume::new(first), Volume::new(second)) else { return };
    let answer = one.join(&other, raise);
    let sizes = |volume: &Volume| (volume.list_count(), volume.posting_count());
    let answer = answer.map(|volume| (sizes(&volume), volume.into_bytes())).map_err(pair);
    let mut bytes = vec![0; first.len() + second.len()];
    let expected = match plain::join::join_volumes(first, second, raise, &mut bytes) {
        Ok(blocks) => {
            bytes.truncate(512 * blocks as usize);
            plain::check_volume(&bytes).map(|sizes| (sizes, bytes))
        }
        Err((number, at, _)) => Err((number, at)),
    };
    same(counts, "Volume::join", answer, expected);

    let lists = |volume: &[u8]| Lists::new(&plain::lists(volume).expect("an accepted volume"));
    let (least, most) = raises(&lists(first), &lists(second));
    let expected = (least <= most).then_some(least);
    same(counts, "Volume::least_raise", one.least_raise(&other), expected);
}

/// Two volumes that join to the largest there is, or to some words more, or whose documents meet.
fn long(rng: &mut Rng, trial: &mut Trial) {
    let t = 1 + rng.below(1_024);
    let postings = MOST_WORDS - 2 - t + rng.pick(&[0, 1, 1, 126]);
    let least = postings.saturating_sub(MOST_WORDS - 2 - t);
    let of_first = least + rng.below(postings - 2 * least + 1);
    let lists = |count: usize| {
        let mut counts = vec![(count / t) as u32; t];
        counts[0] += (count % t) as u32;
        let postings = counts.iter().flat_map(|&count| (0..count).map(|i| 30 * i)).collect();
        Lists { counts, postings }
    };
    let [first, second] = [of_first, postings - of_first].map(lists);
    let (least, most) = raises(&first, &second);
    let raise = rng.pick(&[least, least, least, least.wrapping_sub(1)]);
    let [first, second] = [first, second].map(|lists| lists.volume());
    let room = rng.pick(&[0, 512 * 8_191, 512 * 8_192 - 1, 512 * 8_192, 512 * 8_193]);
    let is_long = 2 + t + postings > MOST_WORDS;
    let answer = trial.join(&first, &second, raise, room).map(|volume| volume.len());
    let expected = match room {
        _ if !(least..=most).contains(&raise) => Err((25, 0, 0)),
        _ if is_long => Err((19, 0, 0)),
        _ if room < 512 * 8_192 => Err((20, 0, 0)),
        _ => Ok(512 * 8_192),
    };
    assert_eq!(answer, expected, "{}", trial.case);
}
