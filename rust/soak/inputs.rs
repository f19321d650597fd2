//! What the cases start from: lists, volumes and plans, in order, spoiled, or of any sort.

use crate::support::plans::*;
use crate::support::searches::{random_archive, random_query};
use crate::support::*;
use lihambozy::kind;

/// Stream words of the largest volume.
pub const MOST_WORDS: usize = 1_032_192;
/// The steps that the naive searcher may take over a volume that is not large.
pub const NAIVE_STEPS: u64 = 30_000;

/// Lists of every number and length, few or many.
pub fn any_lists(rng: &mut Rng) -> Lists {
    match rng.below(8) {
        0 => {
            // Two words, the counts and the postings fill so many blocks, or one word more or less.
            let count = 126 * (1 + rng.below(3)) - 3 - rng.below(3);
            Lists::new(&[random_list(rng, count), vec![]][..1 + rng.below(2)])
        }
        1 => {
            let mut lists = vec![vec![]; rng.pick(&[124, 250, 1_000, 1_023, 1_024])];
            for _ in 0..rng.below(100) {
                let (list, length) = (rng.below(lists.len()), rng.below(9));
                lists[list] = random_list(rng, length);
            }
            Lists::new(&lists)
        }
        2 | 3 => {
            let most = 1 + rng.below(8);
            random_archive(rng, most).lists
        }
        _ => {
            let most = rng.pick(&[1, 3, 10, 30]);
            random_lists(rng, most)
        }
    }
}

/// A few short lists: most calls over their volume are quick.
pub fn short_lists(rng: &mut Rng) -> Lists {
    let count = 1 + rng.below(5);
    let lists: Vec<Vec<u32>> = (0..count)
        .map(|_| {
            let length = rng.below(9);
            random_list(rng, length)
        })
        .collect();
    Lists::new(&lists)
}

/// Makes lists that a writer may have to refuse: counts that do not sum up, a list that does not
/// rise, too few or too many lists.
pub fn spoil_lists(rng: &mut Rng, lists: &mut Lists) {
    let Lists { counts, postings } = lists;
    let any_posting = rng.word();
    match rng.below(10) {
        0 => *counts = vec![],
        1 => counts.resize(1_024 + rng.below(3), 0),
        2 if !counts.is_empty() => {
            let at = rng.below(counts.len());
            let count = counts[at];
            let wrong = [count.wrapping_sub(1), count.wrapping_add(1), u32::MAX, 1 << 31, 0];
            counts[at] = rng.pick(&wrong);
        }
        3 if !counts.is_empty() => {
            // The sum stays the same in 32 bits where these are two lists.
            for _ in 0..2 {
                let at = rng.below(counts.len());
                counts[at] ^= 1 << 31;
            }
        }
        4 => postings.push(any_posting),
        5 => {
            postings.pop();
        }
        6 if !postings.is_empty() => {
            let (at, other) = (rng.below(postings.len()), rng.below(postings.len()));
            postings.swap(at, other);
        }
        7 if postings.len() > 1 => {
            let at = rng.below(postings.len() - 1);
            postings[at + 1] = postings[at];
        }
        8 if !postings.is_empty() => {
            let at = rng.below(postings.len());
            postings[at] = rng.pick(&[0, u32::MAX, any_posting]);
        }
        _ if counts.len() > 1 => {
            // A posting goes over from one list to the other.
            let at = rng.below(counts.len() - 1);
            counts[at] = counts[at].wrapping_add(1);
            counts[at + 1] = counts[at + 1].wrapping_sub(1);
        }
        _ => {}
    }
}

/// Numbers and seals all blocks, so that what is wrong with them lies deeper.
fn seal_all(volume: &mut [u8]) {
    (0..volume.len() / 512).for_each(|k| renumber(volume, k, k as u32));
}

/// Any bytes: of any length, or whole blocks; as they are, or numbered and sealed.
fn any_bytes(rng: &mut Rng) -> Vec<u8> {
    let blocks = rng.below(5);
    let length = match rng.below(3) {
        0 => rng.below(3_000),
        _ => 512 * blocks,
    };
    // Small bytes make small words.
    let most = rng.pick(&[1, 2, 3, 256]);
    let mut bytes: Vec<u8> = (0..length).map(|_| rng.below(most) as u8).collect();
    if rng.below(4) > 0 {
        seal_all(&mut bytes);
    }
    if length >= 512 && rng.below(2) == 0 {
        set(&mut bytes, 0, 1);
        set(&mut bytes, 1, rng.pick(&[1, 2, 3, 120]));
    }
    bytes
}

/// Does to a volume that holds the lists what a disk, a line or a person may do to it.
pub fn deface(rng: &mut Rng, lists: &Lists, volume: &mut Vec<u8>) {
    let blocks = volume.len() / 512;
    if blocks == 0 {
        return;
    }
    let at = rng.below(512 * blocks);
    let in_block = at / 512 * 512 + rng.below(508);
    match rng.below(12) {
        0..=4 => (0..1 + rng.below(4)).for_each(|_| damage(rng, lists, volume)),
        5 => volume[at] = rng.word() as u8,
        6 => {
            volume[in_block] = rng.word() as u8;
            seal_block(volume, in_block / 512);
        }
        7 => {
            let other = at / 512 * 512 + rng.below(512);
            volume[other] = rng.word() as u8;
            volume[at] = rng.word() as u8;
        }
        8 => {
            // The sum of the bytes stays the same.
            let by = 1 + rng.below(255) as u8;
            volume[at] = volume[at].wrapping_add(by);
            volume[in_block] = volume[in_block].wrapping_sub(by);
        }
        9 => volume.truncate(at),
        10 => {
            let more = any_bytes(rng);
            volume.extend(more);
        }
        _ => {
            // A block of another volume, in place of one of this or behind them.
            let other = any_lists(rng).volume();
            let from = rng.below(other.len() / 512);
            let block = &other[512 * from..][..512];
            let k = rng.below(blocks + 1);
            if k == blocks {
                volume.extend(block);
            } else {
                volume[512 * k..][..512].copy_from_slice(block);
            }
            if rng.below(2) == 0 {
                renumber(volume, k, k as u32);
            }
        }
    }
}

/// The volume of the lists, as it is or defaced.
pub fn defaced(rng: &mut Rng, lists: &Lists) -> Vec<u8> {
    let mut volume = lists.volume();
    for _ in 0..rng.pick(&[0, 1, 1, 1, 1, 2]) {
        deface(rng, lists, &mut volume);
    }
    if rng.below(2) == 0 {
        volume.truncate(volume.len() / 512 * 512);
        seal_all(&mut volume);
    }
    volume
}

/// A volume that is accepted or not, and about how many lists it has.
pub fn any_volume(rng: &mut Rng) -> (Vec<u8>, usize) {
    match rng.below(8) {
        0 => (any_bytes(rng), 3),
        _ => {
            let lists = any_lists(rng);
            (defaced(rng, &lists), lists.counts.len())
        }
    }
}

/// The words of a plan for a volume of so many lists.
pub fn any_plan(rng: &mut Rng, lists: usize) -> Vec<u32> {
    match rng.below(12) {
        0 | 1 => random_plan(rng, lists.max(2)).concat(),
        2..=4 => {
            // A short plan, whose patterns are often found.
            let mut rows = random_query(rng).0;
            for row in rows.iter_mut().filter(|row| row[0] == kind::VOICE) {
                row[1] = 1 + rng.below(lists.max(2) - 1) as u32;
            }
            for _ in 0..rng.pick(&[0, 0, 1]) {
                spoil(rng, &mut rows, lists);
            }
            rows.concat()
        }
        5..=7 => {
            let changes = 1 + rng.below(5);
            spoiled_plan(rng, lists, changes)
        }
        8 => nonsense_plan(rng, lists),
        9 => crowded_plan(rng, lists),
        10 => {
            // Cut between two rows.
            let rows = random_plan(rng, lists.max(2));
            rows[..rng.below(rows.len())].concat()
        }
        _ => {
            // A plan in order, with words of any size in some places.
            let mut plan = random_plan(rng, lists.max(2)).concat();
            for _ in 0..rng.below(4) {
                let at = rng.below(plan.len());
                plan[at] = rng.word() >> rng.below(32);
            }
            plan
        }
    }
}

/// A plan in order but for a pattern with more variables, or more patterns, than there may be, or
/// nearly so.
fn crowded_plan(rng: &mut Rng, lists: usize) -> Vec<u32> {
    let mut rows = random_plan(rng, lists.max(2));
    let more = 1 + rng.below(9);
    if rng.below(2) == 0 {
        let starts: Vec<usize> = (0..rows.len()).filter(|&i| rows[i][0] == kind::VOICE).collect();
        let at = rng.pick(&starts);
        rows.splice(at..at, vec![voice(1); more]);
    } else {
        let at = if rng.below(2) == 0 { 0 } else { rows.len() };
        rows.splice(at..at, [[voice(1), END]; 9][..more].concat());
        match rng.below(3) {
            0 => rows.push(at_least(1 + rng.below(more + 1) as u32, more as u32 + 1)),
            _ => rows.extend(vec![rng.pick(&[BOTH, EITHER, FIRST_NOT_SECOND]); more]),
        }
    }
    rows.concat()
}
