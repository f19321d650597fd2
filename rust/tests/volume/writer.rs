//! What the writer refuses, and in which order.

use crate::plain::Refused;
use crate::support::*;

type Row<'a> = (&'a str, &'a [u32], &'a [u32], usize, Result<u32, Refused>);

/// Counts, postings and bytes of room, and the number of blocks written or the refusal.
#[test]
fn refused_in_order() {
    const MAX: u32 = u32::MAX;
    const HALF: u32 = 1 << 31;
    let rising: Vec<u32> = (0..1_032_193).collect();
    let mut falling_at_end = rising[..1_032_190].to_vec();
    falling_at_end[1_032_189] = 0;
    let rows: &[Row] = &[
        // accepted
        ("one empty list", &[0], &[], 512, Ok(1)),
        ("a list of the posting 0", &[1], &[0], 512, Ok(1)),
        ("the greatest posting", &[2], &[MAX - 1, MAX], 512, Ok(1)),
        ("rising over 2^31", &[2], &[HALF - 1, HALF], 512, Ok(1)),
        ("falling from list to list", &[1, 1, 2], &[MAX, 9, 0, 1], 600, Ok(1)),
        ("equal from list to list", &[1, 0, 1, 1], &[4, 4, 4], 600, Ok(1)),
        ("1,024 lists", &[0; 1_024], &[], 9 * 512, Ok(9)),
        // 5
        ("5, no list", &[], &[], 512, Err((5, 0))),
        ("5, 1,025 lists", &[0; 1_025], &[], 8_192, Err((5, 0))),
        ("5 before 18, no list", &[], &[1], 512, Err((5, 0))),
        ("5 before 18, 1,025 lists", &[1; 1_025], &[3, 3], 0, Err((5, 0))),
        ("5 before 20", &[], &[], 0, Err((5, 0))),
        // 18
        ("18, a posting too few", &[1], &[], 512, Err((18, 0))),
        ("18, a posting too many", &[1, 0], &[1, 2], 512, Err((18, 0))),
        ("18, no count for it", &[0, 0], &[0], 512, Err((18, 0))),
        ("18, 2^32 is 0 in 32 bits", &[HALF, HALF], &[], 512, Err((18, 0))),
        ("18, 2^32 + 3 is 3 in 32 bits", &[MAX, 4], &[1, 2, 3], 512, Err((18, 0))),
        ("18, a single huge count", &[MAX], &[1], 512, Err((18, 0))),
        ("18, all counts huge", &[MAX; 1_024], &[1], 512, Err((18, 0))),
        ("18 before 7", &[2, 2], &[9, 9, 8], 512, Err((18, 0))),
        ("18 before 19", &[1], &rising, 512, Err((18, 0))),
        ("18 before 20", &[1], &[], 0, Err((18, 0))),
        // 7
        ("7, equal", &[2], &[5, 5], 512, Err((7, 0))),
        ("7, falling by one", &[2], &[6, 5], 512, Err((7, 0))),
        ("7, falling from the greatest", &[3], &[1, MAX, 0], 512, Err((7, 0))),
        ("7, the last pair", &[1, 4], &[7, 1, 2, 3, 3], 512, Err((7, 1))),
        ("7, behind empty lists", &[0, 0, 2, 0], &[2, 1], 512, Err((7, 2))),
        ("7 at the lowest list", &[1, 2, 2, 2], &[9, 4, 4, 1, 2, 8, 7], 512, Err((7, 1))),
        ("7 before 19", &[1_032_190], &falling_at_end, 4_194_304, Err((7, 0))),
        ("7 before 20", &[2], &[5, 5], 0, Err((7, 0))),
        // 19
        ("19, one word more", &[1_032_190], &rising[..1_032_190], 4_194_816, Err((19, 0))),
        ("19, one list more", &[0, 1_032_189], &rising[..1_032_189], 4_194_816, Err((19, 0))),
        ("19 before 20", &[1_032_193], &rising, 0, Err((19, 0))),
        // 20
        ("20, no room", &[0], &[], 0, Err((20, 0))),
        ("20, a byte too few", &[0], &[], 511, Err((20, 0))),
        ("20, room for the words alone", &[1], &[1], 16, Err((20, 0))),
        ("20, a block too few", &[124], &rising[..124], 512, Err((20, 0))),
        ("20, a byte too few for two", &[124], &rising[..124], 1_023, Err((20, 0))),
        ("room for two", &[124], &rising[..124], 1_024, Ok(2)),
        ("20, the largest volume", &[1_032_189], &rising[..1_032_189], 4_194_303, Err((20, 0))),
    ];
    let mut trial = Trial::default();
    for &(name, counts, postings, room, answer) in rows {
        trial.case = name.to_string();
        let written = trial.write(counts, postings, room);
        let blocks = written.map(|volume| volume.len() as u32 / 512);
        assert_eq!(blocks, answer, "{name}");
    }
    trial.assert_met(Call::Write, 3, &[0, 5, 7, 18, 19, 20]);
}

/// Random lists with up to two things wrong with them.
#[test]
fn random_faults() {
    let seed = 31_337;
    let mut rng = Rng::new(seed);
    let mut trial = Trial::default();
    for round in 0..20_000 {
        trial.case = format!("seed {seed}, round {round}");
        let mut lists = random_lists(&mut rng, 12);
        let mut room = lists.room();
        for _ in 0..rng.below(3) {
            if lists.counts.is_empty() {
                break;
            }
            let list = rng.below(lists.counts.len());
            match rng.below(8) {
                0 => lists.counts.clear(),
                1 => lists.counts.resize(1_025, 0),
                2 => {
                    let count = lists.counts[list];
                    let wrong = [count.wrapping_add(1), count.wrapping_sub(1), u32::MAX];
                    lists.counts[list] = rng.pick(&wrong);
                }
                3 => {
                    // The sum stays the same in 32 bits.
                    let other = rng.below(lists.counts.len());
                    lists.counts[list] ^= 1 << 31;
                    lists.counts[other] ^= 1 << 31;
                }
                4 | 5 => {
                    if lists.postings.len() > 1 {
                        let index = 1 + rng.below(lists.postings.len() - 1);
                        let before = lists.postings[index - 1];
                        lists.postings[index] = before.wrapping_sub(rng.pick(&[0, 0, 1]));
                    }
                }
                6 => room += 1 + rng.below(600),
                _ => room -= rng.pick(&[1, room.min(512), room]).min(room),
            }
        }
        let _ = trial.write(&lists.counts, &lists.postings, room);
    }
    trial.assert_met(Call::Write, 500, &[0, 5, 7, 18, 20]);
}
