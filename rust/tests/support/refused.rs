//! Volumes and plans that are refused, each with the refusal's number and place.

use super::plans::*;
use super::{add_block, four_blocks, renumber, set};
use crate::plain::Refused;

/// A volume for each of 1 to 8, or several.
pub fn volumes() -> Vec<(Vec<u8>, Refused)> {
    type Change<'a> = &'a dyn Fn(&mut Vec<u8>);
    let lists = four_blocks();
    let changed = |change: Change| {
        let mut volume = lists.volume();
        change(&mut volume);
        volume
    };
    let both = |one: Change, other: Change| {
        changed(&|volume| {
            one(volume);
            other(volume);
        })
    };
    let start = lists.start(3);
    vec![
        (vec![], (1, 0)),
        (vec![0; 1], (1, 0)),
        (changed(&|volume| volume.truncate(511)), (1, 0)),
        (changed(&|volume| volume.push(0)), (1, 0)),
        (changed(&|volume| renumber(volume, 0, 1)), (2, 0)),
        (changed(&|volume| renumber(volume, 2, 3)), (2, 2)),
        (changed(&|volume| volume[3 * 512 + 100] ^= 1), (3, 3)),
        (changed(&|volume| volume[511] ^= 1), (3, 0)),
        (changed(&|volume| set(volume, 0, 2)), (4, 0)),
        (changed(&|volume| set(volume, 1, 0)), (5, 0)),
        (changed(&|volume| set(volume, 1, 1_025)), (5, 0)),
        (changed(&add_block), (6, 0)),
        (changed(&|volume| set(volume, 2, 200)), (6, 0)),
        (changed(&|volume| set(volume, 20, 0)), (7, 2)),
        (changed(&|volume| set(volume, start + 1, 6_000)), (7, 3)),
        (changed(&|volume| set(volume, 7, 9_003)), (7, 0)),
        (changed(&|volume| set(volume, 503, 1)), (8, 503)),
        (changed(&|volume| set(volume, lists.words(), 1)), (8, 387)),
        // Two faults: blocks go upward, 2 before 3 in each, then 4 to 8 in order.
        (both(&|volume| renumber(volume, 1, 0), &|volume| volume[100] ^= 1), (3, 0)),
        (both(&|volume| volume[512] ^= 1, &|volume| volume[600] ^= 1), (2, 1)),
        (both(&|volume| set(volume, 0, 2), &|volume| volume[2_047] ^= 1), (3, 3)),
        (both(&|volume| set(volume, 0, 2), &|volume| set(volume, 1, 0)), (4, 0)),
        (both(&|volume| set(volume, start + 1, 0), &|volume| set(volume, 503, 1)), (7, 3)),
    ]
}

/// A plan over the sample volume for each of 10 to 14, or several.
pub fn plans() -> Vec<(Vec<Row>, Refused)> {
    let mut last_row = widest_plan();
    last_row[63] = [12, 1, 7, 0];
    let ninth_pattern = [voice(1), END].repeat(9);
    vec![
        (vec![[0; 4]], (10, 0)),
        (vec![voice(1), [2, 0, 0, 65_536], END], (10, 1)),
        (vec![voice(1), span(0), END], (10, 1)),
        (vec![voice(1), voice(2), apart(0, 1, 9, 8), END], (10, 2)),
        (vec![voice(1), END, voice(2), END, at_least(3, 2)], (10, 4)),
        (vec![voice(1), [6, 0, 0, 1]], (10, 1)),
        (last_row, (10, 63)),
        (vec![voice(0), END], (11, 0)),
        (vec![voice(1), voice(3), END], (11, 1)),
        (vec![voice(2); 9], (12, 8)),
        (ninth_pattern, (12, 16)),
        (vec![END], (13, 0)),
        (vec![voice(1), before(0, 1), END], (13, 1)),
        (vec![voice(1), apart(0, 1, 0, 9), END], (13, 1)),
        (vec![voice(1), span(1), voice(1), END], (13, 2)),
        (vec![voice(1), END, BOTH], (13, 2)),
        (vec![voice(1), END, voice(2), END, at_least(1, 3)], (13, 4)),
        (vec![voice(1), END, voice(2), END], (14, 0)),
        (vec![voice(1), END, voice(2)], (14, 0)),
        // Two faults: rows go upward, 10 to 13 in order in each, then 14.
        (vec![END, [0; 4]], (13, 0)),
        (vec![[0; 4], END], (10, 0)),
        (vec![[1, 0, 1, 0]], (10, 0)),
        (vec![voice(1), span(1), voice(9)], (11, 2)),
        (vec![voice(1), [0; 4]], (10, 1)),
    ]
}
