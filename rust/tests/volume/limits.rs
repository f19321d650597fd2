//! The largest volumes, and one word or one byte more.

use crate::plain;
use crate::support::*;

const BLOCKS: usize = 8_192;
const WORDS: usize = 1_032_192;

#[test]
fn the_largest_volume() {
    let mut trial = Trial::default();
    for count in [1, 1_000, 1_024] {
        trial.case = format!("{count} lists");
        let lists = filling(count, WORDS);
        assert_eq!(lists.words(), WORDS);
        let room = 512 * BLOCKS;

        let volume = trial.write(&lists.counts, &lists.postings, room).unwrap();
        assert_eq!(volume.len(), room);
        assert_eq!(trial.check(&volume), Ok((count as u32, lists.postings.len() as u32)));
        let (parts, _) = plain::cut(&lists.counts, &lists.postings);
        for list in [0, count / 2, count - 1] {
            let read = trial.read(&volume, list as u32, parts[list].len());
            assert_eq!(read.as_deref(), Ok(parts[list]), "list {list}");
        }
        assert_eq!(trial.read(&volume, count as u32, 10), Err((17, 0)));

        for block in [0, 1, 127, 128, 255, 256, 4_095, 4_096, 8_190, 8_191] {
            for (byte, number) in [(1, 2), (300, 3), (511, 3)] {
                let mut volume = volume.clone();
                volume[512 * block + byte] ^= 16;
                let refused = (number, block as u32);
                assert_eq!(trial.check(&volume), Err(refused), "byte {byte} of block {block}");
            }
        }
        let mut unrising = volume.clone();
        set(&mut unrising, WORDS - 1, 0);
        assert_eq!(trial.check(&unrising), Err((7, count as u32 - 1)));

        let mut longer = lists.clone();
        longer.counts[count - 1] += 1;
        longer.postings.push(u32::MAX);
        for room in [0, room, room + 512] {
            let written = trial.write(&longer.counts, &longer.postings, room);
            assert_eq!(written, Err((19, 0)), "one word more, room {room}");
        }
    }
}

#[test]
fn the_last_word_of_the_largest_volume() {
    let mut trial = Trial::default();
    let lists = filling(700, WORDS - 1);
    let mut volume = lists.volume();
    assert_eq!(volume.len(), 512 * BLOCKS);
    assert_eq!(trial.check(&volume), Ok((700, (WORDS - 1 - 702) as u32)));
    set(&mut volume, WORDS - 1, 1);
    assert_eq!(trial.check(&volume), Err((8, WORDS as u32 - 1)));
    // A count more, and the word is a posting.
    set(&mut volume, 2 + 699, lists.counts[699] + 1);
    assert_eq!(trial.check(&volume), Err((7, 699)));
    set(&mut volume, WORDS - 1, u32::MAX);
    assert_eq!(trial.check(&volume), Ok((700, (WORDS - 702) as u32)));
}

#[test]
fn over_the_largest_volume() {
    let mut trial = Trial::default();
    let mut volume = filling(5, WORDS).volume();
    for more in [1, 511] {
        volume.resize(512 * BLOCKS + more, 0);
        assert_eq!(trial.check(&volume), Err((1, 0)));
    }
    volume.truncate(512 * BLOCKS - 1);
    assert_eq!(trial.check(&volume), Err((1, 0)));

    // One block more, all of it in order but for the number of blocks.
    let lists = filling(5, WORDS);
    let mut volume = lists.volume();
    set(&mut volume, 6, lists.counts[4] + 126);
    add_block(&mut volume);
    let last = lists.postings[lists.postings.len() - 1];
    for i in 0..126 {
        set(&mut volume, WORDS + i, last + 1 + i as u32);
    }
    assert_eq!(volume.len(), 512 * (BLOCKS + 1));
    assert_eq!(trial.check(&volume), Err((1, 0)));
    assert_eq!(trial.read(&volume, 0, 10), Err((1, 0)));
}

/// Lengths that are small again in 32 bits. The memory is never touched but for its first bytes.
#[test]
#[cfg(target_pointer_width = "64")]
fn lengths_over_32_bits() {
    let lists = sample();
    let volume = lists.volume();
    let mut memory = vec![0u8; (1 << 32) + 512];
    memory[..512].copy_from_slice(&volume);
    let refused = lihambozy::calls::check_volume(&memory).map_err(pair);
    assert_eq!(refused.unwrap_err(), (1, 0));
    let refused = lihambozy::calls::read_list(&memory, 0, &mut [0; 9]).map_err(pair);
    assert_eq!(refused.unwrap_err(), (1, 0));

    memory[..512].fill(0);
    memory.truncate(1 << 32);
    let written = lihambozy::calls::write_volume(&lists.counts, &lists.postings, &mut memory);
    assert_eq!(written.map(|written| written.blocks), Ok(1));
    assert!(memory[..512] == volume && memory[512..4_096].iter().all(|&byte| byte == 0));
}
