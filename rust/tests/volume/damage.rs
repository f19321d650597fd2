//! Damaged volumes: which refusal they meet, and where.

use crate::plain::{self, Refused};
use crate::support::*;
use std::ops::Range;

/// Any other value of any one byte is refused with 2 or 3 at its block.
#[test]
fn one_byte_changed() {
    let mut trial = Trial::default();
    trial.each_byte_changed(&sample().volume());
    assert_eq!(trial.made(Call::Check), 512 * 255);
}

#[test]
fn one_bit_flipped() {
    let mut trial = Trial::default();
    let mut volume = four_blocks().volume();
    for bit in 0..8 * volume.len() {
        let at = bit / 8;
        volume[at] ^= 1 << (bit % 8);
        trial.case = format!("bit {bit}");
        let refused = (if at % 512 < 4 { 2 } else { 3 }, at as u32 / 512);
        assert_eq!(trial.examine(&volume), Err(refused), "{}", trial.case);
        volume[at] ^= 1 << (bit % 8);
    }
    assert_eq!(trial.examine(&volume), Ok((5, 380)));
}

/// A volume cut anywhere, or with anything behind it.
#[test]
fn other_lengths() {
    let mut trial = Trial::default();
    let accepted = four_blocks().volume();
    for length in 0..accepted.len() + 1_100 {
        trial.case = format!("{length} bytes");
        let refused = match (length / 512, length % 512) {
            (0, 0) | (_, 1..) => (1, 0),
            (1..=3, 0) => (6, 0),
            (4, 0) => continue,
            // The zero bytes behind the volume are not numbered 4.
            (5.., 0) => (2, 4),
        };
        let mut volume = accepted.clone();
        volume.resize(length, 0);
        assert_eq!(trial.examine(&volume), Err(refused), "{}", trial.case);
    }
    let mut volume = accepted;
    for blocks in 5..8 {
        trial.case = format!("{blocks} blocks, all sealed");
        add_block(&mut volume);
        assert_eq!(trial.examine(&volume), Err((6, 0)), "{}", trial.case);
    }
}

#[test]
fn blocks_swapped_repeated_missing() {
    let mut trial = Trial::default();
    let accepted = four_blocks().volume();
    for j in 0..4 {
        for k in (0..4).filter(|&k| k != j) {
            let first = j.min(k) as u32;

            trial.case = format!("blocks {j} and {k} swapped");
            let mut volume = accepted.clone();
            swap_blocks(&mut volume, j, k);
            assert_eq!(trial.examine(&volume), Err((2, first)), "{}", trial.case);

            trial.case = format!("block {j} in the place of block {k}");
            let mut volume = accepted.clone();
            put_block(&mut volume, k, j);
            assert_eq!(trial.examine(&volume), Err((2, k as u32)), "{}", trial.case);
        }

        trial.case = format!("block {j} missing");
        let mut volume = accepted.clone();
        volume.drain(512 * j..512 * j + 512);
        let refused = if j == 3 { (6, 0) } else { (2, j as u32) };
        assert_eq!(trial.examine(&volume), Err(refused), "{}", trial.case);

        trial.case = format!("block {j} twice");
        let mut volume = accepted.clone();
        let block = accepted[512 * j..512 * j + 512].to_vec();
        volume.splice(512 * j..512 * j, block);
        assert_eq!(trial.examine(&volume), Err((2, j as u32 + 1)), "{}", trial.case);
    }
}

/// A checksum is compared as it is stored: 65,535 does not stand for 0.
#[test]
fn stored_65535_is_not_0() {
    let mut trial = Trial::default();
    let mut rng = Rng::new(65_535);
    for (half, at) in [("A", 508), ("B", 510)] {
        let volume = loop {
            let list = random_list(&mut rng, 123);
            let volume = Lists::new(&[list]).volume();
            if volume[at..at + 2] == [0, 0] {
                break volume;
            }
        };
        trial.case = format!("{half} is 0");
        assert_eq!(trial.examine(&volume), Ok((1, 123)));
        let list = trial.read(&volume, 0, 123).unwrap();
        assert_eq!(trial.write(&[123], &list, 512), Ok(volume.clone()));

        trial.case = format!("{half} is 0, stored as 65,535");
        let mut volume = volume;
        volume[at..at + 2].copy_from_slice(&[255, 255]);
        assert_eq!(trial.examine(&volume), Err((3, 0)));
    }
}

/// Blocks full of one byte, where the sums are least and greatest. They are sealed, so that the
/// list which fills them is looked at, and does not rise.
#[test]
fn blocks_of_one_byte() {
    let mut trial = Trial::default();
    for byte in [0, 1, 127, 128, 254, 255] {
        trial.case = format!("bytes of {byte}");
        let mut volume = Lists::new(&[(0..375).collect::<Vec<u32>>()]).volume();
        assert_eq!(trial.examine(&volume), Ok((1, 375)));
        for k in 1..3 {
            volume[512 * k + 4..512 * k + 508].fill(byte);
            seal_block(&mut volume, k);
        }
        assert_eq!(trial.examine(&volume), Err((7, 0)), "{}", trial.case);
    }
}

/// A change of a volume. Those of words and of a block's number seal the block again.
enum Edit {
    /// A word of the stream takes this value.
    Word(usize, u32),
    /// So do all these words.
    Words(Range<usize>, u32),
    /// These words take this value, the next one, and so on.
    Rising(Range<usize>, u32),
    /// A block takes this number.
    Number(usize, u32),
    /// A byte takes this value; nothing is sealed.
    Byte(usize, u8),
    /// Two bytes change places; nothing is sealed.
    Swap(usize, usize),
    /// The volume is cut to this length, or gets zero bytes up to it.
    Length(usize),
    /// A block of zero words is added.
    Block,
}

use Edit::*;

fn edited(edits: &[Edit]) -> Vec<u8> {
    let mut volume = four_blocks().volume();
    let v = &mut volume;
    for edit in edits {
        match *edit {
            Word(index, word) => set(v, index, word),
            Words(ref range, word) => range.clone().for_each(|index| set(v, index, word)),
            Rising(ref range, word) => range.clone().zip(word..).for_each(|(i, w)| set(v, i, w)),
            Number(block, number) => renumber(v, block, number),
            Byte(at, byte) => v[at] = byte,
            Swap(at, other) => v.swap(at, other),
            Length(length) => v.resize(length, 0),
            Block => add_block(v),
        }
    }
    volume
}

/// What is done to the volume of `four_blocks`, and how it is then refused. Its stream: the version
/// at 0, the number of lists at 1, the counts 10, 0, 150, 200, 20 at 2 to 6; list 0 at 7, list 2 at
/// 17, list 3 at 167, list 4 at 367; zeros from 387 to 503. Its blocks begin with the stream words
/// 0, 126, 252 and 378.
#[test]
fn refused_in_order() {
    const MAX: u32 = u32::MAX;
    const HALF: u32 = 1 << 31;
    let rows: &[(&str, &[Edit], Refused)] = &[
        // 1
        ("1, no bytes", &[Length(0)], (1, 0)),
        ("1, half a block", &[Length(256)], (1, 0)),
        ("1 before 2", &[Number(0, 1), Length(2_047)], (1, 0)),
        ("1 before 3", &[Byte(9, 99), Length(2_049)], (1, 0)),
        // 2 and 3, block by block
        ("2 in block 0", &[Number(0, 1)], (2, 0)),
        ("2 in the last block", &[Number(3, 4)], (2, 3)),
        ("2, all bits of the number count", &[Number(2, 2 + HALF)], (2, 2)),
        ("3, A", &[Byte(3 * 512 + 508, 0)], (3, 3)),
        ("3, B", &[Byte(512 + 511, 255)], (3, 1)),
        ("3, A and B in each other's place", &[Swap(508, 510), Swap(509, 511)], (3, 0)),
        ("3, bytes of the same sum", &[Swap(512 + 4, 512 + 5)], (3, 1)),
        ("2 before 3 in a block", &[Byte(2 * 512, 7)], (2, 2)),
        ("3 of block 0 before 2 of block 1", &[Byte(100, 99), Number(1, 9)], (3, 0)),
        ("2 of block 1 before 3 of block 2", &[Number(1, 9), Byte(2 * 512 + 99, 99)], (2, 1)),
        ("3 of block 1 before 3 of block 2", &[Byte(2 * 512 + 99, 99), Byte(512 + 9, 9)], (3, 1)),
        // 4, after all blocks
        ("4, version 0", &[Word(0, 0)], (4, 0)),
        ("4, version 2", &[Word(0, 2)], (4, 0)),
        ("4, all bits of the version count", &[Word(0, 1 + HALF)], (4, 0)),
        ("3 of the last block before 4", &[Word(0, 2), Byte(4 * 512 - 5, 1)], (3, 3)),
        ("2 of the last block before 4", &[Word(0, 2), Number(3, 0)], (2, 3)),
        ("4 before 5", &[Word(0, 2), Word(1, 0)], (4, 0)),
        // 5
        ("5, no list", &[Word(1, 0)], (5, 0)),
        ("5, 1,025 lists", &[Word(1, 1_025)], (5, 0)),
        ("5, 2^32 - 1 lists", &[Word(1, MAX)], (5, 0)),
        ("5, 2 + T is 0 in 32 bits", &[Word(1, MAX - 1)], (5, 0)),
        ("5, all bits of the number count", &[Word(1, 5 + HALF)], (5, 0)),
        ("5 before 6", &[Word(1, 0), Word(2, MAX)], (5, 0)),
        // 6
        ("6, 1,024 counts run past the blocks", &[Word(1, 1_024)], (6, 0)),
        ("6, one count too many for the blocks", &[Word(1, 503)], (6, 0)),
        ("6, a block too many", &[Block], (6, 0)),
        ("6, a block too few", &[Length(3 * 512)], (6, 0)),
        ("6, one word too many for the blocks", &[Word(6, 20 + 118)], (6, 0)),
        ("6, one word too few for the blocks", &[Word(5, 200 - 9)], (6, 0)),
        ("6, a count of 2^32 - 1", &[Word(3, MAX)], (6, 0)),
        ("6, S is as before in 32 bits", &[Word(2, 10 + HALF), Word(4, 150 + HALF)], (6, 0)),
        ("6, S is as before in 32 bits again", &[Word(3, MAX), Word(4, 151)], (6, 0)),
        ("6, 2 + T + S is 2 in 32 bits", &[Length(512), Word(1, 1), Word(2, MAX)], (6, 0)),
        ("6, all counts are 2^32 - 1", &[Word(1, 502), Words(2..504, MAX)], (6, 0)),
        ("6 before 7", &[Word(8, 0), Block], (6, 0)),
        ("6 before 8", &[Word(503, 1), Word(6, 20 + 118)], (6, 0)),
        // 7
        ("7, equal postings", &[Word(8, 9_000)], (7, 0)),
        ("7, the first pair of a list", &[Word(17, 8_000)], (7, 2)),
        ("7, the last pair of a list", &[Word(166, 7_000 + 3 * 148)], (7, 2)),
        ("7, equal over the edge of a block", &[Word(126, 7_000 + 3 * 108)], (7, 2)),
        ("7, falling over the edge of a block", &[Word(251, 9_999)], (7, 3)),
        ("7, the last posting of all", &[Word(386, 5_000)], (7, 4)),
        ("7, a posting of 0 within a list", &[Word(12, 0)], (7, 0)),
        ("7, a posting of 2^32 - 1 within a list", &[Word(300, MAX)], (7, 3)),
        ("7 at the lowest list", &[Word(386, 0), Word(200, 0), Word(30, 0)], (7, 2)),
        ("7, a posting goes over to the next list", &[Word(4, 149), Word(5, 201)], (7, 3)),
        ("7, a list takes a zero behind it", &[Word(6, 21)], (7, 4)),
        ("7, one fall more in a list, one less behind it", &[Rising(165..167, 0)], (7, 2)),
        ("7 before 8", &[Word(387, 1), Word(380, 1)], (7, 4)),
        // 8
        ("8, the first word behind the lists", &[Word(387, 1)], (8, 387)),
        ("8, a word that goes on rising", &[Word(387, 6_000)], (8, 387)),
        ("8, the last word", &[Word(503, HALF)], (8, 503)),
        ("8 at the lowest index", &[Word(503, 5), Word(450, 5), Word(401, 5)], (8, 401)),
        ("8, the last list is one shorter", &[Word(6, 19)], (8, 386)),
        // A and B are the same for 255 and 0, 257 bytes apart, in either order.
        (
            "8, past a checksum that does not tell",
            &[Word(420, 255), Byte(3 * 512 + 172, 0), Byte(3 * 512 + 429, 255)],
            (8, 484),
        ),
        ("8, most of a block", &[Word(6, 12), Words(379..503, 0), Word(503, 7)], (8, 503)),
    ];
    let mut trial = Trial::default();
    for &(name, edits, refused) in rows {
        trial.case = name.to_string();
        assert_eq!(trial.examine(&edited(edits)), Err(refused), "{name}");
    }
    trial.assert_met(Call::Check, 3, &[1, 2, 3, 4, 5, 6, 7, 8]);
}

/// Changes of the stream that leave the volume accepted.
#[test]
fn accepted_all_the_same() {
    let rows: &[(&str, &[Edit], (u32, u32))] = &[
        ("nothing changed", &[], (5, 380)),
        ("equal from list to list", &[Rising(7..17, 6_991)], (5, 380)),
        ("rising from list to list", &[Rising(7..17, 1)], (5, 380)),
        ("the greatest posting", &[Word(386, u32::MAX)], (5, 380)),
        ("the least posting", &[Word(167, 0)], (5, 380)),
        ("a list gives its front to the one before it", &[Word(3, 70), Word(4, 80)], (5, 380)),
        ("no zero words", &[Word(6, 20 + 117), Rising(387..504, 9_000)], (5, 497)),
        ("one word in the last block", &[Word(6, 12), Words(379..387, 0)], (5, 372)),
    ];
    let mut trial = Trial::default();
    for &(name, edits, answer) in rows {
        trial.case = name.to_string();
        assert_eq!(trial.examine(&edited(edits)), Ok(answer), "{name}");
    }
}

/// Each word of a volume takes each of many values, its block sealed again.
#[test]
fn one_word_changed_and_sealed() {
    let mut trial = Trial::default();
    for (name, lists) in [("sample", sample()), ("four blocks", four_blocks())] {
        let accepted = lists.volume();
        let words = plain::stream(&accepted);
        for index in 0..words.len() {
            let near = [
                words[index.saturating_sub(1)],
                words[index],
                words[(index + 1).min(words.len() - 1)],
            ];
            let values = near
                .iter()
                .flat_map(|&word| [word.wrapping_sub(1), word, word.wrapping_add(1)])
                .chain([0, 1, 1_024, 1_025, 65_536, 1 << 31, u32::MAX]);
            for value in values {
                let mut volume = accepted.clone();
                set(&mut volume, index, value);
                trial.case = format!("{name}, word {index} is {value}");
                let answer = trial.check(&volume);
                assert!(value != words[index] || answer.is_ok(), "{}: {answer:?}", trial.case);
            }
        }
    }
    trial.assert_met(Call::Check, 10, &[0, 4, 5, 6, 7, 8]);
}

/// Random volumes with up to three kinds of damage at once.
#[test]
fn random_damage() {
    let seed = 8_191;
    let mut rng = Rng::new(seed);
    let mut trial = Trial::default();
    for round in 0..20_000 {
        trial.case = format!("seed {seed}, round {round}");
        let most = rng.pick(&[2, 10, 30]);
        let lists = random_lists(&mut rng, most);
        let mut volume = lists.volume();
        for _ in 0..1 + rng.below(3) {
            damage(&mut rng, &lists, &mut volume);
        }
        let _ = trial.examine(&volume);
    }
    trial.assert_met(Call::Check, 400, &[0, 1, 2, 3, 4, 5, 6, 7, 8]);
    trial.assert_met(Call::Read, 400, &[0, 1, 2, 3, 4, 5, 6, 7, 8, 16, 17]);
}
