//! The checksum in another order of summing (02, N1): what the library takes for a block's checksum
//! and what it stores, beside document 02's two sums, worked out part by part.

use crate::plain;
use crate::support::*;
use std::ops::Range;

/// Where the first half of a block ends, and where its checksum stands.
const HALF: usize = 256;
const END: usize = 508;

/// Document 02's sums over a part of a block, not reduced: its bytes, and each byte i of the block
/// 508 − i times.
fn part(block: &[u8], bytes: Range<usize>) -> (u64, u64) {
    bytes.fold((0, 0), |(plain, weighted), i| {
        let byte = u64::from(block[i]);
        (plain + byte, weighted + (END - i) as u64 * byte)
    })
}

/// A and B from the sums of all parts.
fn joined(parts: &[(u64, u64)]) -> (u16, u16) {
    let (mut a, mut b) = (1, 508);
    for (plain, weighted) in parts {
        a += plain;
        b += weighted;
    }
    ((a % 65_535) as u16, (b % 65_535) as u16)
}

/// Stores A and B.
fn store(block: &mut [u8], (a, b): (u16, u16)) {
    block[END..END + 2].copy_from_slice(&a.to_le_bytes());
    block[END + 2..].copy_from_slice(&b.to_le_bytes());
}

/// The stored A and B.
fn stored(block: &[u8]) -> (u16, u16) {
    let half = |at: usize| u16::from_le_bytes([block[at], block[at + 1]]);
    (half(END), half(END + 2))
}

/// Whether the library takes the block for sealed. Its number is 0, and whatever else is wrong with
/// it is told behind the checksum.
fn sealed(trial: &mut Trial, block: &[u8]) -> bool {
    assert_eq!(block[..4], [0; 4], "{}", trial.case);
    match trial.examine(block) {
        Err((3, place)) => {
            assert_eq!(place, 0, "{}", trial.case);
            false
        }
        Err((4.., _)) | Ok(_) => true,
        other => panic!("{}: {other:?}", trial.case),
    }
}

/// A block with number 0 and random bytes, of few values or of many.
fn random_block(rng: &mut Rng) -> [u8; 512] {
    let mut block = [0; 512];
    let few = [[0, 255], [254, 255], [0, 1]];
    let kind = rng.below(4);
    for byte in &mut block[4..END] {
        *byte = match few.get(kind) {
            Some(values) => rng.pick(values),
            None => rng.word() as u8,
        };
    }
    block
}

/// One byte in a block of zeros counts once in A and 508 − i times in B, and no other number of
/// times.
#[test]
fn each_byte_by_its_weight() {
    let mut trial = Trial::default();
    for i in 4..END {
        for byte in [1, 128, 255] {
            let mut block = [0; 512];
            block[i] = byte;
            let value = u32::from(byte);
            let weight = |n: usize| ((508 + n as u32 * value) % 65_535) as u16;
            let a = 1 + u16::from(byte);
            for (b, right) in [
                (weight(END - i), true),
                (weight(END - i - 1), false),
                (weight(END - i + 1), false),
                (weight((END - i + HALF) % END), false),
            ] {
                trial.case = format!("byte {i} is {byte}, B is {b}");
                store(&mut block, (a, b));
                assert_eq!(sealed(&mut trial, &block), right, "{}", trial.case);
            }
            trial.case = format!("byte {i} is {byte}, A does not count it");
            store(&mut block, (1, weight(END - i)));
            assert!(!sealed(&mut trial, &block), "{}", trial.case);
        }
    }
    assert_eq!(trial.made(Call::Check), 504 * 3 * 5);
}

/// The halves in both orders, and each half alone where the sums are greatest.
#[test]
fn halves_in_both_orders() {
    let seed = 256_252;
    let mut rng = Rng::new(seed);
    let mut trial = Trial::default();
    for round in 0..2_000 {
        trial.case = format!("seed {seed}, round {round}");
        let mut block = random_block(&mut rng);
        match round % 4 {
            0 => block[4..HALF].fill(255),
            1 => block[HALF..END].fill(255),
            2 => block[HALF..END].fill(0),
            _ => {}
        }
        let first = part(&block, 0..HALF);
        let second = part(&block, HALF..END);
        let sums = joined(&[first, second]);
        assert_eq!(sums, joined(&[second, first]), "{}", trial.case);
        assert_eq!(sums, plain::checksum(&block[..END]), "{}", trial.case);
        store(&mut block, sums);
        assert!(sealed(&mut trial, &block), "{}", trial.case);

        trial.case = format!("seed {seed}, round {round}, a half summed twice");
        for twice in [joined(&[first, first]), joined(&[second, second])] {
            store(&mut block, twice);
            assert_eq!(sealed(&mut trial, &block), twice == sums, "{}", trial.case);
        }
    }
}

/// A block whose halves change places under its checksum has the same A. It is refused by B alone,
/// but where the bytes of both halves have the same sum.
#[test]
fn halves_exchanged() {
    let seed = 508_252;
    let mut rng = Rng::new(seed);
    let mut trial = Trial::default();
    let mut refused = 0;
    for round in 0..1_000 {
        trial.case = format!("seed {seed}, round {round}");
        let mut block = random_block(&mut rng);
        plain::seal(&mut block);
        assert!(sealed(&mut trial, &block), "{}", trial.case);

        let before = stored(&block);
        for i in 4..HALF {
            block.swap(i, i + 252);
        }
        let now = plain::checksum(&block[..END]);
        assert_eq!(now.0, before.0, "{}", trial.case);
        assert_eq!(sealed(&mut trial, &block), now == before, "{}", trial.case);
        refused += usize::from(now != before);
    }
    assert!(refused > 950, "{refused} of 1,000");
}

/// A block cut anywhere, into parts that come in any order.
#[test]
fn parts_in_any_order() {
    let seed = 65_535;
    let mut rng = Rng::new(seed);
    let mut trial = Trial::default();
    for round in 0..2_000 {
        trial.case = format!("seed {seed}, round {round}");
        let mut block = random_block(&mut rng);
        let mut cuts: Vec<usize> = (0..rng.below(9)).map(|_| rng.below(END + 1)).collect();
        cuts.extend([0, END]);
        cuts.sort_unstable();
        let mut parts: Vec<_> = cuts.windows(2).map(|cut| part(&block, cut[0]..cut[1])).collect();
        for i in (1..parts.len()).rev() {
            parts.swap(i, rng.below(i + 1));
        }
        let sums = joined(&parts);
        assert_eq!(sums, plain::checksum(&block[..END]), "{}", trial.case);
        store(&mut block, sums);
        assert!(sealed(&mut trial, &block), "{}", trial.case);
    }
}

/// The writer stores document 02's sums under each block.
#[test]
fn written_under_the_same_sums() {
    let seed = 1_508;
    let mut rng = Rng::new(seed);
    let mut trial = Trial::default();
    let mut blocks = 0;
    for round in 0..600 {
        trial.case = format!("seed {seed}, round {round}");
        let lists = random_lists(&mut rng, 20);
        let volume = trial.write(&lists.counts, &lists.postings, lists.room()).unwrap();
        for block in volume.chunks(512) {
            let second_first = [part(block, HALF..END), part(block, 0..HALF)];
            assert_eq!(stored(block), joined(&second_first), "{}", trial.case);
            blocks += 1;
        }
    }
    assert!(blocks > 1_000, "{blocks} blocks");
}
