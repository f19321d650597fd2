//! The numbers that document 01 itself gives of volumes.

use crate::plain;
use crate::support::{sample, Lists, Trial};

#[test]
fn zero_bytes_give_1_and_508() {
    assert_eq!(plain::checksum(&[0; 508]), (1, 508));
}

/// A block of zeros passes as far as its version exactly if 1 and 508 are stored.
#[test]
fn a_block_of_zeros_is_sealed_by_1_and_508() {
    let mut trial = Trial::default();
    for (a, b, refused) in [
        (1, 508, (4, 0)),
        (0, 508, (3, 0)),
        (2, 508, (3, 0)),
        (1, 507, (3, 0)),
        (1, 509, (3, 0)),
        (508, 1, (3, 0)),
        (0, 0, (3, 0)),
    ] {
        let mut block = [0; 512];
        block[508..510].copy_from_slice(&u16::to_le_bytes(a));
        block[510..512].copy_from_slice(&u16::to_le_bytes(b));
        trial.case = format!("zeros under {a} and {b}");
        assert_eq!(trial.examine(&block), Err(refused), "{}", trial.case);
    }
}

#[test]
fn stream_words_fill_blocks() {
    let mut trial = Trial::default();
    for (lists, postings, words, blocks) in [
        (1, 0, 3, 1),
        (1, 123, 126, 1),
        (1, 124, 127, 2),
        (1, 125, 128, 2),
        (3, 121, 126, 1),
        (3, 122, 127, 2),
        (124, 0, 126, 1),
        (125, 0, 127, 2),
        (1, 249, 252, 2),
        (1, 250, 253, 3),
        (1_024, 0, 1_026, 9),
        (1_024, 108, 1_134, 9),
        (1_024, 109, 1_135, 10),
    ] {
        trial.case = format!("{lists} lists, {postings} postings");
        let mut counts = vec![0; lists];
        counts[lists / 2] = postings;
        let postings: Vec<u32> = (0..postings).collect();
        assert_eq!(2 + counts.len() + postings.len(), words);
        let volume = trial.write(&counts, &postings, 512 * 16).unwrap();
        assert_eq!(volume.len(), 512 * blocks, "{}", trial.case);
        assert_eq!(trial.examine(&volume), Ok((lists as u32, postings.len() as u32)));
        assert_eq!(trial.read(&volume, lists as u32 / 2, postings.len()), Ok(postings));
    }
}

#[test]
fn the_sample_volume() {
    let words = [1, 3, 2, 3, 3, 65_536, 65_542, 65_538, 65_544, 131_076, 65_541, 65_543, 131_081];
    let mut expected = [0; 512];
    for (bytes, word) in expected[4..508].chunks_exact_mut(4).zip(words) {
        bytes.copy_from_slice(&u32::to_le_bytes(word));
    }
    expected[508..510].copy_from_slice(&64u16.to_le_bytes());
    expected[510..512].copy_from_slice(&30_232u16.to_le_bytes());

    let mut trial = Trial::default();
    let Lists { counts, postings } = sample();
    for room in [512, 513, 1_024, 5_000] {
        assert_eq!(trial.write(&counts, &postings, room).as_deref(), Ok(&expected[..]));
    }
    assert_eq!(trial.examine(&expected), Ok((3, 8)));
    for (list, postings) in [
        (0, &[65_536, 65_542][..]),
        (1, &[65_538, 65_544, 131_076]),
        (2, &[65_541, 65_543, 131_081]),
    ] {
        for room in [postings.len(), postings.len() + 1, 100] {
            assert_eq!(trial.read(&expected, list, room).as_deref(), Ok(postings), "list {list}");
        }
        for room in 0..postings.len() {
            assert_eq!(trial.read(&expected, list, room), Err((16, 0)));
        }
    }
}
