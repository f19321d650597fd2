//! A check and a writer with late reduction: the sums of a block run on and are reduced once at its
//! end, words go block by block, and a list is walked until it fails to rise.

use std::ops::Range;

/// A refusal: its number and its place.
pub type Refused = (u32, u32);

const BLOCK_BYTES: usize = 512;
const BLOCK_WORDS: usize = 126;
const MAX_BLOCKS: usize = 8_192;
const MAX_LISTS: usize = 1_024;

pub fn read_u32(bytes: &[u8]) -> u32 {
    u32::from_le_bytes(bytes.try_into().unwrap())
}

/// The bytes of the stream words from `start` to `end`, a range for each block that they lie in.
pub fn ranges(start: usize, end: usize) -> impl Iterator<Item = Range<usize>> {
    let mut at = start;
    std::iter::from_fn(move || {
        (at < end).then(|| {
            let next = end.min((at / BLOCK_WORDS + 1) * BLOCK_WORDS);
            let from = at / BLOCK_WORDS * BLOCK_BYTES + 4 + at % BLOCK_WORDS * 4;
            let range = from..from + (next - at) * 4;
            at = next;
            range
        })
    })
}

/// The stream words from `start` to `end`.
pub fn words(volume: &[u8], start: usize, end: usize) -> impl Iterator<Item = u32> + '_ {
    ranges(start, end).flat_map(|range| volume[range].chunks_exact(4).map(read_u32))
}

/// The checksum of a block's first 508 bytes, as it is stored. B stays below 66 million.
fn checksum(block: &[u8]) -> [u8; 4] {
    let (mut a, mut b) = (1u32, 0u32);
    for &byte in &block[..508] {
        a += u32::from(byte);
        b += a;
    }
    (a % 65_535 + (b % 65_535) * 65_536).to_le_bytes()
}

/// Whether the list from stream word `start` to `end` rises strictly.
fn rises(volume: &[u8], start: usize, end: usize) -> bool {
    let mut last = None;
    for range in ranges(start, end) {
        for word in volume[range].chunks_exact(4).map(read_u32) {
            if last.is_some_and(|last| word <= last) {
                return false;
            }
            last = Some(word);
        }
    }
    true
}

/// Checks a volume: T and S.
pub fn check_volume(volume: &[u8]) -> Result<(u32, u32), Refused> {
    let blocks = volume.len() / BLOCK_BYTES;
    if !volume.len().is_multiple_of(BLOCK_BYTES) || !(1..=MAX_BLOCKS).contains(&blocks) {
        return Err((1, 0));
    }
    for (k, block) in volume.chunks_exact(BLOCK_BYTES).enumerate() {
        if read_u32(&block[..4]) != k as u32 {
            return Err((2, k as u32));
        }
        if block[508..] != checksum(block) {
            return Err((3, k as u32));
        }
    }
    let end = blocks * BLOCK_WORDS;
    if read_u32(&volume[4..8]) != 1 {
        return Err((4, 0));
    }
    let lists = read_u32(&volume[8..12]) as usize;
    if !(1..=MAX_LISTS).contains(&lists) {
        return Err((5, 0));
    }
    let mut start = 2 + lists;
    if start > end {
        return Err((6, 0));
    }
    let postings: u64 = words(volume, 2, start).map(u64::from).sum();
    if (start as u64 + postings).div_ceil(BLOCK_WORDS as u64) != blocks as u64 {
        return Err((6, 0));
    }
    for (list, count) in words(volume, 2, start).enumerate() {
        let next = start + count as usize;
        if !rises(volume, start, next) {
            return Err((7, list as u32));
        }
        start = next;
    }
    match words(volume, start, end).position(|word| word != 0) {
        Some(index) => Err((8, (start + index) as u32)),
        None => Ok((lists as u32, postings as u32)),
    }
}

/// Writes the volume of the lists to the front of `out`: its number of blocks.
pub fn write_volume(counts: &[u32], postings: &[u32], out: &mut [u8]) -> Result<u32, Refused> {
    if !(1..=MAX_LISTS).contains(&counts.len()) {
        return Err((5, 0));
    }
    if counts.iter().copied().map(u64::from).sum::<u64>() != postings.len() as u64 {
        return Err((18, 0));
    }
    let mut rest = postings;
    for (list, &count) in counts.iter().enumerate() {
        let (postings, behind) = rest.split_at(count as usize);
        if !postings.windows(2).all(|pair| pair[0] < pair[1]) {
            return Err((7, list as u32));
        }
        rest = behind;
    }
    let used = 2 + counts.len() + postings.len();
    if used > MAX_BLOCKS * BLOCK_WORDS {
        return Err((19, 0));
    }
    let blocks = used.div_ceil(BLOCK_WORDS);
    let Some(volume) = out.get_mut(..blocks * BLOCK_BYTES) else {
        return Err((20, 0));
    };
    let mut start = 0;
    for mut words in [&[1, counts.len() as u32], counts, postings] {
        let end = start + words.len();
        for range in ranges(start, end) {
            let (now, behind) = words.split_at(range.len() / 4);
            for (bytes, word) in volume[range].chunks_exact_mut(4).zip(now) {
                bytes.copy_from_slice(&word.to_le_bytes());
            }
            words = behind;
        }
        start = end;
    }
    for range in ranges(used, blocks * BLOCK_WORDS) {
        volume[range].fill(0);
    }
    for (k, block) in volume.chunks_exact_mut(BLOCK_BYTES).enumerate() {
        block[..4].copy_from_slice(&(k as u32).to_le_bytes());
        let checksum = checksum(block);
        block[508..].copy_from_slice(&checksum);
    }
    Ok(blocks as u32)
}
