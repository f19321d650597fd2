//! A plain reader and writer of volumes, straight from document 01 ("Volume", "Calls" and "Who can
//! cause which refusal"). It shares nothing with the library or its wrappers: a remainder for each
//! byte, a look at the whole input for each refusal, sums in 64 bits. `plan` reads plans, `search`
//! lists documents, `join` joins two volumes, `text` reads lists and plans as text, `line` reads
//! and writes typed lines.

#![allow(dead_code)]

pub mod join;
pub mod line;
pub mod plan;
pub mod search;
pub mod text;

/// A refusal: its number and its place.
pub type Refused = (u32, u32);

/// A and B after all the bytes, in turn.
pub fn checksum(bytes: &[u8]) -> (u16, u16) {
    let mut a = 1;
    let mut b = 0;
    for &byte in bytes {
        a = (a + u32::from(byte)) % 65_535;
        b = (b + a) % 65_535;
    }
    (a as u16, b as u16)
}

/// Stores the checksum of a block's bytes 0 to 507: A at 508, B at 510.
pub fn seal(block: &mut [u8]) {
    let (a, b) = checksum(&block[..508]);
    block[508..510].copy_from_slice(&a.to_le_bytes());
    block[510..512].copy_from_slice(&b.to_le_bytes());
}

/// The words of all blocks, joined.
pub fn stream(volume: &[u8]) -> Vec<u32> {
    let mut words = Vec::new();
    for block in volume.chunks(512) {
        for word in block[4..508].chunks(4) {
            words.push(u32::from_le_bytes([word[0], word[1], word[2], word[3]]));
        }
    }
    words
}

/// Stores word `index` of the stream. Its block is not sealed anew.
pub fn set_word(volume: &mut [u8], index: usize, word: u32) {
    let at = index / 126 * 512 + 4 + index % 126 * 4;
    volume[at..at + 4].copy_from_slice(&word.to_le_bytes());
}

/// The least number of blocks that holds so many stream words.
pub fn blocks_for(words: u64) -> u64 {
    words / 126 + u64::from(!words.is_multiple_of(126))
}

/// Whether each posting is above the one before it.
pub fn rises(list: &[u32]) -> bool {
    list.windows(2).all(|pair| pair[0] < pair[1])
}

/// Cuts `postings` into lists of the given lengths, and what is left behind them.
pub fn cut<'a>(counts: &[u32], postings: &'a [u32]) -> (Vec<&'a [u32]>, &'a [u32]) {
    let mut lists = Vec::new();
    let mut rest = postings;
    for &count in counts {
        let (list, behind) = rest.split_at(count as usize);
        lists.push(list);
        rest = behind;
    }
    (lists, rest)
}

/// The lists of an accepted volume.
pub fn lists(volume: &[u8]) -> Result<Vec<Vec<u32>>, Refused> {
    let n = volume.len() / 512;
    if volume.is_empty() || !volume.len().is_multiple_of(512) || n > 8_192 {
        return Err((1, 0));
    }
    for (k, block) in volume.chunks(512).enumerate() {
        if block[..4] != (k as u32).to_le_bytes() {
            return Err((2, k as u32));
        }
        let (a, b) = checksum(&block[..508]);
        if block[508..510] != a.to_le_bytes() || block[510..] != b.to_le_bytes() {
            return Err((3, k as u32));
        }
    }
    let words = stream(volume);
    if words[0] != 1 {
        return Err((4, 0));
    }
    let t = words[1] as usize;
    if !(1..=1_024).contains(&t) {
        return Err((5, 0));
    }
    if 2 + t > words.len() {
        return Err((6, 0));
    }
    let counts = &words[2..2 + t];
    let s: u64 = counts.iter().map(|&count| u64::from(count)).sum();
    if blocks_for(2 + t as u64 + s) != n as u64 {
        return Err((6, 0));
    }
    let (lists, rest) = cut(counts, &words[2 + t..]);
    if let Some(list) = lists.iter().position(|list| !rises(list)) {
        return Err((7, list as u32));
    }
    if let Some(index) = rest.iter().position(|&word| word != 0) {
        return Err((8, (words.len() - rest.len() + index) as u32));
    }
    Ok(lists.iter().map(|list| list.to_vec()).collect())
}

/// Checks a volume: T and S.
pub fn check_volume(volume: &[u8]) -> Result<(u32, u32), Refused> {
    let lists = lists(volume)?;
    let s: usize = lists.iter().map(|list| list.len()).sum();
    Ok((lists.len() as u32, s as u32))
}

/// Reads a list to the front of `out`: its count.
pub fn read_list(volume: &[u8], list: u32, out: &mut [u32]) -> Result<u32, Refused> {
    let lists = lists(volume)?;
    if list as usize >= lists.len() {
        return Err((17, 0));
    }
    let list = &lists[list as usize];
    if out.len() < list.len() {
        return Err((16, 0));
    }
    out[..list.len()].copy_from_slice(list);
    Ok(list.len() as u32)
}

/// Writes the volume of the lists to the front of `out`: its number of blocks.
pub fn write_volume(counts: &[u32], postings: &[u32], out: &mut [u8]) -> Result<u32, Refused> {
    if !(1..=1_024).contains(&counts.len()) {
        return Err((5, 0));
    }
    let s: u64 = counts.iter().map(|&count| u64::from(count)).sum();
    if s != postings.len() as u64 {
        return Err((18, 0));
    }
    let (lists, _) = cut(counts, postings);
    if let Some(list) = lists.iter().position(|list| !rises(list)) {
        return Err((7, list as u32));
    }
    let mut words = vec![1, counts.len() as u32];
    words.extend(counts);
    words.extend(postings);
    if words.len() > 1_032_192 {
        return Err((19, 0));
    }
    let n = blocks_for(words.len() as u64) as usize;
    if out.len() < n * 512 {
        return Err((20, 0));
    }
    words.resize(n * 126, 0);
    for k in 0..n {
        out[k * 512..k * 512 + 4].copy_from_slice(&(k as u32).to_le_bytes());
    }
    for (index, &word) in words.iter().enumerate() {
        set_word(out, index, word);
    }
    for k in 0..n {
        seal(&mut out[k * 512..k * 512 + 512]);
    }
    Ok(n as u32)
}
