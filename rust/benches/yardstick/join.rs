//! A join of two volumes: both are checked with late reduction, their lists go into one vector, and
//! that is written.

use super::late::{check_volume, ranges, read_u32, write_volume};
use std::ops::Range;

/// A refusal: its number, its place, and the volume whose own it is, 1 or 2, or 0.
pub type Refused = (u32, u32, u32);

/// An accepted volume, and the stream words of each list.
struct Lists<'a> {
    volume: &'a [u8],
    spans: Vec<Range<usize>>,
}

impl Lists<'_> {
    fn new(volume: &[u8], lists: u32) -> Lists<'_> {
        let mut counts = Vec::with_capacity(lists as usize);
        extend(&mut counts, volume, 2..2 + lists as usize, 0);
        let mut start = 2 + lists as usize;
        let span = |count: u32| {
            let span = start..start + count as usize;
            start = span.end;
            span
        };
        Lists { volume, spans: counts.into_iter().map(span).collect() }
    }

    fn doc(&self, index: usize) -> u64 {
        let at = index / 126 * 512 + 4 + index % 126 * 4;
        u64::from(read_u32(&self.volume[at..at + 4]) / 65_536)
    }

    /// The lowest and the highest document: lists rise, so that their ends tell.
    fn docs(&self) -> Option<(u64, u64)> {
        let filled = self.spans.iter().filter(|span| !span.is_empty());
        let lowest = filled.clone().map(|span| self.doc(span.start)).min()?;
        let highest = filled.map(|span| self.doc(span.end - 1)).max()?;
        Some((lowest, highest))
    }
}

/// Appends the stream words of a span, with so much added to each.
fn extend(words: &mut Vec<u32>, volume: &[u8], span: Range<usize>, more: u32) {
    for range in ranges(span.start, span.end) {
        words.extend(volume[range].chunks_exact(4).map(|bytes| read_u32(bytes) + more));
    }
}

/// Writes the joined volume to the front of `out`: its number of blocks.
pub fn join_volumes(
    first: &[u8],
    second: &[u8],
    raise: u32,
    out: &mut [u8],
) -> Result<u32, Refused> {
    let (lists, postings) = check_volume(first).map_err(|(number, at)| (number, at, 1))?;
    let (others, more) = check_volume(second).map_err(|(number, at)| (number, at, 2))?;
    if lists != others {
        return Err((24, 0, 0));
    }
    let (first, second) = (Lists::new(first, lists), Lists::new(second, lists));
    if let Some((lowest, highest)) = second.docs() {
        let raise = u64::from(raise);
        let is_above = first.docs().is_none_or(|(_, before)| before < lowest + raise);
        if highest + raise > 65_535 || !is_above {
            return Err((25, 0, 0));
        }
    }

    let mut counts = Vec::with_capacity(lists as usize);
    let mut joined = Vec::with_capacity((postings + more) as usize);
    for (one, other) in first.spans.iter().zip(&second.spans) {
        counts.push((one.len() + other.len()) as u32);
        extend(&mut joined, first.volume, one.clone(), 0);
        extend(&mut joined, second.volume, other.clone(), raise << 16);
    }
    write_volume(&counts, &joined, out).map_err(|(number, at)| (number, at, 0))
}
