//! A plain join of two volumes, straight from request N7 of document 02. It shares nothing with the
//! library or its wrappers: it reads both volumes whole, joins their lists in vectors, with sums in
//! 64 bits, and writes them by the plain writer.

use super::{lists, write_volume};

/// A refusal: its number, its place, and the volume whose own refusal it is, 1 or 2; 0 where it is
/// of neither.
pub type JoinRefused = (u32, u32, u32);

/// The document (01: scene) of a posting.
fn doc(posting: u32) -> u64 {
    u64::from(posting / 65_536)
}

/// The document of a posting with so much added.
fn raised_doc(posting: u32, raise: u32) -> u64 {
    doc(posting) + u64::from(raise)
}

/// 25: a raised document passes 65,535, or is not above all documents of the first volume.
fn do_clash(first: &[Vec<u32>], second: &[Vec<u32>], raise: u32) -> bool {
    let highest = first.iter().flatten().map(|&posting| doc(posting)).max();
    let mut raised = second.iter().flatten().map(|&posting| raised_doc(posting, raise));
    raised.any(|doc| doc > 65_535 || highest.is_some_and(|highest| doc <= highest))
}

/// The joined lists of two volumes: each list of the first, then that of the second with `raise`
/// added to each document.
pub fn joined(first: &[u8], second: &[u8], raise: u32) -> Result<Vec<Vec<u32>>, JoinRefused> {
    let first = lists(first).map_err(|(number, at)| (number, at, 1))?;
    let second = lists(second).map_err(|(number, at)| (number, at, 2))?;
    if first.len() != second.len() {
        return Err((24, 0, 0));
    }
    if do_clash(&first, &second, raise) {
        return Err((25, 0, 0));
    }
    let raised = |&posting: &u32| (raised_doc(posting, raise) * 65_536) as u32 + posting % 65_536;
    let join = |(of_first, of_second): (&Vec<u32>, &Vec<u32>)| {
        of_first.iter().copied().chain(of_second.iter().map(raised)).collect()
    };
    Ok(first.iter().zip(&second).map(join).collect())
}

/// Writes the joined volume to the front of `out`: its number of blocks.
pub fn join_volumes(
    first: &[u8],
    second: &[u8],
    raise: u32,
    out: &mut [u8],
) -> Result<u32, JoinRefused> {
    let lists = joined(first, second, raise)?;
    let counts: Vec<u32> = lists.iter().map(|list| list.len() as u32).collect();
    write_volume(&counts, &lists.concat(), out).map_err(|(number, at)| {
        assert!([19, 20].contains(&number), "joined lists make a volume, but {number}");
        (number, at, 0)
    })
}
