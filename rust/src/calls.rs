//! The calls of `include/lihambozy.h` on slices, one function for each, for a program that keeps
//! its own buffers. Every call takes any input. One that does not fit is answered by a [`Refusal`],
//! or in [`pattern_rows`] by an empty part, and what was lent for writing then is exactly as it
//! was.
//!
//! A posting is a word here, document * 65,536 + position
//! ([`Posting::word`](crate::Posting::word)), and a plan is the words of its rows
//! ([`Plan::words`](crate::Plan::words)).

use crate::{ffi, JoinRefusal, Match, Refusal, Which, BLOCK_BYTES, BLOCK_WORDS, MAX_WORDS};

/// What [`check_volume`] finds in an accepted volume.
#[derive(Clone, Copy, Debug, PartialEq, Eq)]
pub struct CheckedVolume {
    /// The number of lists (01: T).
    pub lists: u32,
    /// The number of postings of all lists together (01: S).
    pub postings: u32,
}

/// What [`read_list`] has done.
#[derive(Clone, Copy, Debug, PartialEq, Eq)]
pub struct ReadList {
    /// The postings of the list, which are the words written.
    pub count: u32,
}

/// What [`write_volume`] or [`join_volumes`] has done.
#[derive(Clone, Copy, Debug, PartialEq, Eq)]
pub struct WrittenVolume {
    /// The blocks written, of [`BLOCK_BYTES`] each.
    pub blocks: u32,
}

/// What [`check_plan`] finds in an accepted plan.
#[derive(Clone, Copy, Debug, PartialEq, Eq)]
pub struct CheckedPlan {
    /// The number of patterns (01: F).
    pub patterns: u32,
    /// The number of variables of all patterns together (01: V).
    pub vars: u32,
}

impl CheckedPlan {
    /// Words of a row that [`list`] writes (01: 1 + F + 2V): the document, a word for each pattern,
    /// and two for each variable, its position and the start of its title. A buffer that is shorter
    /// is refused.
    ///
    /// ```
    /// let checked = lihambozy::calls::CheckedPlan { patterns: 2, vars: 4 };
    /// assert_eq!(checked.row_width(), 11);
    /// ```
    pub const fn row_width(self) -> usize {
        1 + self.patterns as usize + 2 * self.vars as usize
    }
}

/// What [`list`] has done.
#[derive(Clone, Copy, Debug, PartialEq, Eq)]
pub struct Listing {
    /// The rows written, of [`CheckedPlan::row_width`] words each.
    pub rows: u32,
    /// The sum, over all variables of the plan, of the postings of the variable's list in the
    /// documents from the start up to the one that `next` names, which is not counted, or to the
    /// end.
    pub tally: u32,
    /// Whether a matching document is left.
    pub next: Next,
}

/// Whether a listing has left a matching document unwritten.
#[derive(Clone, Copy, Debug, PartialEq, Eq)]
pub enum Next {
    /// None is left (01: DONE).
    Done,
    /// No further row fits, and this is the least document left (01: MORE). A call that starts at
    /// it goes on with the listing.
    More(u32),
}

/// What [`list_matches`] has done.
#[derive(Clone, Copy, Debug, PartialEq, Eq)]
pub struct ListedMatches {
    /// The tuples written, of as many words each as the pattern has variables.
    pub count: u64,
    /// Where no further tuple fits and one is left, the first of those left (01: MORE). A call that
    /// starts at it goes on. `None` where none is left (01: DONE).
    pub next: Option<Match>,
}

/// What [`line_to_plan`] has done.
#[derive(Clone, Copy, Debug, PartialEq, Eq)]
pub struct ReadLine {
    /// The words written, [`ROW_WORDS`](crate::ROW_WORDS) for each row.
    pub words: u32,
}

/// What [`plan_to_line`] has done.
#[derive(Clone, Copy, Debug, PartialEq, Eq)]
pub struct WrittenLine {
    /// The bytes written.
    pub bytes: u32,
}

/// The bytes of the volume of so many lists with so many postings in all; `None` where that is more
/// than the largest volume holds.
pub fn volume_len(lists: usize, postings: usize) -> Option<usize> {
    let words = lists.checked_add(postings)?.checked_add(2)?;
    (words <= MAX_WORDS).then(|| words.div_ceil(BLOCK_WORDS) * BLOCK_BYTES)
}

/// Checks a volume, every byte of it.
///
/// Refused, the first that applies, with 1 (length), then block by block 2 (number) and 3
/// (checksum), both at the block, then 4 (format version), 5 (number of lists), 6 (number of
/// blocks), 7 (a list does not rise, at the lowest one), 8 (a word behind the lists is not 0, at
/// the lowest stream index).
pub fn check_volume(volume: &[u8]) -> Result<CheckedVolume, Refusal> {
    let answer = ffi::check_volume(volume);
    accepted(answer.refusal, answer.at)?;
    Ok(CheckedVolume { lists: answer.lists, postings: answer.postings })
}

/// Reads a list of a volume to the front of `out`; the words behind it stay as they were.
///
/// Refused with 1 to 8 as by [`check_volume`], then with 17 (no such list), then with 16 (`out` is
/// shorter than the list).
pub fn read_list(volume: &[u8], list: u32, out: &mut [u32]) -> Result<ReadList, Refusal> {
    let answer = ffi::read_list(volume, list, out);
    accepted(answer.refusal, answer.at)?;
    Ok(ReadList { count: answer.count })
}

/// Writes the volume of the given lists to the front of `out`; the bytes behind it stay as they
/// were. `counts` has the number of postings of each list, `postings` the lists back to back;
/// [`volume_len`] tells how long `out` must be.
///
/// Refused, the first that applies, with 5 (number of lists), 18 (the counts do not sum to the
/// number of postings), 7 (a list does not rise, at the lowest one), 19 (too many words for a
/// volume), 20 (`out` is shorter than the volume).
pub fn write_volume(
    counts: &[u32],
    postings: &[u32],
    out: &mut [u8],
) -> Result<WrittenVolume, Refusal> {
    let answer = ffi::write_volume(counts, postings, out);
    accepted(answer.refusal, answer.at)?;
    Ok(WrittenVolume { blocks: answer.blocks })
}

/// Joins two volumes into one, at the front of `out`; the bytes behind it stay as they were. Each
/// list of the result is the first's list, then the second's with `raise` added to each document
/// (02: h). With the lists of one volume and the postings of both, [`volume_len`] tells how long
/// `out` must be.
///
/// The result is a volume as [`write_volume`] writes it. A plan that is accepted over it lists the
/// first's documents, then the second's, raised, each once, and the tallies of both add up.
///
/// Refused with 1 to 8 as by [`check_volume`], the first volume before the second; then, the first
/// that applies, with 24 (the numbers of lists differ), 25 (a raised document is over 65,535, or is
/// not above every document of the first volume, in any list), 19 (too many words for a volume), 20
/// (`out` is shorter than the volume). Where the second volume has no posting, 25 never applies.
///
/// ```
/// use lihambozy::calls::{join_volumes, read_list, write_volume};
/// use lihambozy::{Posting, Which};
///
/// let word = |doc, pos| Posting::new(doc, pos).word();
/// let (mut first, mut second) = ([0; 512], [0; 512]);
/// write_volume(&[1, 2], &[word(0, 0), word(0, 4), word(2, 1)], &mut first)?;
/// write_volume(&[0, 1], &[word(1, 7)], &mut second)?;
///
/// let mut joined = [0; 512];
/// assert_eq!(join_volumes(&first, &second, 2, &mut joined).unwrap().blocks, 1);
/// let mut list = [0; 3];
/// read_list(&joined, 1, &mut list)?;
/// assert_eq!(list, [word(0, 4), word(2, 1), word(3, 7)]);
///
/// let refused = join_volumes(&first, &second, 1, &mut joined).unwrap_err();
/// assert_eq!((refused.refusal.number, refused.volume), (25, None), "document 2 is in both");
/// second[300] ^= 1;
/// let refused = join_volumes(&first, &second, 2, &mut joined).unwrap_err();
/// assert_eq!((refused.refusal.number, refused.volume), (3, Some(Which::Second)));
/// # Ok::<(), lihambozy::Refusal>(())
/// ```
pub fn join_volumes(
    first: &[u8],
    second: &[u8],
    raise: u32,
    out: &mut [u8],
) -> Result<WrittenVolume, JoinRefusal> {
    let answer = ffi::join_volumes(first, second, raise, out);
    let volume = match answer.volume {
        1 => Some(Which::First),
        2 => Some(Which::Second),
        _ => None,
    };
    accepted(answer.refusal, answer.at).map_err(|refusal| JoinRefusal { refusal, volume })?;
    Ok(WrittenVolume { blocks: answer.blocks })
}

/// Checks a plan over a volume, every byte of the volume and every row of the plan.
///
/// Refused with 1 to 8 as by [`check_volume`], then, the first that applies, with 9 (length), then
/// row by row, all at the row, 10 (unknown kind, unused word not 0, `c` out of range, an APART whose
/// least exceeds its most, or an AT LEAST whose `a` is not 1 to `b` or whose `b` is not 2 to 8), 11
/// (list 0, or no list of the volume), 12 (a ninth variable of a pattern, or a ninth pattern) and 13
/// (out of order, fewer answers than the row takes, or no variable of the pattern), then 14 (a
/// pattern open, or not one answer, at the end).
///
/// ```
/// use lihambozy::calls::{check_plan, write_volume};
/// use lihambozy::kind;
///
/// // Two lists, both empty: a plan may name an empty list, and list 0 never.
/// let mut volume = [0; 512];
/// write_volume(&[0, 0], &[], &mut volume)?;
///
/// let mut plan = [kind::VOICE, 1, 0, 0, kind::SPAN, 0, 0, 1, kind::END, 0, 0, 0];
/// let checked = check_plan(&volume, &plan)?;
/// assert_eq!((checked.patterns, checked.vars), (1, 1));
///
/// plan[7] = 0;
/// let refusal = check_plan(&volume, &plan).unwrap_err();
/// assert_eq!((refusal.number, refusal.at), (10, 1));
/// # Ok::<(), lihambozy::Refusal>(())
/// ```
pub fn check_plan(volume: &[u8], plan: &[u32]) -> Result<CheckedPlan, Refusal> {
    let answer = ffi::check_plan(volume, plan);
    accepted(answer.refusal, answer.at)?;
    Ok(CheckedPlan { patterns: answer.patterns, vars: answer.vars })
}

/// The rows of one pattern: the part of `plan` from its first VOICE to its END. Patterns are
/// numbered from 0 in the order in which they open.
///
/// The part is empty where [`check_plan`] refuses, and where the plan has no pattern of that number
/// (01: 17); otherwise it never is.
///
/// ```
/// use lihambozy::calls::{pattern_rows, write_volume};
/// use lihambozy::row::{voice, BOTH, END};
///
/// let mut volume = [0; 512];
/// write_volume(&[0, 0], &[], &mut volume)?;
///
/// let plan = [voice(1), END, voice(1), voice(1), END, BOTH].concat();
/// assert_eq!(pattern_rows(&volume, &plan, 0), &plan[..8]);
/// assert_eq!(pattern_rows(&volume, &plan, 1), &plan[8..20]);
/// assert!(pattern_rows(&volume, &plan, 2).is_empty());
/// assert!(pattern_rows(&volume, &plan[..20], 0).is_empty());
/// # Ok::<(), lihambozy::Refusal>(())
/// ```
pub fn pattern_rows<'a>(volume: &[u8], plan: &'a [u32], pattern: u32) -> &'a [u32] {
    let answer = ffi::pattern_rows(volume, plan, pattern);
    &plan[answer.start as usize..][..answer.len as usize]
}

/// Tests whether positions pass: one for each variable of the pattern, in their order, in the
/// document `doc`. Patterns are numbered from 0 in the order in which they open.
///
/// Refused with 1 to 14 as by [`check_plan`], then with 17 (no pattern of that number, not as many
/// positions as it has variables, or a document or position over 65,535).
///
/// ```
/// use lihambozy::calls::{test_positions, write_volume};
/// use lihambozy::row::{same_title, voice, END};
/// use lihambozy::Posting;
///
/// // A title starts at position 6 of document 1; a word stands on both sides of it.
/// let mut volume = [0; 512];
/// let postings = [(1, 6), (1, 2), (1, 8)].map(|(doc, pos)| Posting::new(doc, pos).word());
/// write_volume(&[1, 2], &postings, &mut volume)?;
///
/// let plan = [voice(1), voice(1), same_title(0, 1), END].concat();
/// assert!(test_positions(&volume, &plan, 0, 1, &[8, 8])?);
/// assert!(!test_positions(&volume, &plan, 0, 1, &[2, 2])?, "before the first title");
/// assert!(!test_positions(&volume, &plan, 0, 1, &[2, 8])?, "one of them before it");
/// assert!(!test_positions(&volume, &plan, 0, 1, &[2, 3])?, "the word is not at 3");
/// assert!(!test_positions(&volume, &plan, 0, 2, &[8, 8])?, "nor in document 2");
///
/// let refusal = test_positions(&volume, &plan, 0, 1, &[8]).unwrap_err();
/// assert_eq!((refusal.number, refusal.at), (17, 0));
/// # Ok::<(), lihambozy::Refusal>(())
/// ```
pub fn test_positions(
    volume: &[u8],
    plan: &[u32],
    pattern: u32,
    doc: u32,
    positions: &[u32],
) -> Result<bool, Refusal> {
    let answer = ffi::test_positions(volume, plan, pattern, doc, positions);
    accepted(answer.refusal, answer.at)?;
    Ok(answer.passes != 0)
}

/// Lists the matching documents from `start` on, rising, as rows at the front of `out`; the words
/// behind the rows stay as they were.
///
/// A row has [`CheckedPlan::row_width`] words, 120 at most: the document, then for each pattern 1
/// and two words for each variable, or 0 and zeros where it is not found in that document. The two
/// words are the variable's position, one of the pattern's least positions, and the start of its
/// title: the greatest start of the document, in list 0, that is not above the position, or
/// [`NO_START`](crate::NO_START) where there is none.
///
/// As many rows are written as there are or as fit whole. Calls that start at 0 and then at each
/// [`Next::More`] until [`Next::Done`] give every matching document once, and their tallies sum to
/// the counts of the variables' lists.
///
/// Refused with 1 to 14 as by [`check_plan`], then with 15 (`start` is over 65,535), then with 16
/// (`out` is shorter than one row).
///
/// ```
/// use lihambozy::calls::{list, write_volume, Listing, Next};
/// use lihambozy::row::{voice, END};
/// use lihambozy::{Posting, NO_START};
///
/// // Titles start at 0 and 6 of document 1. The word is at 2 and 8 of it, and at 4 of document 2.
/// let mut volume = [0; 512];
/// let postings = [(1, 0), (1, 6), (1, 2), (1, 8), (2, 4)];
/// let postings = postings.map(|(doc, pos)| Posting::new(doc, pos).word());
/// write_volume(&[2, 3], &postings, &mut volume)?;
///
/// // One variable: a row is the document, 1, the variable's least position and its title's start.
/// let plan = [voice(1), END].concat();
/// let mut out = [7; 6];
/// let first = list(&volume, &plan, 0, &mut out)?;
/// assert_eq!(first, Listing { rows: 1, tally: 2, next: Next::More(2) });
/// assert_eq!(out, [1, 1, 2, 0, 7, 7]);
///
/// let second = list(&volume, &plan, 2, &mut out)?;
/// assert_eq!(second, Listing { rows: 1, tally: 1, next: Next::Done });
/// assert_eq!(out, [2, 1, 4, NO_START, 7, 7]);
///
/// let refusal = list(&volume, &plan, 0, &mut out[..3]).unwrap_err();
/// assert_eq!((refusal.number, refusal.at), (16, 0));
/// # Ok::<(), lihambozy::Refusal>(())
/// ```
pub fn list(volume: &[u8], plan: &[u32], start: u32, out: &mut [u32]) -> Result<Listing, Refusal> {
    let answer = ffi::list(volume, plan, start, out);
    accepted(answer.refusal, answer.at)?;
    let next = match answer.next {
        ffi::DONE => Next::Done,
        doc => Next::More(doc),
    };
    Ok(Listing { rows: answer.rows, tally: answer.tally, next })
}

/// Lists the tuples of positions that pass, for one pattern in the document `doc`, from the tuple
/// `from` on, at the front of `out`; the words behind the tuples stay as they were. Patterns are
/// numbered from 0 in the order in which they open.
///
/// A tuple is a position for each variable of the pattern, in their order. Tuples are in order by
/// their first position, those that agree in it by their second, and so on. `from` is such a tuple
/// too. It is written itself where it passes, but it need not pass, nor do its positions have to be
/// in the lists. As many tuples are written as there are or as fit whole. Calls that start at zeros
/// and then at each [`ListedMatches::next`] until there is none give every tuple that passes once.
/// The first of them is the pattern's least positions, which [`list`] shows where the document
/// matches. Tuples have no starts of titles.
///
/// Refused with 1 to 14 as by [`check_plan`], then with 17 (no pattern of that number, `from` has
/// not as many positions as the pattern has variables, or a document or position is over 65,535),
/// then with 16 (`out` is shorter than one tuple).
///
/// ```
/// use lihambozy::calls::{list_matches, write_volume};
/// use lihambozy::row::{before, voice, END};
/// use lihambozy::Posting;
///
/// let mut volume = [0; 512];
/// let word = [(1, 2), (1, 8), (1, 9)].map(|(doc, pos)| Posting::new(doc, pos).word());
/// write_volume(&[0, 3], &word, &mut volume)?;
///
/// // The word, and the word again behind it.
/// let plan = [voice(1), voice(1), before(0, 1), END].concat();
/// let mut out = [7; 5];
/// let first = list_matches(&volume, &plan, 0, 1, &[0, 0], &mut out)?;
/// assert_eq!(first.count, 2);
/// assert_eq!(out, [2, 8, 2, 9, 7]);
///
/// let from = first.next.expect("one is left");
/// assert_eq!(from[..], [8, 9]);
/// let second = list_matches(&volume, &plan, 0, 1, &from, &mut out)?;
/// assert_eq!((second.count, second.next), (1, None));
/// assert_eq!(out, [8, 9, 2, 9, 7]);
///
/// let refusal = list_matches(&volume, &plan, 0, 1, &[0], &mut out).unwrap_err();
/// assert_eq!((refusal.number, refusal.at), (17, 0));
/// let refusal = list_matches(&volume, &plan, 0, 1, &[0, 0], &mut out[..1]).unwrap_err();
/// assert_eq!((refusal.number, refusal.at), (16, 0));
/// # Ok::<(), lihambozy::Refusal>(())
/// ```
pub fn list_matches(
    volume: &[u8],
    plan: &[u32],
    pattern: u32,
    doc: u32,
    from: &[u32],
    out: &mut [u32],
) -> Result<ListedMatches, Refusal> {
    let answer = ffi::list_matches(volume, plan, pattern, doc, from, out);
    accepted(answer.refusal, answer.at)?;
    // `from` is accepted, so that it has a position for each variable.
    let next = (answer.more != 0).then(|| Match::new(&answer.next[..from.len()]));
    Ok(ListedMatches { count: answer.count, next })
}

/// Reads a typed line as the rows of a plan, to the front of `out`; the words behind them stay as
/// they were. 256 words hold the rows of every line that is read. The grammar is told at
/// [`Plan::from_line`](crate::Plan::from_line).
///
/// No volume is asked: whether the rows are accepted over one is told by [`check_plan`]. Where they
/// are, the documents that match are those of the line read on its own, without rows.
///
/// Refused, the first that applies, with 21 (over 2,048 bytes, at 2,048), then with the one of 21
/// and 22 that is at the lower byte, 21 where both are at one: 21 at the first byte that no line of
/// the grammar could have there, or at the end, and 22 at a round bracket or `<` that is opened
/// inside eight open ones; then with 23 (over 64 rows), then with 16 (`out` is shorter than the
/// rows).
///
/// ```
/// use lihambozy::calls::line_to_plan;
/// use lihambozy::row::{before, voice, BOTH, EITHER, END};
///
/// let mut out = [7; 40];
/// let read = line_to_plan(b"[1 2;b 0 1]|([3]&[4])", &mut out)?;
/// assert_eq!(read.words, 40);
/// let first = [voice(1), voice(2), before(0, 1), END];
/// let second = [voice(3), END, voice(4), END, BOTH];
/// assert_eq!(out[..], [&first[..], &second, &[EITHER]].concat().concat());
///
/// let refusal = line_to_plan(b"[1;n 0 1]", &mut out).unwrap_err();
/// assert_eq!((refusal.number, refusal.at), (21, 8), "a third number is wanted");
/// let refusal = line_to_plan(b"[1]|[2]", &mut out[..19]).unwrap_err();
/// assert_eq!((refusal.number, refusal.at), (16, 0));
/// # Ok::<(), lihambozy::Refusal>(())
/// ```
pub fn line_to_plan(line: &[u8], out: &mut [u32]) -> Result<ReadLine, Refusal> {
    let answer = ffi::line_to_plan(line, out);
    accepted(answer.refusal, answer.at)?;
    Ok(ReadLine { words: answer.words })
}

/// Writes a plan as a line, to the front of `out`; the bytes behind it stay as they were.
/// [`MAX_LINE_BYTES`](crate::MAX_LINE_BYTES) hold the line of every plan. The line has no round
/// bracket that could be dropped, and [`line_to_plan`] reads the plan's rows from it again.
///
/// Refused with 1 to 14 as by [`check_plan`], then with 16 (`out` is shorter than the line).
///
/// ```
/// use lihambozy::calls::{plan_to_line, write_volume};
/// use lihambozy::row::{voice, BOTH, EITHER, END};
/// use lihambozy::MAX_LINE_BYTES;
///
/// let mut volume = [0; 512];
/// write_volume(&[0, 0, 0], &[], &mut volume)?;
///
/// let plan = [voice(1), END, voice(2), END, EITHER, voice(2), voice(1), END, BOTH].concat();
/// let mut out = [0; MAX_LINE_BYTES];
/// let written = plan_to_line(&volume, &plan, &mut out)?;
/// assert_eq!(out[..written.bytes as usize], *b"([1]|[2])&[2 1]");
///
/// let refusal = plan_to_line(&volume, &plan, &mut out[..14]).unwrap_err();
/// assert_eq!((refusal.number, refusal.at), (16, 0));
/// let refusal = plan_to_line(&volume, &plan[..32], &mut out).unwrap_err();
/// assert_eq!((refusal.number, refusal.at), (14, 0));
/// # Ok::<(), lihambozy::Refusal>(())
/// ```
pub fn plan_to_line(volume: &[u8], plan: &[u32], out: &mut [u8]) -> Result<WrittenLine, Refusal> {
    let answer = ffi::plan_to_line(volume, plan, out);
    accepted(answer.refusal, answer.at)?;
    Ok(WrittenLine { bytes: answer.bytes })
}

/// Splits the two fields that an answer starts with: number 0 means that the call is answered.
fn accepted(number: u32, at: u32) -> Result<(), Refusal> {
    match number {
        0 => Ok(()),
        _ => Err(Refusal { number, at }),
    }
}

#[cfg(test)]
mod tests {
    use super::*;
    use crate::row::{at_least, voice, PlanRow, EITHER, END};
    use crate::{Posting, MAX_PATTERNS, MAX_ROWS, MAX_VARS};

    /// A buffer of one row is filled, and one that is a word shorter is refused and left as it was:
    /// for as many variables in each of as many patterns as 64 rows hold, joined by EITHER or by AT
    /// LEAST, and for the longest rows of seven patterns joined by EITHER and of eight.
    #[test]
    fn a_row_fits_its_width() {
        let mut volume = [0; BLOCK_BYTES];
        let postings = [(3, 2), (3, 5)].map(|(doc, pos)| Posting::new(doc, pos).word());
        write_volume(&[1, 1], &postings, &mut volume).unwrap();
        let alike = |patterns: usize| (1..=MAX_VARS).map(move |vars| vec![vars; patterns]);
        let mut widest = 0;
        let longest = [vec![8, 8, 8, 8, 8, 8, 3], vec![7, 7, 7, 7, 7, 7, 7, 6]];
        let shapes = (1..=MAX_PATTERNS).flat_map(alike).chain(longest);
        let joined = |vars: Vec<usize>| {
            let count = vars.len();
            let some = (count > 1).then(|| vec![at_least(1, count as u32)]);
            let joins = some.into_iter().chain([vec![EITHER; count - 1]]);
            joins.map(move |joins| (vars.clone(), joins))
        };
        for (vars, joins) in shapes.flat_map(joined) {
            let pattern = |&vars: &usize| [vec![voice(1); vars], vec![END]].concat();
            let mut rows: Vec<PlanRow> = vars.iter().flat_map(pattern).collect();
            rows.extend(joins);
            let plan = rows.concat();
            let Ok(checked) = check_plan(&volume, &plan) else {
                assert!(rows.len() > MAX_ROWS, "{vars:?}");
                continue;
            };
            let width = checked.row_width();
            let found = |&vars: &usize| [vec![1], [5, 2].repeat(vars)].concat();
            let row: Vec<u32> = [3].into_iter().chain(vars.iter().flat_map(found)).collect();
            assert_eq!(width, row.len(), "{vars:?}");
            let mut out = vec![7; width + 1];
            let refusal = list(&volume, &plan, 0, &mut out[..width - 1]).unwrap_err();
            assert_eq!((refusal.number, refusal.at), (16, 0), "{vars:?}");
            assert_eq!(out, vec![7; width + 1], "{vars:?}");
            list(&volume, &plan, 0, &mut out[..width]).unwrap();
            assert_eq!(out, [&row[..], &[7]].concat(), "{vars:?}");
            widest = widest.max(width);
        }
        assert_eq!(widest, 120);
    }

    #[test]
    fn volume_len_is_whole_blocks() {
        for (lists, postings, len) in [
            (1, 0, Some(512)),
            (3, 121, Some(512)),
            (3, 122, Some(1_024)),
            (1_024, 1_031_166, Some(4_194_304)),
            (1_024, 1_031_167, None),
            (usize::MAX, usize::MAX, None),
            (1, usize::MAX - 2, None),
        ] {
            assert_eq!(volume_len(lists, postings), len, "{lists} {postings}");
        }
    }
}
