//! Searches: listing calls, one after the other, until none is left to make.

use crate::calls::{self, Listing, Next};
use crate::{kind, Plan, Positions, Refusal, Volume};
use std::fmt;
use std::iter::FusedIterator;
use std::sync::Arc;

/// A search for the documents that match a plan: an iterator over their rows, rising, each once.
/// [`Volume::search`] starts one.
///
/// It pages by itself: a listing call fills a buffer with rows, and when they are used up the next
/// call goes on from the document that the last one named. That the rows of all calls together are
/// exactly those of all matching documents, whatever the buffer, is proved of the library
/// (`Demand3` in `crates/search/specs/Demands.antt`).
///
/// ```
/// use lihambozy::row::{voice, END};
/// use lihambozy::{Plan, Position, Posting, Volume};
///
/// let word = [(1, 2), (1, 8), (2, 4)].map(|(doc, pos)| Posting::new(doc, pos));
/// let volume = Volume::of_lists(&[&[Posting::new(1, 1)], &word[..]])?;
/// let plan = Plan::new([voice(1), END]);
///
/// let mut search = volume.search(&plan)?.page_rows(1);
/// let row = search.next().unwrap();
/// assert_eq!(row.doc(), 1);
/// assert_eq!(row.pattern(0).unwrap(), [Position { pos: 2, title_start: Some(1) }]);
/// assert_eq!((search.reached(), search.tally()), (2, 2));
///
/// let row = search.next().unwrap();
/// assert_eq!(row.to_string(), "scene 2 1 4 65536", "no title starts in document 2");
/// assert!(search.next().is_none());
/// assert_eq!(search.tally(), 3, "all postings of the list");
/// # Ok::<(), lihambozy::Refusal>(())
/// ```
#[derive(Clone, Debug)]
pub struct Search<'a> {
    volume: &'a Volume<'a>,
    plan: &'a Plan,
    /// Where the words of each pattern end in a row.
    ends: Arc<[usize]>,
    /// The words of a row.
    width: usize,
    /// The buffer that is lent to the listing calls.
    page: Vec<u32>,
    /// The words of `page` that are rows, and of these the words handed out.
    written: usize,
    taken: usize,
    next: Next,
    tally: u64,
}

impl<'a> Search<'a> {
    /// The rows for which a listing call has room where [`Search::page_rows`] does not say
    /// otherwise: a quarter of all documents, so that four calls are enough for any search.
    pub const PAGE_ROWS: usize = 16_384;

    pub(crate) fn new(volume: &'a Volume<'a>, plan: &'a Plan) -> Result<Search<'a>, Refusal> {
        let checked = volume.check(plan)?;
        let mut end = 1;
        let mut ends = Vec::new();
        for row in plan.rows() {
            match row[0] {
                kind::VOICE => end += 2,
                kind::END => {
                    end += 1;
                    ends.push(end);
                }
                _ => {}
            }
        }
        Ok(Search {
            volume,
            plan,
            ends: ends.into(),
            width: checked.row_width(),
            page: vec![0; Search::PAGE_ROWS * checked.row_width()],
            written: 0,
            taken: 0,
            next: Next::More(0),
            tally: 0,
        })
    }

    /// The same search with room for so many rows in each listing call that is still to be made, at
    /// least one, and at most as many as there are documents. Each call checks the whole volume
    /// first, so that short pages cost time; the rows do not depend on it.
    pub fn page_rows(mut self, rows: usize) -> Search<'a> {
        let left = self.page[self.taken..self.written].to_vec();
        let words = (rows.clamp(1, 65_536) * self.width).max(left.len());
        self.page.resize(words, 0);
        self.page[..left.len()].copy_from_slice(&left);
        self.taken = 0;
        self.written = left.len();
        self
    }

    /// The document from which the next listing call is to start (01: scene reached), or 65,536
    /// where none is left to make. The rows of all documents below it have been listed, though some
    /// may not have been handed out.
    pub fn reached(&self) -> u32 {
        match self.next {
            Next::More(doc) => doc,
            Next::Done => 65_536,
        }
    }

    /// The sum of the tallies of the listing calls made: over all variables of the plan, the
    /// postings of the variable's list in documents below [`Search::reached`].
    pub fn tally(&self) -> u64 {
        self.tally
    }

    /// Makes listing calls until there are rows or none is left to make.
    fn turn(&mut self) {
        while let (true, Next::More(start)) = (self.taken == self.written, self.next) {
            // A call of a search is refused only for a buffer that is shorter than one row.
            let Listing { rows, tally, next } =
                calls::list(self.volume.as_bytes(), self.plan.words(), start, &mut self.page)
                    .expect("volume and plan are accepted, and a row fits");
            self.taken = 0;
            self.written = rows as usize * self.width;
            self.tally += u64::from(tally);
            self.next = next;
        }
    }
}

impl Iterator for Search<'_> {
    type Item = Row;

    fn next(&mut self) -> Option<Row> {
        self.turn();
        let words = self.page[self.taken..self.written].get(..self.width)?;
        self.taken += self.width;
        Some(Row { words: words.into(), ends: self.ends.clone() })
    }

    fn size_hint(&self) -> (usize, Option<usize>) {
        let ready = (self.written - self.taken) / self.width;
        let most = match self.next {
            Next::Done => 0,
            // From that document on there are at most so many.
            Next::More(doc) => 65_536 - doc as usize,
        };
        (ready, Some(ready + most))
    }
}

impl FusedIterator for Search<'_> {}

/// A row of a listing: a document that matches and, for each pattern, its least positions there
/// (01: earliest places), each with the start of its title. It is shown as document 01 prints it,
/// `scene` and its words.
///
/// ```
/// use lihambozy::{text, Plan, Volume};
///
/// let volume = Volume::of_lists(&text::lists("1:0 1:6\n1:2 1:8\n1:7\n2:0\n")?)?;
/// let plan = Plan::from_line("[1 2;n 0 1 0]|[3]")?;
/// let row = volume.search(&plan)?.next().expect("document 1 matches");
/// assert_eq!(row.to_string(), "scene 1 1 8 6 7 6 0 0 0");
///
/// let found = row.pattern(0).expect("the first pattern is found");
/// assert_eq!(found.iter().map(|var| var.pos).collect::<Vec<_>>(), [8, 7]);
/// assert!(found.iter().all(|var| var.title_start == Some(6)));
/// assert!(row.pattern(1).is_none());
/// # Ok::<(), Box<dyn std::error::Error>>(())
/// ```
#[derive(Clone, Debug, PartialEq, Eq)]
pub struct Row {
    words: Box<[u32]>,
    ends: Arc<[usize]>,
}

impl Row {
    /// The document.
    pub fn doc(&self) -> u32 {
        self.words[0]
    }

    /// The least positions of a pattern, one for each of its variables, each with the start of its
    /// title, or `None` where the pattern is not found in this document.
    ///
    /// # Panics
    ///
    /// Where the plan has no pattern of that number.
    pub fn pattern(&self, pattern: usize) -> Option<Positions<'_>> {
        let start = if pattern == 0 { 1 } else { self.ends[pattern - 1] };
        let words = &self.words[start..self.ends[pattern]];
        (words[0] == 1).then(|| Positions::of_words(&words[1..]))
    }

    /// The least positions of each pattern in turn, or `None` where it is not found.
    pub fn patterns(
        &self,
    ) -> impl ExactSizeIterator<Item = Option<Positions<'_>>> + DoubleEndedIterator {
        (0..self.ends.len()).map(|pattern| self.pattern(pattern))
    }

    /// The words of the row: the document, then for each pattern 1 and two words for each variable,
    /// its position and the start of its title or [`NO_START`](crate::NO_START), or 0 and zeros.
    pub fn words(&self) -> &[u32] {
        &self.words
    }
}

impl fmt::Display for Row {
    fn fmt(&self, f: &mut fmt::Formatter<'_>) -> fmt::Result {
        f.write_str("scene")?;
        self.words.iter().try_for_each(|word| write!(f, " {word}"))
    }
}

#[cfg(test)]
mod tests {
    use super::*;
    use crate::row::{at_least, voice, EITHER, END};
    use crate::{Position, Posting};
    use std::panic;

    /// A word at position 0 of the documents 0, 3, 6 and on, so many in all, and another at
    /// positions 0 and 1 of each second of them, where a title starts at 0 too.
    fn volume(docs: u16) -> Volume<'static> {
        let word: Vec<Posting> = (0..docs).map(|i| Posting::new(3 * i, 0)).collect();
        let starts: Vec<Posting> = word.iter().copied().step_by(2).collect();
        let other = starts.iter().flat_map(|at| [0, 1].map(|pos| Posting::new(at.doc(), pos)));
        Volume::of_lists(&[&starts, &word, &other.collect()]).unwrap()
    }

    /// The word, or the other and the word.
    fn plan() -> Plan {
        Plan::new([voice(1), END, voice(2), voice(1), END, EITHER])
    }

    fn words(rows: impl Iterator<Item = Row>) -> Vec<Vec<u32>> {
        rows.map(|row| row.words().to_vec()).collect()
    }

    /// Pages of another length in the middle of a search change neither its rows nor its tally.
    #[test]
    fn pages_change_no_row() {
        let (volume, plan) = (volume(50), plan());
        let all = words(volume.search(&plan).unwrap());
        assert_eq!(all.len(), 50);
        assert_eq!(all[0], [0, 1, 0, 0, 1, 0, 0, 0, 0]);
        assert_eq!(all[49], [147, 1, 0, 65_536, 0, 0, 0, 0, 0]);
        for first in [0, 1, 2, 7, 49, 50, 51] {
            for then in [0, 1, 3, 8, 1 << 62, usize::MAX] {
                for taken in [0, 1, 6, 7, 8, 30, 49, 50] {
                    let mut search = volume.search(&plan).unwrap().page_rows(first);
                    let mut rows = words(search.by_ref().take(taken));
                    let mut search = search.page_rows(then);
                    rows.extend(words(search.by_ref()));
                    let case = format!("pages of {first}, after {taken} rows pages of {then}");
                    assert_eq!(rows, all, "{case}");
                    assert_eq!((search.tally(), search.reached()), (150, 65_536), "{case}");
                    assert!(search.next().is_none(), "{case}");
                }
            }
        }
    }

    /// The rows left are between the two bounds, and known when no call is left to make.
    #[test]
    fn hints_hold_at_each_step() {
        let (volume, plan) = (volume(7), plan());
        for page in [1, 2, 3, 6, 7, 8, 1_024] {
            let mut search = volume.search(&plan).unwrap().page_rows(page);
            for left in (0..=7).rev() {
                let (least, most) = search.size_hint();
                let case = format!("pages of {page}, {left} left: {least} {most:?}");
                assert!(least <= left && most.is_some_and(|most| left <= most), "{case}");
                let is_done = search.reached() == 65_536;
                assert!(!is_done || (least, most) == (left, Some(left)), "{case}");
                assert_eq!(search.next().is_some(), left > 0, "{case}");
            }
            assert_eq!(search.size_hint(), (0, Some(0)));
        }

        // Document 6 is the one that the first call names.
        let mut search = volume.search(&plan).unwrap().page_rows(2);
        let mut hints = vec![];
        for _ in 0..4 {
            hints.push(search.size_hint());
            search.next();
        }
        let hint = |ready: usize, from: usize| (ready, Some(ready + 65_536 - from));
        assert_eq!(hints, [hint(0, 0), hint(1, 6), hint(0, 6), hint(1, 12)]);
    }

    /// Positions and starts that are 0 are not those of a pattern that is not found, nor is a start
    /// of 0 none.
    #[test]
    fn patterns_of_a_row() {
        let (volume, plan) = (volume(2), plan());
        let rows: Vec<Row> = volume.search(&plan).unwrap().collect();
        let [in_title, in_none] =
            [Some(0), None].map(|title_start| Position { pos: 0, title_start });
        let of = |row: &Row| -> Vec<Option<Vec<Position>>> {
            row.patterns().map(|pattern| pattern.map(|found| found.iter().collect())).collect()
        };
        let first = vec![Some(vec![in_title]), Some(vec![in_title; 2])];
        assert_eq!((rows[0].doc(), of(&rows[0])), (0, first));
        assert_eq!((rows[1].doc(), of(&rows[1])), (3, vec![Some(vec![in_none]), None]));
        assert_eq!(rows[0].pattern(1).unwrap(), [in_title; 2]);
        assert_eq!(rows[1].pattern(0).unwrap(), [in_none]);
        assert_eq!(rows[1].pattern(1), None);
        for pattern in [2, 3, usize::MAX] {
            let asked = panic::catch_unwind(|| rows[1].pattern(pattern).is_some());
            assert!(asked.is_err(), "pattern {pattern}");
        }
        let mut patterns = rows[1].patterns();
        assert_eq!((patterns.len(), patterns.next_back()), (2, Some(None)));
        assert_eq!((patterns.len(), patterns.next_back()), (1, Some(rows[1].pattern(0))));
        assert_eq!((patterns.len(), patterns.next(), patterns.next_back()), (0, None, None));
    }

    /// The patterns of a row are all its words but the document: for each number of variables in
    /// each of three patterns, and for the plans of seven and of eight with the longest rows.
    #[test]
    fn patterns_are_the_words_of_a_row() {
        let volume = volume(2);
        let shapes = (0..512).map(|i| vec![1 + i / 64, 1 + i / 8 % 8, 1 + i % 8]);
        for vars in shapes.chain([vec![8; 7], vec![7, 7, 7, 7, 7, 7, 7, 6]]) {
            let list = |pattern: usize| 1 + pattern as u32 % 2;
            let voices = vars.iter().enumerate().map(|(k, &vars)| vec![voice(list(k)); vars]);
            let mut rows = voices.map(|voices| [&voices[..], &[END]].concat()).collect::<Vec<_>>();
            rows.push(vec![at_least(1, vars.len() as u32)]);
            let plan = Plan::new(rows.concat());
            for row in volume.search(&plan).unwrap() {
                let mut words = vec![row.doc()];
                for (pattern, &vars) in row.patterns().zip(&vars) {
                    words.push(pattern.is_some().into());
                    match pattern {
                        Some(found) => {
                            assert_eq!(found.iter().len(), vars);
                            for Position { pos, title_start } in found {
                                words.extend([pos, title_start.unwrap_or(65_536)]);
                            }
                        }
                        None => words.extend(vec![0; 2 * vars]),
                    }
                }
                assert_eq!(words, row.words(), "{vars:?}");
                assert_eq!(row.patterns().len(), vars.len());
            }
        }
    }

    /// Rows are shown as `scene` and their words.
    #[test]
    fn rows_as_text() {
        let (volume, plan) = (volume(2), plan());
        let rows: Vec<String> = volume.search(&plan).unwrap().map(|row| row.to_string()).collect();
        assert_eq!(rows, ["scene 0 1 0 0 1 0 0 0 0", "scene 3 1 0 65536 0 0 0 0 0"]);
    }
}
