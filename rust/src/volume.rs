//! Volumes that are accepted.

use crate::calls::{self, CheckedPlan, CheckedVolume};
use crate::row::PlanRow;
use crate::{Matches, Plan, Posting, Refusal, Search};
use std::borrow::Cow;
use std::fmt;
use std::ops::RangeInclusive;

/// A volume that is accepted: its bytes, which are lent or owned, and which nobody can change while
/// it is there.
///
/// ```
/// use lihambozy::{Posting, Volume};
///
/// let starts = vec![Posting::new(1, 0), Posting::new(1, 6)];
/// let word = vec![Posting::new(1, 2), Posting::new(1, 8), Posting::new(2, 4)];
/// let written = Volume::of_lists(&[starts, word.clone()])?;
///
/// let volume = Volume::new(written.as_bytes())?;
/// assert_eq!((volume.list_count(), volume.posting_count()), (2, 5));
/// assert_eq!(volume.list(1)?, word);
/// assert_eq!(volume.list(2).unwrap_err().number, 17);
///
/// let mut damaged = written.into_bytes();
/// damaged[300] ^= 1;
/// let refusal = Volume::new(damaged).unwrap_err();
/// assert_eq!((refusal.number, refusal.at), (3, 0));
/// # Ok::<(), lihambozy::Refusal>(())
/// ```
#[derive(Clone, PartialEq, Eq)]
pub struct Volume<'a> {
    bytes: Cow<'a, [u8]>,
    checked: CheckedVolume,
}

impl<'a> Volume<'a> {
    /// The volume that these bytes are, `Vec<u8>` or `&[u8]`. Every byte is checked.
    ///
    /// Refused with 1 to 8, as [`calls::check_volume`] tells.
    pub fn new(bytes: impl Into<Cow<'a, [u8]>>) -> Result<Volume<'a>, Refusal> {
        let bytes = bytes.into();
        let checked = calls::check_volume(&bytes)?;
        Ok(Volume { bytes, checked })
    }

    /// The one volume that reads as these lists, list 0 first.
    ///
    /// Refused with 5 (number of lists), 7 (a list does not rise, at the lowest one) or 19 (too
    /// many postings for a volume).
    ///
    /// ```
    /// use lihambozy::{Posting, Volume};
    ///
    /// let falling = [Posting::new(1, 8), Posting::new(1, 2)];
    /// let refusal = Volume::of_lists(&[&[], &falling[..]]).unwrap_err();
    /// assert_eq!((refusal.number, refusal.at), (7, 1));
    /// ```
    pub fn of_lists<L: AsRef<[Posting]>>(lists: &[L]) -> Result<Volume<'static>, Refusal> {
        let lists = lists.iter().map(AsRef::as_ref);
        // A count over 32 bits fits no volume. Told as the largest of these, it is refused with 18:
        // the counts do not sum to the number of postings.
        let count = |list: &[Posting]| u32::try_from(list.len()).unwrap_or(u32::MAX);
        let counts: Vec<u32> = lists.clone().map(count).collect();
        let postings: Vec<u32> = lists.flatten().map(|posting| posting.word()).collect();
        let len = calls::volume_len(counts.len(), postings.len()).unwrap_or(0);
        let mut bytes = vec![0; len];
        calls::write_volume(&counts, &postings, &mut bytes)?;
        Volume::new(bytes)
    }

    /// One volume of two: each list is this volume's list, then the second's with `raise` added to
    /// each document (02: h).
    ///
    /// Every plan that is accepted over both is accepted over the joined one. A search of it gives
    /// this volume's rows, then the second's with their documents raised, and its tally at the end
    /// is the sum of both.
    ///
    /// Refused with 24 (the numbers of lists differ), 25 (a raised document is over 65,535, or is
    /// not above every document of this volume) or 19 (too many postings for a volume).
    /// [`Volume::least_raise`] tells the least `raise` that is not refused with 25.
    ///
    /// ```
    /// use lihambozy::{text, Plan, Volume};
    ///
    /// let first = Volume::of_lists(&text::lists("1:0 1:6\n1:2 1:8 2:4\n")?)?;
    /// let second = Volume::of_lists(&text::lists("0:0\n0:3 5:1\n")?)?;
    ///
    /// assert_eq!(first.join(&second, 2).unwrap_err().number, 25);
    /// assert_eq!(first.least_raise(&second), Some(3));
    /// let evening = first.join(&second, 3)?;
    /// let lists: Vec<_> = evening.lists().collect();
    /// assert_eq!(lists, text::lists("1:0 1:6 3:0\n1:2 1:8 2:4 3:3 8:1\n")?);
    ///
    /// let plan = Plan::from_line("[1]")?;
    /// let rows: Vec<String> = evening.search(&plan)?.map(|row| row.to_string()).collect();
    /// assert_eq!(rows[..2], ["scene 1 1 2 0", "scene 2 1 4 65536"]);
    /// assert_eq!(rows[2..], ["scene 3 1 3 0", "scene 8 1 1 65536"]);
    ///
    /// let words = Volume::of_lists(&text::lists("-\n0:3\n0:4\n")?)?;
    /// assert_eq!(first.join(&words, 3).unwrap_err().number, 24);
    /// # Ok::<(), Box<dyn std::error::Error>>(())
    /// ```
    pub fn join(&self, second: &Volume<'_>, raise: u32) -> Result<Volume<'static>, Refusal> {
        let CheckedVolume { lists, postings } = self.checked;
        // Each is below 1,032,192.
        let postings = postings + second.checked.postings;
        let len = calls::volume_len(lists as usize, postings as usize).unwrap_or(0);
        let mut bytes = vec![0; len];
        calls::join_volumes(&self.bytes, &second.bytes, raise, &mut bytes)
            .map_err(|refused| refused.refusal)?;
        // What is joined is accepted, with so many lists and postings.
        Ok(Volume { bytes: bytes.into(), checked: CheckedVolume { lists, postings } })
    }

    /// The least `raise` with which [`Volume::join`] does not refuse the second volume with 25;
    /// `None` where there is none, since the documents of both do not fit below 65,536. Where one
    /// of the volumes has no posting it is 0. Each list of both volumes is read.
    ///
    /// ```
    /// use lihambozy::{Posting, Volume};
    ///
    /// let of = |docs: &[u16]| {
    ///     Volume::of_lists(&[docs.iter().map(|&doc| Posting::new(doc, 0)).collect::<Vec<_>>()])
    /// };
    /// assert_eq!(of(&[4, 9])?.least_raise(&of(&[2, 7])?), Some(8));
    /// assert_eq!(of(&[4, 9])?.least_raise(&of(&[10])?), Some(0));
    /// assert_eq!(of(&[4, 9])?.least_raise(&of(&[])?), Some(0));
    /// assert_eq!(of(&[4, 9])?.least_raise(&of(&[0, 65_526])?), None);
    /// # Ok::<(), lihambozy::Refusal>(())
    /// ```
    pub fn least_raise(&self, second: &Volume<'_>) -> Option<u32> {
        let (Some(own), Some(raised)) = (self.doc_range(), second.doc_range()) else {
            return Some(0);
        };
        let raise = (u32::from(*own.end()) + 1).saturating_sub((*raised.start()).into());
        (u32::from(*raised.end()) + raise <= 65_535).then_some(raise)
    }

    /// The first and the last document that has a posting, in any list; `None` where no list has
    /// one.
    fn doc_range(&self) -> Option<RangeInclusive<u16>> {
        let ends = |list: Vec<Posting>| Some((list.first()?.doc(), list.last()?.doc()));
        let (firsts, lasts): (Vec<u16>, Vec<u16>) = self.lists().filter_map(ends).unzip();
        Some(firsts.into_iter().min()?..=lasts.into_iter().max()?)
    }

    /// The volume's bytes.
    pub fn as_bytes(&self) -> &[u8] {
        &self.bytes
    }

    /// The volume's bytes, copied where they were lent.
    pub fn into_bytes(self) -> Vec<u8> {
        self.bytes.into_owned()
    }

    /// The number of lists (01: T).
    pub fn list_count(&self) -> u32 {
        self.checked.lists
    }

    /// The number of postings of all lists together (01: S).
    pub fn posting_count(&self) -> u32 {
        self.checked.postings
    }

    /// The postings of a list, rising.
    ///
    /// Refused with 17 where the volume has no such list.
    pub fn list(&self, list: u32) -> Result<Vec<Posting>, Refusal> {
        let mut words = vec![0; self.checked.postings as usize];
        self.read(list, &mut words)
    }

    /// All lists, list 0 first.
    pub fn lists(&self) -> impl Iterator<Item = Vec<Posting>> + '_ {
        let mut words = vec![0; self.checked.postings as usize];
        (0..self.checked.lists)
            .map(move |list| self.read(list, &mut words).expect("the volume has the list"))
    }

    /// Reads a list through a buffer that holds all postings.
    fn read(&self, list: u32, words: &mut [u32]) -> Result<Vec<Posting>, Refusal> {
        let count = calls::read_list(&self.bytes, list, words)?.count as usize;
        Ok(words[..count].iter().map(|&word| Posting::from_word(word)).collect())
    }

    /// Checks a plan over this volume.
    ///
    /// Refused with 9 to 14, as [`calls::check_plan`] tells.
    pub fn check(&self, plan: &Plan) -> Result<CheckedPlan, Refusal> {
        calls::check_plan(&self.bytes, plan.words())
    }

    /// The rows of one pattern of a plan, from its first VOICE to its END.
    ///
    /// Refused with 9 to 14 as by [`Volume::check`], then with 17 where the plan has no pattern of
    /// that number.
    ///
    /// ```
    /// use lihambozy::row::{voice, BOTH, END};
    /// use lihambozy::{Plan, Volume};
    ///
    /// let volume = Volume::of_lists(&[[], []])?;
    /// let plan = Plan::new([voice(1), END, voice(1), voice(1), END, BOTH]);
    /// assert_eq!(volume.pattern_rows(&plan, 1)?, &plan.rows()[2..5]);
    /// assert_eq!(volume.pattern_rows(&plan, 2).unwrap_err().number, 17);
    /// # Ok::<(), lihambozy::Refusal>(())
    /// ```
    pub fn pattern_rows<'p>(&self, plan: &'p Plan, pattern: u32) -> Result<&'p [PlanRow], Refusal> {
        self.check(plan)?;
        match calls::pattern_rows(&self.bytes, plan.words(), pattern).as_chunks().0 {
            [] => Err(Refusal::NO_SUCH),
            rows => Ok(rows),
        }
    }

    /// Whether positions pass: one for each variable of the pattern, in their order, in the
    /// document `doc`.
    ///
    /// Refused with 9 to 14 as by [`Volume::check`], then with 17 (no pattern of that number, not
    /// as many positions as it has variables, or a document or position over 65,535).
    pub fn test(
        &self,
        plan: &Plan,
        pattern: u32,
        doc: u32,
        positions: &[u32],
    ) -> Result<bool, Refusal> {
        calls::test_positions(&self.bytes, plan.words(), pattern, doc, positions)
    }

    /// Searches for the documents that match a plan, from document 0 to the last.
    ///
    /// Refused with 9 to 14 as by [`Volume::check`].
    pub fn search<'s>(&'s self, plan: &'s Plan) -> Result<Search<'s>, Refusal> {
        Search::new(self, plan)
    }

    /// All tuples of positions that pass for one pattern of a plan in the document `doc`, in order.
    ///
    /// Refused with 9 to 14 as by [`Volume::check`], then with 17 (no pattern of that number, or a
    /// document over 65,535).
    ///
    /// ```
    /// use lihambozy::{text, Plan, Volume};
    ///
    /// let lists = text::lists("1:0 1:6\n1:2 1:8 2:4\n1:5 1:7 2:9\n")?;
    /// let volume = Volume::of_lists(&lists)?;
    /// let plan: Plan = "VOICE 1\nVOICE 2\nNEAR 0 1 2\nEND".parse()?;
    ///
    /// let mut matches = volume.matches(&plan, 0, 1)?;
    /// assert_eq!(matches.next().unwrap(), [2, 5]);
    /// assert_eq!(matches.collect::<Vec<_>>(), [[8, 5], [8, 7]]);
    /// assert_eq!(volume.matches(&plan, 0, 2)?.count(), 0);
    /// assert_eq!(volume.matches(&plan, 1, 1).unwrap_err().number, 17);
    /// # Ok::<(), Box<dyn std::error::Error>>(())
    /// ```
    pub fn matches<'s>(
        &'s self,
        plan: &'s Plan,
        pattern: u32,
        doc: u32,
    ) -> Result<Matches<'s>, Refusal> {
        Matches::from_zeros(self, plan, pattern, doc)
    }

    /// The tuples that [`Volume::matches`] gives, without those that come before the tuple `from`.
    /// It need not pass, nor do its positions have to be in the lists.
    ///
    /// Refused with 9 to 14 as by [`Volume::check`], then with 17 (no pattern of that number, not
    /// as many positions as it has variables, or a document or position over 65,535).
    ///
    /// ```
    /// use lihambozy::{text, Plan, Volume};
    ///
    /// let lists = text::lists("-\n1:2 1:8\n1:5 1:7\n")?;
    /// let volume = Volume::of_lists(&lists)?;
    /// let plan: Plan = "VOICE 1\nVOICE 2\nEND".parse()?;
    ///
    /// let from = |from| volume.matches_from(&plan, 0, 1, from);
    /// assert_eq!(from(&[2, 7])?.collect::<Vec<_>>(), [[2, 7], [8, 5], [8, 7]]);
    /// assert_eq!(from(&[2, 8])?.collect::<Vec<_>>(), [[8, 5], [8, 7]]);
    /// assert_eq!(from(&[2]).unwrap_err().number, 17);
    /// # Ok::<(), Box<dyn std::error::Error>>(())
    /// ```
    pub fn matches_from<'s>(
        &'s self,
        plan: &'s Plan,
        pattern: u32,
        doc: u32,
        from: &[u32],
    ) -> Result<Matches<'s>, Refusal> {
        Matches::new(self, plan, pattern, doc, from)
    }
}

impl fmt::Debug for Volume<'_> {
    fn fmt(&self, f: &mut fmt::Formatter<'_>) -> fmt::Result {
        let CheckedVolume { lists, postings } = self.checked;
        f.debug_struct("Volume").field("lists", &lists).field("postings", &postings).finish()
    }
}

#[cfg(test)]
mod tests {
    use super::*;

    /// A volume of two lists, the documents of each at position 0.
    fn of(docs: [&[u16]; 2]) -> Volume<'static> {
        let list = |docs: &[u16]| docs.iter().map(|&doc| Posting::new(doc, 0)).collect::<Vec<_>>();
        Volume::of_lists(&docs.map(list)).unwrap()
    }

    /// With each `raise` from the least to the largest that fits, two volumes are joined; with any
    /// other they are refused with 25. What is joined is accepted, with the counts that it tells.
    #[test]
    fn the_least_raise_is_the_least_that_joins() {
        let volumes = [
            of([&[], &[]]),
            of([&[0], &[]]),
            of([&[], &[0]]),
            of([&[7, 9], &[3, 8]]),
            of([&[20], &[10, 30]]),
            of([&[0], &[65_535]]),
            of([&[65_535], &[]]),
            of([&[32_768], &[40_000]]),
            of([&[40_000], &[0, 25_534]]),
            of([&[40_000], &[0, 25_535]]),
        ];
        let pairs = volumes.iter().flat_map(|one| volumes.iter().map(move |two| (one, two)));
        let mut fit = 0;
        for (first, second) in pairs {
            let (own, raised) = (first.doc_range(), second.doc_range());
            let least = first.least_raise(second);
            let most = raised.clone().map_or(u32::MAX, |docs| 65_535 - u32::from(*docs.end()));
            let near = |raise: u32| [raise.saturating_sub(1), raise, raise.saturating_add(1)];
            let raises = [0, 65_535, 65_536, u32::MAX, most, least.unwrap_or(0)].map(near);
            for raise in raises.concat() {
                let told = format!("{own:?}, {raised:?}, raise {raise}");
                let does = least.is_some_and(|least| least <= raise) && raise <= most;
                match first.join(second, raise) {
                    Err(refusal) => assert_eq!((refusal.number, does), (25, false), "{told}"),
                    Ok(joined) => {
                        assert!(does, "{told}");
                        assert_eq!(Volume::new(joined.as_bytes()).as_ref(), Ok(&joined), "{told}");
                        fit += 1;
                    }
                }
            }
        }
        assert!(fit > 100, "{fit}");
    }
}
