//! The matches of a pattern in a document: calls that list tuples, one after the other, until none
//! is left to make.

use crate::calls::{self, ListedMatches};
use crate::{kind, Plan, Refusal, Volume, MAX_VARS};
use std::fmt;
use std::iter::FusedIterator;
use std::ops::Deref;
use std::slice;

/// A tuple of positions (01: choice), one for each variable of its pattern, in their order. Those
/// that [`Matches`] hands out pass. The one that [`Matches::reached`] tells passes unless it is the
/// start.
///
/// It is used as a slice. Tuples of one pattern are in order as their slices are. It is shown as
/// the command `lhz` prints it, `places` and its positions.
///
/// ```
/// use lihambozy::{text, Plan, Volume};
///
/// let volume = Volume::of_lists(&text::lists("-\n1:2 1:8\n1:5 1:7\n")?)?;
/// let plan: Plan = "VOICE 1\nVOICE 2\nBEFORE 0 1\nEND".parse()?;
/// let tuple = volume.matches(&plan, 0, 1)?.next().expect("the pattern is found");
/// assert_eq!(tuple, [2, 5]);
/// assert_eq!((tuple.len(), tuple[1]), (2, 5));
/// for &pos in &tuple {
///     assert!(pos < 8);
/// }
/// assert_eq!(tuple.to_string(), "places 2 5");
/// assert!(volume.test(&plan, 0, 1, &tuple)?);
/// # Ok::<(), Box<dyn std::error::Error>>(())
/// ```
#[derive(Clone, Copy, PartialEq, Eq, PartialOrd, Ord, Hash)]
pub struct Match {
    /// The positions, and zeros behind them. They stand before `vars`, so that the order of the
    /// fields is that of the slices.
    positions: [u32; MAX_VARS],
    vars: usize,
}

impl Match {
    /// The tuple of these positions, of which there are [`MAX_VARS`] at most.
    pub(crate) fn new(tuple: &[u32]) -> Match {
        let mut positions = [0; MAX_VARS];
        positions[..tuple.len()].copy_from_slice(tuple);
        Match { positions, vars: tuple.len() }
    }
}

impl Deref for Match {
    type Target = [u32];

    fn deref(&self) -> &[u32] {
        &self.positions[..self.vars]
    }
}

impl AsRef<[u32]> for Match {
    fn as_ref(&self) -> &[u32] {
        self
    }
}

impl<'a> IntoIterator for &'a Match {
    type Item = &'a u32;
    type IntoIter = slice::Iter<'a, u32>;

    fn into_iter(self) -> slice::Iter<'a, u32> {
        self.iter()
    }
}

impl PartialEq<[u32]> for Match {
    fn eq(&self, positions: &[u32]) -> bool {
        self[..] == *positions
    }
}

impl<const N: usize> PartialEq<[u32; N]> for Match {
    fn eq(&self, positions: &[u32; N]) -> bool {
        self[..] == *positions
    }
}

impl fmt::Debug for Match {
    fn fmt(&self, f: &mut fmt::Formatter<'_>) -> fmt::Result {
        f.debug_tuple("Match").field(&&**self).finish()
    }
}

impl fmt::Display for Match {
    fn fmt(&self, f: &mut fmt::Formatter<'_>) -> fmt::Result {
        f.write_str("places")?;
        self.iter().try_for_each(|pos| write!(f, " {pos}"))
    }
}

/// The matches of a pattern in a document: an iterator over the tuples of positions that pass, in
/// order, each once. [`Volume::matches`] starts one from the first tuple, and
/// [`Volume::matches_from`] from a given one.
///
/// Tuples are in order by their first position, those that agree in it by their second, and so on.
/// The first of all is the pattern's least positions (01: earliest places), which a
/// [`Row`](crate::Row) shows where the document matches. Tuples are listed also where it does not.
///
/// It pages by itself: a call fills a buffer with tuples, and when they are used up the next call
/// goes on from the tuple that the last one named.
///
/// Of the library it is proved that the tuples of all calls together are exactly those that pass,
/// whatever the buffer (`Enumerates` in `crates/enumeration/specs/Demands.antt`).
///
/// ```
/// use lihambozy::row::{before, voice, END};
/// use lihambozy::{Plan, Posting, Volume};
///
/// let word = [(1, 2), (1, 8), (1, 9)].map(|(doc, pos)| Posting::new(doc, pos));
/// let volume = Volume::of_lists(&[&[], &word[..]])?;
/// let plan = Plan::new([voice(1), voice(1), before(0, 1), END]);
///
/// let mut matches = volume.matches(&plan, 0, 1)?.page_tuples(2);
/// let first = matches.next().unwrap();
/// assert_eq!(first, [2, 8]);
/// assert_eq!(matches.reached().as_deref(), Some(&[8, 9][..]));
///
/// let others: Vec<String> = matches.by_ref().map(|tuple| tuple.to_string()).collect();
/// assert_eq!(others, ["places 2 9", "places 8 9"]);
/// assert_eq!(matches.reached(), None);
/// assert!(matches.next().is_none());
/// # Ok::<(), lihambozy::Refusal>(())
/// ```
#[derive(Clone, Debug)]
pub struct Matches<'a> {
    volume: &'a Volume<'a>,
    plan: &'a Plan,
    pattern: u32,
    doc: u32,
    /// The words of a tuple.
    width: usize,
    /// The buffer that is lent to the calls.
    page: Vec<u32>,
    /// The words of `page` that are tuples, and of these the words handed out.
    written: usize,
    taken: usize,
    /// Where the next call starts, if one is left to make.
    next: Option<Match>,
}

impl<'a> Matches<'a> {
    /// The tuples for which a call has room where [`Matches::page_tuples`] does not say otherwise,
    /// 512 KiB at most. Each call checks the whole volume first, and so many tuples take about as
    /// long as the check of the largest volume, or longer.
    pub const PAGE_TUPLES: usize = 16_384;

    /// The most tuples for which a call has room: 2 MiB of them at most.
    const MAX_PAGE_TUPLES: usize = 65_536;

    pub(crate) fn from_zeros(
        volume: &'a Volume<'a>,
        plan: &'a Plan,
        pattern: u32,
        doc: u32,
    ) -> Result<Matches<'a>, Refusal> {
        // In a plan that is accepted each END closes a pattern, whose variables are the VOICE rows
        // in front of it. What this makes of another plan does not matter: it is refused.
        let mut patterns = plan.rows().split(|row| row[0] == kind::END);
        let rows = patterns.nth(pattern as usize).unwrap_or_default();
        let vars = rows.iter().filter(|row| row[0] == kind::VOICE).count();
        Matches::new(volume, plan, pattern, doc, &[0; MAX_VARS][..vars.min(MAX_VARS)])
    }

    pub(crate) fn new(
        volume: &'a Volume<'a>,
        plan: &'a Plan,
        pattern: u32,
        doc: u32,
        from: &[u32],
    ) -> Result<Matches<'a>, Refusal> {
        // The test is refused as the calls would be, but for the length of their buffer.
        volume.test(plan, pattern, doc, from)?;
        let width = from.len();
        let page = vec![0; Matches::PAGE_TUPLES * width];
        let next = Some(Match::new(from));
        Ok(Matches { volume, plan, pattern, doc, width, page, written: 0, taken: 0, next })
    }

    /// The same matches with room for so many tuples in each call that is still to be made, at
    /// least one and at most 65,536. Each call checks the whole volume first, so that short pages
    /// cost time; where only the first few tuples are wanted, a short page costs less. The tuples
    /// do not depend on it.
    pub fn page_tuples(mut self, tuples: usize) -> Matches<'a> {
        let left = self.page[self.taken..self.written].to_vec();
        let words = (tuples.clamp(1, Matches::MAX_PAGE_TUPLES) * self.width).max(left.len());
        self.page.resize(words, 0);
        self.page[..left.len()].copy_from_slice(&left);
        self.taken = 0;
        self.written = left.len();
        self
    }

    /// The tuple from which the next call is to start, or `None` where none is left to make. All
    /// tuples before it that pass have been listed, though some may not have been handed out. But
    /// for the one that the matches started from, it passes.
    pub fn reached(&self) -> Option<Match> {
        self.next
    }

    /// Makes calls until there are tuples or none is left to make.
    fn turn(&mut self) {
        while let (true, Some(from)) = (self.taken == self.written, self.next) {
            // Such a call is refused only for a buffer that is shorter than one tuple.
            let ListedMatches { count, next } = calls::list_matches(
                self.volume.as_bytes(),
                self.plan.words(),
                self.pattern,
                self.doc,
                &from,
                &mut self.page,
            )
            .expect("volume, plan and tuple are accepted, and a tuple fits");
            self.taken = 0;
            self.written = count as usize * self.width;
            self.next = next;
        }
    }
}

impl Iterator for Matches<'_> {
    type Item = Match;

    fn next(&mut self) -> Option<Match> {
        self.turn();
        let tuple = self.page[self.taken..self.written].get(..self.width)?;
        self.taken += self.width;
        Some(Match::new(tuple))
    }

    fn size_hint(&self) -> (usize, Option<usize>) {
        let ready = (self.written - self.taken) / self.width;
        (ready, self.next.is_none().then_some(ready))
    }
}

impl FusedIterator for Matches<'_> {}

#[cfg(test)]
mod tests {
    use super::*;
    use crate::row::{before, voice, EITHER, END};
    use crate::Posting;
    use std::collections::hash_map::DefaultHasher;
    use std::hash::{Hash, Hasher};

    /// A word at ten positions of document 3.
    fn volume() -> Volume<'static> {
        let word = (0..10).map(|pos| Posting::new(3, 2 * pos)).collect();
        Volume::of_lists(&[vec![], word]).unwrap()
    }

    /// The word, or the word and the word behind it.
    fn plan() -> Plan {
        Plan::new([voice(1), END, voice(1), voice(1), before(0, 1), END, EITHER])
    }

    fn tuples(matches: impl Iterator<Item = Match>) -> Vec<Vec<u32>> {
        matches.map(|tuple| tuple.to_vec()).collect()
    }

    /// The pairs that pass, in order.
    fn pairs() -> Vec<Vec<u32>> {
        (0..10).flat_map(|p| (p + 1..10).map(move |q| vec![2 * p, 2 * q])).collect()
    }

    /// Pages of another length in the middle change no tuple.
    #[test]
    fn pages_change_no_tuple() {
        let (volume, plan) = (volume(), plan());
        let all = tuples(volume.matches(&plan, 1, 3).unwrap());
        assert_eq!(all, pairs());
        for first in [0, 1, 2, 7, 44, 45, 46] {
            for then in [0, 1, 3, 8, 1 << 62, usize::MAX] {
                for taken in [0, 1, 6, 7, 8, 30, 44, 45] {
                    let mut matches = volume.matches(&plan, 1, 3).unwrap().page_tuples(first);
                    let mut some = tuples(matches.by_ref().take(taken));
                    let mut matches = matches.page_tuples(then);
                    some.extend(tuples(matches.by_ref()));
                    let case = format!("pages of {first}, after {taken} tuples pages of {then}");
                    assert_eq!(some, all, "{case}");
                    assert_eq!(matches.reached(), None, "{case}");
                    assert!(matches.next().is_none(), "{case}");
                    assert!(matches.next().is_none(), "{case}");
                }
            }
        }
    }

    /// Each start: before, at, between and behind the tuples. The tuple reached is the start, then
    /// the first one that is not listed.
    #[test]
    fn starts() {
        let (volume, plan) = (volume(), plan());
        for p in 0..=20 {
            for q in 0..=20 {
                let from = [p, q];
                let left: Vec<Vec<u32>> =
                    pairs().into_iter().filter(|pair| pair[..] >= from[..]).collect();
                let matches = volume.matches_from(&plan, 1, 3, &from).unwrap();
                assert_eq!(matches.reached().as_deref(), Some(&from[..]));
                assert_eq!(matches.size_hint(), (0, None), "{from:?}");
                let mut matches = matches.page_tuples(2);
                for (i, tuple) in left.iter().enumerate() {
                    assert_eq!(matches.next().as_deref(), Some(&tuple[..]), "{from:?}");
                    let reached = left.get(2 * (i / 2 + 1)).map(|tuple| &tuple[..]);
                    assert_eq!(matches.reached().as_deref(), reached, "{from:?}, {tuple:?}");
                }
                assert!(matches.next().is_none(), "{from:?}");
            }
        }
        assert_eq!(tuples(volume.matches_from(&plan, 0, 3, &[18]).unwrap()), [[18]]);
        assert_eq!(volume.matches_from(&plan, 0, 3, &[19]).unwrap().count(), 0);
        assert_eq!(volume.matches_from(&plan, 1, 3, &[65_535; 2]).unwrap().count(), 0);
        assert_eq!(volume.matches(&plan, 1, 2).unwrap().count(), 0);
    }

    /// What is left is between the two bounds, and known when no call is left to make.
    #[test]
    fn hints_hold_at_each_step() {
        let (volume, plan) = (volume(), plan());
        for page in [1, 2, 3, 9, 10, 11, 1_024] {
            let mut matches = volume.matches(&plan, 0, 3).unwrap().page_tuples(page);
            for left in (0..=10).rev() {
                let (least, most) = matches.size_hint();
                let case = format!("pages of {page}, {left} left: {least} {most:?}");
                assert!(least <= left && most.is_none_or(|most| most == left), "{case}");
                assert_eq!(most.is_some(), matches.reached().is_none(), "{case}");
                assert_eq!(matches.next().is_some(), left > 0, "{case}");
            }
            assert_eq!(matches.size_hint(), (0, Some(0)));
        }
        let mut matches = volume.matches(&plan, 0, 3).unwrap().page_tuples(4);
        let mut hints = vec![];
        for _ in 0..10 {
            hints.push(matches.size_hint());
            matches.next();
        }
        let ready = |tuples: usize| (tuples, None);
        let of_page = [3, 2, 1, 0].map(ready);
        assert_eq!(hints, [&[ready(0)], &of_page[..], &of_page, &[(1, Some(1))]].concat());
    }

    /// 9 to 14 before 17, and 17 for each cause, at once and not with the first tuple.
    #[test]
    fn refused_at_once() {
        let (volume, plan) = (volume(), plan());
        let refused = |plan: &Plan, pattern: u32, doc: u32, from: &[u32]| {
            let refusal = volume.matches_from(plan, pattern, doc, from).unwrap_err();
            (refusal.number, refusal.at)
        };
        let from_zeros = |plan: &Plan, pattern: u32, doc: u32| {
            let refusal = volume.matches(plan, pattern, doc).unwrap_err();
            (refusal.number, refusal.at)
        };
        for (pattern, doc) in [(2, 3), (3, 3), (8, 3), (u32::MAX, 3), (1, 65_536), (0, u32::MAX)] {
            assert_eq!(from_zeros(&plan, pattern, doc), (17, 0), "{pattern} {doc}");
            assert_eq!(refused(&plan, pattern, doc, &[0, 0]), (17, 0), "{pattern} {doc}");
        }
        for from in [&[][..], &[0], &[0; 3], &[0; 9], &[65_536, 0], &[0, 65_536], &[0, u32::MAX]] {
            assert_eq!(refused(&plan, 1, 3, from), (17, 0), "{from:?}");
        }
        for (rows, why) in [
            (vec![], (9, 0)),
            (vec![voice(1); 65], (9, 0)),
            (vec![[0; 4]], (10, 0)),
            (vec![voice(1), voice(2), END], (11, 1)),
            (vec![voice(1); 9], (12, 8)),
            (vec![voice(1), END, END], (13, 2)),
            (vec![voice(1), END, voice(1)], (14, 0)),
        ] {
            let plan = Plan::new(rows);
            for (pattern, doc) in [(0, 3), (1, 3), (9, 3), (0, 65_536)] {
                assert_eq!(from_zeros(&plan, pattern, doc), why, "{pattern} {doc}");
                assert_eq!(refused(&plan, pattern, doc, &[0]), why, "{pattern} {doc}");
                assert_eq!(refused(&plan, pattern, doc, &[0; 9]), why, "{pattern} {doc}");
            }
        }
    }

    /// One variable and eight, behind another pattern and operators.
    #[test]
    fn patterns_of_every_width() {
        let volume = volume();
        for vars in 1..=8 {
            let rows = [&[voice(1), END][..], &vec![voice(1); vars], &[END, EITHER]].concat();
            let plan = Plan::new(rows);
            let first = volume.matches(&plan, 1, 3).unwrap().next().unwrap();
            assert_eq!(first, [0; MAX_VARS][..vars]);
            let last = volume.matches_from(&plan, 1, 3, &vec![18; vars]).unwrap();
            assert_eq!(tuples(last), [vec![18; vars]]);
            assert_eq!(volume.matches(&plan, 0, 3).unwrap().count(), 10);
        }
    }

    /// Tuples are equal, in order and shown as their slices are.
    #[test]
    fn tuples_are_slices() {
        let slices: [&[u32]; 8] =
            [&[0], &[0, 0], &[0, 7], &[1], &[1, 0], &[2, 65_535], &[65_535], &[65_535; 8]];
        let hash = |tuple: &Match| {
            let mut hasher = DefaultHasher::new();
            tuple.hash(&mut hasher);
            hasher.finish()
        };
        for one in slices {
            for other in slices {
                let (a, b) = (Match::new(one), Match::new(other));
                assert_eq!((a == b, a.cmp(&b)), (one == other, one.cmp(other)), "{a:?} {b:?}");
                assert_eq!(hash(&a) == hash(&b), one == other, "{a:?} {b:?}");
                assert_eq!(a == *other, one == other, "{a:?} {b:?}");
            }
            let tuple = Match::new(one);
            assert_eq!((&tuple[..], tuple.as_ref(), tuple.len()), (one, one, one.len()));
            assert!(tuple.into_iter().eq(one) && (&tuple).into_iter().eq(one));
            assert_eq!(format!("{tuple:?}"), format!("Match({one:?})"));
        }
        let tuple = Match::new(&[7, 0, 65_535]);
        assert_eq!(tuple, [7, 0, 65_535]);
        assert!(tuple != [7, 0, 65_534] && tuple != [7, 0] && tuple != [7, 0, 65_535, 0]);
        assert_eq!(tuple.to_string(), "places 7 0 65535");
    }
}
