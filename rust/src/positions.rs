//! The positions of a pattern in a row of a listing, each with the start of its title.

use crate::{Match, MAX_VARS, NO_START};
use std::fmt;
use std::iter::FusedIterator;
use std::slice;

/// A variable's position in a row of a listing (01: place), and the start of its title.
#[derive(Clone, Copy, Debug, PartialEq, Eq, Hash)]
pub struct Position {
    /// The position.
    pub pos: u32,
    /// The greatest start of the document, in list 0, that is not above the position. `None` where
    /// there is none: the position stands before the first title, and is in no title.
    pub title_start: Option<u32>,
}

impl Position {
    /// The position that a row has as these two words.
    fn of_words(&[pos, start]: &[u32; 2]) -> Position {
        Position { pos, title_start: (start != NO_START).then_some(start) }
    }
}

/// The least positions of a pattern (01: earliest places) in a document in which it is found: a
/// [`Position`] for each of its variables, in their order. [`Row::pattern`](crate::Row::pattern)
/// gives them, out of the words of the row.
///
/// ```
/// use lihambozy::{text, Plan, Position, Volume};
///
/// // Titles start at 3 and 6. The first word stands at 2, before them, and the second at 6.
/// let volume = Volume::of_lists(&text::lists("1:3 1:6\n1:2\n1:6 1:7\n")?)?;
/// let plan = Plan::from_line("[1 2;b 0 1]")?;
/// let row = volume.search(&plan)?.next().expect("the document matches");
/// let found = row.pattern(0).expect("the pattern is found");
///
/// let [first, second] = [(2, None), (6, Some(6))];
/// let position = |(pos, title_start)| Position { pos, title_start };
/// assert_eq!(found, [first, second].map(position));
/// assert_eq!(found.get(1), Some(position(second)));
/// assert_eq!(found.iter().rev().map(|var| var.pos).collect::<Vec<_>>(), [6, 2]);
/// for var in found {
///     assert_eq!(var.title_start.is_some(), var.pos >= 3);
/// }
///
/// // The positions alone are the first tuple that passes.
/// assert_eq!(found.tuple(), [2, 6]);
/// assert_eq!(volume.matches(&plan, 0, row.doc())?.next(), Some(found.tuple()));
/// # Ok::<(), Box<dyn std::error::Error>>(())
/// ```
#[derive(Clone, Copy, PartialEq, Eq, Hash)]
pub struct Positions<'a> {
    /// The two words of each variable.
    pairs: &'a [[u32; 2]],
}

impl<'a> Positions<'a> {
    /// The positions that a row has as these words, two for each variable.
    pub(crate) fn of_words(words: &'a [u32]) -> Positions<'a> {
        Positions { pairs: words.as_chunks().0 }
    }

    /// The position of a variable, or `None` where the pattern has no variable of that number.
    pub fn get(self, var: usize) -> Option<Position> {
        self.pairs.get(var).map(Position::of_words)
    }

    /// The position of each variable in turn.
    pub fn iter(self) -> PositionsIter<'a> {
        PositionsIter { pairs: self.pairs.iter() }
    }

    /// The positions without the starts, as a tuple. It is the first that [`Volume::matches`] lists
    /// for the pattern in the row's document.
    ///
    /// [`Volume::matches`]: crate::Volume::matches
    pub fn tuple(self) -> Match {
        let mut tuple = [0; MAX_VARS];
        tuple.iter_mut().zip(self).for_each(|(pos, var)| *pos = var.pos);
        Match::new(&tuple[..self.pairs.len()])
    }
}

impl<'a> IntoIterator for Positions<'a> {
    type Item = Position;
    type IntoIter = PositionsIter<'a>;

    fn into_iter(self) -> PositionsIter<'a> {
        self.iter()
    }
}

impl PartialEq<[Position]> for Positions<'_> {
    fn eq(&self, positions: &[Position]) -> bool {
        self.iter().eq(positions.iter().copied())
    }
}

impl<const N: usize> PartialEq<[Position; N]> for Positions<'_> {
    fn eq(&self, positions: &[Position; N]) -> bool {
        *self == positions[..]
    }
}

impl fmt::Debug for Positions<'_> {
    fn fmt(&self, f: &mut fmt::Formatter<'_>) -> fmt::Result {
        f.debug_list().entries(self.iter()).finish()
    }
}

/// The iterator over [`Positions`].
#[derive(Clone, Debug)]
pub struct PositionsIter<'a> {
    pairs: slice::Iter<'a, [u32; 2]>,
}

impl Iterator for PositionsIter<'_> {
    type Item = Position;

    fn next(&mut self) -> Option<Position> {
        self.pairs.next().map(Position::of_words)
    }

    fn size_hint(&self) -> (usize, Option<usize>) {
        self.pairs.size_hint()
    }
}

impl DoubleEndedIterator for PositionsIter<'_> {
    fn next_back(&mut self) -> Option<Position> {
        self.pairs.next_back().map(Position::of_words)
    }
}

impl ExactSizeIterator for PositionsIter<'_> {}

impl FusedIterator for PositionsIter<'_> {}

#[cfg(test)]
mod tests {
    use super::*;

    const WORDS: [u32; 8] = [0, 0, 7, 65_536, 65_535, 65_535, 7, 3];

    fn position(pos: u32, title_start: Option<u32>) -> Position {
        Position { pos, title_start }
    }

    fn positions() -> [Position; 4] {
        let [first, last] = [0, 65_535].map(|pos| position(pos, Some(pos)));
        [first, position(7, None), last, position(7, Some(3))]
    }

    /// A start of 0 is one, and 65,536 is none.
    #[test]
    fn starts() {
        let found = Positions::of_words(&WORDS);
        assert_eq!(found, positions());
        assert_eq!(found.get(0), Some(position(0, Some(0))));
        assert_eq!(found.get(1), Some(position(7, None)));
        assert_eq!((found.get(4), found.get(usize::MAX)), (None, None));
        assert_eq!(found.tuple(), [0, 7, 65_535, 7]);
    }

    /// From both ends, with what is left known at each step.
    #[test]
    fn both_ends() {
        let found = Positions::of_words(&WORDS);
        let [first, second, third, last] = positions();
        let mut left = found.iter();
        assert_eq!((left.len(), left.next()), (4, Some(first)));
        assert_eq!((left.len(), left.next_back()), (3, Some(last)));
        assert_eq!((left.len(), left.clone().rev().collect()), (2, vec![third, second]));
        assert_eq!((left.size_hint(), left.next_back()), ((2, Some(2)), Some(third)));
        assert_eq!((left.len(), left.next()), (1, Some(second)));
        assert_eq!((left.len(), left.next(), left.next_back()), (0, None, None));
        assert!(found.into_iter().eq(positions()));
    }

    /// Positions are equal where all their words are, in as many variables.
    #[test]
    fn equal_words() {
        let found = Positions::of_words(&WORDS);
        for changed in 0..8 {
            let mut words = WORDS;
            words[changed] += 1;
            assert_ne!(Positions::of_words(&words), found, "word {changed}");
            assert!(Positions::of_words(&words) != positions(), "word {changed}");
        }
        assert!(found != positions()[..3] && Positions::of_words(&WORDS[..6]) != positions());
        assert_eq!(Positions::of_words(&WORDS.to_vec()), found);
        let shown = format!("{:?}", Positions::of_words(&WORDS[..4]));
        assert_eq!(shown, format!("{:?}", &positions()[..2]));
    }
}
