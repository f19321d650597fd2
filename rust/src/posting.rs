//! Postings.

use std::fmt;

/// A posting: a document (01: scene) and a position in it (01: place), as one number. Postings are
/// ordered by document, then by position. It is shown as `scene:place`.
///
/// ```
/// use lihambozy::Posting;
///
/// let posting = Posting::new(2, 9);
/// assert_eq!((posting.doc(), posting.pos(), posting.word()), (2, 9, 131_081));
/// assert_eq!(posting.to_string(), "2:9");
/// assert!(Posting::new(1, 65_535) < Posting::new(2, 0));
/// ```
#[derive(Clone, Copy, Debug, PartialEq, Eq, PartialOrd, Ord, Hash)]
pub struct Posting(u32);

impl Posting {
    /// The posting of a document and a position in it.
    pub const fn new(doc: u16, pos: u16) -> Posting {
        Posting(doc as u32 * 65_536 + pos as u32)
    }

    /// The posting that a volume stores as this word: each word is one.
    pub const fn from_word(word: u32) -> Posting {
        Posting(word)
    }

    /// The word that a volume stores: document * 65,536 + position.
    pub const fn word(self) -> u32 {
        self.0
    }

    /// The document.
    pub const fn doc(self) -> u16 {
        (self.0 / 65_536) as u16
    }

    /// The position in the document.
    pub const fn pos(self) -> u16 {
        (self.0 % 65_536) as u16
    }
}

impl fmt::Display for Posting {
    fn fmt(&self, f: &mut fmt::Formatter<'_>) -> fmt::Result {
        write!(f, "{}:{}", self.doc(), self.pos())
    }
}

#[cfg(test)]
mod tests {
    use super::*;

    #[test]
    fn postings_hold_document_and_position() {
        for (doc, pos, word) in [
            (0, 0, 0),
            (0, 65_535, 65_535),
            (1, 0, 65_536),
            (2, 9, 131_081),
            (65_535, 65_535, u32::MAX),
        ] {
            assert_eq!(Posting::new(doc, pos).word(), word);
            let posting = Posting::from_word(word);
            assert_eq!((posting.doc(), posting.pos()), (doc, pos));
        }
    }
}
