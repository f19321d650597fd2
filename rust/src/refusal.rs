//! Why a call was not answered.

use crate::MAX_LINE_BYTES;
use std::error::Error;
use std::fmt;

/// Why a call was not answered: the first refusal that applies, in document 01's numbers. It is
/// shown as a sentence in document 01's words, with number and place behind it.
///
/// ```
/// use lihambozy::Refusal;
///
/// let refusal = Refusal { number: 3, at: 17 };
/// assert_eq!(refusal.to_string(), "the check of block 17 is wrong (refused 3 17)");
/// ```
#[derive(Clone, Copy, Debug, PartialEq, Eq, Hash)]
pub struct Refusal {
    /// Document 01's number of the refusal.
    pub number: u32,
    /// The block, list, stream index, row of a plan or byte of a line that it is about (01: place),
    /// from 0; 0 where the refusal is about none. The byte is the length of the line where the line
    /// breaks off, and 2,048 where it is longer than that.
    pub at: u32,
}

impl Refusal {
    /// The refusal of a plan whose length is wrong.
    pub(crate) const PLAN_LENGTH: Refusal = Refusal { number: 9, at: 0 };
    /// The refusal of a pattern that is not there.
    pub(crate) const NO_SUCH: Refusal = Refusal { number: 17, at: 0 };
}

impl fmt::Display for Refusal {
    fn fmt(&self, f: &mut fmt::Formatter<'_>) -> fmt::Result {
        let Refusal { number, at } = *self;
        match number {
            1 => f.write_str(
                "the volume is empty, is no whole number of blocks of 512 bytes, or has over 8,192 \
                 blocks",
            ),
            2 => write!(f, "block {at} does not hold its own number"),
            3 => write!(f, "the check of block {at} is wrong"),
            4 => f.write_str("the volume's edition is not 1"),
            5 => f.write_str("the number of lists is not 1 to 1,024"),
            6 => f.write_str("the number of blocks is not the least that holds the lists"),
            7 => write!(f, "list {at} does not rise strictly"),
            8 => write!(f, "word {at} of the stream, behind the lists, is not 0"),
            9 => f.write_str("the plan is empty, is no whole number of rows, or has over 64 rows"),
            10 => write!(
                f,
                "row {at} of the plan has an unknown kind, a word that is not 0 where its kind uses \
                 none, a c out of range, a least that exceeds its most, or as AT LEAST an a that \
                 is not 1 to b or a b that is not 2 to 8"
            ),
            11 => write!(
                f,
                "row {at} of the plan names list 0, or a list that the volume does not have"
            ),
            12 => write!(
                f,
                "row {at} of the plan is the ninth voice of a figure, or opens a ninth figure"
            ),
            13 => write!(
                f,
                "row {at} of the plan is out of order, finds fewer answers than it takes, or names \
                 a voice that its figure does not have"
            ),
            14 => f.write_str("the plan ends with a figure open, or not with one answer"),
            15 => f.write_str("the start scene is over 65,535"),
            16 => f.write_str(
                "the buffer is shorter than one row of the listing, than one choice, than the \
                 list, than the rows of the line, or than the written line",
            ),
            17 => f.write_str(
                "there is no list or figure of that number, the number of places is not that of \
                 the figure's voices, or a scene or place is over 65,535",
            ),
            18 => f.write_str("the counts do not sum to the number of postings"),
            19 => f.write_str("the volume would have over 1,032,192 words"),
            20 => f.write_str("the output is shorter than the volume"),
            21 if at as usize == MAX_LINE_BYTES => f.write_str(
                "the line has over 2,048 bytes, or ends at byte 2048, where no line could end",
            ),
            21 => write!(f, "no line could have what this one has at byte {at}, or end there"),
            22 => write!(
                f,
                "the round bracket or `<` at byte {at} of the line is opened inside eight open ones"
            ),
            23 => f.write_str("the line needs over 64 rows"),
            24 => f.write_str("the two volumes do not have equally many lists"),
            25 => f.write_str(
                "a raised scene is over 65,535, or is not above all scenes of the first volume",
            ),
            _ => f.write_str("the call was refused"),
        }?;
        write!(f, " (refused {number} {at})")
    }
}

impl Error for Refusal {}

/// One of the two volumes that are joined.
#[derive(Clone, Copy, Debug, PartialEq, Eq, Hash)]
pub enum Which {
    /// The volume whose lists come first.
    First,
    /// The volume whose documents are raised.
    Second,
}

/// Why two volumes were not joined. It is shown as the refusal is, with the volume in front.
///
/// ```
/// use lihambozy::calls::{join_volumes, write_volume};
///
/// let mut first = [0; 512];
/// write_volume(&[0], &[], &mut first)?;
/// let refused = join_volumes(&first, &[0; 512], 0, &mut []).unwrap_err();
/// assert_eq!(
///     refused.to_string(),
///     "the second volume: the check of block 0 is wrong (refused 3 0)"
/// );
/// # Ok::<(), lihambozy::Refusal>(())
/// ```
#[derive(Clone, Copy, Debug, PartialEq, Eq, Hash)]
pub struct JoinRefusal {
    /// The first refusal that applies.
    pub refusal: Refusal,
    /// The volume that is refused, with 1 to 8; `None` where the refusal is of both together.
    pub volume: Option<Which>,
}

impl fmt::Display for JoinRefusal {
    fn fmt(&self, f: &mut fmt::Formatter<'_>) -> fmt::Result {
        f.write_str(match self.volume {
            Some(Which::First) => "the first volume: ",
            Some(Which::Second) => "the second volume: ",
            None => "",
        })?;
        self.refusal.fmt(f)
    }
}

impl Error for JoinRefusal {}

#[cfg(test)]
mod tests {
    use super::*;

    #[test]
    fn refusals_read_as_sentences() {
        let rows = [
            (2, 5, "block 5 does not hold its own number (refused 2 5)"),
            (3, 8_191, "the check of block 8191 is wrong (refused 3 8191)"),
            (7, 0, "list 0 does not rise strictly (refused 7 0)"),
            (8, 125, "word 125 of the stream, behind the lists, is not 0 (refused 8 125)"),
            (
                10,
                2,
                "row 2 of the plan has an unknown kind, a word that is not 0 where its kind uses \
                 none, a c out of range, a least that exceeds its most, or as AT LEAST an a that \
                 is not 1 to b or a b that is not 2 to 8 (refused 10 2)",
            ),
            (
                11,
                3,
                "row 3 of the plan names list 0, or a list that the volume does not have \
                 (refused 11 3)",
            ),
            (
                13,
                6,
                "row 6 of the plan is out of order, finds fewer answers than it takes, or names a \
                 voice that its figure does not have (refused 13 6)",
            ),
            (14, 0, "the plan ends with a figure open, or not with one answer (refused 14 0)"),
            (15, 0, "the start scene is over 65,535 (refused 15 0)"),
            (
                16,
                0,
                "the buffer is shorter than one row of the listing, than one choice, than the \
                 list, than the rows of the line, or than the written line (refused 16 0)",
            ),
            (
                21,
                2_047,
                "no line could have what this one has at byte 2047, or end there (refused 21 2047)",
            ),
            (
                21,
                2_048,
                "the line has over 2,048 bytes, or ends at byte 2048, where no line could end \
                 (refused 21 2048)",
            ),
            (
                22,
                8,
                "the round bracket or `<` at byte 8 of the line is opened inside eight open ones \
                 (refused 22 8)",
            ),
            (23, 0, "the line needs over 64 rows (refused 23 0)"),
            (24, 0, "the two volumes do not have equally many lists (refused 24 0)"),
            (
                25,
                0,
                "a raised scene is over 65,535, or is not above all scenes of the first volume \
                 (refused 25 0)",
            ),
        ];
        for (number, at, sentence) in rows {
            assert_eq!(Refusal { number, at }.to_string(), sentence);
        }
        let unknown = Refusal { number: 0, at: 0 }.to_string();
        for number in 1..=25 {
            let told = Refusal { number, at: 0 }.to_string();
            assert!(told.ends_with(&format!(" (refused {number} 0)")), "{told}");
            assert_ne!(
                told.split(" (").next(),
                unknown.split(" (").next(),
                "refusal {number} has no sentence of its own"
            );
        }
        for number in [2, 3, 7, 8, 10, 11, 12, 13, 21, 22] {
            let told = Refusal { number, at: 7_654 }.to_string();
            assert_eq!(told.matches("7654").count(), 2, "the place is not told: {told}");
        }
    }

    #[test]
    fn the_refused_volume_is_told_in_front() {
        let refusal = Refusal { number: 7, at: 1 };
        let told = |volume| JoinRefusal { refusal, volume }.to_string();
        assert_eq!(told(None), refusal.to_string());
        assert_eq!(told(Some(Which::First)), format!("the first volume: {refusal}"));
        assert_eq!(told(Some(Which::Second)), format!("the second volume: {refusal}"));
    }
}
