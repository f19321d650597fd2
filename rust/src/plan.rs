//! Plans.

use crate::row::PlanRow;
use crate::text::{self, Mistake};
use crate::{calls, Refusal, Volume, MAX_LINE_BYTES, MAX_ROWS, ROW_WORDS};
use std::fmt;
use std::str::FromStr;

/// A plan: rows of any words. Whether it is in order depends on the volume that it is to search:
/// [`Volume::check`](crate::Volume::check).
///
/// Its text has one row a line, by the name of its kind and the words that the kind uses, in the
/// order a, b, c. The c of APART is told as two numbers, least and most, each at most 65,535. A row
/// that no name can tell, of an unknown kind or with another word that is not 0, is told by its
/// four numbers; so each plan has its text, and the text reads as that plan. Names tell rows that a
/// check refuses too: `SPAN 0`, an APART whose least exceeds its most, or `AT LEAST 3 2`. Empty
/// lines are skipped, and so is what follows `#`.
///
/// ```
/// use lihambozy::row::{apart, at_least, before, same_title, voice, END};
/// use lihambozy::Plan;
///
/// let text = "VOICE 1\nVOICE 2\nBEFORE 0 1\nSAME TITLE 0 1\nEND\n";
/// let plan: Plan = text.parse()?;
/// assert_eq!(plan, Plan::new([voice(1), voice(2), before(0, 1), same_title(0, 1), END]));
/// assert_eq!(plan.to_string(), text);
/// assert_eq!(Plan::from_bytes(&plan.to_bytes())?, plan);
///
/// // At least four places between the two voices, and at most nine.
/// let returns: Plan = "VOICE 1\nVOICE 1\nAPART 0 1 4 9\nEND".parse()?;
/// assert_eq!(returns, Plan::new([voice(1), voice(1), apart(0, 1, 4, 9), END]));
///
/// // Two or more of three words.
/// let some: Plan = "VOICE 1\nEND\nVOICE 2\nEND\nVOICE 3\nEND\nAT LEAST 2 3".parse()?;
/// assert_eq!(some.rows()[6], at_least(2, 3));
///
/// let mistake = "VOICE 1\nNEAR 0 x 3".parse::<Plan>().unwrap_err();
/// assert_eq!((mistake.line, mistake.column), (2, 8));
/// # Ok::<(), Box<dyn std::error::Error>>(())
/// ```
#[derive(Clone, Debug, PartialEq, Eq)]
pub struct Plan {
    rows: Vec<PlanRow>,
}

impl Plan {
    /// The plan of these rows.
    pub fn new(rows: impl Into<Vec<PlanRow>>) -> Plan {
        Plan { rows: rows.into() }
    }

    /// The plan whose words these bytes are, little-endian: a plan file's.
    ///
    /// Refused with 9 where they are none, no whole number of rows, or over 64 rows.
    pub fn from_bytes(bytes: &[u8]) -> Result<Plan, Refusal> {
        let (words, rest) = bytes.as_chunks();
        let words: Vec<u32> = words.iter().map(|&word| u32::from_le_bytes(word)).collect();
        match words.as_chunks() {
            (rows, []) if rest.is_empty() && (1..=MAX_ROWS).contains(&rows.len()) => {
                Ok(Plan::new(rows))
            }
            _ => Err(Refusal::PLAN_LENGTH),
        }
    }

    /// The plan's words as bytes, little-endian: a plan file.
    pub fn to_bytes(&self) -> Vec<u8> {
        self.words().iter().flat_map(|word| word.to_le_bytes()).collect()
    }

    /// The plan that a typed line tells, such as `[1 2;b 0 1]|([3]&[4])`.
    ///
    /// A line is parts joined by `|` (EITHER); a part is items joined by `&` (BOTH) or `!` (FIRST
    /// NOT SECOND); both join left to right. An item is a pattern (01: figure), a line in round
    /// brackets, or so many of several lines (AT LEAST). A pattern holds in square brackets one or
    /// more list numbers, then predicates (01: conditions), each after a semicolon: `n a b c`
    /// (NEAR), `b a b` (BEFORE), `t a b` (SAME TITLE), `s c` (SPAN), `a a b least most` (APART). One
    /// space separates the words of a list or predicate and stands nowhere else. Numbers have no
    /// leading zero and are at most 65,536, least and most at most 65,535. So many of several lines
    /// is `<`, the number, `:`, two to eight lines joined by commas, and `>`; the number is 1 to 8
    /// and at most that of the lines. The rows follow the line's order, operators behind their whole
    /// second side, AT LEAST behind its last line.
    ///
    /// Refused with 21 (over 2,048 bytes, or at the first byte that no line could have there, or at
    /// the end where no line could end) and 22 (at a round bracket or `<` inside eight open ones),
    /// whichever byte comes first, then with 23 (over 64 rows). Whether the plan is in order over a
    /// volume is told by [`Volume::check`].
    ///
    /// ```
    /// use lihambozy::Plan;
    ///
    /// let plan = Plan::from_line("[1 2;b 0 1]|([3]&[4])")?;
    /// let rows = "VOICE 1\nVOICE 2\nBEFORE 0 1\nEND\nVOICE 3\nEND\nVOICE 4\nEND\nBOTH\nEITHER\n";
    /// assert_eq!(plan.to_string(), rows);
    ///
    /// let some = Plan::from_line("<2:[1],[2],[3]>")?;
    /// let rows = "VOICE 1\nEND\nVOICE 2\nEND\nVOICE 3\nEND\nAT LEAST 2 3\n";
    /// assert_eq!(some.to_string(), rows);
    ///
    /// let refusal = Plan::from_line("[1 ]").unwrap_err();
    /// assert_eq!((refusal.number, refusal.at), (21, 3));
    /// # Ok::<(), lihambozy::Refusal>(())
    /// ```
    pub fn from_line(line: impl AsRef<[u8]>) -> Result<Plan, Refusal> {
        let mut words = [0; MAX_ROWS * ROW_WORDS];
        let read = calls::line_to_plan(line.as_ref(), &mut words)?;
        Ok(Plan::new(words[..read.words as usize].as_chunks().0))
    }

    /// The plan as a line that [`Plan::from_line`] reads as this plan, with no round bracket that
    /// could be dropped. A line in `<..>` never needs one around it.
    ///
    /// Refused with 9 to 14 as by [`Volume::check`]: a plan that is not in order has no line.
    ///
    /// ```
    /// use lihambozy::{text, Plan, Volume};
    ///
    /// let volume = Volume::of_lists(&text::lists("-\n1:2\n1:5\n")?)?;
    /// let plan = Plan::from_line("([1]&([2]))|(([1])|[2 2;s 4])")?;
    /// assert_eq!(plan.to_line(&volume)?, "[1]&[2]|([1]|[2 2;s 4])");
    ///
    /// let plan = Plan::from_line("[1]&(<1:([1]|[2]),(([2]))>)")?;
    /// assert_eq!(plan.to_line(&volume)?, "[1]&<1:[1]|[2],[2]>");
    ///
    /// let refusal = Plan::from_line("[3]")?.to_line(&volume).unwrap_err();
    /// assert_eq!((refusal.number, refusal.at), (11, 0));
    /// # Ok::<(), Box<dyn std::error::Error>>(())
    /// ```
    pub fn to_line(&self, volume: &Volume<'_>) -> Result<String, Refusal> {
        let mut line = vec![0; MAX_LINE_BYTES];
        let written = calls::plan_to_line(volume.as_bytes(), self.words(), &mut line)?;
        line.truncate(written.bytes as usize);
        Ok(String::from_utf8(line).expect("a line is ASCII"))
    }

    /// The plan's rows.
    pub fn rows(&self) -> &[PlanRow] {
        &self.rows
    }

    /// The words of all rows, as [`calls`](crate::calls) takes them.
    pub fn words(&self) -> &[u32] {
        self.rows.as_flattened()
    }
}

impl FromStr for Plan {
    type Err = Mistake;

    fn from_str(text: &str) -> Result<Plan, Mistake> {
        text::plan_rows(text).map(Plan::new)
    }
}

impl fmt::Display for Plan {
    fn fmt(&self, f: &mut fmt::Formatter<'_>) -> fmt::Result {
        self.rows.iter().try_for_each(|&row| writeln!(f, "{}", text::RowText(row)))
    }
}
