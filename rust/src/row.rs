//! The rows of a plan, each as its four words: kind, a, b and c.

use crate::{kind, ROW_WORDS};

/// A row of a plan.
pub type PlanRow = [u32; ROW_WORDS];

/// A variable of a pattern, with a list: see [`kind::VOICE`].
pub const fn voice(list: u32) -> PlanRow {
    [kind::VOICE, list, 0, 0]
}

/// At most `c` positions between two variables: see [`kind::NEAR`].
pub const fn near(a: u32, b: u32, c: u32) -> PlanRow {
    [kind::NEAR, a, b, c]
}

/// One variable before another: see [`kind::BEFORE`].
pub const fn before(a: u32, b: u32) -> PlanRow {
    [kind::BEFORE, a, b, 0]
}

/// Two variables in one title, or one variable in a title at all: see [`kind::SAME_TITLE`].
pub const fn same_title(a: u32, b: u32) -> PlanRow {
    [kind::SAME_TITLE, a, b, 0]
}

/// All variables of the pattern within `c` positions: see [`kind::SPAN`].
pub const fn span(c: u32) -> PlanRow {
    [kind::SPAN, 0, 0, c]
}

/// The `most` of [`apart`] that sets no upper end.
pub const NO_UPPER_END: u16 = 65_535;

/// One variable behind another, with at least so many positions between them and at most so many:
/// see [`kind::APART`]. 0 and 0 make a phrase, and [`NO_UPPER_END`] as `most` sets no upper end.
///
/// ```
/// use lihambozy::{kind, row};
///
/// assert_eq!(row::apart(0, 1, 4, 9), [kind::APART, 0, 1, 4 * 65_536 + 9]);
/// assert_eq!(row::apart(0, 1, 4, row::NO_UPPER_END), [kind::APART, 0, 1, 4 * 65_536 + 65_535]);
/// ```
pub const fn apart(a: u32, b: u32, least: u16, most: u16) -> PlanRow {
    [kind::APART, a, b, least as u32 * 65_536 + most as u32]
}

/// See [`kind::END`].
pub const END: PlanRow = [kind::END, 0, 0, 0];
/// See [`kind::BOTH`].
pub const BOTH: PlanRow = [kind::BOTH, 0, 0, 0];
/// See [`kind::EITHER`].
pub const EITHER: PlanRow = [kind::EITHER, 0, 0, 0];
/// See [`kind::FIRST_NOT_SECOND`].
pub const FIRST_NOT_SECOND: PlanRow = [kind::FIRST_NOT_SECOND, 0, 0, 0];

/// `a` or more of the top `b` answers: see [`kind::AT_LEAST`].
///
/// ```
/// use lihambozy::{kind, row};
///
/// assert_eq!(row::at_least(2, 3), [kind::AT_LEAST, 2, 3, 0]);
/// ```
pub const fn at_least(a: u32, b: u32) -> PlanRow {
    [kind::AT_LEAST, a, b, 0]
}
