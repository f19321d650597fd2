//! The kinds of a plan's rows. Words that a kind does not use are 0.

/// A variable of a pattern (01: a voice of a figure), with list `a`. It opens a pattern where
/// none is open. Variables are numbered from 0 in each pattern.
pub const VOICE: u32 = 1;
/// The positions of variables `a` and `b` differ by at most `c` + 1; `c` is 0 to 65,535.
pub const NEAR: u32 = 2;
/// The position of variable `a` is less than that of variable `b`.
pub const BEFORE: u32 = 3;
/// Variables `a` and `b` stand in one title: some title starts at or before both positions, and
/// none starts behind the smaller and at or before the larger. Positions before the first title of
/// a document are in no title, so that it may fail also where `a` is `b`: it asks that the variable
/// stands in a title.
pub const SAME_TITLE: u32 = 4;
/// The largest and smallest position of the pattern's variables differ by at most `c` - 1; `c`
/// is 1 to 65,536.
pub const SPAN: u32 = 5;
/// Closes the pattern; its answer is stacked.
pub const END: u32 = 6;
/// Takes the top two answers and stacks one: both are yes.
pub const BOTH: u32 = 7;
/// Takes the top two answers and stacks one: at least one is yes.
pub const EITHER: u32 = 8;
/// Takes the top two answers and stacks one: the lower is yes and the upper is not.
pub const FIRST_NOT_SECOND: u32 = 9;
/// Variable `b` stands behind variable `a`, at a set remove: the position of `b` less that of `a`
/// less 1, the number of positions between them, is from a least to a most, both counted in. `c` is
/// least * 65,536 + most, and least is not over most. A most of 65,535 sets no upper end. It never
/// holds where `a` is `b`.
pub const APART: u32 = 10;
/// Takes the top `b` answers and stacks one: `a` or more of them are yes. `b` is 2 to 8, and `a` is
/// 1 to `b`. Of two answers, 1 is what [`EITHER`] asks for, and 2 what [`BOTH`] does.
pub const AT_LEAST: u32 = 11;
