//! A plain reader of plans, straight from document 01 ("Plan", "Calls" and "Who can cause which
//! refusal") and from requests N2 (APART) and N9 (AT LEAST) of document 02. It shares nothing with
//! the library or its wrappers: each row is judged by counting rows in front of it, and nothing is
//! carried on from row to row.

use super::{lists, Refused};
use std::ops::Range;

/// A row: kind, a, b and c.
pub type Row = [u32; 4];

pub const VOICE: u32 = 1;
pub const NEAR: u32 = 2;
pub const BEFORE: u32 = 3;
pub const SAME_TITLE: u32 = 4;
pub const SPAN: u32 = 5;
pub const END: u32 = 6;
pub const BOTH: u32 = 7;
pub const EITHER: u32 = 8;
pub const FIRST_NOT_SECOND: u32 = 9;
pub const APART: u32 = 10;
pub const AT_LEAST: u32 = 11;

/// The predicates (01: conditions).
const PREDICATES: [u32; 5] = [NEAR, BEFORE, SAME_TITLE, SPAN, APART];
/// The kinds that make one answer of two.
const OPERATORS: [u32; 3] = [BOTH, EITHER, FIRST_NOT_SECOND];

/// How many of the rows have one of these kinds.
fn count(rows: &[Row], kinds: &[u32]) -> usize {
    rows.iter().filter(|row| kinds.contains(&row[0])).count()
}

/// The rows behind the last END: those of the open pattern, if there is one.
fn behind_last_end(rows: &[Row]) -> &[Row] {
    let behind = rows.iter().rposition(|row| row[0] == END).map_or(0, |end| end + 1);
    &rows[behind..]
}

/// The variables (01: voices) of the open pattern (01: figure). None is open exactly if this is 0.
fn open_vars(rows: &[Row]) -> usize {
    count(behind_last_end(rows), &[VOICE])
}

/// The patterns that have been closed.
fn closed(rows: &[Row]) -> usize {
    count(rows, &[END])
}

/// The answers on the stack: an END brings one, an operator makes one of two, and an AT LEAST makes
/// one of b.
fn answers(rows: &[Row]) -> usize {
    let at_least = rows.iter().filter(|row| row[0] == AT_LEAST);
    let fewer: usize = at_least.map(|row| row[2] as usize - 1).sum();
    closed(rows) - count(rows, &OPERATORS) - fewer
}

/// Least and most of an APART: c = least × 65,536 + most.
pub fn limits(c: u32) -> (u32, u32) {
    (c / 65_536, c % 65_536)
}

/// 10: unknown kind, unused word not 0, c out of range, an APART whose least exceeds its most, or
/// an AT LEAST that is not of two to eight answers, or whose number is not 1 to that of them.
fn malformed([kind, a, b, c]: Row) -> bool {
    match kind {
        VOICE => b != 0 || c != 0,
        NEAR => c > 65_535,
        BEFORE | SAME_TITLE => c != 0,
        SPAN => a != 0 || b != 0 || !(1..=65_536).contains(&c),
        END | BOTH | EITHER | FIRST_NOT_SECOND => a != 0 || b != 0 || c != 0,
        APART => {
            let (least, most) = limits(c);
            least > most
        }
        AT_LEAST => !(2..=8).contains(&b) || !(1..=b).contains(&a) || c != 0,
        _ => true,
    }
}

/// 11: list 0, or a list not below T.
fn wrong_list([kind, a, ..]: Row, t: usize) -> bool {
    kind == VOICE && (a == 0 || a as usize >= t)
}

/// 12: a ninth voice, or a VOICE that would open a ninth figure.
fn too_many(before: &[Row], [kind, ..]: Row) -> bool {
    let ninth_var = open_vars(before) == 8;
    let ninth_pattern = open_vars(before) == 0 && closed(before) == 8;
    kind == VOICE && (ninth_var || ninth_pattern)
}

/// 13: VOICE after a condition; a condition with no figure open or naming a voice not there; END
/// with no figure open; 7 to 9 with a figure open or fewer than two answers; 11 with a figure open
/// or fewer than b answers.
fn out_of_order(before: &[Row], [kind, a, b, _]: Row) -> bool {
    let vars = open_vars(before);
    let is_open = vars > 0;
    let is_there = |var: u32| (var as usize) < vars;
    match kind {
        VOICE => count(behind_last_end(before), &PREDICATES) > 0,
        NEAR | BEFORE | SAME_TITLE | APART => !is_open || !is_there(a) || !is_there(b),
        SPAN | END => !is_open,
        AT_LEAST => is_open || answers(before) < b as usize,
        _ => is_open || answers(before) < 2,
    }
}

/// An accepted plan.
pub struct Plan {
    /// The rows of each pattern, VOICE to END, as words of the plan. There are F of them.
    pub patterns: Vec<Range<usize>>,
    /// V, the variables of all patterns together.
    pub vars: u32,
}

/// Checks a plan over a volume.
pub fn check(volume: &[u8], plan: &[u32]) -> Result<Plan, Refused> {
    let t = lists(volume)?.len();
    if plan.is_empty() || !plan.len().is_multiple_of(4) || plan.len() > 256 {
        return Err((9, 0));
    }
    let rows: Vec<Row> = plan.chunks(4).map(|row| [row[0], row[1], row[2], row[3]]).collect();
    for (i, &row) in rows.iter().enumerate() {
        let before = &rows[..i];
        let at = i as u32;
        if malformed(row) {
            return Err((10, at));
        }
        if wrong_list(row, t) {
            return Err((11, at));
        }
        if too_many(before, row) {
            return Err((12, at));
        }
        if out_of_order(before, row) {
            return Err((13, at));
        }
    }
    if open_vars(&rows) > 0 || answers(&rows) != 1 {
        return Err((14, 0));
    }
    Ok(Plan { patterns: patterns(&rows), vars: count(&rows, &[VOICE]) as u32 })
}

/// The words of each END and of the VOICE and predicate rows right in front of it.
fn patterns(rows: &[Row]) -> Vec<Range<usize>> {
    let is_inside = |row: &&Row| row[0] == VOICE || PREDICATES.contains(&row[0]);
    let ends = (0..rows.len()).filter(|&i| rows[i][0] == END);
    ends.map(|end| {
        let inside = rows[..end].iter().rev().take_while(is_inside).count();
        4 * (end - inside)..4 * (end + 1)
    })
    .collect()
}

/// The part of the plan that shows a pattern, as words of the plan: empty where the volume or the
/// plan is refused, or where the pattern's number is not below F.
pub fn part(checked: &Result<Plan, Refused>, pattern: u32) -> Range<usize> {
    let patterns = checked.as_ref().map_or(&[][..], |plan| &plan.patterns);
    patterns.get(pattern as usize).cloned().unwrap_or(0..0)
}
