//! The rows of a listing told in words, and as JSON.

use lihambozy::row::PlanRow;
use lihambozy::{kind, Names, Plan, Position, Row};

/// A variable of a pattern (01: voice): its list, and the word of that list where it is told.
pub struct Var<'a> {
    list: u32,
    word: Option<&'a str>,
}

/// The variables of each pattern of an accepted plan, in which each END closes a pattern. No
/// variable stands behind the last END: the last part is empty, and no pattern's.
pub fn patterns<'a>(plan: &Plan, names: Option<&'a Names>) -> Vec<Vec<Var<'a>>> {
    let var = |list: u32| Var { list, word: names.and_then(|names| names.word(list)) };
    let vars = |rows: &[PlanRow]| {
        rows.iter().filter(|row| row[0] == kind::VOICE).map(|row| var(row[1])).collect()
    };
    plan.rows().split(|row| row[0] == kind::END).map(vars).collect()
}

/// A row in words: a line for the scene and one for each figure.
pub fn in_words(row: &Row, patterns: &[Vec<Var<'_>>]) -> String {
    let mut lines = format!("scene {}\n", row.doc());
    for (number, (found, vars)) in row.patterns().zip(patterns).enumerate() {
        let told = match found {
            Some(found) => joined(", ", found.iter().zip(vars), place_in_words),
            None => "not found".into(),
        };
        lines += &format!("  figure {number}: {told}\n");
    }
    lines
}

fn place_in_words((position, var): (Position, &Var<'_>)) -> String {
    let voice = var.word.map_or_else(|| format!("list {}", var.list), str::to_string);
    let title = match position.title_start {
        Some(start) => format!("in the title from {start}"),
        None => "in no title".into(),
    };
    format!("{voice} at place {} {title}", position.pos)
}

/// A row as one line of JSON.
pub fn json(row: &Row, patterns: &[Vec<Var<'_>>]) -> String {
    let figures = joined(",", row.patterns().zip(patterns), |(found, vars)| match found {
        Some(found) => {
            let places = joined(",", found.iter().zip(vars), json_place);
            format!(r#"{{"found":true,"places":[{places}]}}"#)
        }
        None => r#"{"found":false}"#.into(),
    });
    format!(r#"{{"scene":{},"figures":[{figures}]}}"#, row.doc())
}

fn json_place((position, var): (Position, &Var<'_>)) -> String {
    let title = position.title_start.map_or_else(|| "null".into(), |start| start.to_string());
    let word = var.word.map_or_else(String::new, |word| format!(r#","word":{}"#, quoted(word)));
    format!(r#"{{"place":{},"title":{title}{word}}}"#, position.pos)
}

/// The end of a listing as one line of JSON.
pub fn json_done(tally: u64) -> String {
    format!(r#"{{"done":true,"tally":{tally}}}"#)
}

/// The word of a list as a string of JSON. It has no sign that cannot be printed.
fn quoted(word: &str) -> String {
    format!("\"{}\"", word.replace('\\', r"\\").replace('"', "\\\""))
}

fn joined<T>(between: &str, told: impl Iterator<Item = T>, tell: impl Fn(T) -> String) -> String {
    told.map(tell).collect::<Vec<String>>().join(between)
}
