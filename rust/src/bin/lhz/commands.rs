//! The commands, one function each.

use crate::arguments::Argument::{self, Line, Word};
use crate::arguments::{number, Arguments, Number};
use crate::failure::{self, Failure};
use crate::{files, help, listing};
use lihambozy::calls::CheckedPlan;
use lihambozy::text::{self, ListLine};
use lihambozy::{kind, line, Names, Plan, Refusal, Volume, BLOCK_BYTES};
use std::ffi::{OsStr, OsString};
use std::io::Write;

/// Runs the command that the arguments name.
pub fn run(
    mut arguments: impl Iterator<Item = OsString>,
    out: &mut impl Write,
) -> Result<(), Failure> {
    let Some(command) = arguments.next() else {
        return Err(Failure::Usage("no command is given".into()));
    };
    let command = command.to_string_lossy();
    match &*command {
        "--help" | "-h" | "help" => return print(out, help::ALL),
        "--version" | "-V" => {
            return print(out, concat!("lhz ", env!("CARGO_PKG_VERSION"), "\n"));
        }
        _ => {}
    }
    let Some(page) = help::page(&command) else {
        return Err(Failure::Usage(format!("there is no command `{command}`")));
    };
    let arguments = Arguments::new(&command, arguments)?;
    if arguments.help {
        return print(out, page);
    }
    let Arguments { as_line, json, .. } = arguments;
    let names = arguments.names.as_deref();
    match (&*command, &arguments.in_place(&command)[..]) {
        ("check", &[Word(volume)]) => check(volume, None, out),
        ("check", &[Word(volume), plan]) => check(volume, Some(plan), out),
        ("list", &[Word(volume), plan]) => list(volume, plan, names, json, out),
        ("matches", &[Word(volume), plan, Word(pattern), Word(doc), ref from @ ..]) => {
            let asked = Asked { may_lack_places: true, ..Asked::new(pattern, doc, from)? };
            matches(volume, plan, &asked, out)
        }
        ("read", &[Word(volume)]) => read(volume, None, out),
        ("read", &[Word(volume), Word(list)]) => read(volume, Some(list), out),
        ("test", &[Word(volume), plan, Word(pattern), Word(doc), ref positions @ ..]) => {
            test(volume, plan, &Asked::new(pattern, doc, positions)?, out)
        }
        ("write", &[Word(text), Word(volume)]) => write(text, volume, out),
        ("join", &[Word(first), Word(second), Word(raise), Word(volume)]) => {
            join([first, second], number("H", raise)?, volume, out)
        }
        ("plan", &[text, Word(plan)]) => write_plan(text, plan, out),
        ("show", &[Word(volume), plan]) if as_line => show_line(volume, plan, names, out),
        ("show", &[plan]) if !as_line && names.is_none() => show(plan, out),
        ("show", &[Word(volume), plan, Word(pattern)]) if !as_line && names.is_none() => {
            show_pattern(volume, plan, pattern, out)
        }
        _ => {
            let used = help::uses(page).collect::<Vec<&str>>().join(", ");
            Err(Failure::Usage(format!("{command} takes other arguments: {used}")))
        }
    }
}

fn print(out: &mut impl Write, text: impl std::fmt::Display) -> Result<(), Failure> {
    write!(out, "{text}").map_err(Failure::output)
}

/// The volume of a file.
fn open(path: &OsStr) -> Result<Volume<'static>, Failure> {
    let bytes = files::volume(path)?;
    Volume::new(bytes).map_err(|refusal| Failure::refused(files::name(path), refusal))
}

/// A plan, as its argument names it for a person.
fn plan_name(plan: Argument<'_>) -> String {
    match plan {
        Word(path) => files::name(path),
        Line(_) => failure::TYPED.into(),
    }
}

/// Whether a plan is read from standard input.
fn is_input(plan: Argument<'_>) -> bool {
    matches!(plan, Word(path) if path == "-")
}

/// The plan of a file, or of a typed line.
fn open_plan(plan: Argument<'_>) -> Result<Plan, Failure> {
    let read = match plan {
        Word(path) => Plan::from_bytes(&files::plan(path)?),
        Line(typed) => return read_line(typed.as_encoded_bytes()),
    };
    read.map_err(|refusal| Failure::refused(plan_name(plan), refusal))
}

/// The plan of a typed line.
fn read_line(typed: &[u8]) -> Result<Plan, Failure> {
    Plan::from_line(typed).map_err(|refusal| match line::refused(typed, refusal) {
        Some(why) => {
            let sentence = with_number(&why, refusal);
            let marked = line::Marked::new(typed, refusal.at as usize).to_string();
            Failure::Line { refusal, sentence, marked }
        }
        None => Failure::refused(failure::TYPED, refusal),
    })
}

/// The volume of a file, and a plan that is accepted over it.
fn open_both(
    volume: &OsStr,
    source: Argument<'_>,
) -> Result<(Volume<'static>, Plan, CheckedPlan), Failure> {
    if volume == "-" && is_input(source) {
        return Err(Failure::Usage("volume and plan cannot both be standard input".into()));
    }
    let volume = open(volume)?;
    let plan = open_plan(source)?;
    match volume.check(&plan) {
        Ok(checked) => Ok((volume, plan, checked)),
        Err(refusal) => {
            let row = |at: u32| Plan::new([plan.rows()[at as usize]]).to_string();
            let sentence = match (refusal.number, refusal.at, source) {
                (10..=13, at, Word(_)) => {
                    format!("{refusal}; the row is `{}`", row(at).trim_end())
                }
                (10..=13, at, Line(_)) => {
                    format!("{refusal}; row {at}, counted from 0: {}", row(at).trim_end())
                }
                _ => refusal.to_string(),
            };
            Err(Failure::Refused { file: plan_name(source), refusal, sentence })
        }
    }
}

/// The volume of a file, a plan that is accepted over it, and the words of lists, where a file of
/// them is given.
fn open_named(
    volume: &OsStr,
    source: Argument<'_>,
    names: Option<&OsStr>,
) -> Result<(Volume<'static>, Plan, Option<Names>), Failure> {
    if names.is_some_and(|path| path == "-") && (volume == "-" || is_input(source)) {
        return Err(Failure::Usage(
            "names and volume or plan cannot both be standard input".into(),
        ));
    }
    let (volume, plan, _) = open_both(volume, source)?;
    Ok((volume, plan, names.map(open_names).transpose()?))
}

/// A sentence on a refusal, with the refusal's number and place behind it.
fn with_number(why: &str, Refusal { number, at }: Refusal) -> String {
    format!("{why} (refused {number} {at})")
}

/// What a call refuses with 17, told of a file or a typed line.
fn no_such(file: String, refusal: Refusal, why: String) -> Failure {
    Failure::Refused { file, refusal, sentence: with_number(&why, refusal) }
}

fn check(volume: &OsStr, plan: Option<Argument<'_>>, out: &mut impl Write) -> Result<(), Failure> {
    let tell = |volume: &Volume<'_>| {
        format!("lists {} postings {}\n", volume.list_count(), volume.posting_count())
    };
    match plan {
        None => print(out, tell(&open(volume)?)),
        Some(plan) => {
            let (volume, _, CheckedPlan { patterns, vars }) = open_both(volume, plan)?;
            print(out, tell(&volume))?;
            print(out, format_args!("figures {patterns} voices {vars}\n"))
        }
    }
}

/// Lists in document 01's words, or in words with those of `names`, or as JSON.
fn list(
    volume: &OsStr,
    source: Argument<'_>,
    names: Option<&OsStr>,
    json: bool,
    out: &mut impl Write,
) -> Result<(), Failure> {
    let (volume, plan, names) = open_named(volume, source, names)?;
    let search = volume.search(&plan);
    let mut search = search.map_err(|refusal| Failure::refused(plan_name(source), refusal))?;
    let patterns = listing::patterns(&plan, names.as_ref());
    for row in search.by_ref() {
        match (json, &names) {
            (true, _) => print(out, format_args!("{}\n", listing::json(&row, &patterns)))?,
            (false, Some(_)) => print(out, listing::in_words(&row, &patterns))?,
            (false, None) => print(out, format_args!("{row}\n"))?,
        }
    }
    match json {
        true => print(out, format_args!("{}\n", listing::json_done(search.tally()))),
        false => print(out, format_args!("done {}\n", search.tally())),
    }
}

fn read(path: &OsStr, list: Option<&OsStr>, out: &mut impl Write) -> Result<(), Failure> {
    let list = list.map(|list| number("LIST", list)).transpose()?;
    let volume = open(path)?;
    match list {
        None => {
            volume.lists().try_for_each(|list| print(out, format_args!("{}\n", ListLine(&list))))
        }
        Some(list) => match volume.list(list.value) {
            Ok(list) => print(out, format_args!("{}\n", ListLine(&list))),
            Err(refusal) => {
                let why = not_there("list", list, volume.list_count());
                Err(no_such(files::name(path), refusal, why))
            }
        },
    }
}

/// What is asked of a plan's figure in a scene, with places for its voices.
struct Asked<'a> {
    pattern: Number<'a>,
    doc: Number<'a>,
    places: Vec<Number<'a>>,
    positions: Vec<u32>,
    /// Whether it may be asked without places.
    may_lack_places: bool,
}

impl<'a> Asked<'a> {
    fn new(pattern: &'a OsStr, doc: &'a OsStr, places: &[Argument<'a>]) -> Result<Self, Failure> {
        let pattern = number("FIGURE", pattern)?;
        let doc = number("SCENE", doc)?;
        let places = places.iter().map(|&(Word(pos) | Line(pos))| number("PLACE", pos));
        let places = places.collect::<Result<Vec<Number<'_>>, Failure>>()?;
        let positions = places.iter().map(|pos| pos.value).collect();
        Ok(Asked { pattern, doc, places, positions, may_lack_places: false })
    }

    /// Why a call that is asked this refuses it with 17.
    fn refused(
        &self,
        source: Argument<'_>,
        (volume, plan, checked): &(Volume<'_>, Plan, CheckedPlan),
        refusal: Refusal,
    ) -> Failure {
        let Asked { pattern, doc, places, positions, may_lack_places } = self;
        let Ok(rows) = volume.pattern_rows(plan, pattern.value) else {
            let why = not_there("figure", *pattern, checked.patterns);
            return no_such(plan_name(source), refusal, why);
        };
        let vars = rows.iter().filter(|row| row[0] == kind::VOICE).count();
        let over = [doc].into_iter().chain(places).find(|number| number.value > 65_535);
        let is_right_number = positions.len() == vars || positions.is_empty() && *may_lack_places;
        let why = match over {
            Some(number) if is_right_number => {
                format!("{number} is over 65535, the last scene and place")
            }
            _ => format!(
                "the number of voices of figure {pattern} is {vars}, that of the places given is \
                 {}",
                positions.len()
            ),
        };
        no_such(plan_name(source), refusal, why)
    }
}

fn test(
    volume: &OsStr,
    source: Argument<'_>,
    asked: &Asked<'_>,
    out: &mut impl Write,
) -> Result<(), Failure> {
    let opened = open_both(volume, source)?;
    let (volume, plan, _) = &opened;
    match volume.test(plan, asked.pattern.value, asked.doc.value, &asked.positions) {
        Ok(passes) => print(out, if passes { "yes\n" } else { "no\n" }),
        Err(refusal) => Err(asked.refused(source, &opened, refusal)),
    }
}

fn matches(
    volume: &OsStr,
    source: Argument<'_>,
    asked: &Asked<'_>,
    out: &mut impl Write,
) -> Result<(), Failure> {
    let opened = open_both(volume, source)?;
    let (volume, plan, _) = &opened;
    let (pattern, doc) = (asked.pattern.value, asked.doc.value);
    let matches = match &asked.positions[..] {
        [] => volume.matches(plan, pattern, doc),
        from => volume.matches_from(plan, pattern, doc, from),
    };
    let matches = matches.map_err(|refusal| asked.refused(source, &opened, refusal))?;
    let mut count: u64 = 0;
    for tuple in matches {
        print(out, format_args!("{tuple}\n"))?;
        count += 1;
    }
    print(out, format_args!("done {count}\n"))
}

/// There is no list or figure of that number among so many.
fn not_there(what: &str, number: Number<'_>, count: u32) -> String {
    match count {
        1 => format!("there is no {what} {number}; its only {what} is {what} 0"),
        _ => format!("there is no {what} {number}; its {what}s are 0 to {}", count - 1),
    }
}

fn write(path: &OsStr, volume: &OsStr, out: &mut impl Write) -> Result<(), Failure> {
    apart(path, volume)?;
    let text = files::lists_text(path)?;
    let wrong = |mistake, refusal| Failure::Text { file: files::name(path), mistake, refusal };
    let lists = text::lists(&text).map_err(|mistake| wrong(mistake, None))?;
    let written =
        Volume::of_lists(&lists).map_err(|refusal| match text::refused(&text, refusal) {
            Some(mistake) => wrong(mistake, Some(refusal)),
            None => Failure::refused(files::name(path), refusal),
        })?;
    save(&written, volume, out)
}

/// Writes a volume to a file, and tells what it holds where that is not on standard output.
fn save(written: &Volume<'_>, volume: &OsStr, out: &mut impl Write) -> Result<(), Failure> {
    files::write(volume, written.as_bytes(), out)?;
    if volume == "-" {
        return Ok(());
    }
    let (lists, postings) = (written.list_count(), written.posting_count());
    let blocks = written.as_bytes().len() / BLOCK_BYTES;
    print(out, format_args!("lists {lists} postings {postings} blocks {blocks}\n"))
}

fn join(
    paths: [&OsStr; 2],
    raise: Number<'_>,
    volume: &OsStr,
    out: &mut impl Write,
) -> Result<(), Failure> {
    if paths == ["-"; 2] {
        return Err(Failure::Usage("FIRST and SECOND cannot both be standard input".into()));
    }
    paths.into_iter().try_for_each(|path| apart(path, volume))?;
    let [first, second] = [open(paths[0])?, open(paths[1])?];
    let joined = first.join(&second, raise.value);
    let joined = joined.map_err(|refusal| unjoined(paths, [&first, &second], raise, refusal))?;
    save(&joined, volume, out)
}

/// Why two volumes are not joined.
fn unjoined(
    paths: [&OsStr; 2],
    [first, second]: [&Volume<'_>; 2],
    raise: Number<'_>,
    refusal: Refusal,
) -> Failure {
    let [one, other] = paths.map(files::name);
    let both = format!("{one} and {other}");
    let (file, why) = match refusal.number {
        24 => {
            let (lists, others) = (first.list_count(), second.list_count());
            (both, format!("their numbers of lists are {lists} and {others}, and must be equal"))
        }
        25 => (other, bad_raise(raise, first.least_raise(second), &one)),
        _ => return Failure::refused(both, refusal),
    };
    Failure::Refused { file, refusal, sentence: with_number(&why, refusal) }
}

/// Why H does not do, and the least that would.
fn bad_raise(raise: Number<'_>, least: Option<u32>, first: &str) -> String {
    let Some(least) = least else {
        return format!(
            "no H would do: raised above the scenes of {first}, its last scene is over 65535"
        );
    };
    let why = match raise.value < least {
        true => format!("small: raised by it, its first scene is not above those of {first}"),
        false => "large: raised by it, its last scene is over 65535".into(),
    };
    format!("H {raise} is too {why}; the least H that would do is {least}")
}

fn write_plan(source: Argument<'_>, plan: &OsStr, out: &mut impl Write) -> Result<(), Failure> {
    let written = match source {
        Line(typed) => read_line(typed.as_encoded_bytes())?,
        Word(path) => {
            apart(path, plan)?;
            let wrong = |mistake| Failure::Text { file: files::name(path), mistake, refusal: None };
            files::plan_text(path)?.parse().map_err(wrong)?
        }
    };
    let bytes = written.to_bytes();
    // Not every number of rows makes a plan file.
    Plan::from_bytes(&bytes).map_err(|refusal| Failure::refused(plan_name(source), refusal))?;
    files::write(plan, &bytes, out)?;
    if plan == "-" {
        return Ok(());
    }
    print(out, format_args!("rows {}\n", written.rows().len()))
}

/// What is read is not written over.
fn apart(read: &OsStr, written: &OsStr) -> Result<(), Failure> {
    if files::same(read, written) {
        let why = "it is what is read, and is not written over".into();
        return Err(Failure::File { file: files::name(read), why });
    }
    Ok(())
}

fn show(plan: Argument<'_>, out: &mut impl Write) -> Result<(), Failure> {
    print(out, open_plan(plan)?)
}

fn show_pattern(
    volume: &OsStr,
    source: Argument<'_>,
    pattern: &OsStr,
    out: &mut impl Write,
) -> Result<(), Failure> {
    let pattern = number("FIGURE", pattern)?;
    let (volume, plan, checked) = open_both(volume, source)?;
    let rows = volume.pattern_rows(&plan, pattern.value).map_err(|refusal| {
        let why = not_there("figure", pattern, checked.patterns);
        no_such(plan_name(source), refusal, why)
    })?;
    print(out, Plan::new(rows))
}

/// A plan as a line, and beside it the word of each list that it names, in the line's order.
fn show_line(
    volume: &OsStr,
    source: Argument<'_>,
    names: Option<&OsStr>,
    out: &mut impl Write,
) -> Result<(), Failure> {
    let (volume, plan, names) = open_named(volume, source, names)?;
    let line = plan.to_line(&volume);
    let line = line.map_err(|refusal| Failure::refused(plan_name(source), refusal))?;
    print(out, format_args!("{line}\n"))?;
    let Some(names) = names else {
        return Ok(());
    };
    let mut told: Vec<u32> = vec![];
    for row in plan.rows().iter().filter(|row| row[0] == kind::VOICE) {
        let list = row[1];
        if !told.contains(&list) {
            told.push(list);
            print(out, format_args!("{list} {}\n", names.word(list).unwrap_or("(no word)")))?;
        }
    }
    Ok(())
}

/// The words of lists that a file tells.
fn open_names(path: &OsStr) -> Result<Names, Failure> {
    let wrong = |mistake| Failure::Text { file: files::name(path), mistake, refusal: None };
    files::lists_text(path)?.parse().map_err(wrong)
}
