//! docs/TRACE.md: each name on the page is there in the repository, what the page must name is on
//! it, and its lists of gaps are those of its sentences. docs/DECISIONS.md: the open functions with
//! a `requires` are those that it lists.

use crate::support::files::{self, repository};
use std::collections::{BTreeMap, BTreeSet};
use std::fs;

// The page.

/// The lines under a sentence.
#[derive(Clone, Copy, Debug, PartialEq, Eq, PartialOrd, Ord)]
enum Line {
    Said,
    Proved,
    Edit,
    Test,
}
use Line::{Edit, Proved, Said, Test};

const LINES: [Line; 4] = [Said, Proved, Edit, Test];
const LABELS: [&str; 4] = ["said by: ", "proved by: ", "edit: ", "test: "];

/// The libraries of the Rattle kit that the page names functions of.
const KIT: [&str; 2] = ["libc", "os"];

/// A sentence of document 01 or 02: its id, its words, and what the lines under it say.
#[derive(Default)]
struct Sentence {
    id: String,
    words: String,
    lines: Vec<String>,
}

impl Sentence {
    /// Takes one more line of the page.
    fn read(&mut self, line: &str) {
        if let Some(words) = line.strip_prefix("> ") {
            assert!(self.lines.is_empty(), "{}: words behind its lines: {line}", self.id);
            self.words += words;
            self.words += " ";
        } else if let Some(item) = line.strip_prefix("- ") {
            let label = LABELS.get(self.lines.len()).copied().unwrap_or("no line");
            let told = item.strip_prefix(label).map(str::to_string);
            self.lines.push(told.unwrap_or_else(|| panic!("{}, {label}: {line}", self.id)));
        } else if let Some(more) = line.strip_prefix("  ") {
            let last = self.lines.last_mut().expect("a line to carry on");
            *last += " ";
            *last += more;
        } else {
            assert_eq!(line, "", "{}", self.id);
        }
    }

    /// Whether a line says that there is nothing.
    fn lacks(&self, line: Line) -> bool {
        self.lines[line as usize].starts_with("none")
    }
}

/// The sentences of the page, and the lines that belong to none.
struct Page {
    sentences: Vec<Sentence>,
    prose: Vec<String>,
}

fn page() -> Page {
    let mut page = Page { sentences: vec![], prose: vec![] };
    let mut inside = false;
    for line in read("docs/TRACE.md").lines() {
        if line.starts_with('#') {
            let id = line.strip_prefix("### ").filter(|id| is_id(id)).map(str::to_string);
            inside = id.is_some();
            page.sentences.extend(id.map(|id| Sentence { id, ..Sentence::default() }));
        }
        match page.sentences.last_mut() {
            Some(sentence) if inside && !line.starts_with('#') => sentence.read(line),
            _ => page.prose.push(line.to_string()),
        }
    }
    for Sentence { id, lines, .. } in &page.sentences {
        assert_eq!(lines.len(), LINES.len(), "lines of {id}");
    }
    page
}

/// A capital, and a number.
fn is_id(word: &str) -> bool {
    let number = word.strip_prefix(|c: char| c.is_ascii_uppercase());
    number.is_some_and(|number| number.parse::<u32>().is_ok())
}

/// What stands between backquotes.
fn quoted(text: &str) -> impl Iterator<Item = &str> {
    assert!(text.matches('`').count().is_multiple_of(2), "a backquote is left open: {text}");
    text.split('`').skip(1).step_by(2)
}

/// Every name on the page, with the sentence and the line that it stands in. Outside the sentences
/// an edit or a test is told by that word, and the words that name nothing of the repository are
/// free.
fn references() -> Vec<(String, Line, String)> {
    let mut references = Vec::new();
    let Page { sentences, prose } = page();
    for Sentence { id, lines, .. } in &sentences {
        for (line, told) in LINES.into_iter().zip(lines) {
            references.extend(quoted(told).map(|name| (id.clone(), line, name.to_string())));
        }
    }
    for name in prose.iter().flat_map(|line| quoted(line)) {
        let told = match name.split_once(' ') {
            Some(("edit", name)) => Some((Edit, name)),
            Some(("test", name)) => Some((Test, name)),
            Some(_) => None,
            None => {
                let is_kits = KIT.iter().any(|library| name.starts_with(&format!("{library}::")));
                (name.contains('/') || name.contains("::") && !is_kits).then_some((Said, name))
            }
        };
        references.extend(told.map(|(line, name)| ("prose".into(), line, name.to_string())));
    }
    references
}

/// The names on one line of all sentences, or in the prose.
fn cited(line: Line) -> BTreeSet<String> {
    references().into_iter().filter(|(_, of, _)| *of == line).map(|(_, _, name)| name).collect()
}

// The repository.

fn read(path: &str) -> String {
    files::text(repository(path))
}

/// The text of a file, or nothing where there is no file.
fn read_if_there(path: &str) -> String {
    fs::read_to_string(repository(path)).unwrap_or_default()
}

/// The paths of the files of a kind in a folder and the folders in it.
fn files(folder: &str, kind: &str) -> Vec<String> {
    let found = files::files(repository(folder)).into_iter();
    found.filter(|path| path.ends_with(kind)).map(|path| format!("{folder}/{path}")).collect()
}

fn crates() -> Vec<String> {
    files::names(repository("crates"))
}

/// The crate that a name starts with, and what stands behind it.
fn of_crate(name: &str) -> Option<(&str, &str)> {
    let end = name.find(['/', ':'])?;
    crates().iter().any(|of| of == &name[..end]).then_some((&name[..end], &name[end..]))
}

fn resolves(line: Line, name: &str) -> bool {
    match (line, of_crate(name)) {
        (Edit, _) => edits().contains(name),
        (Test, _) => name.split_once("::").is_some_and(|(file, name)| is_test(file, name)),
        (_, Some((of, name))) => match (name.strip_prefix('/'), name.strip_prefix("::")) {
            (Some(name), _) => name.split_once('.').is_some_and(|(file, name)| match line {
                Proved => file == "Demands" && theorems(of).contains(name),
                _ => is_defined(of, file, name),
            }),
            (_, Some(name)) => has_promise(of, name) || line == Said && is_declared(of, name),
            _ => false,
        },
        (_, None) => !name.is_empty() && repository(name).exists(),
    }
}

/// The names with the same end that would resolve: of another crate, file of definitions or of
/// tests.
fn alike(line: Line, name: &str) -> Vec<String> {
    let stem = |path: &str| path.rsplit('/').next().unwrap().split('.').next().unwrap().to_string();
    let end = name.find(['/', ':']).unwrap_or(name.len());
    let rest = &name[end..];
    let mut names: BTreeSet<String> =
        files("rust/tests", ".rs").iter().map(|path| stem(path) + rest).collect();
    for of in crates() {
        names.insert(format!("{of}{rest}"));
        if let Some((_, name)) = rest.split_once('.') {
            let files = files(&format!("crates/{of}/specs"), ".antt");
            names.extend(files.iter().map(|path| format!("{of}/{}.{name}", stem(path))));
        }
    }
    names.into_iter().filter(|name| resolves(line, name)).collect()
}

/// The edits of all crates: `must-fail` has those of the gate, `mutants` those of `make mutants`.
fn edits() -> BTreeSet<String> {
    let mut edits = BTreeSet::new();
    for path in files("crates", ".edit") {
        let parts: Vec<&str> = path.trim_end_matches(".edit").split('/').collect();
        let [_, of, "must-fail" | "mutants", name] = parts[..] else {
            panic!("{path} is never tried");
        };
        assert!(edits.insert(format!("{of}/{name}")), "edit {of}/{name} stands in both folders");
    }
    edits
}

/// The words of a line of definitions without the marks in front.
fn unmarked(line: &str) -> &str {
    let mut rest = line.trim_start();
    while let Some(behind) =
        ["abbrev ", "unfoldable ", "pub "].iter().find_map(|m| rest.strip_prefix(m))
    {
        rest = behind;
    }
    rest
}

/// Whether a file of definitions, of a crate or of its folder `Inner`, has a name, or a record or a
/// relation with a field or a case.
fn is_defined(of: &str, file: &str, name: &str) -> bool {
    let folder = format!("crates/{of}/specs");
    let text = read_if_there(&format!("{folder}/{file}.antt"))
        + &read_if_there(&format!("{folder}/Inner/{file}.antt"));
    let (name, part) = name.split_once('.').map_or((name, None), |(name, part)| (name, Some(part)));
    let is_signature = |line: &str, name: &str| {
        unmarked(line).strip_prefix(name).is_some_and(|rest| rest.starts_with(" :"))
    };
    let is_type = |line: &str| {
        let words: Vec<&str> = unmarked(line).split(' ').collect();
        ["record", "data"].contains(&words[0]) && words.get(1) == Some(&name)
    };
    // What stands in a module is indented, and so are fields and cases, which have no such mark.
    let is_marked =
        |line: &str| ["abbrev ", "unfoldable "].iter().any(|m| line.trim_start().starts_with(m));
    let indent = |line: &str| line.len() - line.trim_start().len();
    // Those that name each other stand one step inside a line `mutual`.
    let mut mutual = false;
    let mut is_outer = |line: &str| {
        if indent(line) == 0 && !line.is_empty() {
            mutual = unmarked(line) == "mutual";
        }
        indent(line) == 0 || mutual && indent(line) == 2 || is_marked(line)
    };
    let mut lines = text.lines();
    match part {
        None => lines.any(|line| is_outer(line) && is_signature(line, name) || is_type(line)),
        Some(part) => lines.by_ref().find(|line| is_type(line)).is_some_and(|record| {
            let mut inside = lines.take_while(|line| indent(record) < indent(line));
            inside.any(|line| is_signature(line, part))
        }),
    }
}

/// The statements of a crate that are proved.
fn theorems(of: &str) -> BTreeSet<String> {
    let text = read_if_there(&format!("crates/{of}/proofs/Demands.antt"));
    let proved = text.lines().filter_map(|line| line.strip_prefix("pub ")?.split_once(" : "));
    proved.map(|(_, statement)| statement.to_string()).collect()
}

/// A function of a crate's code, a method by `Type::name`: its module, its marks, and its head up
/// to the body.
struct Function {
    name: String,
    module: String,
    marks: String,
    head: String,
}

/// The type of a line that begins its methods, without its parameters.
fn type_of(line: &str) -> Option<&str> {
    let rest = line.strip_prefix("impl")?.strip_suffix(" {")?;
    let named = match rest.strip_prefix('<') {
        Some(rest) => rest.split_once("> ")?.1,
        None => rest.strip_prefix(' ')?,
    };
    named.split('<').next()
}

fn functions(of: &str) -> Vec<Function> {
    let mut functions = Vec::new();
    let folder = format!("crates/{of}/src");
    for file in files(&folder, ".rt") {
        let module = file[folder.len() + 1..].trim_end_matches(".rt").replace('/', "::");
        let text = read(&file);
        let lines: Vec<&str> = text.lines().collect();
        let mut methods_of = None;
        for (i, line) in lines.iter().enumerate() {
            match type_of(line) {
                Some(name) => methods_of = Some(name),
                None if *line == "}" => methods_of = None,
                None => {}
            }
            let Some((marks, rest)) = line.split_once("fn ") else {
                continue;
            };
            if !["", "pub", "pub extern \"C\""].contains(&marks.trim()) {
                continue;
            }
            let name = rest.split(['(', '<']).next().unwrap_or_default();
            let name = methods_of.map_or(name.to_string(), |of| format!("{of}::{name}"));
            let body = lines[i..].iter().position(|line| line.ends_with('{')).expect("a body");
            let head = lines[i..=i + body].join("\n");
            let (module, marks) = (module.clone(), marks.trim().to_string());
            functions.push(Function { name, module, marks, head });
        }
    }
    functions
}

/// Whether a crate has one function of that name and it promises something.
fn has_promise(of: &str, name: &str) -> bool {
    let named: Vec<Function> = functions(of).into_iter().filter(|f| f.name == name).collect();
    matches!(&named[..], [function] if function.head.contains(" ensures "))
}

/// The paths that a library's `lib.rt` hands on, each by itself.
fn handed_on(of: &str) -> BTreeSet<String> {
    let text = read_if_there(&format!("crates/{of}/src/lib.rt"));
    let mut handed = BTreeSet::new();
    for item in text.split("\npub use ").skip(1) {
        let (item, _) = item.split_once(';').expect("an end");
        let (module, names) = match item.strip_suffix('}') {
            Some(several) => several.split_once("::{").expect("names in brackets"),
            None => item.rsplit_once("::").expect("a path"),
        };
        let names = names.split(',').map(str::trim).filter(|name| !name.is_empty());
        handed.extend(names.map(|name| format!("{module}::{name}")));
    }
    assert!(!handed.iter().any(|path| path.contains(['{', '*', ' '])), "{of} hands on {handed:?}");
    handed
}

/// The functions that a library opens to other crates or to C: those of its modules that its
/// `lib.rt` hands on, the open methods of the types that it hands on, and those with a C name.
fn open_functions(of: &str) -> Vec<Function> {
    let handed = handed_on(of);
    let is_open = |Function { name, module, marks, .. }: &Function| match name.split_once("::") {
        Some((of_type, _)) => marks == "pub" && handed.contains(&*format!("{module}::{of_type}")),
        None => handed.contains(&*format!("{module}::{name}")) || marks.contains("extern"),
    };
    functions(of).into_iter().filter(is_open).collect()
}

/// Whether a crate's code has a type or a constant of that name.
fn is_declared(of: &str, name: &str) -> bool {
    let is_here = |line: &str| {
        let words: Vec<&str> = line.split_whitespace().filter(|word| *word != "pub").collect();
        let named = words.get(1).map(|word| word.trim_end_matches([':', ';']));
        ["struct", "enum", "const"].contains(words.first().unwrap_or(&"")) && named == Some(name)
    };
    files(&format!("crates/{of}/src"), ".rt").iter().any(|file| read(file).lines().any(is_here))
}

/// Whether one file of that name, anywhere in `rust/tests` or `rust/src`, has a test of that name.
fn is_test(file: &str, name: &str) -> bool {
    let end = format!("/{file}.rs");
    let named = [files("rust/tests", ".rs"), files("rust/src", ".rs")].concat();
    named.iter().filter(|path| path.ends_with(&end) && has_test(&read(path), name)).count() == 1
}

fn has_test(text: &str, name: &str) -> bool {
    let lines: Vec<&str> = text.lines().map(str::trim).collect();
    let head = format!("fn {name}() {{");
    let Some(at) = lines.iter().position(|line| *line == head) else {
        return false;
    };
    let mut marks = lines[..at].iter().rev().take_while(|line| line.starts_with("#["));
    marks.any(|line| *line == "#[test]")
}

// The tests.

#[test]
fn every_name_is_there() {
    let mut missing: BTreeMap<(Line, String), Vec<String>> = BTreeMap::new();
    for (at, line, name) in references() {
        if !resolves(line, &name) {
            missing.entry((line, name)).or_default().push(at);
        }
    }
    let told = missing.iter().map(|((line, name), at)| {
        format!("{line:?} {name}, in {at:?}; alike are {:?}\n", alike(*line, name))
    });
    assert!(missing.is_empty(), "not there:\n{}", told.collect::<String>());
}

/// A line has a name of its kind, or says that there is none.
#[test]
fn no_line_is_empty() {
    for sentence in page().sentences {
        for (line, told) in LINES.into_iter().zip(&sentence.lines) {
            let names = quoted(told).filter(|name| name.contains(['/', ':'])).count();
            assert!(names > 0 || sentence.lacks(line), "{}, {line:?}: {told}", sentence.id);
        }
    }
}

/// The ids of a letter go from 1 upward, and the page tells how many there are.
#[test]
fn no_sentence_is_missing() {
    let Page { sentences, prose } = page();
    let mut last = BTreeMap::new();
    for Sentence { id, .. } in &sentences {
        let (letter, number) = id.split_at(1);
        let last = last.entry(letter).or_insert(0);
        *last += 1;
        assert_eq!(number, last.to_string(), "{id} is not the next id");
    }
    assert!(sentences.len() > 100, "{} sentences", sentences.len());
    let told = format!("The page has {} sentences.", sentences.len());
    assert!(prose.join(" ").contains(&told), "the page does not say: {told}");
}

#[test]
fn every_refusal_has_its_sentence() {
    let sentences = page().sentences;
    for number in 1..=20 {
        let (id, start) = (format!("R{number}"), format!("{number}: "));
        let sentence = sentences.iter().find(|sentence| sentence.id == id);
        assert!(sentence.is_some_and(|s| s.words.starts_with(&start)), "refusal {number}");
    }
}

#[test]
fn every_edit_is_cited() {
    let (edits, cited) = (edits(), cited(Edit));
    let uncited: Vec<_> = edits.difference(&cited).collect();
    assert!(uncited.is_empty(), "edits that are not cited: {uncited:#?}");
    assert!(edits.len() > 40, "{} edits", edits.len());
}

#[test]
fn every_theorem_is_cited() {
    let proved = crates().into_iter().flat_map(|of| {
        theorems(&of).into_iter().map(move |statement| format!("{of}/Demands.{statement}"))
    });
    let (proved, cited) = (proved.collect::<BTreeSet<String>>(), cited(Proved));
    let uncited: Vec<_> = proved.difference(&cited).collect();
    assert!(uncited.is_empty(), "theorems that are not cited as proved: {uncited:#?}");
    assert!(proved.len() > 20, "{} theorems", proved.len());
}

/// What the page says of its gaps is what its sentences show.
#[test]
fn every_gap_is_told() {
    let Page { sentences, prose } = page();
    for (heading, lines) in [
        ("### No edit", &[Edit][..]),
        ("### No test", &[Test]),
        ("### No definition, or nothing proved", &[Said, Proved]),
    ] {
        let lacking = sentences.iter().filter(|s| lines.iter().any(|line| s.lacks(*line)));
        let lacking: BTreeSet<&str> = lacking.map(|sentence| sentence.id.as_str()).collect();
        let behind = prose.iter().skip_while(|line| *line != heading).skip(1);
        let under = behind.take_while(|line| !line.starts_with('#'));
        let words = under.flat_map(|line| line.split(|c: char| !c.is_alphanumeric()));
        let told: BTreeSet<&str> = words.filter(|word| is_id(word)).collect();
        let untold: Vec<_> = lacking.difference(&told).collect();
        let untrue: Vec<_> = told.difference(&lacking).collect();
        assert!(untold.is_empty() && untrue.is_empty(), "{heading}: {untold:?}, but {untrue:?}");
    }
}

#[test]
fn every_open_function_has_a_promise() {
    let mut open = BTreeSet::new();
    for of in crates() {
        for Function { name, head, .. } in open_functions(&of) {
            assert!(head.contains(" ensures "), "{of}::{name} promises nothing");
            open.insert(format!("{of}::{name}"));
        }
    }
    let cited = cited(Proved);
    let uncited: Vec<_> = open.difference(&cited).collect();
    assert!(uncited.is_empty(), "open functions that are not cited as proved: {uncited:#?}");
    assert!(open.len() > 15, "{} open functions", open.len());
}

#[test]
fn every_requires_is_told() {
    let decisions = read("docs/DECISIONS.md");
    let heading = "## Public functions with a `requires`";
    let behind = decisions.lines().skip_while(|line| *line != heading).skip(1);
    let items = behind.take_while(|line| !line.starts_with('#')).filter(|l| l.starts_with("- `"));
    let told: BTreeSet<String> =
        items.map(|line| line.split('`').nth(1).unwrap_or_default().to_string()).collect();
    let mut required = BTreeSet::new();
    for of in crates() {
        let functions = open_functions(&of).into_iter().filter(|f| f.head.contains(" requires "));
        required.extend(functions.map(|function| format!("{of}::{}", function.name)));
    }
    let untold: Vec<_> = required.difference(&told).collect();
    let untrue: Vec<_> = told.difference(&required).collect();
    assert!(untold.is_empty() && untrue.is_empty(), "not told: {untold:#?}, but {untrue:#?}");
}

#[test]
fn the_axioms_are_those_that_the_gate_allows() {
    let makefile = read("Makefile").replace("\\\n", "");
    let assumed = makefile.lines().find_map(|line| line.strip_prefix("ASSUMED := "));
    let assumed: BTreeSet<&str> = assumed.expect("the gate's list").split_whitespace().collect();
    let prose = page().prose;
    let lines = prose.iter().filter_map(|line| line.strip_prefix("    axioms "));
    let named: BTreeSet<&str> = lines
        .flat_map(|line| {
            let (_, names) = line.split_once(": ").expect("a library in front of the names");
            names.split(", ")
        })
        .collect();
    assert_eq!(named, assumed);
}
