//! The edits that the prover must refuse, those of the gate (`must-fail/`) and those that it passes
//! over (`mutants/`): each one can still be made, so that none goes stale unseen.

use crate::support::files::{names, repository, text};
use std::collections::BTreeMap;
use std::fs;
use std::path::{Path, PathBuf};

/// What hinders an edit of the crate in this folder, read as `rt must-fail` reads it: its texts
/// replace each other one after the other.
fn hindrance(of: &Path, edit: &str) -> Option<String> {
    let mut edited: BTreeMap<PathBuf, String> = BTreeMap::new();
    let (mut file, mut old) = ("", "");
    for line in edit.lines() {
        if let Some(rest) = line.strip_prefix("file: ") {
            file = rest;
        } else if let Some(rest) = line.strip_prefix("old: ") {
            old = rest;
        } else if let Some(rest) = line.strip_prefix("new:") {
            let new = rest.strip_prefix(' ').unwrap_or(rest);
            if !["src/", "specs/"].iter().any(|folder| file.starts_with(folder)) {
                return Some(format!("`{file}` is no file of the code or the definitions"));
            }
            let path = of.join(file);
            let text = match edited.remove(&path).map_or_else(|| fs::read_to_string(&path), Ok) {
                Ok(text) => text,
                Err(error) => return Some(format!("{file}: {error}")),
            };
            let count = if old.is_empty() { 0 } else { text.matches(old).count() };
            if count != 1 {
                return Some(format!("{file} has `{old}` {count} times"));
            }
            if old == new {
                return Some(format!("`{old}` stays as it is"));
            }
            edited.insert(path, text.replacen(old, new, 1));
            old = "";
        }
    }
    match edited.is_empty() || !old.is_empty() {
        true => Some("it has no `old:` and `new:`, or one without the other".into()),
        false => None,
    }
}

#[test]
fn every_edit_can_be_made() {
    let crates = repository("crates");
    let (mut hindered, mut count) = (vec![], 0);
    for of in names(&crates) {
        let folder = crates.join(&of);
        let [gate, beside] = ["must-fail", "mutants"].map(|kind| names(folder.join(kind)));
        for (kind, edits) in [("must-fail", &gate), ("mutants", &beside)] {
            for name in edits {
                let why = match name.ends_with(".edit") {
                    true => hindrance(&folder, &text(folder.join(kind).join(name))),
                    false => Some("it is no edit".into()),
                };
                let twice = kind == "mutants" && gate.contains(name);
                let why = why.or_else(|| twice.then(|| "the gate has one of this name".into()));
                hindered.extend(why.map(|why| format!("{of}/{kind}/{name}: {why}")));
                count += 1;
            }
        }
    }
    assert!(hindered.is_empty(), "cannot be made:\n{}", hindered.join("\n"));
    assert!(count > 50, "{count} edits");
}

#[test]
fn an_edit_that_cannot_be_made_is_told() {
    let plan = repository("crates/plan");
    let head = text(plan.join("src/lib.rt"));
    let first = head.lines().next().expect("a first line");
    let lib = "file: src/lib.rt\n";
    for (edit, is_made) in [
        (format!("# why\n{lib}old: {first}\nnew: other\n"), true),
        (format!("{lib}old: {first}\nnew:\n"), true),
        (format!("{lib}old: {first}\nnew: other\nold: other\nnew: third\n"), true),
        (format!("{lib}old: {first}\nnew: {first}\n"), false),
        (format!("{lib}old: {first} and more\nnew: other\n"), false),
        (format!("{lib}old: e\nnew: other\n"), false),
        (format!("{lib}old: {first}\nnew: other\nold: {first}\nnew: third\n"), false),
        (format!("{lib}old: {first}\n"), false),
        (format!("{lib}new: other\n"), false),
        (format!("file: src/absent.rt\nold: {first}\nnew: other\n"), false),
        (format!("file: proofs/Lib.antt\nold: {first}\nnew: other\n"), false),
        (lib.into(), false),
    ] {
        let why = hindrance(&plan, &edit);
        assert_eq!(why.is_none(), is_made, "{edit}{why:?}");
    }
}
