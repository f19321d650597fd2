//! Random volumes and plans, searched whole through random buffers, beside the naive searcher:
//! every answer and every word of the memory, and what document 01 says of the search as a whole.

use crate::plain::search::Searcher;
use crate::support::searches::*;
use crate::support::*;
use lihambozy::kind;

/// What the rows of a subject show.
fn count_rows(met: &mut Met, subject: &Subject) {
    let searcher = subject.searcher();
    met.count("more than one block", usize::from(subject.volume().len() > 512));
    met.count("no document matches", usize::from(searcher.rows.is_empty()));
    met.count("rows", searcher.rows.len());
    let has = |kind: u32| subject.plan().chunks(4).any(|row| row[0] == kind);
    let zeros = match [kind::FIRST_NOT_SECOND, kind::AT_LEAST].map(has) {
        [true, _] => "zeros beside FIRST NOT SECOND",
        [false, true] => "zeros under AT LEAST",
        [false, false] => "zeros under EITHER",
    };
    for row in &searcher.rows {
        for (pattern, shown) in searcher.patterns.iter().zip(searcher.shown(row)) {
            let Some(pairs) = shown else {
                met.count(zeros, 1);
                continue;
            };
            let of_vars = searcher.of_vars(pattern, row[0]);
            let at_first = of_vars.iter().zip(&pairs).all(|(of, [pos, _])| of[0] == *pos);
            met.count("found at first positions", usize::from(at_first));
            met.count("found further on", usize::from(!at_first));
        }
    }
    // Patterns of one predicate, in the documents where each of its variables has a position.
    for pattern in searcher.patterns.iter().filter(|pattern| pattern.lists.len() > 1) {
        let &[[kind, ..]] = &pattern.predicates[..] else { continue };
        for doc in searcher.docs() {
            if searcher.of_vars(pattern, doc).iter().all(|of_var| !of_var.is_empty()) {
                let name = match kind {
                    kind::NEAR => "NEAR",
                    kind::BEFORE => "BEFORE",
                    kind::SAME_TITLE => "SAME TITLE",
                    kind::SPAN => "SPAN",
                    _ => "APART",
                };
                let found = searcher.earliest(pattern, doc).is_some();
                met.count(&format!("{name} {}", if found { "found" } else { "missed" }), 1);
            }
        }
    }
}

/// Where titles start in the documents that have a word of the plan, and what patterns of one SAME
/// TITLE, over one variable or more, make of it.
fn count_titles(met: &mut Met, searcher: &Searcher) {
    for doc in searcher.docs() {
        let first_start = searcher.positions(0, doc).first().copied();
        let words = searcher.patterns.iter().flat_map(|pattern| searcher.of_vars(pattern, doc));
        let Some(first_word) = words.flatten().min() else { continue };
        met.count("documents with words", 1);
        met.count("documents without titles", usize::from(first_start.is_none()));
        let has_lead_in = first_start.is_some_and(|start| first_word < start);
        met.count("documents with a lead-in", usize::from(has_lead_in));

        for pattern in &searcher.patterns {
            let &[[kind::SAME_TITLE, a, b, _]] = &pattern.predicates[..] else { continue };
            let of_vars = searcher.of_vars(pattern, doc);
            if of_vars.iter().any(Vec::is_empty) {
                continue;
            }
            let is_found = searcher.earliest(pattern, doc).is_some();
            let spoken =
                |var: u32| first_start.is_some_and(|start| of_vars[var as usize][0] < start);
            let what = match (first_start, is_found) {
                (None, _) => "SAME TITLE and no title",
                (_, false) if spoken(a) && spoken(b) => "SAME TITLE missed, in a lead-in",
                (_, false) if spoken(a) || spoken(b) => "SAME TITLE missed, one in a lead-in",
                (_, true) if spoken(a) && spoken(b) => "SAME TITLE found behind a lead-in",
                (_, true) if spoken(a) || spoken(b) => "SAME TITLE found, one moved over a lead-in",
                _ => "SAME TITLE without a lead-in",
            };
            met.count(what, 1);
            let itself = if is_found { "found" } else { "missed" };
            met.count(&format!("SAME TITLE of one variable {itself}"), usize::from(a == b));
        }
    }
}

#[test]
fn whole_searches() {
    let seed = 65_536;
    let mut rng = Rng::new(seed);
    let mut trial = Trial::default();
    let mut met = Met::default();
    for round in 0..20_000 {
        let subject = random_subject(&mut rng);
        trial.case = format!("seed {seed}, round {round}, {:?}", subject.plan());
        for _ in 0..2 {
            random_search(&mut rng, &mut trial, &mut met, &subject);
        }
        other_starts(&mut rng, &mut trial, &subject, 3);
        count_rows(&mut met, &subject);
        count_starts(&mut met, &subject);
        count_at_least(&mut met, &subject);
        count_titles(&mut met, subject.searcher());
    }
    trial.assert_met(Call::List, 3_000, &[0, 15, 16]);
    met.assert_at_least(&[
        ("searches", 33_000),
        ("searches to done", 16_000),
        ("searches of several calls", 3_300),
        ("more", 6_600),
        ("several rows and more", 1_600),
        ("done with no row", 3_300),
        ("short buffers", 1_600),
        ("a buffer used again", 3_300),
        ("no document matches", 1_600),
        ("more than one block", 1_600),
        ("rows", 16_000),
        ("zeros under EITHER", 3_300),
        ("zeros under AT LEAST", 3_300),
        ("zeros beside FIRST NOT SECOND", 3_300),
        ("found at first positions", 6_600),
        ("found further on", 1_600),
        ("NEAR found", 1_600),
        ("NEAR missed", 330),
        ("BEFORE found", 1_600),
        ("BEFORE missed", 1_600),
        ("SAME TITLE found", 1_600),
        ("SAME TITLE missed", 1_000),
        ("SAME TITLE without a lead-in", 3_300),
        ("SAME TITLE found behind a lead-in", 800),
        ("SAME TITLE found, one moved over a lead-in", 60),
        ("SAME TITLE missed, in a lead-in", 1_000),
        ("SAME TITLE missed, one in a lead-in", 80),
        ("SAME TITLE and no title", 500),
        ("SAME TITLE of one variable found", 3_300),
        ("SAME TITLE of one variable missed", 1_000),
        ("documents without titles", 3_300),
        ("SPAN found", 1_600),
        ("SPAN missed", 330),
        ("APART found", 800),
        ("APART missed", 1_000),
    ]);
    let [lead_ins, docs] =
        ["with a lead-in", "with words"].map(|of| met.0[&format!("documents {of}")]);
    assert!(3 * lead_ins >= docs, "{lead_ins} of {docs} documents have a lead-in");
    met.assert_at_least(&STARTS.map(|what| (what, 1_600)));
    met.assert_at_least(&COUNTED.map(|what| (what, 1_600)));
    let made = trial.made(Call::List);
    assert!(made >= 100_000, "{made} comparisons");
}

/// Many documents in many blocks.
#[test]
fn large_archives() {
    let seed = 8_192;
    let mut rng = Rng::new(seed);
    let mut trial = Trial::default();
    let mut met = Met::default();
    for round in 0..160 {
        let subject = random_large_subject(&mut rng);
        trial.case = format!("seed {seed}, round {round}, {:?}", subject.plan());
        random_search(&mut rng, &mut trial, &mut met, &subject);
        other_starts(&mut rng, &mut trial, &subject, 3);
        count_rows(&mut met, &subject);
        count_starts(&mut met, &subject);
        count_at_least(&mut met, &subject);
        count_titles(&mut met, subject.searcher());
    }
    met.assert_at_least(&[
        ("more than one block", 100),
        ("rows", 2_000),
        ("more", 500),
        ("documents with a lead-in", 6_000),
        ("documents without titles", 1_600),
        ("SAME TITLE missed, in a lead-in", 300),
        ("SAME TITLE found behind a lead-in", 40),
    ]);
    met.assert_at_least(&STARTS.map(|what| (what, 500)));
    met.assert_at_least(&COUNTED.map(|what| (what, 500)));
}
