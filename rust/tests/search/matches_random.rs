//! Random volumes and plans, whose tuples are listed whole through random buffers and from random
//! starts, beside the naive searcher: every answer and every word of the memory, and what is to
//! hold of the enumeration as a whole.

use crate::support::matches::*;
use crate::support::searches::*;
use crate::support::*;
use lihambozy::kind;

/// Which predicates a pattern has that lists several tuples, or none though all its variables have
/// positions.
fn count_predicates(met: &mut Met, subject: &Subject) {
    let searcher = subject.searcher();
    for doc in searcher.docs().into_iter().take(4) {
        for pattern in &searcher.patterns {
            let of_vars = searcher.of_vars(pattern, doc);
            if of_vars.iter().any(Vec::is_empty) {
                met.count("a variable without positions", 1);
                continue;
            }
            let passing = searcher.passing(pattern, doc).len();
            let choices: usize = of_vars.iter().map(Vec::len).product();
            let what = match passing {
                0 => "none",
                _ if passing == choices => "all",
                _ => "some",
            };
            for [kind, ..] in &pattern.predicates {
                let name = match *kind {
                    kind::NEAR => "NEAR",
                    kind::BEFORE => "BEFORE",
                    kind::SAME_TITLE => "SAME TITLE",
                    kind::SPAN => "SPAN",
                    _ => "APART",
                };
                met.count(&format!("{name}: {what} pass"), 1);
            }
            met.count(&format!("{} variables", pattern.lists.len()), 1);
        }
    }
}

#[test]
fn whole_enumerations() {
    let seed = 4_201;
    let mut rng = Rng::new(seed);
    let mut trial = Trial::default();
    let mut met = Met::default();
    for round in 0..8_000 {
        let subject = match rng.below(2) {
            0 => random_subject(&mut rng),
            _ => random_crowd(&mut rng),
        };
        trial.case = format!("seed {seed}, round {round}, {:?}", subject.plan());
        for _ in 0..2 {
            random_enumeration(&mut rng, &mut trial, &mut met, &subject);
        }
        other_matches(&mut rng, &mut trial, &subject, 3);
        if round % 4 == 0 {
            count_predicates(&mut met, &subject);
        }
    }
    trial.assert_met(Call::Matches, 1_000, &[0, 16, 17]);
    met.assert_at_least(&[
        ("enumerations", 16_000),
        ("enumerations to done", 10_000),
        ("enumerations of several calls", 2_500),
        ("matches: more", 6_000),
        ("matches: several and more", 5_000),
        ("matches: a remainder", 400),
        ("matches: short buffers", 1_000),
        ("matches: done with a full buffer", 2_000),
        ("matches: done with none", 4_000),
        ("tuples with one position twice", 100_000),
        ("a variable without positions", 1_500),
        ("NEAR: some pass", 180),
        ("NEAR: none pass", 250),
        ("BEFORE: some pass", 200),
        ("BEFORE: none pass", 700),
        ("SAME TITLE: some pass", 250),
        ("SAME TITLE: none pass", 450),
        ("SPAN: some pass", 180),
        ("SPAN: none pass", 250),
        ("APART: some pass", 150),
        ("APART: none pass", 700),
        ("1 variables", 1_000),
        ("2 variables", 1_000),
        ("3 variables", 500),
        ("4 variables", 200),
        ("8 variables", 20),
    ]);
    assert!(trial.matched > 500_000, "{}", trial.matched);
}

/// Many documents in many blocks.
#[test]
fn large_archives() {
    let seed = 4_202;
    let mut rng = Rng::new(seed);
    let mut trial = Trial::default();
    let mut met = Met::default();
    for round in 0..150 {
        let subject = random_large_subject(&mut rng);
        trial.case = format!("seed {seed}, round {round}, {:?}", subject.plan());
        for _ in 0..100 {
            random_enumeration(&mut rng, &mut trial, &mut met, &subject);
        }
        other_matches(&mut rng, &mut trial, &subject, 10);
    }
    met.assert_at_least(&[
        ("enumerations to done", 2_800),
        ("enumerations of several calls", 150),
        ("matches: more", 220),
        ("matches: several and more", 60),
    ]);
    assert!(trial.matched > 1_700, "{}", trial.matched);
}
