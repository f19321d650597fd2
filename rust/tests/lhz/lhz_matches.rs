//! The command `lhz matches`: its choices are those of the naive searcher, from any places on, also
//! where they take several pages; and what it prints goes into the other commands.

use crate::plain::search::{choices, comes_before};
use crate::support::command::*;
use crate::support::files::{assert_printed, plan_bytes, word_bytes};
use crate::support::matches::{random_crowd, random_from};
use crate::support::plans::*;
use crate::support::searches::*;
use crate::support::*;
use std::fmt::Write;

/// What the command prints of these choices.
fn printed<T: AsRef<[u32]>>(choices: &[T]) -> String {
    let mut lines = String::new();
    for choice in choices {
        lines += "places";
        choice.as_ref().iter().for_each(|place| write!(lines, " {place}").unwrap());
        lines += "\n";
    }
    lines + &format!("done {}\n", choices.len())
}

/// Places as the command takes them.
fn words(places: &[u32]) -> String {
    places.iter().map(|place| format!(" {place}")).collect()
}

/// Each figure of a plan in each scene, from the start and from any places.
#[test]
fn random_choices() {
    let seed = 4_301;
    let mut rng = Rng::new(seed);
    let folder = Folder::new();
    let (mut several, mut none) = (0, 0);
    for round in 0..60 {
        let subject = random_crowd(&mut rng);
        folder.write("some.vol", subject.volume());
        folder.write("some.plan", word_bytes(subject.plan()));
        let case = format!("seed {seed}, round {round}");
        let docs = subject.docs();
        for pattern in 0..subject.searcher().patterns.len() as u32 {
            for doc in docs.iter().copied().chain([9]).take(2) {
                let all = subject.passing(pattern, doc);
                let asked = format!("matches some.vol some.plan {pattern} {doc}");
                assert_printed(&case, folder.lhz(&asked).answer(), &printed(&all));
                let from = random_from(&mut rng, &subject, pattern, doc);
                let left: Vec<&Vec<u32>> =
                    all.iter().filter(|choice| !comes_before(choice, &from)).collect();
                let ended = folder.lhz(&format!("{asked}{}", words(&from)));
                assert_printed(&case, ended.answer(), &printed(&left));
                several += usize::from(left.len() > 1);
                none += usize::from(left.is_empty());
            }
        }
    }
    assert!(several > 30 && none > 30, "{several} {none}");
}

/// The places to go on from behind a line, as the guide tells them: 1 is added to the last place
/// or, where that is over 65535, to the one in front, with zeros behind it. Where there is none in
/// front, nothing is left.
fn behind(line: &[u32]) -> Option<Vec<u32>> {
    let mut places = line.to_vec();
    let last = places.iter().rposition(|&place| place < 65_535)?;
    places[last] += 1;
    places[last + 1..].fill(0);
    Some(places)
}

/// The first line is what a listing shows; each line passes; from a line on come the lines from it
/// on, and behind it those behind it.
#[test]
fn lines_go_into_other_commands() {
    let folder = Folder::new();
    let two_titles = "5:0 5:9\n5:1 5:4 5:12\n5:2 5:4 5:10 5:13\n";
    let near_both = "VOICE 1\nVOICE 2\nNEAR 0 1 2\nSAME TITLE 0 1\nEND\n";
    let near_lines: &[&[u32]] = &[&[1, 2], &[1, 4], &[4, 2], &[4, 4], &[12, 10], &[12, 13]];
    let at_the_end = "-\n5:1 5:65535\n5:7 5:65535\n5:65535\n";
    let [p, q, r] = [1, 7, 65_535];
    for (lists, rows, row, lines) in [
        (two_titles, near_both, "scene 5 1 1 0 2 0\ndone 7\n", near_lines),
        (
            at_the_end,
            "VOICE 1\nVOICE 2\nVOICE 3\nEND\n",
            "scene 5 1 1 65536 7 65536 65535 65536\ndone 5\n",
            &[&[p, q, r], &[p, r, r], &[r, q, r], &[r, r, r]],
        ),
    ] {
        folder.lhz_given("write - some.vol", lists.as_bytes()).answer();
        folder.lhz_given("plan - some.plan", rows.as_bytes()).answer();
        assert_eq!(folder.lhz("list some.vol some.plan").answer(), row);
        let from = |places: &[u32]| {
            let line = format!("matches some.vol some.plan 0 5{}", words(places));
            folder.lhz(&line).answer().to_string()
        };
        assert_eq!(from(&[]), printed(lines));
        for (i, line) in lines.iter().enumerate() {
            let tested = folder.lhz(&format!("test some.vol some.plan 0 5{}", words(line)));
            assert_eq!(tested.answer(), "yes\n", "{line:?}");
            assert_eq!(from(line), printed(&lines[i..]), "{line:?}");
            match behind(line) {
                Some(places) => assert_eq!(from(&places), printed(&lines[i + 1..]), "{line:?}"),
                None => assert_eq!(i + 1, lines.len(), "{line:?}"),
            }
        }
    }
}

/// As many choices as a call of the command lists, one more or less, and several times as many.
#[test]
fn choices_of_several_pages() {
    let folder = Folder::new();
    let page = lihambozy::Matches::PAGE_TUPLES as u32;
    for (count, vars) in [(page - 1, 1), (page, 1), (page + 1, 1), (2 * page + 5, 1), (200, 2)] {
        let rows = [vec![voice(1); vars], vec![END]].concat();
        folder.write("some.plan", plan_bytes(&rows));
        let places: Vec<u32> = (65_536 - count..=65_535).collect();
        folder.write("some.vol", Lists::new(&[vec![], list_in(&[3], &places)]).volume());
        let all = choices(&vec![places; vars]);
        let answer = folder.lhz("matches some.vol some.plan 0 3");
        assert_printed(&format!("{count} places"), answer.answer(), &printed(&all));
    }
}

/// More choices than anyone will read: who reads the first lines gets them, and the command ends.
#[test]
fn choices_without_end() {
    let folder = Folder::new();
    folder.write("some.plan", plan_bytes(&[vec![voice(1); 8], vec![END]].concat()));
    let places: Vec<u32> = (0..4_096).collect();
    folder.write("some.vol", Lists::new(&[vec![], list_in(&[3], &places)]).volume());
    let ended = folder.sh("lhz matches some.vol some.plan 0 3 | head -n 2");
    assert_eq!(ended.answer(), "places 0 0 0 0 0 0 0 0\nplaces 0 0 0 0 0 0 0 1\n");
}
