//! The command `lhz`: every refusal of a volume, a plan or a number, through each command that can
//! tell it. Standard output is the one line `refused`, number and place; standard error one
//! sentence on the file at fault; the status is 1.

use crate::plain::{self, Refused};
use crate::support::command::*;
use crate::support::files::plan_bytes;
use crate::support::plans::*;
use crate::support::*;

/// The commands that read a volume alone, and those that read a plan too, with what they are asked
/// of the sample. All of them answer where nothing is refused.
const OF_VOLUME: [&str; 3] = ["check V", "read V", "read V 1"];
const OF_BOTH: [&str; 8] = [
    "check V P",
    "list V P",
    "test V P 0 1 2 5",
    "test V P 0 70000 2 5",
    "matches V P 0 1",
    "matches V P 0 70000 2 5",
    "show V P 0",
    "show --line V P",
];

/// Those that read a volume and a typed line, which may be refused too.
const OF_LINE: [&str; 7] = [
    "check V --line [1]",
    "list --line [1 V",
    "test V 0 1 2 --line [0]",
    "matches --line ((((((((( V 0 1",
    "show V --line [1] 0",
    "show --line V --line [9]",
    "show --line [1;s V --line",
];

/// Each of the commands over these files refuses so, and says it of one of them: the sentences.
#[track_caller]
fn refuses(
    folder: &Folder,
    commands: &[&str],
    (volume, plan): (&str, &str),
    (number, at): Refused,
    file: &str,
) -> Vec<String> {
    let refused = format!("refused {number} {at}");
    let mut sentences = vec![];
    for command in commands {
        let line = command.replace(" V", &format!(" {volume}")).replace(" P", &format!(" {plan}"));
        let ended = folder.lhz(&line);
        let sentence = ended.failure(1, &format!("{refused}\n"));
        assert!(sentence.starts_with(&format!("{file}: ")), "lhz {line}: {sentence}");
        assert!(sentence.contains(&format!("({refused})")), "lhz {line}: {sentence}");
        sentences.push(sentence.to_string());
    }
    sentences
}

/// What a sentence on this refusal says: what it is about, and the place if there is one.
fn words_of((number, at): Refused) -> String {
    match number {
        1 => "of 512 bytes".into(),
        2 | 3 => format!("block {at} "),
        4 => "edition".into(),
        5 => "number of lists".into(),
        6 => "number of blocks".into(),
        7 => format!("list {at} "),
        8 => format!("word {at} "),
        9 => "64 rows".into(),
        10..=13 => format!("row {at} "),
        _ => "answer".into(),
    }
}

/// 1 to 8 come first, through every command, whatever the plan is: in order, refused itself,
/// absent, or a typed line.
#[test]
fn of_a_volume() {
    let folder = Folder::with_sample();
    folder.write("short.plan", "too short");
    folder.write("unknown.plan", plan_bytes(&[[12, 0, 0, 7]]));
    let largest = vec![0; 512 * 8_192];
    let lengths = [
        ([&largest[..], &[0]].concat(), (1, 0)),
        ([&largest[..], &[0; 512]].concat(), (1, 0)),
        (largest, (3, 0)),
    ];
    for (row, (volume, refused)) in lengths.into_iter().chain(refused::volumes()).enumerate() {
        assert_eq!(plain::check_volume(&volume), Err(refused), "row {row}");
        folder.write("bad.vol", volume);
        let mut sentences = refuses(&folder, &OF_VOLUME, ("bad.vol", ""), refused, "bad.vol");
        for plan in ["sample.plan", "short.plan", "unknown.plan", "absent.plan"] {
            sentences.extend(refuses(&folder, &OF_BOTH, ("bad.vol", plan), refused, "bad.vol"));
        }
        sentences.extend(refuses(&folder, &OF_LINE, ("bad.vol", ""), refused, "bad.vol"));
        for sentence in sentences {
            assert!(sentence.contains(&words_of(refused)), "row {row}: {sentence}");
        }
    }
}

/// 9 to 14 through every command that takes a volume and a plan; a figure that is not there, a
/// wrong number of places and a scene over 65,535 come after them. The row at fault is shown. `lhz
/// show PLAN` refuses a length alone.
#[test]
fn of_a_plan() {
    let folder = Folder::with_sample();
    let sample = plan_bytes(&SAMPLE);
    let long = plan_bytes(&[widest_plan(), vec![EITHER]].concat());
    let lengths = [
        vec![],
        sample[..79].to_vec(),
        sample[..76].to_vec(),
        [&sample[..], &[0]].concat(),
        long[..1_025].to_vec(),
        long,
        vec![0; 1 << 20],
    ];
    let lengths = lengths.into_iter().map(|plan| (plan, (9, 0)));
    let others = refused::plans().into_iter().map(|(rows, refused)| (plan_bytes(&rows), refused));
    for (row, (plan, refused)) in lengths.chain(others).enumerate() {
        folder.write("bad.plan", &plan);
        let files = ("titles.vol", "bad.plan");
        let asked = [&OF_BOTH[..], &["test V P 9 1", "matches V P 9 1", "show V P 9"]].concat();
        let sentences = refuses(&folder, &asked, files, refused, "bad.plan");
        let mut words = vec![words_of(refused)];
        if refused.0 == 9 {
            refuses(&folder, &["show P"], files, refused, "bad.plan");
        } else {
            let shown = folder.lhz("show bad.plan");
            let rows: Vec<&str> = shown.answer().lines().collect();
            assert_eq!(16 * rows.len(), plan.len(), "row {row}");
            if refused.0 < 14 {
                words.push(format!("`{}`", rows[refused.1 as usize]));
            }
        }
        for sentence in sentences {
            assert!(words.iter().all(|word| sentence.contains(word)), "row {row}: {sentence}");
        }
    }
}

/// 11 depends on the volume: one plan over volumes of one, three and four lists.
#[test]
fn of_a_plan_over_other_volumes() {
    let folder = Folder::new();
    folder.write("three.plan", plan_bytes(&[voice(3), END]));
    for (lists, refused) in [(1, Some((11, 0))), (3, Some((11, 0))), (4, None)] {
        folder.write("some.vol", Lists::new(&vec![[]; lists]).volume());
        match refused {
            Some(refused) => {
                refuses(&folder, &OF_BOTH, ("some.vol", "three.plan"), refused, "three.plan");
            }
            None => assert_eq!(folder.lhz("list some.vol three.plan").answer(), "done 0\n"),
        }
    }
}

/// 17: a list, a figure, a number of places, a scene or a place that is not there. What is at fault
/// is told, and the file in which it is missing.
#[test]
fn of_a_number() {
    let folder = Folder::with_sample();
    let two = [voice(1), END, voice(2), voice(1), END, BOTH];
    folder.write("two.plan", plan_bytes(&two));
    for (line, file, words) in [
        ("read titles.vol 3", "titles.vol", ["no list 3;", "lists", "0 to 2"]),
        ("read titles.vol 1024", "titles.vol", ["no list 1024;", "lists", "0 to 2"]),
        (
            "show titles.vol sample.plan 1",
            "sample.plan",
            ["no figure 1;", "only figure", "figure 0"],
        ),
        ("show titles.vol two.plan 2", "two.plan", ["no figure 2;", "figures", "0 to 1"]),
        (
            "test titles.vol sample.plan 1 1 2 5",
            "sample.plan",
            ["no figure 1;", "only figure", "figure 0"],
        ),
        ("test titles.vol two.plan 2 1 2", "two.plan", ["no figure 2;", "figures", "0 to 1"]),
        (
            "test titles.vol sample.plan 0 1",
            "sample.plan",
            ["voices of figure 0 is 2", "places", "is 0"],
        ),
        (
            "test titles.vol sample.plan 0 65536",
            "sample.plan",
            ["voices of figure 0 is 2", "places", "is 0"],
        ),
        (
            "test titles.vol sample.plan 0 1 2",
            "sample.plan",
            ["voices of figure 0 is 2", "places", "is 1"],
        ),
        (
            "test titles.vol sample.plan 0 1 2 5 7",
            "sample.plan",
            ["voices of figure 0 is 2", "places", "is 3"],
        ),
        (
            "test titles.vol two.plan 1 1 2",
            "two.plan",
            ["voices of figure 1 is 2", "places", "is 1"],
        ),
        (
            "test titles.vol sample.plan 0 65536 2 5",
            "sample.plan",
            ["65536 is over 65535", "scene", "place"],
        ),
        (
            "test titles.vol sample.plan 0 1 65536 5",
            "sample.plan",
            ["65536 is over 65535", "scene", "place"],
        ),
        (
            "test titles.vol sample.plan 0 1 2 99999",
            "sample.plan",
            ["99999 is over 65535", "scene", "place"],
        ),
        (
            "matches titles.vol sample.plan 1 1",
            "sample.plan",
            ["no figure 1;", "only figure", "figure 0"],
        ),
        ("matches titles.vol two.plan 2 1 2", "two.plan", ["no figure 2;", "figures", "0 to 1"]),
        (
            "matches titles.vol sample.plan 0 1 2",
            "sample.plan",
            ["voices of figure 0 is 2", "places", "is 1"],
        ),
        (
            "matches titles.vol sample.plan 0 1 2 5 7",
            "sample.plan",
            ["voices of figure 0 is 2", "places", "is 3"],
        ),
        (
            "matches titles.vol two.plan 0 1 2 5",
            "two.plan",
            ["voices of figure 0 is 1", "places", "is 2"],
        ),
        (
            "matches titles.vol sample.plan 0 65536",
            "sample.plan",
            ["65536 is over 65535", "scene", "place"],
        ),
        (
            "matches titles.vol sample.plan 0 65536 2 5",
            "sample.plan",
            ["65536 is over 65535", "scene", "place"],
        ),
        (
            "matches titles.vol sample.plan 0 1 2 65536",
            "sample.plan",
            ["65536 is over 65535", "scene", "place"],
        ),
        ("show titles.vol --line [1] 1", "--line", ["no figure 1;", "only figure", "figure 0"]),
        ("test titles.vol --line [1]&[2] 2 1", "--line", ["no figure 2;", "figures", "0 to 1"]),
        (
            "matches titles.vol --line [1]|[2] 1 1 2 5",
            "--line",
            ["voices of figure 1 is 1", "places", "is 2"],
        ),
        (
            "test titles.vol --line [1] 0 1 65536",
            "--line",
            ["65536 is over 65535", "scene", "place"],
        ),
    ] {
        for sentence in refuses(&folder, &[line], ("", ""), (17, 0), file) {
            assert!(words.iter().all(|word| sentence.contains(word)), "lhz {line}: {sentence}");
        }
    }
}

/// Volumes and plans as they come, damaged: each command refuses or answers as the plain reader
/// does.
#[test]
fn random_damage() {
    let seed = 90_125;
    let mut rng = Rng::new(seed);
    let folder = Folder::new();
    let mut met = [0; 15];
    for round in 0..150 {
        let lists = random_lists(&mut rng, 6);
        let lists = if lists.counts.len() < 2 { four_blocks() } else { lists };
        let mut volume = lists.volume();
        if rng.below(3) > 0 {
            damage(&mut rng, &lists, &mut volume);
        }
        let mut rows = random_plan(&mut rng, lists.counts.len());
        for _ in 0..rng.below(3) {
            spoil(&mut rng, &mut rows, lists.counts.len());
        }
        folder.write("some.vol", &volume);
        folder.write("some.plan", plan_bytes(&rows));
        let case = format!("seed {seed}, round {round}");
        let of_volume = match plain::check_volume(&volume) {
            Ok((lists, postings)) => format!("lists {lists} postings {postings}\n"),
            Err((number, at)) => format!("refused {number} {at}\n"),
        };
        let checked = folder.lhz("check some.vol");
        assert_eq!(checked.told().1, of_volume, "{case}");
        assert_eq!(checked.status == 0, of_volume.starts_with("lists"), "{case}");

        let (of_both, number) = match plain::plan::check(&volume, &rows.concat()) {
            Ok(plan) => {
                (format!("{of_volume}figures {} voices {}\n", plan.patterns.len(), plan.vars), 0)
            }
            Err((number, at)) => (format!("refused {number} {at}\n"), number),
        };
        let checked = folder.lhz("check some.vol some.plan");
        assert_eq!(checked.told().1, of_both, "{case}");
        assert_eq!(checked.status, i32::from(number > 0), "{case}");
        met[number as usize] += 1;
    }
    assert!(met.iter().filter(|&&count| count > 0).count() >= 12, "{met:?}");
}
