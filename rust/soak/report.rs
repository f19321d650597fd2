//! What a run counts, and what it tells.

use crate::line_trial::{Lines, Way};
use crate::support::searches::{COUNTED, STARTS};
use crate::support::{Call, Met, Trial};
use std::collections::BTreeMap;
use std::time::Duration;

/// A call of the library, by what compares it.
#[derive(Clone, Copy)]
enum Of {
    Trial(Call),
    Lines(Way),
}

/// The calls by their names in the header, with the numbers that each of them can tell; 0 stands
/// for an answer that is no refusal. `lhz_pattern_rows` tells none: an empty part counts as the
/// refusal that it stands for. `join_of_second` has the joins that were refused for the second
/// volume.
const CALLS: [(&str, Of, &[u32]); 12] = [
    ("check_volume", Of::Trial(Call::Check), &[0, 1, 2, 3, 4, 5, 6, 7, 8]),
    ("read_list", Of::Trial(Call::Read), &[0, 1, 2, 3, 4, 5, 6, 7, 8, 16, 17]),
    ("write_volume", Of::Trial(Call::Write), &[0, 5, 7, 18, 19, 20]),
    ("join_volumes", Of::Trial(Call::Join), &[0, 1, 2, 3, 4, 5, 6, 7, 8, 19, 20, 24, 25]),
    ("join_of_second", Of::Trial(Call::JoinSecond), &[1, 2, 3, 4, 5, 6, 7, 8]),
    ("check_plan", Of::Trial(Call::Plan), &[0, 1, 2, 3, 4, 5, 6, 7, 8, 9, 10, 11, 12, 13, 14]),
    (
        "pattern_rows",
        Of::Trial(Call::Rows),
        &[0, 1, 2, 3, 4, 5, 6, 7, 8, 9, 10, 11, 12, 13, 14, 17],
    ),
    (
        "test_positions",
        Of::Trial(Call::Test),
        &[0, 1, 2, 3, 4, 5, 6, 7, 8, 9, 10, 11, 12, 13, 14, 17],
    ),
    ("list", Of::Trial(Call::List), &[0, 1, 2, 3, 4, 5, 6, 7, 8, 9, 10, 11, 12, 13, 14, 15, 16]),
    (
        "list_matches",
        Of::Trial(Call::Matches),
        &[0, 1, 2, 3, 4, 5, 6, 7, 8, 9, 10, 11, 12, 13, 14, 16, 17],
    ),
    ("line_to_plan", Of::Lines(Way::Read), &[0, 16, 21, 22, 23]),
    (
        "plan_to_line",
        Of::Lines(Way::Write),
        &[0, 1, 2, 3, 4, 5, 6, 7, 8, 9, 10, 11, 12, 13, 14, 16],
    ),
];

/// The counts of a run.
#[derive(Default)]
pub struct Counts {
    /// The calls of the library, but for those of typed lines.
    pub trial: Trial,
    /// The calls of typed lines.
    pub lines: Lines,
    /// The searches and enumerations, through these calls and through the package, and what they
    /// met; and the plans and lines that went there and back.
    pub searches: Met,
    /// The calls of the package.
    pub package: Met,
    /// The cases of each kind, the time that they took, and that of the longest.
    kinds: BTreeMap<&'static str, (u64, Duration, Duration)>,
}

impl Counts {
    /// Counts a case of a kind.
    pub fn case(&mut self, kind: &'static str, time: Duration) {
        let (cases, all, longest) = self.kinds.entry(kind).or_default();
        *cases += 1;
        *all += time;
        *longest = time.max(*longest);
    }

    fn cases(&self) -> u64 {
        self.kinds.values().map(|(cases, ..)| cases).sum()
    }

    /// How often a call gave each number.
    fn met(&self, of: Of) -> BTreeMap<u32, usize> {
        match of {
            Of::Trial(call) => self.trial.met(call),
            Of::Lines(way) => self.lines.met(way),
        }
    }

    fn compared(&self) -> usize {
        let calls = CALLS.iter().map(|&(_, of, _)| self.met(of).values().sum());
        calls.chain(self.package.0.values().copied()).sum()
    }

    /// How far a run is, on one line.
    pub fn line(&self, elapsed: Duration) -> String {
        format!(
            "{:5} s: {} cases, {} calls compared, {} rows and {} tuples listed, {} searches to \
             done",
            elapsed.as_secs(),
            self.cases(),
            self.compared(),
            self.trial.listed,
            self.trial.matched,
            self.searches.0.get("searches to done").copied().unwrap_or(0)
        )
    }

    /// What a run found: a difference would have ended it.
    pub fn last_line(&self, elapsed: Duration) -> String {
        format!(
            "soak: {} cases, {} calls compared, 0 differences, {} s",
            self.cases(),
            self.compared(),
            elapsed.as_secs()
        )
    }

    /// Prints all counts, those of the cases kind by kind.
    pub fn print(&self, kinds: impl Iterator<Item = &'static str>) {
        println!("\n{:16}{:>9}{:>11}{:>13}", "kind of case", "cases", "seconds", "longest ms");
        for kind in kinds {
            let (cases, all, longest) = self.kinds.get(kind).copied().unwrap_or_default();
            let (all, longest) = (all.as_secs_f64(), longest.as_secs_f64() * 1e3);
            println!("{kind:16}{cases:>9}{all:>11.1}{longest:>13.1}");
        }

        let met = CALLS.map(|(_, of, _)| self.met(of));
        println!("\n{:16}{}", "calls", CALLS.map(|(name, ..)| format!("{name:>15}")).concat());
        for number in 0..=25 {
            let cells = met.iter().zip(CALLS).map(|(met, (_, _, can))| match met.get(&number) {
                Some(times) => format!("{times:>15}"),
                None if can.contains(&number) => format!("{:>15}", 0),
                None => format!("{:>15}", "-"),
            });
            let name = if number == 0 { "answered".into() } else { format!("refused {number}") };
            println!("{name:16}{}", cells.collect::<String>());
        }
        let all = met.each_ref().map(|met| format!("{:>15}", met.values().sum::<usize>()));
        println!("{:16}{}", "all", all.concat());

        println!("\n{:10} rows listed and compared", self.trial.listed);
        println!("{:10} tuples listed and compared", self.trial.matched);
        for Met(counts) in [&self.searches, &self.package] {
            counts.iter().for_each(|(what, times)| println!("{times:10} {what}"));
            println!();
        }
    }

    /// The numbers that a call can tell and never did, where no title start of a row has lain, and
    /// what no AT LEAST has counted.
    pub fn missed(&self) -> Vec<String> {
        let of_call = |(name, of, can): (&str, Of, &[u32])| {
            let met = self.met(of);
            let never = can.iter().filter(|number| !met.contains_key(number));
            never.map(|number| format!("{name} never met {number}")).collect::<Vec<_>>()
        };
        let starts = STARTS.into_iter().filter(|&what| !self.searches.0.contains_key(what));
        let starts = starts.map(|what| format!("no row met {what}"));
        let counted = COUNTED.into_iter().filter(|&what| !self.searches.0.contains_key(what));
        let counted = counted.map(|what| format!("no document met {what}"));
        CALLS.into_iter().flat_map(of_call).chain(starts).chain(counted).collect()
    }
}
