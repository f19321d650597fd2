//! Listing the tuples that pass, for the tests: the comparison of the library with the naive
//! searcher, call by call, and whole enumerations.

use super::plans::*;
use super::searches::*;
use super::{amid, pair, Call, Lists, Met, Rng, Trial, AMID};
use crate::plain::search::{comes_before, Matched};
use crate::plain::Refused;
use lihambozy::calls::ListedMatches;
use std::ops::Range;

/// The tuples that a call has written, and the one that it names with MORE.
pub type Page = (Vec<Vec<u32>>, Option<Vec<u32>>);

impl Subject {
    /// The variables of a pattern; those of a small one where volume or plan is refused, or where
    /// there is no such pattern.
    pub fn vars(&self, pattern: u32) -> usize {
        let patterns = self.naive.as_ref().map_or(&[][..], |searcher| &searcher.patterns);
        patterns.get(pattern as usize).map_or(2, |pattern| pattern.lists.len())
    }

    /// All tuples that pass, by the naive searcher.
    #[track_caller]
    pub fn passing(&self, pattern: u32, doc: u32) -> Vec<Vec<u32>> {
        let searcher = self.searcher();
        searcher.passing(&searcher.patterns[pattern as usize], doc)
    }
}

impl Trial {
    /// Lists matches into a part of the memory. All of it afterwards is as the naive searcher
    /// leaves it.
    #[track_caller]
    pub fn matches(
        &mut self,
        subject: &Subject,
        pattern: u32,
        doc: u32,
        from: &[u32],
        memory: &mut [u32],
        lent: Range<usize>,
    ) -> Result<Matched, Refused> {
        let asked = format!("matches of {pattern} in {doc} from {from:?}");
        let case = format!("{}: {asked} into {} words", self.case, lent.len());
        let mut expected = memory.to_vec();
        let naive = match &subject.naive {
            Ok(searcher) => searcher.matches(pattern, doc, from, &mut expected[lent.clone()]),
            Err(refused) => Err(*refused),
        };
        let words = amid(from);
        let answer = lihambozy::calls::list_matches(
            subject.volume(),
            subject.plan(),
            pattern,
            doc,
            &words[AMID..AMID + from.len()],
            &mut memory[lent.clone()],
        )
        .map(matched)
        .map_err(pair);
        assert_eq!(answer, naive, "{case}");
        if let Some(word) = (0..memory.len()).find(|&word| memory[word] != expected[word]) {
            let (lent, got) = (&expected[lent.clone()], &memory[lent]);
            panic!("{case}: word {word} of the memory is wrong; {got:?}, not {lent:?}");
        }
        assert!(words == amid(from), "{case}: written in the start or beside it");
        subject.assert_kept(&case);
        self.count(Call::Matches, &answer);
        self.matched += answer.as_ref().map_or(0, |matched| matched.count as usize);
        answer
    }

    /// Lists matches into so many words: the tuples written, and the one named with MORE.
    #[track_caller]
    pub fn match_page(
        &mut self,
        subject: &Subject,
        pattern: u32,
        doc: u32,
        from: &[u32],
        room: usize,
    ) -> Result<Page, Refused> {
        let (mut memory, lent) = memory_for(room);
        let answer = self.matches(subject, pattern, doc, from, &mut memory, lent.clone())?;
        let words = &memory[lent][..answer.count as usize * from.len()];
        Ok((words.chunks(from.len()).map(<[u32]>::to_vec).collect(), answer.more))
    }

    /// A whole enumeration through buffers of one length: all tuples.
    #[track_caller]
    pub fn enumerate(
        &mut self,
        subject: &Subject,
        pattern: u32,
        doc: u32,
        room: usize,
    ) -> Vec<Vec<u32>> {
        let mut all = Enumeration::new(subject, pattern, doc);
        while !all.done {
            let (mut memory, lent) = memory_for(room);
            all.call(self, &mut memory, lent).expect("a tuple fits");
        }
        all.assert_whole(&self.case);
        all.tuples
    }
}

fn matched(listed: ListedMatches) -> Matched {
    Matched { count: listed.count, more: listed.next.map(|tuple| tuple.to_vec()) }
}

/// An enumeration: calls that list matches, the first from zeros, then each from the tuple that the
/// last one named.
pub struct Enumeration<'a> {
    subject: &'a Subject,
    pattern: u32,
    doc: u32,
    /// The tuple to go on from.
    pub from: Vec<u32>,
    /// Whether a call has said DONE.
    pub done: bool,
    /// The calls that were not refused.
    pub answered: usize,
    /// The tuples of all calls, joined.
    pub tuples: Vec<Vec<u32>>,
}

impl<'a> Enumeration<'a> {
    pub fn new(subject: &'a Subject, pattern: u32, doc: u32) -> Enumeration<'a> {
        let from = vec![0; subject.vars(pattern)];
        Enumeration { subject, pattern, doc, from, done: false, answered: 0, tuples: vec![] }
    }

    /// The next call, into a part of the memory.
    #[track_caller]
    pub fn call(
        &mut self,
        trial: &mut Trial,
        memory: &mut [u32],
        lent: Range<usize>,
    ) -> Result<Matched, Refused> {
        assert!(!self.done, "DONE closes an enumeration");
        let vars = self.from.len();
        let (pattern, doc) = (self.pattern, self.doc);
        let answer = trial.matches(self.subject, pattern, doc, &self.from, memory, lent.clone());
        match &answer {
            Err(refused) => {
                assert!(*refused == (16, 0) && lent.len() < vars, "{}: {refused:?}", trial.case);
            }
            Ok(matched) => {
                assert!(lent.len() >= vars, "{}: no tuple fits", trial.case);
                self.answered += 1;
                let words = &memory[lent.clone()][..matched.count as usize * vars];
                self.tuples.extend(words.chunks(vars).map(<[u32]>::to_vec));
                match &matched.more {
                    Some(next) => {
                        let fit = (lent.len() / vars) as u64;
                        assert_eq!(matched.count, fit, "{}: a tuple still fits", trial.case);
                        self.from.clone_from(next);
                    }
                    None => self.done = true,
                }
            }
        }
        answer
    }

    /// What is to hold of an enumeration as a whole, whatever its calls were: its tuples are those
    /// that pass and come before the one to go on from, or all, each once and in order.
    #[track_caller]
    pub fn assert_whole(&self, case: &str) {
        let all = self.subject.passing(self.pattern, self.doc);
        let is_listed = |tuple: &&Vec<u32>| self.done || comes_before(tuple, &self.from);
        let listed: Vec<&Vec<u32>> = all.iter().filter(is_listed).collect();
        assert!(self.tuples.iter().eq(listed), "{case}: {:?}", self.tuples);
        // With k tuples that pass the k-th call, or the first where k is 0, says DONE at the
        // latest.
        let last = all.len().max(1);
        assert!(self.answered <= last, "{case}: {} calls", self.answered);
        assert!(self.done || self.answered < last, "{case}: no DONE in {last} calls");
    }
}

/// One pattern over documents that all have the same positions. These are the tuples that pass, in
/// order, whatever the buffer.
#[track_caller]
pub fn lists_tuples(
    trial: &mut Trial,
    starts: &[u32],
    lists: &[&[u32]],
    predicates: &[Row],
    tuples: &[&[u32]],
) {
    let subject = Subject::one_pattern(&DOCS, starts, lists, predicates);
    trial.case = format!("starts {starts:?}, lists {lists:?}, {predicates:?}");
    for doc in DOCS {
        for fit in [1, 2, tuples.len().max(1), tuples.len() + 1] {
            for more in [0, lists.len() - 1] {
                let listed = trial.enumerate(&subject, 0, doc, fit * lists.len() + more);
                assert_eq!(listed, tuples, "{}: {fit} fit", trial.case);
            }
        }
    }
    for doc in [1, 299, 301, 65_534] {
        assert_eq!(trial.enumerate(&subject, 0, doc, 40), [[]; 0], "{}: {doc}", trial.case);
    }
}

/// Documents with many positions of each list, some of them before the first title, and a plan over
/// them: many tuples pass, and many do not.
pub fn random_crowd(rng: &mut Rng) -> Subject {
    let width = rng.pick(&[6, 12, 30]);
    let first = rng.pick(&[0, 0, 400, 65_536 - width]);
    let window: Vec<u32> = (first..first + width).collect();
    let docs = &[rng.pick(&[0, 3, 65_533]), 65_534, 65_535][..1 + rng.below(3)];
    let (patterns, most_vars) = (1 + rng.below(2), rng.pick(&[2, 3, 4]));
    let most = [30, 30, 30, 10, 6][most_vars];
    let mut lists = vec![random_positions(rng, docs, &window, 4)];
    for _ in 0..1 + rng.below(3) {
        let mut list = vec![];
        for &doc in docs {
            let often = rng.pick(&[1, 2, 3, 3]);
            let some = window.iter().copied().filter(|_| rng.below(3) < often);
            let some: Vec<u32> = some.take(most).collect();
            list.extend(list_in(&[doc], &some));
        }
        lists.push(list);
    }
    let mut rows = vec![];
    for _ in 0..patterns {
        let vars = 1 + rng.below(most_vars);
        rows.extend((0..vars).map(|_| voice(1 + rng.below(lists.len() - 1) as u32)));
        rows.extend((0..rng.pick(&[0, 1, 1, 1, 2])).map(|_| small_predicate(rng, vars)));
        rows.push(END);
    }
    let least = at_least(rng.pick(&[1, 2]), 2);
    rows.extend(vec![rng.pick(&[BOTH, EITHER, FIRST_NOT_SECOND, least]); patterns - 1]);
    Subject::new(&Lists::new(&lists).volume(), &rows.concat())
}

/// A start: a tuple that passes, one beside it, positions of the lists, or any.
pub fn random_from(rng: &mut Rng, subject: &Subject, pattern: u32, doc: u32) -> Vec<u32> {
    let searcher = subject.searcher();
    let of_vars = searcher.of_vars(&searcher.patterns[pattern as usize], doc);
    let passing = subject.passing(pattern, doc);
    let mut from: Vec<u32> = match rng.below(8) {
        0 => vec![0; of_vars.len()],
        1..=4 if !passing.is_empty() => passing[rng.below(passing.len())].clone(),
        5 => of_vars.iter().map(|_| rng.word() % 65_536).collect(),
        _ => {
            let of_var = |of: &Vec<u32>| if of.is_empty() { 7 } else { of[rng.below(of.len())] };
            of_vars.iter().map(of_var).collect()
        }
    };
    for _ in 0..rng.pick(&[0, 0, 1, 1, 2]) {
        let var = rng.below(from.len());
        let beside = from[var].saturating_add_signed(rng.pick(&[-1, 1])).min(65_535);
        from[var] = rng.pick(&[beside, beside, beside, 0, 65_535]);
    }
    from
}

/// A pattern and a document. In most of them several tuples pass, where there are such.
fn random_spot(rng: &mut Rng, subject: &Subject) -> (u32, u32) {
    let docs: Vec<u32> = subject.docs().into_iter().chain([7]).collect();
    let patterns = subject.searcher().patterns.len();
    let most = rng.pick(&[1, 4, 4, 8]);
    let mut spot = (0, 7);
    for _ in 0..most {
        spot = (rng.below(patterns) as u32, rng.pick(&docs));
        if subject.passing(spot.0, spot.1).len() > 1 {
            break;
        }
    }
    spot
}

/// A number of words for a buffer: too few for a tuple, or as many as some tuples have or nearly
/// so, often about as many as are left.
fn tuples_room(rng: &mut Rng, vars: usize, left: usize) -> usize {
    let some = vars * (1 + rng.below(left + 2));
    let (short, all) = (rng.below(vars), vars * left.max(1));
    rng.pick(&[short, vars, some, some, some + short, some + short, all, all + short, all + vars])
}

/// One enumeration, to DONE or to some call before it. Its buffers are all of one length or of
/// many, in memory of their own or all in the same.
pub fn random_enumeration(rng: &mut Rng, trial: &mut Trial, met: &mut Met, subject: &Subject) {
    let (pattern, doc) = random_spot(rng, subject);
    let (vars, count) = (subject.vars(pattern), subject.passing(pattern, doc).len());
    let mut all = Enumeration::new(subject, pattern, doc);
    let (mut shared, room_of_all) = memory_for(vars * (count + 4));
    let is_shared = rng.below(2) == 0;
    let fit = 1 + rng.below(count / 4 + 2);
    let one_length = if rng.below(3) == 0 { Some(vars * fit) } else { None };
    for _ in 0..rng.pick(&[1, 2, 3, 9, 9, 9]) {
        let left = count - all.tuples.len();
        let room = one_length.unwrap_or_else(|| tuples_room(rng, vars, left));
        let answer = if is_shared {
            let first = room_of_all.start + rng.below(room_of_all.len() - room + 1);
            all.call(trial, &mut shared, first..first + room)
        } else {
            let (mut memory, lent) = memory_for(room);
            all.call(trial, &mut memory, lent)
        };
        match answer {
            Err(_) => met.count("matches: short buffers", 1),
            Ok(matched) => {
                let is_more = matched.more.is_some();
                met.count("matches: more", usize::from(is_more));
                met.count("matches: several and more", usize::from(is_more && matched.count > 1));
                met.count("matches: a remainder", usize::from(is_more && room % vars > 0));
                let is_full = matched.count as usize == room / vars;
                met.count("matches: done with a full buffer", usize::from(all.done && is_full));
                met.count("matches: done with none", usize::from(all.done && matched.count == 0));
            }
        }
        if all.done {
            break;
        }
    }
    all.assert_whole(&trial.case);
    met.count("enumerations", 1);
    met.count("enumerations to done", usize::from(all.done));
    met.count("enumerations of several calls", usize::from(all.answered > 1));
    let shared = all
        .tuples
        .iter()
        .filter(|tuple| (1..tuple.len()).any(|var| tuple[..var].contains(&tuple[var])));
    met.count("tuples with one position twice", shared.count());
}

/// Calls from tuples that no enumeration would start from, and such as are refused.
pub fn other_matches(rng: &mut Rng, trial: &mut Trial, subject: &Subject, count: usize) {
    for _ in 0..count {
        let (mut pattern, mut doc, mut from) = match &subject.naive {
            Ok(_) => {
                let (pattern, doc) = random_spot(rng, subject);
                (pattern, doc, random_from(rng, subject, pattern, doc))
            }
            Err(_) => (rng.below(3) as u32, rng.below(5) as u32, vec![7; rng.below(4)]),
        };
        let vars = from.len();
        let any = rng.word() >> rng.below(32);
        let beyond = rng.pick(&[65_536, 65_537, 1 << 17, 1 << 31, u32::MAX]);
        match rng.below(16) {
            0 => from.push(any % 65_536),
            1 => from.truncate(rng.below(vars.max(1))),
            2 => from.extend(vec![0; rng.below(300)]),
            3 if vars > 0 => from[rng.below(vars)] = beyond,
            4 if vars > 0 => from[rng.below(vars)] += 65_536,
            5 => doc = rng.pick(&[beyond, doc + 65_536, any]),
            6 => doc = doc.saturating_add_signed(rng.pick(&[-1, 1])),
            7 => pattern = rng.pick(&[pattern + 1, 8, 256, 65_536, u32::MAX, any]),
            _ => {}
        }
        let room = tuples_room(rng, vars.max(1), 6);
        let _ = trial.match_page(subject, pattern, doc, &from, room);
    }
}
