//! Searching for the tests: volumes and plans that are made to be searched, the comparison of the
//! library with the naive searcher, call by call, and whole searches.

use super::plans::*;
use super::{amid, damage, pair, Call, Fill, Lists, Met, Rng, Trial, AMID};
use crate::plain::search::{title_start, Listed, Searcher};
use crate::plain::{self, Refused};
use lihambozy::calls::{Listing, Next};
use std::collections::{BTreeMap, BTreeSet};
use std::ops::Range;

/// What a row has for the title start of a position that has none.
pub const NO_START: u32 = 65_536;

/// A volume and a plan in the middle of other elements, and the naive searcher over them, or why it
/// refuses them.
pub struct Subject {
    bytes: Vec<u8>,
    words: Vec<u32>,
    kept: (Vec<u8>, Vec<u32>),
    pub naive: Result<Searcher, Refused>,
}

impl Subject {
    pub fn new(volume: &[u8], plan: &[u32]) -> Subject {
        let (bytes, words) = (amid(volume), amid(plan));
        let kept = (bytes.clone(), words.clone());
        Subject { bytes, words, kept, naive: Searcher::new(volume, plan) }
    }

    /// A plan over lists that are told by document and position.
    pub fn over(lists: &[&[(u32, u32)]], rows: &[Row]) -> Subject {
        let posting = |&(doc, pos): &(u32, u32)| doc * 65_536 + pos;
        let lists: Vec<Vec<u32>> =
            lists.iter().map(|list| list.iter().map(posting).collect()).collect();
        Subject::new(&Lists::new(&lists).volume(), &rows.concat())
    }

    /// One pattern, variable i on list i + 1, over documents that all have the same positions.
    pub fn one_pattern(docs: &[u32], starts: Of, lists: &[Of], predicates: &[Row]) -> Subject {
        let voices: Vec<Row> = (1..=lists.len() as u32).map(voice).collect();
        let rows = [&voices[..], predicates, &[END]].concat();
        let all: Vec<Vec<u32>> =
            [&[starts], lists].concat().iter().map(|positions| list_in(docs, positions)).collect();
        Subject::new(&Lists::new(&all).volume(), &rows.concat())
    }

    /// A plan over a volume, where the naive searcher has only so many steps to take.
    pub fn within(volume: &[u8], plan: &[u32], most: u64) -> Option<Subject> {
        (naive_steps(volume, plan) <= most).then(|| Subject::new(volume, plan))
    }

    pub fn volume(&self) -> &[u8] {
        &self.bytes[AMID..self.bytes.len() - AMID]
    }

    pub fn plan(&self) -> &[u32] {
        &self.words[AMID..self.words.len() - AMID]
    }

    /// The naive searcher of a volume and a plan that are accepted.
    #[track_caller]
    pub fn searcher(&self) -> &Searcher {
        self.naive.as_ref().unwrap_or_else(|refused| panic!("refused {refused:?}"))
    }

    /// The words of a row, or of that of a small plan where this one is refused.
    pub fn width(&self) -> usize {
        self.naive.as_ref().map_or(6, Searcher::width)
    }

    /// The words of rows that are told without title starts, with the start behind each position.
    #[track_caller]
    pub fn with_starts(&self, told: &[u32]) -> Vec<u32> {
        let searcher = self.searcher();
        let rows = told.chunks_exact(1 + searcher.patterns.len() + searcher.vars());
        assert!(rows.remainder().is_empty(), "{told:?} are no rows");
        let mut words = vec![];
        for row in rows {
            let starts = searcher.positions(0, row[0]);
            words.push(row[0]);
            let mut rest = &row[1..];
            for pattern in &searcher.patterns {
                let (flag, positions) = (rest[0], &rest[1..][..pattern.lists.len()]);
                words.push(flag);
                for &pos in positions {
                    words.extend([pos, if flag == 1 { title_start(&starts, pos) } else { 0 }]);
                }
                rest = &rest[1 + positions.len()..];
            }
        }
        words
    }

    /// The documents that have a posting; none where volume or plan is refused.
    pub fn docs(&self) -> BTreeSet<u32> {
        self.naive.as_ref().map_or(BTreeSet::new(), Searcher::docs)
    }

    /// Nothing is written in volume or plan, nor beside them.
    #[track_caller]
    pub fn assert_kept(&self, case: &str) {
        assert!(self.bytes == self.kept.0, "{case}: written in the volume or beside it");
        assert!(self.words == self.kept.1, "{case}: written in the plan or beside it");
    }
}

/// A row of one pattern that is found, without its title starts.
pub fn without_starts(row: &[u32]) -> Vec<u32> {
    let positions = row[2..].iter().step_by(2);
    row[..2].iter().chain(positions).copied().collect()
}

/// Words before and behind a buffer of so many words, and where it lies.
pub fn memory_for(room: usize) -> (Vec<u32>, Range<usize>) {
    const SIDE: usize = 70;
    ((0..SIDE + room + SIDE).map(u32::fill).collect(), SIDE..SIDE + room)
}

impl Trial {
    /// Lists into a part of the memory. All of it afterwards is as the naive searcher leaves it.
    #[track_caller]
    pub fn list(
        &mut self,
        subject: &Subject,
        start: u32,
        memory: &mut [u32],
        lent: Range<usize>,
    ) -> Result<Listed, Refused> {
        let case = format!("{}: list from {start} into {} words", self.case, lent.len());
        let mut expected = memory.to_vec();
        let naive = match &subject.naive {
            Ok(searcher) => searcher.list(start, &mut expected[lent.clone()]),
            Err(refused) => Err(*refused),
        };
        let answer = lihambozy::calls::list(
            subject.volume(),
            subject.plan(),
            start,
            &mut memory[lent.clone()],
        )
        .map(listed)
        .map_err(pair);
        assert_eq!(answer, naive, "{case}");
        if let Some(word) = (0..memory.len()).find(|&word| memory[word] != expected[word]) {
            let (lent, got) = (&expected[lent.clone()], &memory[lent]);
            panic!("{case}: word {word} of the memory is wrong; {got:?}, not {lent:?}");
        }
        subject.assert_kept(&case);
        self.count(Call::List, &answer);
        self.listed += answer.map_or(0, |listed| listed.rows as usize);
        answer
    }

    /// Lists into so many words: the words of all rows written, and the answer.
    #[track_caller]
    pub fn list_rows(
        &mut self,
        subject: &Subject,
        start: u32,
        room: usize,
    ) -> Result<(Vec<u32>, Listed), Refused> {
        let (mut memory, lent) = memory_for(room);
        let answer = self.list(subject, start, &mut memory, lent.clone())?;
        let words = answer.rows as usize * subject.width();
        Ok((memory[lent][..words].to_vec(), answer))
    }

    /// Tests positions of a pattern in a document.
    #[track_caller]
    pub fn test(
        &mut self,
        subject: &Subject,
        pattern: u32,
        doc: u32,
        positions: &[u32],
    ) -> Result<bool, Refused> {
        let case = format!("{}: test {positions:?} of {pattern} in {doc}", self.case);
        let words = amid(positions);
        let lent = &words[AMID..AMID + positions.len()];
        let (volume, plan) = (subject.volume(), subject.plan());
        let answer =
            lihambozy::calls::test_positions(volume, plan, pattern, doc, lent).map_err(pair);
        let naive = match &subject.naive {
            Ok(searcher) => searcher.test(pattern, doc, positions),
            Err(refused) => Err(*refused),
        };
        assert_eq!(answer, naive, "{case}");
        assert!(words == amid(positions), "{case}: written in the positions or beside them");
        subject.assert_kept(&case);
        self.count(Call::Test, &answer);
        answer
    }

    /// A whole search through buffers of one length: the words of all rows, and the sum of the
    /// tallies.
    #[track_caller]
    pub fn search(&mut self, subject: &Subject, room: usize) -> (Vec<u32>, u32) {
        let mut search = Search::new(subject);
        while !search.done {
            let (mut memory, lent) = memory_for(room);
            search.call(self, &mut memory, lent).expect("a row fits");
        }
        search.assert_whole(&self.case);
        (search.words, search.tally)
    }

    /// All rows and the sum of the tallies, the same in one call, row by row, and by three rows and
    /// a word.
    #[track_caller]
    pub fn listing(&mut self, subject: &Subject) -> (Vec<u32>, u32) {
        let width = subject.searcher().width();
        let all = self.search(subject, 1_000 * width);
        for room in [width, 3 * width + 1] {
            assert_eq!(self.search(subject, room), all, "{}: {room} words", self.case);
        }
        all
    }

    /// The listing has these rows, which are told without title starts, and this tally.
    #[track_caller]
    pub fn lists(&mut self, subject: &Subject, told: &[u32], tally: u32) {
        assert_eq!(self.listing(subject), (subject.with_starts(told), tally), "{}", self.case);
    }
}

fn listed(listing: Listing) -> Listed {
    let more = match listing.next {
        Next::Done => None,
        Next::More(doc) => Some(doc),
    };
    Listed { rows: listing.rows, tally: listing.tally, more }
}

/// A search as document 01 has it: listing calls, each from the document reached.
pub struct Search<'a> {
    subject: &'a Subject,
    /// The document reached (01: scene reached).
    pub reached: u32,
    /// Whether a call has said DONE.
    pub done: bool,
    /// The calls that were not refused.
    pub answered: usize,
    /// The rows of all calls, joined.
    pub words: Vec<u32>,
    /// The sum of the tallies.
    pub tally: u32,
}

impl<'a> Search<'a> {
    pub fn new(subject: &'a Subject) -> Search<'a> {
        Search { subject, reached: 0, done: false, answered: 0, words: vec![], tally: 0 }
    }

    /// The next call, into a part of the memory.
    #[track_caller]
    pub fn call(
        &mut self,
        trial: &mut Trial,
        memory: &mut [u32],
        lent: Range<usize>,
    ) -> Result<Listed, Refused> {
        assert!(!self.done, "DONE closes a search");
        let width = self.subject.searcher().width();
        let answer = trial.list(self.subject, self.reached, memory, lent.clone());
        match answer {
            Err(refused) => {
                assert!(refused == (16, 0) && lent.len() < width, "{}: {refused:?}", trial.case);
            }
            Ok(listed) => {
                assert!(lent.len() >= width, "{}: no row fits", trial.case);
                self.answered += 1;
                self.words.extend(&memory[lent][..listed.rows as usize * width]);
                self.tally += listed.tally;
                match listed.more {
                    Some(doc) => self.reached = doc,
                    None => self.done = true,
                }
            }
        }
        answer
    }

    /// What document 01 says of a search as a whole, whatever its calls were.
    #[track_caller]
    pub fn assert_whole(&self, case: &str) {
        let searcher = self.subject.searcher();
        let end = if self.done { 65_536 } else { self.reached };
        let below = searcher.rows.iter().filter(|row| row[0] < end);
        let words: Vec<u32> = below.flatten().copied().collect();
        assert_eq!(self.words, words, "{case}");
        assert_eq!(self.tally, searcher.tally(0, end), "{case}");
        if self.done {
            let lists = searcher.patterns.iter().flat_map(|pattern| &pattern.lists);
            let counts = lists.map(|&list| searcher.lists[list].len() as u32);
            assert_eq!(self.tally, counts.sum::<u32>(), "{case}");
        }
        // With k true documents the k-th call, or the first where k is 0, says DONE at the latest.
        let last = searcher.rows.len().max(1);
        assert!(self.answered <= last, "{case}: {} calls", self.answered);
        assert!(self.done || self.answered < last, "{case}: no DONE in {last} calls");
    }
}

/// The documents in which a pattern is tried: the first, the last, and one between them.
pub const DOCS: [u32; 3] = [0, 300, 65_535];

/// A list that has these positions in each of the documents.
pub fn list_in(docs: &[u32], positions: &[u32]) -> Vec<u32> {
    docs.iter().flat_map(|doc| positions.iter().map(move |pos| doc * 65_536 + pos)).collect()
}

/// Postings told by document and position, rising and each once.
pub fn rising(mut list: Vec<(u32, u32)>) -> Vec<(u32, u32)> {
    list.sort_unstable();
    list.dedup();
    list
}

/// One pattern over documents that all have the same positions. It is found at the least positions
/// given, or not found.
#[track_caller]
pub fn settles(
    trial: &mut Trial,
    starts: &[u32],
    lists: &[&[u32]],
    predicates: &[Row],
    least: Option<&[u32]>,
) {
    trial.case = format!("starts {starts:?}, lists {lists:?}, {predicates:?}");
    let of_doc = |doc: u32| least.map_or(vec![], |least| [&[doc, 1], least].concat());
    let postings: usize = lists.iter().map(|list| list.len()).sum();
    for docs in [&DOCS[..], &DOCS[..1], &DOCS[2..]] {
        let subject = Subject::one_pattern(docs, starts, lists, predicates);
        let rows: Vec<u32> = docs.iter().copied().flat_map(of_doc).collect();
        let rows = subject.with_starts(&rows);
        let tally = (docs.len() * postings) as u32;
        for fit in [1, 2, 5] {
            let room = fit * (2 + 2 * lists.len());
            let searched = trial.search(&subject, room);
            assert_eq!(searched, (rows.clone(), tally), "{}", trial.case);
        }
        if let Some(least) = least {
            assert_eq!(trial.test(&subject, 0, docs[0], least), Ok(true), "{}", trial.case);
        }
    }
}

/// The least positions of two variables, if their pattern is found.
pub type Pair = Option<[u32; 2]>;
/// The positions of a list in a document.
pub type Of<'a> = &'a [u32];

/// Lists made to be searched.
pub struct Archive {
    pub lists: Lists,
    /// The lists that a plan is to name. The others lie between them.
    pub named: Vec<u32>,
}

/// A rising list with up to `most` positions in each of the documents, none in some of them.
pub fn random_positions(rng: &mut Rng, docs: &[u32], window: &[u32], most: usize) -> Vec<u32> {
    let often = rng.pick(&[1, 2, 3, 4, 4, 4]);
    let mut list = BTreeSet::new();
    for &doc in docs {
        if rng.below(4) < often {
            let any = 1 + rng.below(most);
            let count = rng.pick(&[1, most.min(2), any]);
            list.extend((0..count).map(|_| doc * 65_536 + rng.pick(window)));
        }
    }
    list.into_iter().collect()
}

/// The documents of an archive: neighbours or far apart, often at an end.
fn random_docs(rng: &mut Rng) -> Vec<u32> {
    let any = 1 + rng.below(14);
    let count = rng.pick(&[1, 5, any]);
    let first = rng.below(65_537 - count);
    let docs: BTreeSet<u32> = match rng.below(5) {
        0 => (0..count as u32).collect(),
        1 => (65_536 - count as u32..65_536).collect(),
        2 => (first as u32..(first + count) as u32).collect(),
        3 => (0..count).map(|_| rng.word() % 65_536).collect(),
        _ => (0..count).map(|_| rng.pick(&[0, 1, 2, 255, 256, 257, 65_534, 65_535])).collect(),
    };
    docs.into_iter().collect()
}

/// The positions that an archive uses: a few neighbours, at an end or both ends, or far apart.
fn random_window(rng: &mut Rng) -> Vec<u32> {
    let width = rng.pick(&[2, 9, 20, 20, 60, 200]);
    let first = rng.word() % (65_536 - width);
    match rng.below(6) {
        0 => (0..width).collect(),
        1 => (65_536 - width..65_536).collect(),
        2 | 3 => (first..first + width).collect(),
        4 => (0..width).chain(65_536 - width..65_536).collect(),
        _ => (0..width).map(|_| rng.word() % 65_536).chain([0, 65_535]).collect(),
    }
}

/// List 0 of these documents. It is empty, or dense, or has starts in front of all positions alone,
/// or all its starts in one document. Mostly it is none of these: a part of the documents has a
/// lead-in, the first title starting behind some of the positions, some have no title at all, and
/// in the others all positions are in titles.
pub fn random_starts(rng: &mut Rng, docs: &[u32], window: &[u32]) -> Vec<u32> {
    let smallest = window.iter().copied().min().expect("an archive uses some positions");
    let (way, crowded) = (rng.below(32), rng.pick(docs));
    let often = rng.pick(&[1, 1, 3, 10, 30]);
    let mut starts = BTreeSet::new();
    for &doc in docs {
        let mut of_doc: Vec<u32> = vec![];
        match way {
            0 => {}
            1 => of_doc.extend(window.iter().filter(|_| rng.below(3) > 0)),
            2 => of_doc.push(rng.pick(&[smallest, smallest.saturating_sub(1), 0])),
            3 if doc == crowded => of_doc.extend(window.iter().filter(|_| rng.below(2) > 0)),
            3 => {}
            _ => {
                let first = match rng.below(12) {
                    0 => continue,
                    1..=7 => rng.pick(window),
                    _ => rng.pick(&[smallest, smallest, 0]),
                };
                of_doc.push(first);
                of_doc.extend((1..often).map(|_| rng.pick(window)).filter(|&pos| pos > first));
            }
        }
        starts.extend(of_doc.iter().map(|pos| doc * 65_536 + pos));
    }
    starts.into_iter().collect()
}

/// Where the title starts that rows show lie, each of which a search is to meet.
pub const STARTS: [&str; 6] = [
    "starts: none in the document",
    "starts: all behind the position",
    "starts: at the position",
    "starts: the document's first",
    "starts: one between",
    "starts: the document's last",
];

/// Counts these in the rows of a subject.
pub fn count_starts(met: &mut Met, subject: &Subject) {
    let searcher = subject.searcher();
    for row in &searcher.rows {
        let starts = searcher.positions(0, row[0]);
        for [pos, start] in searcher.shown(row).into_iter().flatten().flatten() {
            let [none, behind, at, first, between, last] = STARTS;
            let what = match starts.iter().position(|&other| other == start) {
                None if starts.is_empty() => none,
                None => behind,
                Some(_) if start == pos => at,
                Some(0) => first,
                Some(i) if i + 1 == starts.len() => last,
                Some(_) => between,
            };
            met.count(what, 1);
        }
    }
}

/// How many of the answers that an AT LEAST takes are yes: each of these a search is to meet.
pub const COUNTED: [&str; 4] = [
    "AT LEAST: none is yes",
    "AT LEAST: some are, too few",
    "AT LEAST: enough are, not all",
    "AT LEAST: all are yes",
];

/// Counts these in all documents of a subject.
pub fn count_at_least(met: &mut Met, subject: &Subject) {
    for &([_, least, of, _], yes) in &subject.searcher().counted {
        let [none, too_few, enough, all] = COUNTED;
        let what = match yes as u32 {
            0 => none,
            yes if yes == of => all,
            yes if yes < least => too_few,
            _ => enough,
        };
        met.count(what, 1);
    }
}

/// An archive of few documents, with up to `most` positions of a list in each.
pub fn random_archive(rng: &mut Rng, most: usize) -> Archive {
    let (docs, window) = (random_docs(rng), random_window(rng));
    let mut lists = vec![random_starts(rng, &docs, &window)];
    let mut named = Vec::new();
    for _ in 0..rng.pick(&[1, 2, 3, 4, 5, 6]) {
        // A list that no plan names moves the others on, over the edges of the blocks.
        if rng.below(3) == 0 {
            let between = rng.pick(&[1, 30, 130]);
            let all: Vec<u32> = (0..65_536).step_by(97).collect();
            lists.push(random_positions(rng, &docs, &all, between));
        }
        named.push(lists.len() as u32);
        lists.push(match rng.below(12) {
            0 => vec![],
            _ => random_positions(rng, &docs, &window, most),
        });
    }
    Archive { lists: Lists::new(&lists), named }
}

/// How many positions a list may have in a document, so that a pattern of so many variables has few
/// choices, or a good deal more.
pub fn most_positions(rng: &mut Rng, vars: usize) -> usize {
    let few = [8, 8, 8, 5, 4, 3, 3, 2, 2];
    let many = [99, 99, 40, 12, 7, 5, 4, 3, 3];
    rng.pick(&[few, few, few, few, few, many])[vars]
}

/// About how many steps the naive searcher takes over a volume and a plan. A look at sixteen
/// postings is one; a choice, also of the first few variables, is one for each predicate and start.
pub fn naive_steps(volume: &[u8], plan: &[u32]) -> u64 {
    let (Ok(lists), Ok(checked)) = (plain::lists(volume), plain::plan::check(volume, plan)) else {
        return 0;
    };
    let counts: Vec<BTreeMap<u32, u64>> = { lists.iter() }
        .map(|list| {
            let mut counts = BTreeMap::new();
            list.iter().for_each(|posting| *counts.entry(posting / 65_536).or_default() += 1);
            counts
        })
        .collect();
    let docs: BTreeSet<u32> = counts.iter().flat_map(BTreeMap::keys).copied().collect();
    let mut steps = 0u64;
    for part in checked.patterns {
        let (vars, others): (Vec<&[u32]>, Vec<&[u32]>) =
            plan[part].chunks(4).partition(|row| row[0] == lihambozy::kind::VOICE);
        for doc in &docs {
            let of_list = |list: usize| counts[list].get(doc).copied().unwrap_or(0);
            let mut choices = 1u64;
            for var in &vars {
                let list = var[1] as usize;
                choices = choices.saturating_mul(of_list(list));
                steps = steps.saturating_add(choices).saturating_add(lists[list].len() as u64 / 16);
            }
            let each = others.len() as u64 * (1 + of_list(0));
            steps = steps.saturating_add(choices.saturating_mul(each));
        }
    }
    steps
}

/// A predicate that some positions meet and some do not: most limits are small.
pub fn small_predicate(rng: &mut Rng, vars: usize) -> Row {
    let a = rng.below(vars);
    let other = (a + rng.below(vars)) % vars;
    let b = rng.pick(&[(a + 1) % vars, other, other]);
    let (a, b) = (a as u32, b as u32);
    let small = rng.below(5) as u32;
    let any = rng.word() % 65_536;
    match rng.below(5) {
        0 => near(a, b, rng.pick(&[0, 0, small, small, small, any, 65_534, 65_535])),
        1 => before(a, b),
        2 => same_title(a, b),
        3 => span(rng.pick(&[1, 1 + small, 1 + small, 3 + 3 * small, 1 + any, 65_535, 65_536])),
        _ => {
            let (small, any) = (small as u16, any as u16);
            let least = rng.pick(&[0, 0, 0, small, small, small, 3 * small, any, 65_534]);
            let more = rng.pick(&[0, 0, small, small, 3 * small, any, 65_534, 65_535]);
            apart(a, b, least, least.saturating_add(more))
        }
    }
}

/// A small volume and a plan over it, each damaged or spoiled now and then, or both.
pub fn random_fault(rng: &mut Rng) -> (Vec<u8>, Vec<u32>) {
    let (docs, positions): ([u32; 5], [u32; 6]) =
        ([0, 1, 2, 500, 65_535], [0, 1, 2, 9, 10, 65_535]);
    let count = 2 + rng.below(6);
    let lists: Vec<Vec<u32>> =
        (0..count).map(|_| random_positions(rng, &docs, &positions, 2)).collect();
    let lists = Lists::new(&lists);
    let mut volume = lists.volume();
    let (mut rows, _) = random_query(rng);
    for row in rows.iter_mut().filter(|row| row[0] == lihambozy::kind::VOICE) {
        row[1] = 1 + rng.below(count - 1) as u32;
    }
    for _ in 0..rng.pick(&[0, 0, 0, 1, 2]) {
        damage(rng, &lists, &mut volume);
    }
    for _ in 0..rng.pick(&[0, 0, 1, 2]) {
        spoil(rng, &mut rows, count);
    }
    let mut plan = rows.concat();
    match rng.below(20) {
        0 => plan.truncate(rng.below(plan.len() + 1)),
        1 => plan.extend([1, 1, 0, 0].repeat(rng.below(70))),
        _ => {}
    }
    (volume, plan)
}

/// A plan of few predicates, so that its patterns are often found: the rows, and the variables of
/// its largest pattern.
pub fn random_query(rng: &mut Rng) -> (Vec<Row>, usize) {
    let any = 1 + rng.below(8);
    let count = rng.pick(&[1, 1, 1, 2, 2, 3, 3, 4, any]);
    let most_vars = rng.pick(&[1, 2, 2, 3, 3, 4, 8]);
    let (mut rows, mut largest) = (vec![], 0);
    for joins in random_joins(rng, count) {
        // All rows together, operators too, are 63 at most.
        let vars = (1 + rng.below(most_vars)).min(48 / count - 1).min(8);
        let predicates = rng.pick(&[0, 1, 1, 1, 2, 3]).min(56 / count - 1 - vars);
        largest = largest.max(vars);
        rows.extend((0..vars).map(|_| voice(0)));
        rows.extend((0..predicates).map(|_| small_predicate(rng, vars)));
        rows.push(END);
        rows.extend(joins);
    }
    (rows, largest)
}

/// An archive and a plan over it.
pub fn random_subject(rng: &mut Rng) -> Subject {
    let (mut rows, largest) = random_query(rng);
    let most = most_positions(rng, largest);
    let archive = random_archive(rng, most);
    // The variables go round the lists, or take any, or mostly one.
    let (mut next, way) = (rng.below(archive.named.len()), rng.below(4));
    let one = rng.pick(&archive.named);
    for row in rows.iter_mut().filter(|row| row[0] == lihambozy::kind::VOICE) {
        let any = rng.pick(&archive.named);
        next += 1;
        row[1] = match way {
            0 => any,
            1 => rng.pick(&[one, one, any]),
            _ => archive.named[next % archive.named.len()],
        };
    }
    Subject::new(&archive.lists.volume(), &rows.concat())
}

/// A plan over lists of very different lengths: in all documents, of which there are 400 at most,
/// in some, in one or in none, with many positions in each of them or with one. Some lists are as
/// long as another one.
pub fn random_skewed_subject(rng: &mut Rng, most_docs: u32) -> Subject {
    let (mut rows, largest) = random_query(rng);
    let (count, apart) = (rng.pick(&[6, most_docs / 2, most_docs]), rng.pick(&[1, 1, 150]));
    let first = rng.pick(&[0, 77, 65_535 - (count - 1) * apart]);
    let docs: Vec<u32> = (0..count).map(|i| first + i * apart).collect();
    let window: Vec<u32> = (0..rng.pick(&[4, 12, 30])).collect();
    let most = most_positions(rng, largest).min(8);
    let mut lists = vec![random_starts(rng, &docs, &window)];
    for _ in 0..2 + rng.below(4) {
        let some = rng.pick(&[0, 1, 2, 2, docs.len() / 3, docs.len(), docs.len(), docs.len()]);
        let from = rng.below(docs.len() - some + 1);
        let most = rng.pick(&[1, most, most]);
        let mut list = BTreeSet::new();
        for doc in &docs[from..from + some] {
            list.extend((0..1 + rng.below(most)).map(|_| doc * 65_536 + rng.pick(&window)));
        }
        if rng.below(4) == 0 {
            lists.push(list.iter().map(|posting| posting + 1).collect());
        }
        lists.push(list.into_iter().collect());
    }
    for row in rows.iter_mut().filter(|row| row[0] == lihambozy::kind::VOICE) {
        row[1] = 1 + rng.below(lists.len() - 1) as u32;
    }
    Subject::new(&Lists::new(&lists).volume(), &rows.concat())
}

/// Hundreds of documents in many blocks, and a plan over them.
pub fn random_large_subject(rng: &mut Rng) -> Subject {
    let (mut rows, _) = random_query(rng);
    let count = 100 + rng.below(400);
    let apart = 1 + rng.below(65_535 / count) as u32;
    let docs: Vec<u32> = (0..count as u32).map(|i| i * apart).collect();
    let positions: Vec<u32> = (0..20).collect();
    let mut lists = vec![random_starts(rng, &docs, &positions)];
    for most in [2, 2, 2, 1, 1, 1] {
        let some: Vec<u32> = docs.iter().copied().filter(|_| rng.below(3) > 0).collect();
        lists.push(random_positions(rng, &some, &positions, most));
    }
    for row in rows.iter_mut().filter(|row| row[0] == lihambozy::kind::VOICE) {
        row[1] = 1 + rng.below(6) as u32;
    }
    Subject::new(&Lists::new(&lists).volume(), &rows.concat())
}

/// An archive and a plan over it, sometimes with a bit of the volume or a word of the plan changed.
pub fn random_run(rng: &mut Rng) -> Subject {
    let subject = random_subject(rng);
    let (mut volume, mut plan) = (subject.volume().to_vec(), subject.plan().to_vec());
    match rng.below(8) {
        0 => {
            let at = rng.below(volume.len());
            volume[at] ^= 1 << rng.below(8);
        }
        1 => {
            let at = rng.below(plan.len());
            plan[at] = rng.pick(&[0, 1, 2, 7, 8, 9, 10, 11, 65_536]);
        }
        _ => return subject,
    }
    Subject::new(&volume, &plan)
}

/// A random pattern: the lists that it is searched in, its VOICE rows, and predicates of any kind
/// beside those that a test adds.
pub struct RandomPattern {
    pub lists: Lists,
    pub voices: Vec<Row>,
    others: Vec<Row>,
}

impl RandomPattern {
    pub fn new(rng: &mut Rng) -> RandomPattern {
        let vars = rng.pick(&[2, 2, 3, 4]);
        let most = most_positions(rng, vars);
        let archive = random_archive(rng, most);
        let voices = (0..vars).map(|_| voice(rng.pick(&archive.named))).collect();
        let others = (0..rng.pick(&[0, 0, 1, 2])).map(|_| small_predicate(rng, vars)).collect();
        RandomPattern { lists: archive.lists, voices, others }
    }

    /// The documents that have a posting.
    pub fn docs(&self) -> BTreeSet<u32> {
        self.lists.postings.iter().map(|posting| posting / 65_536).collect()
    }

    /// The same pattern over other lists.
    pub fn over(&self, lists: &[&[u32]]) -> RandomPattern {
        let (voices, others) = (self.voices.clone(), self.others.clone());
        RandomPattern { lists: Lists::new(lists), voices, others }
    }

    /// The pattern's rows with these predicates, in front of the others or behind them.
    pub fn with(&self, in_front: bool, predicates: &[Row]) -> Vec<Row> {
        let both = [predicates, &self.others];
        let [one, other] = if in_front { both } else { [both[1], both[0]] };
        [&self.voices[..], one, other, &[END]].concat()
    }

    /// The rows that the library lists, as the naive searcher has them.
    #[track_caller]
    pub fn listed(&self, trial: &mut Trial, rows: &[Row]) -> Vec<Vec<u32>> {
        let case = trial.case.clone();
        trial.case += &format!(", {rows:?}");
        let subject = Subject::new(&self.lists.volume(), &rows.concat());
        let width = subject.searcher().width();
        let (words, _) = trial.search(&subject, 100 * width);
        trial.case = case;
        words.chunks(width).map(<[u32]>::to_vec).collect()
    }
}

/// A number of words for a buffer: too few for a row, or as many as some rows have or nearly so.
pub fn random_room(rng: &mut Rng, width: usize) -> usize {
    let rows = width * (1 + rng.below(9));
    let short = rng.below(width);
    rng.pick(&[short, width, width, width + 1, 2 * width - 1, 2 * width, rows, rows + short])
}

/// One search, to DONE or to some call before it. Its buffers are all of one length or of many, in
/// memory of their own or all in the same.
pub fn random_search(rng: &mut Rng, trial: &mut Trial, met: &mut Met, subject: &Subject) {
    let width = subject.searcher().width();
    let mut search = Search::new(subject);
    let (mut shared, all) = memory_for(12 * width);
    let is_shared = rng.below(2) == 0;
    let one_length = if rng.below(3) == 0 { Some(width * (1 + rng.below(3))) } else { None };
    let most_calls = rng.pick(&[0, 1, 2, 3, 1_000, 1_000, 1_000, 1_000]);
    for _ in 0..most_calls {
        let room = one_length.unwrap_or_else(|| random_room(rng, width));
        let answer = if is_shared {
            let first = all.start + rng.below(all.len() - room + 1);
            search.call(trial, &mut shared, first..first + room)
        } else {
            let (mut memory, lent) = memory_for(room);
            search.call(trial, &mut memory, lent)
        };
        match answer {
            Err(_) => met.count("short buffers", 1),
            Ok(listed) => {
                met.count("more", usize::from(listed.more.is_some()));
                met.count("several rows and more", {
                    usize::from(listed.rows > 1 && listed.more.is_some())
                });
                met.count("done with no row", usize::from(search.done && listed.rows == 0));
                met.count("a buffer used again", usize::from(is_shared && search.answered > 1));
            }
        }
        if search.done {
            break;
        }
    }
    search.assert_whole(&trial.case);
    met.count("searches", 1);
    met.count("searches to done", usize::from(search.done));
    met.count("searches of several calls", usize::from(search.answered > 1));
}

/// Calls from documents that no search would start from.
pub fn other_starts(rng: &mut Rng, trial: &mut Trial, subject: &Subject, count: usize) {
    let docs: Vec<u32> = subject.docs().into_iter().chain([65_535]).collect();
    let behind = subject.docs().last().map_or(0, |doc| doc + 1);
    for _ in 0..count {
        let near = rng.pick(&docs).saturating_add_signed(rng.pick(&[-1, 0, 1, 1]));
        let any = rng.word() % 65_536;
        let starts = [near, near, near, any, behind, 65_535, 65_536, 65_536 + near, u32::MAX];
        let room = random_room(rng, subject.width());
        let start = rng.pick(&starts);
        let _ = trial.list_rows(subject, start, room);
    }
}
