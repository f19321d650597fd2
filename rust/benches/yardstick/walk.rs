//! A searcher: the volume is checked with late reduction, the lists that the plan uses and list 0
//! are decoded into vectors, and one pass over them lists the documents.
//!
//! The pass: a cursor is what is left of a list. Each pattern takes its variables in the order of
//! their lists' lengths, and joins the lists: the shortest one leads, the others leap to the
//! document that it has come to, and from one that is beyond it the shortest goes on, until all
//! stand in one document. The least of these documents over the patterns is the next to look at,
//! since no plan is true where no pattern has all its variables. Each pattern that stands there is
//! settled: from the first positions on, a predicate that fails moves the variable that it leaves
//! short, of several the first in the order, and where all hold the match is the least. The cursors
//! themselves move, and the next join goes on from where they lie. Title starts, those of a row and
//! those that SAME TITLE asks for, are found by a cursor on list 0 for each variable: since its
//! positions rise, it goes on from where the variable's start was found last.

use super::late::{self, Refused};

/// The number behind the last document.
const END: u32 = 65_536;
const MAX_VARS: usize = 8;
const MAX_PATTERNS: usize = 8;
const MAX_ROWS: usize = 64;

/// The answer of a listing call.
#[derive(Clone, Copy, Debug, PartialEq, Eq)]
pub struct Listing {
    /// The rows written.
    pub rows: u32,
    /// The postings of every variable's list from the start up to `next`, or to the end.
    pub tally: u32,
    /// MORE's document, the least true one that is not written; `None` for DONE.
    pub next: Option<u32>,
}

/// Lists the true documents from `start` on: a row for each at the front of `out`.
pub fn list(volume: &[u8], plan: &[u32], start: u32, out: &mut [u32]) -> Result<Listing, Refused> {
    late::check_volume(volume)?;
    walk(volume, plan, start, out)
}

/// What `list` does behind the check of the volume.
pub fn walk(volume: &[u8], plan: &[u32], start: u32, out: &mut [u32]) -> Result<Listing, Refused> {
    let list_count = late::read_u32(&volume[8..12]);
    let plan = Plan::read(plan, list_count)?;
    if start >= END {
        return Err((15, 0));
    }
    let width = plan.width();
    if out.len() < width {
        return Err((16, 0));
    }

    let used = plan.used();
    let lists = decode(volume, list_count, &used);
    let list = |number: u32| &lists[used.binary_search(&number).unwrap()][..];
    let mut patterns: Vec<Joined> =
        plan.patterns.iter().map(|pattern| Joined::new(pattern, start, list)).collect();

    let mut rows = 0;
    let next = loop {
        let doc = patterns.iter().map(|pattern| pattern.doc).min().unwrap_or(END);
        if doc == END {
            break None;
        }
        let mut found = 0;
        for (i, pattern) in patterns.iter_mut().enumerate() {
            let here = pattern.doc == doc && pattern.settle().is_some();
            found |= u32::from(here) << i;
        }
        if plan.is_true(found) {
            let Some(row) = out.get_mut(rows * width..(rows + 1) * width) else {
                break Some(doc);
            };
            row[0] = doc;
            let mut rest = &mut row[1..];
            for (i, pattern) in patterns.iter_mut().enumerate() {
                let words;
                (words, rest) = rest.split_at_mut(1 + 2 * pattern.vars);
                if found >> i & 1 == 1 {
                    words[0] = 1;
                    pattern.show(&mut words[1..]);
                } else {
                    words.fill(0);
                }
            }
            rows += 1;
        }
        for pattern in patterns.iter_mut().filter(|pattern| pattern.doc == doc) {
            pattern.join(doc + 1);
        }
    };

    let tally = plan.patterns.iter().flat_map(|pattern| &pattern.lists).map(|&number| {
        let from = seek(list(number), start << 16);
        let behind = next.map_or(0, |doc| seek(from, doc << 16).len());
        from.len() - behind
    });
    Ok(Listing { rows: rows as u32, tally: tally.sum::<usize>() as u32, next })
}

/// What is left of a list that rises, from its first number on that is not below `bound`. Most
/// leaps are short, and how short is hard to foretell, so that the first eight numbers are counted
/// without a branch; then come steps that double, then halves.
fn seek(left: &[u32], bound: u32) -> &[u32] {
    if let Some(first) = left.first_chunk::<8>() {
        if first[7] >= bound {
            let below: usize = first.iter().map(|&number| usize::from(number < bound)).sum();
            return &left[below..];
        }
    }
    let mut below = 0;
    let mut step = 8;
    while left.get(below + step - 1).is_some_and(|&number| number < bound) {
        below += step;
        step *= 2;
    }
    let end = left.len().min(below + step - 1);
    below += left[below..end].partition_point(|&number| number < bound);
    &left[below..]
}

/// The lists of the given numbers, which rise.
fn decode(volume: &[u8], list_count: u32, numbers: &[u32]) -> Vec<Vec<u32>> {
    let mut lists = Vec::with_capacity(numbers.len());
    let mut numbers = numbers.iter().peekable();
    let mut start = 2 + list_count as usize;
    for (number, count) in (0..).zip(late::words(volume, 2, start)) {
        let end = start + count as usize;
        if numbers.next_if_eq(&&number).is_some() {
            let mut list = Vec::with_capacity(count as usize);
            for range in late::ranges(start, end) {
                list.extend(volume[range].chunks_exact(4).map(late::read_u32));
            }
            lists.push(list);
        }
        if numbers.peek().is_none() {
            break;
        }
        start = end;
    }
    lists
}

/// A pattern (01: figure) of a plan.
#[derive(Default)]
struct Pattern {
    /// The list of each variable (01: voice).
    lists: Vec<u32>,
    predicates: Vec<Predicate>,
}

/// A predicate on the positions of a pattern's variables (01: condition).
#[derive(Clone, Copy)]
enum Predicate {
    /// The positions differ by at most `most`.
    Distance {
        a: usize,
        b: usize,
        most: u32,
    },
    Ordered {
        a: usize,
        b: usize,
    },
    Samepara {
        a: usize,
        b: usize,
    },
    /// The largest and the smallest position differ by at most `most`.
    Window {
        most: u32,
    },
    /// The position of b is at least `least` and at most `most` behind that of a.
    Apart {
        a: usize,
        b: usize,
        least: u32,
        most: u32,
    },
}

impl Predicate {
    /// The variable that the predicate leaves short at these positions of a document, of several
    /// the first in the order, and the position that it needs there at least, `END` where no
    /// position will do; `None` where the predicate holds. `largest` is the largest position.
    #[inline]
    fn short(
        self,
        doc: u32,
        at: &[u32],
        order: &[usize],
        largest: u32,
        titles: &mut Titles,
    ) -> Option<(usize, u32)> {
        match self {
            Predicate::Distance { a, b, most } => {
                let (earlier, later) = if at[a] < at[b] { (a, b) } else { (b, a) };
                (at[later] - at[earlier] > most).then(|| (earlier, at[later] - most))
            }
            Predicate::Ordered { a, b } => (at[a] >= at[b]).then(|| (b, at[a] + 1)),
            Predicate::Samepara { a, b } => {
                let (earlier, later) = if at[a] < at[b] { (a, b) } else { (b, a) };
                let start = titles.needed(doc, later, at[later]);
                (at[earlier] < start).then_some((earlier, start))
            }
            Predicate::Window { most } => {
                let needed = largest.saturating_sub(most);
                let short = order.iter().find(|&&var| at[var] < needed);
                short.map(|&var| (var, needed))
            }
            Predicate::Apart { a, b, least, most } => {
                if at[b] < at[a] + least {
                    // No position of a variable is behind itself.
                    Some((b, if a == b { END } else { END.min(at[a] + least) }))
                } else {
                    (at[b] - at[a] > most).then(|| (a, at[b] - most))
                }
            }
        }
    }
}

/// List 0, and a cursor on it for each variable of a pattern: what is left of it behind the
/// position whose start was looked for last. The positions of a variable rise.
struct Titles<'a> {
    starts: &'a [u32],
    left: [&'a [u32]; MAX_VARS],
}

/// The position of a start, where it is in the document; else `END`.
fn start_in(doc: u32, start: Option<&u32>) -> u32 {
    match start {
        Some(start) if start >> 16 == doc => start & 0xffff,
        _ => END,
    }
}

impl Titles<'_> {
    /// The title start of a variable's position: the greatest start of the document that is not
    /// above it, or `END` if there is none.
    #[inline]
    fn start(&mut self, doc: u32, var: usize, pos: u32) -> u32 {
        let left = &mut self.left[var];
        *left = (doc << 16 | pos).checked_add(1).map_or(&[], |bound| seek(left, bound));
        start_in(doc, self.starts[..self.starts.len() - left.len()].last())
    }

    /// The same, but a position that has no start is in no title, and needs the document's first
    /// start, which is behind it.
    #[inline]
    fn needed(&mut self, doc: u32, var: usize, pos: u32) -> u32 {
        match self.start(doc, var, pos) {
            END => start_in(doc, self.left[var].first()),
            start => start,
        }
    }
}

/// A pattern's walk from document to document.
struct Joined<'a> {
    predicates: &'a [Predicate],
    vars: usize,
    /// The variables, that of the shortest list first, those of equally long lists by number.
    order: [usize; MAX_VARS],
    /// The cursors, those of all variables at their first posting in `doc` until it is settled.
    left: [&'a [u32]; MAX_VARS],
    /// The positions of these postings.
    at: [u32; MAX_VARS],
    titles: Titles<'a>,
    /// The next document in which every variable has a posting.
    doc: u32,
}

impl<'a> Joined<'a> {
    fn new(pattern: &'a Pattern, start: u32, list: impl Fn(u32) -> &'a [u32]) -> Joined<'a> {
        let mut left: [&[u32]; MAX_VARS] = [&[]; MAX_VARS];
        for (left, &number) in left.iter_mut().zip(&pattern.lists) {
            *left = list(number);
        }
        let vars = pattern.lists.len();
        let mut order: [usize; MAX_VARS] = std::array::from_fn(|var| var);
        order[..vars].sort_by_key(|&var| left[var].len());
        let starts = seek(list(0), start << 16);
        let mut joined = Joined {
            predicates: &pattern.predicates,
            vars,
            order,
            left,
            at: [0; MAX_VARS],
            titles: Titles { starts, left: [starts; MAX_VARS] },
            doc: start,
        };
        joined.join(start);
        joined
    }

    /// Moves the cursors to the next document, not below `from`, in which all variables have a
    /// posting.
    fn join(&mut self, from: u32) {
        self.doc = if from < END { self.meet(from).unwrap_or(END) } else { END };
    }

    /// The document of `join`, if there is one. The first variable of the order leads, and goes on
    /// to the document of the first that is beyond its own.
    fn meet(&mut self, from: u32) -> Option<u32> {
        let mut doc = from;
        'lead: loop {
            for (rank, &var) in self.order[..self.vars].iter().enumerate() {
                let left = seek(self.left[var], doc << 16);
                self.left[var] = left;
                let first = left.first()?;
                self.at[var] = first & 0xffff;
                let reached = first >> 16;
                if reached != doc {
                    doc = reached;
                    if rank > 0 {
                        continue 'lead;
                    }
                }
            }
            return Some(doc);
        }
    }

    /// Moves the cursors to the least match in `doc`; where there is none, until one of them has no
    /// position left there.
    fn settle(&mut self) -> Option<()> {
        let (doc, order) = (self.doc, &self.order[..self.vars]);
        let (left, at) = (&mut self.left[..self.vars], &mut self.at[..self.vars]);
        let mut largest = at.iter().copied().max().unwrap_or(0);
        // So many predicates in turn hold.
        let mut holding = 0;
        for predicate in self.predicates.iter().cycle() {
            while let Some((var, pos)) = predicate.short(doc, at, order, largest, &mut self.titles)
            {
                left[var] = seek(left[var], (doc << 16).checked_add(pos)?);
                let posting = left[var].first()?;
                if posting >> 16 != doc {
                    return None;
                }
                at[var] = posting & 0xffff;
                largest = largest.max(at[var]);
                holding = 0;
            }
            holding += 1;
            if holding == self.predicates.len() {
                break;
            }
        }
        Some(())
    }

    /// Writes the positions of a match that is settled in `doc`, each followed by its title start.
    fn show(&mut self, words: &mut [u32]) {
        for (var, (pair, &pos)) in words.chunks_exact_mut(2).zip(&self.at).enumerate() {
            pair.copy_from_slice(&[pos, self.titles.start(self.doc, var, pos)]);
        }
    }
}

/// A step of the plan's answer.
#[derive(Clone, Copy)]
enum Step {
    /// The next pattern's answer is stacked.
    Pattern,
    Both,
    Either,
    FirstNotSecond,
    /// So many or more of the top answers.
    AtLeast {
        least: u32,
        of: u32,
    },
}

/// An accepted plan.
#[derive(Default)]
struct Plan {
    patterns: Vec<Pattern>,
    steps: Vec<Step>,
}

impl Plan {
    /// Reads a plan over a volume of so many lists.
    fn read(words: &[u32], list_count: u32) -> Result<Plan, Refused> {
        let rows = words.chunks_exact(4);
        if !rows.remainder().is_empty() || !(1..=MAX_ROWS).contains(&rows.len()) {
            return Err((9, 0));
        }
        let mut plan = Plan::default();
        let mut open: Option<Pattern> = None;
        let mut answers = 0;
        for (row, words) in (0..).zip(rows) {
            let [kind, a, b, c] = words.try_into().unwrap();
            let in_range = match kind {
                1 => b == 0 && c == 0,
                2 => c < 65_536,
                3 | 4 => c == 0,
                5 => a == 0 && b == 0 && (1..=65_536).contains(&c),
                6..=9 => a == 0 && b == 0 && c == 0,
                10 => c >> 16 <= c & 0xffff,
                11 => (2..=8).contains(&b) && (1..=b).contains(&a) && c == 0,
                _ => false,
            };
            if !in_range {
                return Err((10, row));
            }
            if kind == 1 {
                if !(1..list_count).contains(&a) {
                    return Err((11, row));
                }
                let full = match &open {
                    Some(pattern) => pattern.lists.len() == MAX_VARS,
                    None => plan.patterns.len() == MAX_PATTERNS,
                };
                if full {
                    return Err((12, row));
                }
                let pattern = open.get_or_insert_with(Pattern::default);
                if !pattern.predicates.is_empty() {
                    return Err((13, row));
                }
                pattern.lists.push(a);
            } else if kind <= 6 || kind == 10 {
                let Some(pattern) = &mut open else {
                    return Err((13, row));
                };
                let (a, b) = (a as usize, b as usize);
                if a.max(b) >= pattern.lists.len() {
                    return Err((13, row));
                }
                match kind {
                    2 => pattern.predicates.push(Predicate::Distance { a, b, most: c + 1 }),
                    3 => pattern.predicates.push(Predicate::Ordered { a, b }),
                    4 => pattern.predicates.push(Predicate::Samepara { a, b }),
                    5 => pattern.predicates.push(Predicate::Window { most: c - 1 }),
                    10 => pattern.predicates.push(Predicate::Apart {
                        a,
                        b,
                        least: (c >> 16) + 1,
                        most: (c & 0xffff) + 1,
                    }),
                    _ => {
                        plan.patterns.extend(open.take());
                        plan.steps.push(Step::Pattern);
                        answers += 1;
                    }
                }
            } else {
                let taken = if kind == 11 { b } else { 2 };
                if open.is_some() || answers < taken {
                    return Err((13, row));
                }
                plan.steps.push(match kind {
                    7 => Step::Both,
                    8 => Step::Either,
                    9 => Step::FirstNotSecond,
                    _ => Step::AtLeast { least: a, of: b },
                });
                answers -= taken - 1;
            }
        }
        if open.is_some() || answers != 1 {
            return Err((14, 0));
        }
        Ok(plan)
    }

    /// The words of a row of the listing.
    fn width(&self) -> usize {
        1 + self.patterns.iter().map(|pattern| 1 + 2 * pattern.lists.len()).sum::<usize>()
    }

    /// List 0 and the lists that the plan uses, each once, rising.
    fn used(&self) -> Vec<u32> {
        let lists = self.patterns.iter().flat_map(|pattern| &pattern.lists);
        let mut used: Vec<u32> = [0].iter().chain(lists).copied().collect();
        used.sort_unstable();
        used.dedup();
        used
    }

    /// The one answer left, where bit i of `found` is the answer of pattern i.
    fn is_true(&self, mut found: u32) -> bool {
        // The answers as bits, the top one the lowest.
        let mut stack = 0u32;
        for step in &self.steps {
            let (first, second) = (stack >> 1 & 1, stack & 1);
            stack = match *step {
                Step::Pattern => {
                    let answer = found & 1;
                    found >>= 1;
                    stack << 1 | answer
                }
                Step::Both => stack >> 2 << 1 | first & second,
                Step::Either => stack >> 2 << 1 | first | second,
                Step::FirstNotSecond => stack >> 2 << 1 | first & !second,
                Step::AtLeast { least, of } => {
                    let taken = stack & ((1 << of) - 1);
                    stack >> of << 1 | u32::from(taken.count_ones() >= least)
                }
            };
        }
        stack == 1
    }
}
