//! Joining volumes, for the tests: pairs of lists that are made to be joined, the comparison of the
//! library with the plain join, call by call, and searches of a joined volume beside those of both.

use super::plans::Row;
use super::searches::*;
use super::{agreed, amid, lend, Call, Lists, Met, Rng, Trial, AMID};
use crate::plain;
use crate::plain::join::JoinRefused;
use lihambozy::{calls, kind, JoinRefusal, Which};
use std::collections::BTreeSet;
use std::ops::Range;

/// Lists of a joined volume that are read one by one, at most.
const READ: usize = 40;

/// Number, place and volume of a refusal.
pub fn told(refused: JoinRefusal) -> JoinRefused {
    let volume = match refused.volume {
        None => 0,
        Some(Which::First) => 1,
        Some(Which::Second) => 2,
    };
    (refused.refusal.number, refused.refusal.at, volume)
}

impl Trial {
    /// Joins two volumes into a buffer of `room` bytes: the bytes of the joined volume, which is
    /// accepted and has the joined lists. Where both are one slice, it is lent twice.
    #[track_caller]
    pub fn join(
        &mut self,
        first: &[u8],
        second: &[u8],
        raise: u32,
        room: usize,
    ) -> Result<Vec<u8>, JoinRefused> {
        let case = format!("{}: join, raise {raise}, into {room} bytes", self.case);
        let memory = [amid(first), amid(second)];
        let is_one = std::ptr::eq(first, second);
        let library = lend(room, |out| {
            let [first, other] = memory.each_ref().map(|memory| &memory[AMID..memory.len() - AMID]);
            let second = if is_one { first } else { other };
            calls::join_volumes(first, second, raise, out).map(|joined| joined.blocks).map_err(told)
        });
        assert!(memory == [amid(first), amid(second)], "{case}: written in a volume or beside it");
        let plain = lend(room, |out| plain::join::join_volumes(first, second, raise, out));
        let (call, counted) = match library.answer {
            Ok(_) => (Call::Join, Ok(())),
            Err((number, at, 2)) => (Call::JoinSecond, Err((number, at))),
            Err((number, at, _)) => (Call::Join, Err((number, at))),
        };
        self.count(call, &counted);
        let volume = agreed(&case, library, plain, |blocks| blocks as usize * 512)?;
        self.reads_as(&case, &volume, &plain::join::joined(first, second, raise)?);
        Ok(volume)
    }

    /// The volume is accepted, and reads list by list as these lists: each of them, or many.
    #[track_caller]
    fn reads_as(&mut self, case: &str, volume: &[u8], lists: &[Vec<u32>]) {
        let postings: usize = lists.iter().map(Vec::len).sum();
        assert_eq!(self.check(volume), Ok((lists.len() as u32, postings as u32)), "{case}");
        let step = lists.len().div_ceil(READ);
        for list in (0..lists.len()).step_by(step).chain([lists.len() - 1]) {
            let mut words = vec![7; lists[list].len() + 1];
            let read = calls::read_list(volume, list as u32, &mut words).map(|read| read.count);
            assert_eq!(read, Ok(lists[list].len() as u32), "{case}: list {list}");
            assert!(words[..lists[list].len()] == lists[list], "{case}: list {list}");
        }
    }
}

/// A double bill: two volumes' lists, and what is added to the documents of the second.
pub struct Bill {
    pub first: Lists,
    pub second: Lists,
    pub raise: u32,
}

impl Bill {
    /// The bytes of the joined volume, also where the two do not join.
    pub fn room(&self) -> usize {
        let words = self.first.words() + self.second.postings.len();
        plain::blocks_for(words as u64) as usize * 512
    }

    pub fn volumes(&self) -> [Vec<u8>; 2] {
        [self.first.volume(), self.second.volume()]
    }
}

/// The least raise with which the lists join, and the greatest, which is below it where there is
/// none.
pub fn raises(first: &Lists, second: &Lists) -> (u32, u32) {
    let docs = |lists: &Lists| -> Vec<u32> {
        lists.postings.iter().map(|posting| posting / 65_536).collect()
    };
    let second = docs(second);
    match (docs(first).iter().max(), second.iter().min(), second.iter().max()) {
        (_, None, _) | (_, _, None) => (0, u32::MAX),
        (None, _, Some(highest)) => (0, 65_535 - highest),
        (Some(before), Some(lowest), Some(highest)) => {
            ((before + 1).saturating_sub(*lowest), 65_535 - highest)
        }
    }
}

/// Numbers to raise by: such as join the lists, those at the edges and beside them, and any.
pub fn random_raise(rng: &mut Rng, first: &Lists, second: &Lists) -> u32 {
    let (least, most) = raises(first, second);
    let between = match most.checked_sub(least) {
        Some(more) => least + (u64::from(rng.word()) % (u64::from(more) + 1)) as u32,
        None => least,
    };
    let any = rng.word() >> rng.below(32);
    let near = rng.below(9) as u32;
    rng.pick(&[
        between,
        between,
        between,
        least,
        least,
        least,
        most,
        most,
        least.wrapping_sub(1),
        most.wrapping_add(1),
        least.wrapping_add(65_536),
        0,
        65_535 + near / 4,
        u32::MAX - near,
        (u32::MAX - most).wrapping_add(near),
        any,
    ])
}

/// A rising list of so many postings in these documents: dense or spread, at an end or between.
fn list_in(rng: &mut Rng, docs: &Range<u32>, count: usize) -> Vec<u32> {
    let whole = u64::from(docs.end - docs.start) * 65_536;
    let range = rng.pick(&[2 * count as u64 + 1, 65_536, whole]).clamp(1, whole);
    let first = match rng.below(3) {
        0 => 0,
        1 => whole - range,
        _ => rng.next() % (whole - range + 1),
    };
    let mut list = BTreeSet::new();
    while list.len() < count.min(range as usize) {
        list.insert((u64::from(docs.start) * 65_536 + first + rng.next() % range) as u32);
    }
    list.into_iter().collect()
}

/// So many lists in these documents, many of them empty, and now and then all.
pub fn lists_in(rng: &mut Rng, docs: Range<u32>, count: usize) -> Lists {
    let often = rng.pick(&[0, 1, 3, 6, 6, 6]);
    let longest = if count > 100 { 4 } else { rng.pick(&[2, 9, 60, 150, 300]) };
    let list = |rng: &mut Rng| match rng.below(8) < often {
        true => {
            let length = rng.below(longest);
            list_in(rng, &docs, length)
        }
        false => vec![],
    };
    let lists: Vec<Vec<u32>> = (0..count).map(|_| list(rng)).collect();
    Lists::new(&lists)
}

/// Two volumes' lists of the same number, or now and then not, in documents that can be apart, and
/// a number to raise by.
pub fn random_bill(rng: &mut Rng) -> Bill {
    let any = 1 + rng.below(12);
    let count = match rng.below(60) {
        0 => rng.pick(&[1_023, 1_024]),
        1 => rng.pick(&[122, 123, 124, 125, 126, 250]),
        _ => rng.pick(&[1, 2, 3, any, any]),
    };
    let other = match rng.below(16) {
        0 => (count + rng.pick(&[1, 2, 1_022])).min(1_024),
        1 => 1 + rng.below(count),
        _ => count,
    };
    let window = |rng: &mut Rng| {
        let docs = 1 + rng.word() % rng.pick(&[1, 3, 30, 32_768]);
        let any = rng.word() % (65_537 - docs);
        let first = rng.pick(&[0, 0, 65_536 - docs, any]);
        first..first + docs
    };
    // Most first volumes leave documents behind them.
    let docs = match rng.below(8) {
        0 => window(rng),
        _ => 0..1 + rng.word() % rng.pick(&[1, 3, 30, 30_000]),
    };
    let first = lists_in(rng, docs, count);
    let docs = match rng.below(4) {
        0 => window(rng),
        _ => 0..1 + rng.word() % rng.pick(&[1, 3, 30, 30_000]),
    };
    let second = lists_in(rng, docs, other);
    let raise = random_raise(rng, &first, &second);
    Bill { first, second, raise }
}

/// Two works that join, and a plan over both.
pub struct Works {
    pub bill: Bill,
    pub rows: Vec<Row>,
}

/// The lists with their documents folded into so many, and as many lists as given.
fn folded(lists: &Lists, docs: u32, count: usize) -> Lists {
    let fold = |&posting: &u32| posting / 65_536 % docs * 65_536 + posting % 65_536;
    let list = |list: &&[u32]| {
        let rising: BTreeSet<u32> = list.iter().map(fold).collect();
        rising.into_iter().collect()
    };
    let (parts, _) = plain::cut(&lists.counts, &lists.postings);
    let mut lists: Vec<Vec<u32>> = parts.iter().map(list).collect();
    lists.resize(count, vec![]);
    Lists::new(&lists)
}

/// Two archives of as many lists each, and a plan over them with which the naive searcher has only
/// so many steps to take in each.
pub fn random_works(rng: &mut Rng, steps: u64) -> Works {
    loop {
        let (mut rows, largest) = random_query(rng);
        let most = most_positions(rng, largest);
        let docs = rng.pick(&[40, 20_000, 32_768]);
        let archive = random_archive(rng, most);
        let count = archive.lists.counts.len();
        let first = folded(&archive.lists, docs, count);
        let second = match rng.below(12) {
            0 => Lists { counts: vec![0; count], postings: vec![] },
            1 => first.clone(),
            _ => folded(&random_archive(rng, most).lists, docs, count),
        };
        for row in rows.iter_mut().filter(|row| row[0] == kind::VOICE) {
            row[1] = 1 + rng.below(count - 1) as u32;
        }
        let plan = rows.concat();
        let is_quick = |lists: &Lists| naive_steps(&lists.volume(), &plan) <= steps;
        if !is_quick(&first) || !is_quick(&second) {
            continue;
        }
        let [first, second] = if rng.below(2) == 0 { [first, second] } else { [second, first] };
        let (least, most) = raises(&first, &second);
        let between = least + (u64::from(rng.word()) % (u64::from(most - least) + 1)) as u32;
        let raise = rng.pick(&[least, least, most, between]);
        return Works { bill: Bill { first, second, raise }, rows };
    }
}

/// A whole search to DONE, through buffers of every length: the words of all rows, and the sum of
/// the tallies.
#[track_caller]
fn searched(rng: &mut Rng, trial: &mut Trial, met: &mut Met, subject: &Subject) -> (Vec<u32>, u32) {
    let width = subject.searcher().width();
    let one_length = if rng.below(3) == 0 { Some(width * (1 + rng.below(3))) } else { None };
    let mut search = Search::new(subject);
    while !search.done {
        let room = one_length.unwrap_or_else(|| random_room(rng, width));
        let (mut memory, lent) = memory_for(room);
        if let Ok(listed) = search.call(trial, &mut memory, lent) {
            met.count("works: more", usize::from(listed.more.is_some()));
        }
    }
    search.assert_whole(&trial.case);
    (search.words, search.tally)
}

/// Joins two works and searches all three volumes to DONE by one plan: the joined volume shows the
/// first work's rows, then the second's with their documents raised, and the tallies add up.
#[track_caller]
pub fn search_works(
    rng: &mut Rng,
    trial: &mut Trial,
    met: &mut Met,
    works: &Works,
) -> (Vec<Vec<u32>>, u32) {
    let Works { bill, rows } = works;
    let [first, second] = bill.volumes();
    let joined = trial.join(&first, &second, bill.raise, bill.room()).expect("the works join");
    let plan = rows.concat();
    let sizes = [&first, &second, &joined].map(|volume| trial.plan(volume, &plan));
    assert!(sizes[0].is_ok() && sizes == [sizes[0]; 3], "{}: {sizes:?}", trial.case);

    let [first, second, joined] =
        [first, second, joined].map(|volume| Subject::new(&volume, &plan));
    let width = joined.width();
    let (mut words, tally) = searched(rng, trial, met, &first);
    let (more, tally_of_second) = searched(rng, trial, met, &second);
    met.count("works: rows of both", usize::from(!words.is_empty() && !more.is_empty()));
    for row in more.chunks(width) {
        words.extend([row[0] + bill.raise]);
        words.extend(&row[1..]);
    }
    let all = searched(rng, trial, met, &joined);
    assert_eq!(all, (words, tally + tally_of_second), "{}: raise {}", trial.case, bill.raise);
    met.count("works: searched", 1);
    met.count("works: rows", all.0.len() / width);
    (all.0.chunks(width).map(<[u32]>::to_vec).collect(), all.1)
}
