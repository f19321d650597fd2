//! What the tests share: a seeded generator, lists and damage made with it, plans (in `plans`, and
//! with their variables in other orders in `orders`), and the comparison of the library with the
//! plain reader and writer, call by call. `searches` has the same for listing documents and testing
//! positions, and whole searches; `matches` has it for listing the tuples that pass in a document,
//! `joins` for joining two volumes. `refused` has volumes and plans that are refused, `files` those
//! of the repository and fresh folders; `command` runs programs, and `cc` compiles those in C.

#![allow(dead_code)]

pub mod cc;
pub mod command;
pub mod files;
pub mod joins;
pub mod matches;
pub mod orders;
pub mod plans;
pub mod refused;
pub mod searches;

use crate::plain::{self, Refused};
use lihambozy::Refusal;
use std::collections::{BTreeMap, BTreeSet};
use std::fmt::Debug;

/// The generator SplitMix64.
pub struct Rng(u64);

impl Rng {
    pub fn new(seed: u64) -> Rng {
        Rng(seed)
    }

    pub fn next(&mut self) -> u64 {
        self.0 = self.0.wrapping_add(0x9e37_79b9_7f4a_7c15);
        let mut z = self.0;
        z = (z ^ (z >> 30)).wrapping_mul(0xbf58_476d_1ce4_e5b9);
        z = (z ^ (z >> 27)).wrapping_mul(0x94d0_49bb_1331_11eb);
        z ^ (z >> 31)
    }

    pub fn word(&mut self) -> u32 {
        (self.next() >> 32) as u32
    }

    pub fn below(&mut self, end: usize) -> usize {
        (self.next() % end as u64) as usize
    }

    pub fn pick<T: Copy>(&mut self, items: &[T]) -> T {
        items[self.below(items.len())]
    }
}

/// How often something was met.
#[derive(Default)]
pub struct Met(pub BTreeMap<String, usize>);

impl Met {
    pub fn count(&mut self, what: &str, times: usize) {
        match self.0.get_mut(what) {
            Some(count) => *count += times,
            None => {
                self.0.insert(what.to_string(), times);
            }
        }
    }

    #[track_caller]
    pub fn assert_at_least(&self, rows: &[(&str, usize)]) {
        for &(what, least) in rows {
            let times = self.0.get(what).copied().unwrap_or(0);
            assert!(times >= least, "{what}: {times} of {least}; met {:?}", self.0);
        }
    }
}

/// Lists as the writer takes them: how long each one is, and all of them back to back.
#[derive(Clone, Debug)]
pub struct Lists {
    pub counts: Vec<u32>,
    pub postings: Vec<u32>,
}

impl Lists {
    pub fn new<L: AsRef<[u32]>>(lists: &[L]) -> Lists {
        let lists = lists.iter().map(AsRef::as_ref);
        Lists {
            counts: lists.clone().map(|list| list.len() as u32).collect(),
            postings: lists.flatten().copied().collect(),
        }
    }

    /// The stream index of a list's first posting.
    pub fn start(&self, list: usize) -> usize {
        let before: u32 = self.counts[..list].iter().sum();
        2 + self.counts.len() + before as usize
    }

    /// The stream words used: version, number of lists, counts and postings.
    pub fn words(&self) -> usize {
        2 + self.counts.len() + self.postings.len()
    }

    /// The bytes of the volume.
    pub fn room(&self) -> usize {
        plain::blocks_for(self.words() as u64) as usize * 512
    }

    /// The volume, made by the plain writer.
    pub fn volume(&self) -> Vec<u8> {
        let mut volume = vec![0; self.room()];
        plain::write_volume(&self.counts, &self.postings, &mut volume).unwrap();
        volume
    }

    /// The text of the lists: a line for each, its postings as `scene:place`, or `-` where it is
    /// empty.
    pub fn text(&self) -> String {
        let posting = |&word: &u32| format!("{}:{}", word / 65_536, word % 65_536);
        let line = |list: &&[u32]| match list {
            [] => "-\n".to_string(),
            _ => list.iter().map(posting).collect::<Vec<_>>().join(" ") + "\n",
        };
        plain::cut(&self.counts, &self.postings).0.iter().map(line).collect()
    }
}

/// The sample volume's lists in document 01.
pub fn sample() -> Lists {
    let at = |doc: u32, pos: u32| doc * 65_536 + pos;
    Lists::new(&[
        vec![at(1, 0), at(1, 6)],
        vec![at(1, 2), at(1, 8), at(2, 4)],
        vec![at(1, 5), at(1, 7), at(2, 9)],
    ])
}

/// Five lists in four blocks. Lists 2, 3 and 4 each go over from one block to the next, list 1 is
/// empty, each list lies below the one before it, and 117 zero words fill the last block.
pub fn four_blocks() -> Lists {
    let list = |first: u32, count: u32| (0..count).map(|i| first + 3 * i).collect::<Vec<u32>>();
    Lists::new(&[list(9_000, 10), vec![], list(7_000, 150), list(6_000, 200), list(5_000, 20)])
}

/// So many lists that fill so many stream words, each starting below the one before it.
pub fn filling(lists: usize, words: usize) -> Lists {
    let postings = words - 2 - lists;
    let mut counts = vec![(postings / lists) as u32; lists];
    counts[lists / 2] += (postings % lists) as u32;
    let mut postings = Vec::new();
    for (list, &count) in counts.iter().enumerate() {
        let first = (lists - list) as u32 * 1_000;
        postings.extend((0..count).map(|i| first + 2 * i));
    }
    Lists { counts, postings }
}

/// A strictly rising list: dense or spread, at either end of the 32-bit numbers or between.
pub fn random_list(rng: &mut Rng, count: usize) -> Vec<u32> {
    let range = rng.pick(&[2 * count as u64 + 1, 65_536, 1 << 20, 1 << 32]);
    let first = match rng.below(3) {
        0 => 0,
        1 => (1 << 32) - range,
        _ => rng.next() % ((1 << 32) - range + 1),
    };
    let mut list = BTreeSet::new();
    while list.len() < count {
        list.insert((first + rng.next() % range) as u32);
    }
    list.into_iter().collect()
}

/// Up to `most` lists of every size, many of them empty.
pub fn random_lists(rng: &mut Rng, most: usize) -> Lists {
    let lists: Vec<Vec<u32>> = (0..1 + rng.below(most))
        .map(|_| {
            let count = match rng.below(8) {
                0..=2 => 0,
                3 => 1,
                4 | 5 => rng.below(6),
                6 => rng.below(60),
                _ => rng.below(300),
            };
            random_list(rng, count)
        })
        .collect();
    Lists::new(&lists)
}

/// Stores word `index` of the stream and seals its block.
pub fn set(volume: &mut [u8], index: usize, word: u32) {
    plain::set_word(volume, index, word);
    seal_block(volume, index / 126);
}

/// Stores another number in block `k` and seals it.
pub fn renumber(volume: &mut [u8], k: usize, number: u32) {
    volume[512 * k..512 * k + 4].copy_from_slice(&number.to_le_bytes());
    seal_block(volume, k);
}

pub fn seal_block(volume: &mut [u8], k: usize) {
    plain::seal(&mut volume[512 * k..512 * k + 512]);
}

/// Puts block `from` in the place of block `k`, its number and checksum as they are.
pub fn put_block(volume: &mut [u8], k: usize, from: usize) {
    volume.copy_within(512 * from..512 * from + 512, 512 * k);
}

pub fn swap_blocks(volume: &mut [u8], j: usize, k: usize) {
    for byte in 0..512 {
        volume.swap(512 * j + byte, 512 * k + byte);
    }
}

/// Adds a block of zero words, numbered and sealed.
pub fn add_block(volume: &mut Vec<u8>) {
    let k = volume.len() / 512;
    volume.resize(512 * (k + 1), 0);
    renumber(volume, k, k as u32);
}

/// Does one kind of damage to a volume that holds the lists, at a random place. Most kinds seal the
/// block again, so that what is wrong lies deeper.
pub fn damage(rng: &mut Rng, lists: &Lists, volume: &mut Vec<u8>) {
    let blocks = volume.len() / 512;
    if blocks == 0 {
        return;
    }
    let words = 126 * blocks;
    let block = rng.below(blocks);
    // A place in the stream that `lists` says something of, or the last word there is.
    let near = |index: usize| index.min(words - 1);
    let list = rng.below(lists.counts.len());
    match rng.below(20) {
        0 => {
            let at = rng.below(volume.len());
            volume[at] ^= 1 << rng.below(8);
        }
        1 => {
            let at = rng.below(volume.len());
            volume[at] = rng.word() as u8;
        }
        2 => {
            let at = 512 * block + 508 + 2 * rng.below(2);
            volume[at..at + 2].copy_from_slice(&rng.pick(&[0, 1, 65_534, 65_535u16]).to_le_bytes());
        }
        3 => {
            let number = rng.pick(&[block as u32 + 1, block as u32 ^ 256, 0, u32::MAX]);
            renumber(volume, block, number);
        }
        4 => volume[512 * block] ^= 1,
        5 => {
            let length = rng.below(volume.len() + 1);
            volume.truncate(length);
        }
        6 => volume.extend(std::iter::repeat_n(0, 1 + rng.below(600))),
        7 => swap_blocks(volume, block, rng.below(blocks)),
        8 => put_block(volume, block, rng.below(blocks)),
        9 => {
            volume.drain(512 * block..512 * block + 512);
        }
        10 => add_block(volume),
        11 => set(volume, 0, rng.pick(&[0, 2, 257, 65_537, u32::MAX])),
        12 => {
            let t = lists.counts.len() as u32;
            let wrong = [0, t - 1, t + 1, 1_024, 1_025, 1 << 31, u32::MAX];
            set(volume, 1, rng.pick(&wrong));
        }
        13 => {
            let count = lists.counts[list];
            let wrong = [count.wrapping_sub(1), count + 1, count + 126, u32::MAX];
            set(volume, near(2 + list), rng.pick(&wrong));
        }
        14 => {
            // The sum of the counts stays the same in 32 bits.
            let other = rng.below(lists.counts.len());
            for list in [list, other] {
                set(volume, near(2 + list), lists.counts[list] ^ 1 << 31);
            }
        }
        15 | 16 => {
            // A posting takes the number of its neighbour, or one near it.
            let count = lists.counts[list] as usize;
            if count > 1 {
                let after = 1 + rng.below(count - 1);
                let index = lists.start(list) + after;
                let before = lists.postings[index - 1 - 2 - lists.counts.len()];
                let word = before.wrapping_add(rng.pick(&[0, 0, 1, u32::MAX]));
                set(volume, near(index), word);
            }
        }
        17 | 18 => {
            let unused = 126 * blocks - near(lists.words());
            set(volume, near(lists.words() + rng.below(unused)), 1 << rng.below(32));
        }
        _ => {
            let word = rng.word() >> rng.below(32);
            set(volume, rng.below(words), word);
        }
    }
}

/// An element of a lent buffer, with the value that it has before the call.
pub trait Fill: Copy + Debug + PartialEq {
    fn fill(index: usize) -> Self;
}

impl Fill for u8 {
    fn fill(index: usize) -> u8 {
        (index * 167 + index / 256 + 91) as u8
    }
}

impl Fill for u32 {
    fn fill(index: usize) -> u32 {
        (index as u32).wrapping_mul(2_654_435_769) ^ 0x5bd1_e995
    }
}

/// A buffer before and after a call, and the call's answer.
struct Lent<T, R> {
    answer: R,
    before: Vec<T>,
    after: Vec<T>,
}

/// Lends `room` elements out of the middle of a filled buffer. What lies on either side of them is
/// untouched after the call.
fn lend<T: Fill, R>(room: usize, call: impl FnOnce(&mut [T]) -> R) -> Lent<T, R> {
    const SIDE: usize = 600;
    let mut before: Vec<T> = (0..SIDE + room + SIDE).map(T::fill).collect();
    let mut after = before.clone();
    let answer = call(&mut after[SIDE..SIDE + room]);
    assert!(after[..SIDE] == before[..SIDE], "written before the buffer");
    assert!(after[SIDE + room..] == before[SIDE + room..], "written behind the buffer");
    for buffer in [&mut before, &mut after] {
        buffer.truncate(SIDE + room);
        buffer.drain(..SIDE);
    }
    Lent { answer, before, after }
}

/// Elements on either side of a slice that is lent for reading. An odd number, so that a volume
/// starts at an odd address.
const AMID: usize = 13;

/// The elements, in the middle of others.
fn amid<T: Fill>(elements: &[T]) -> Vec<T> {
    let mut memory: Vec<T> = (0..AMID + elements.len() + AMID).map(T::fill).collect();
    memory[AMID..AMID + elements.len()].copy_from_slice(elements);
    memory
}

/// The public calls. All but `Rows` answer a refusal's number; an empty part of a plan counts as
/// the refusal that it stands for. `JoinSecond` is a join that is refused for its second volume.
#[derive(Clone, Copy, Debug, PartialEq, Eq, PartialOrd, Ord)]
pub enum Call {
    Check,
    Read,
    Write,
    Plan,
    Rows,
    List,
    Test,
    Matches,
    Join,
    JoinSecond,
}

/// Makes calls of the library and of the plain reader and writer, compares them in the answer and
/// in every lent element, and counts the answers. A failure names the case.
#[derive(Default)]
pub struct Trial {
    pub case: String,
    /// How often each number was met, place by place.
    met: BTreeMap<(Call, u32), BTreeMap<u32, usize>>,
    /// The rows that listing calls have written.
    pub listed: usize,
    /// The tuples that calls which list matches have written.
    pub matched: usize,
}

impl Trial {
    /// Checks a volume: T and S.
    #[track_caller]
    pub fn check(&mut self, volume: &[u8]) -> Result<(u32, u32), Refused> {
        let lent = volume.to_vec();
        let answer = lihambozy::calls::check_volume(&lent)
            .map(|checked| (checked.lists, checked.postings))
            .map_err(pair);
        assert!(lent == volume, "{}: check wrote in the volume", self.case);
        assert_eq!(answer, plain::check_volume(volume), "{}: check", self.case);
        self.count(Call::Check, &answer);
        answer
    }

    /// Any other value of any one byte of an accepted volume is refused, with 2 or 3 at its block.
    #[track_caller]
    pub fn each_byte_changed(&mut self, accepted: &[u8]) {
        let case = self.case.clone();
        let mut volume = accepted.to_vec();
        for at in 0..accepted.len() {
            let refused = (if at % 512 < 4 { 2 } else { 3 }, at as u32 / 512);
            for change in 1..=255 {
                self.case = format!("{case}: byte {at} ^ {change}");
                volume[at] = accepted[at] ^ change;
                assert_eq!(self.check(&volume), Err(refused), "{}", self.case);
            }
            volume[at] = accepted[at];
        }
        self.case = case;
    }

    /// Reads a list into a buffer of `room` words: its postings.
    #[track_caller]
    pub fn read(&mut self, volume: &[u8], list: u32, room: usize) -> Result<Vec<u32>, Refused> {
        let case = format!("{}: read list {list} into {room} words", self.case);
        let bytes = amid(volume);
        let library = lend(room, |out| {
            let volume = &bytes[AMID..AMID + volume.len()];
            lihambozy::calls::read_list(volume, list, out).map(|read| read.count).map_err(pair)
        });
        assert!(bytes == amid(volume), "{case}: written in the volume or beside it");
        let plain = lend(room, |out| plain::read_list(volume, list, out));
        self.count(Call::Read, &library.answer);
        agreed(&case, library, plain, |count| count as usize)
    }

    /// Writes a volume into a buffer of `room` bytes: its bytes.
    #[track_caller]
    pub fn write(
        &mut self,
        counts: &[u32],
        postings: &[u32],
        room: usize,
    ) -> Result<Vec<u8>, Refused> {
        let case = format!("{}: write into {room} bytes", self.case);
        let lent = [amid(counts), amid(postings)];
        let library = lend(room, |out| {
            let [counts, postings] = lent.each_ref().map(|lent| &lent[AMID..lent.len() - AMID]);
            lihambozy::calls::write_volume(counts, postings, out)
                .map(|written| written.blocks)
                .map_err(pair)
        });
        assert!(lent == [amid(counts), amid(postings)], "{case}: written in the lists");
        let plain = lend(room, |out| plain::write_volume(counts, postings, out));
        self.count(Call::Write, &library.answer);
        agreed(&case, library, plain, |blocks| blocks as usize * 512)
    }

    /// Checks a volume and reads from it: a few of its lists and some that it does not have, into
    /// buffers of every length that matters.
    #[track_caller]
    pub fn examine(&mut self, volume: &[u8]) -> Result<(u32, u32), Refused> {
        let answer = self.check(volume);
        match answer {
            Err(refused) => {
                for (list, room) in [(0, 0), (0, 40), (u32::MAX, 3)] {
                    assert_eq!(self.read(volume, list, room), Err(refused), "{}", self.case);
                }
            }
            Ok((t, _)) => {
                for list in [0, t / 2, t - 1] {
                    let room = plain::stream(volume)[2 + list as usize] as usize;
                    for room in [room, room + 1, room.saturating_sub(1), 0] {
                        let _ = self.read(volume, list, room);
                    }
                }
                for (list, room) in [(t, 0), (t, 40), (u32::MAX, 40)] {
                    assert_eq!(self.read(volume, list, room), Err((17, 0)), "{}", self.case);
                }
            }
        }
        answer
    }

    /// Checks a plan over a volume, and asks for the rows of each of its patterns and of some that
    /// it does not have: F and V.
    #[track_caller]
    pub fn plan(&mut self, volume: &[u8], plan: &[u32]) -> Result<(u32, u32), Refused> {
        let case = self.case.clone();
        let plain = plain::plan::check(volume, plan);
        let (bytes, words) = (amid(volume), amid(plan));
        let lent_volume = &bytes[AMID..AMID + volume.len()];
        let lent = &words[AMID..AMID + plan.len()];

        let answer = lihambozy::calls::check_plan(lent_volume, lent)
            .map(|checked| (checked.patterns, checked.vars))
            .map_err(pair);
        let sizes = |plan: &plain::plan::Plan| (plan.patterns.len() as u32, plan.vars);
        assert_eq!(answer, plain.as_ref().map(sizes).map_err(|&refused| refused), "{case}: plan");

        let patterns = answer.map_or(0, |sizes| sizes.0);
        let mut parts = Vec::new();
        for pattern in (0..patterns + 2).chain([256, 65_536, 1 << 31, u32::MAX]) {
            let part = lihambozy::calls::pattern_rows(lent_volume, lent, pattern);
            let expected = &lent[plain::plan::part(&plain, pattern)];
            assert_eq!(part, expected, "{case}: rows of pattern {pattern}");
            assert_eq!(part.is_empty(), pattern >= patterns, "{case}: rows of pattern {pattern}");
            if !part.is_empty() {
                assert!(std::ptr::eq(part, expected), "{case}: the rows are not those lent");
                parts.push(part);
            }
            let no_such = if part.is_empty() { Err((17, 0)) } else { Ok(()) };
            self.count(Call::Rows, &answer.and(no_such));
        }
        if answer.is_ok() {
            assert!(plans::makes(lent, &parts), "{case}: {parts:?} do not make the plan");
        }
        assert!(bytes == amid(volume), "{case}: written in the volume or beside it");
        assert!(words == amid(plan), "{case}: written in the plan or beside it");
        self.count(Call::Plan, &answer);
        answer
    }

    fn count<T>(&mut self, call: Call, answer: &Result<T, Refused>) {
        let (number, at) = answer.as_ref().err().copied().unwrap_or((0, 0));
        *self.met.entry((call, number)).or_default().entry(at).or_default() += 1;
    }

    /// How often the call gave each number; 0 stands for an answer that is no refusal.
    pub fn met(&self, call: Call) -> BTreeMap<u32, usize> {
        let of_call = self.met.iter().filter(|((of, _), _)| *of == call);
        of_call.map(|((_, number), places)| (*number, places.values().sum())).collect()
    }

    /// How often the call was made and compared.
    pub fn made(&self, call: Call) -> usize {
        self.met(call).values().sum()
    }

    /// The call gave each of these numbers at least so often, and no other.
    #[track_caller]
    pub fn assert_met(&self, call: Call, least: usize, numbers: &[u32]) {
        let met = self.met(call);
        assert!(
            met.keys().eq(numbers) && met.values().all(|&times| times >= least),
            "{call:?} met {met:?}"
        );
    }

    /// The call gave each of these numbers at so many different places at least.
    #[track_caller]
    pub fn assert_met_at(&self, call: Call, least: usize, numbers: &[u32]) {
        for &number in numbers {
            let places = self.met.get(&(call, number)).map_or(0, BTreeMap::len);
            assert!(places >= least, "{call:?} met {number} at {places} places");
        }
    }
}

pub fn pair(refusal: Refusal) -> Refused {
    (refusal.number, refusal.at)
}

/// What both wrote at the front of their buffers, or why both refused. The answers are the same,
/// and so is every element; behind what the answer counts nothing is touched, and on a refusal
/// nothing at all.
#[track_caller]
fn agreed<T: Fill, E: Copy + Debug + PartialEq>(
    case: &str,
    library: Lent<T, Result<u32, E>>,
    plain: Lent<T, Result<u32, E>>,
    written: impl Fn(u32) -> usize,
) -> Result<Vec<T>, E> {
    assert_eq!(library.answer, plain.answer, "{case}");
    let end = library.answer.map_or(0, &written);
    assert!(
        library.after[end..] == library.before[end..],
        "{case}: touched behind the first {end}"
    );
    assert!(library.after == plain.after, "{case}: other elements at the front");
    library.answer.map(|_| library.after[..end].to_vec())
}
