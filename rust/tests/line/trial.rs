//! The two calls of typed lines beside the plain reader and writer: they are compared in the answer
//! and in every lent element, and the answers are counted.

#![allow(dead_code)]

use crate::plain::line::{line_of, plan_of};
use crate::plain::plan::{self, Row};
use crate::plain::Refused;
use crate::support::{pair, Fill};
use lihambozy::calls::{line_to_plan, plan_to_line};
use std::collections::BTreeMap;

/// The two calls.
#[derive(Clone, Copy, Debug, PartialEq, Eq, PartialOrd, Ord)]
pub enum Way {
    Read,
    Write,
}

/// Makes the calls and compares them. A failure names the case.
#[derive(Default)]
pub struct Lines {
    pub case: String,
    /// How often each number was met, place by place.
    met: BTreeMap<(Way, u32), BTreeMap<u32, usize>>,
}

/// What stands on either side of a text that is lent: signs with which it might go on.
const AROUND: &[u8] = b"]0 1;n 0 1 2])|([3 4;s 5]&[6]),<1:[8],[9]>!([7]";

/// A text in the middle of others, and where it lies.
fn among(text: &[u8]) -> (Vec<u8>, std::ops::Range<usize>) {
    let turn = text.len() % AROUND.len();
    let side = [&AROUND[turn..], &AROUND[..turn]].concat();
    ([&side[..], text, &side].concat(), side.len()..side.len() + text.len())
}

/// Lends so many elements between others. The answer is the expected one; then the given elements
/// stand at their front, and every other element is as it was.
#[track_caller]
fn lend<T: Fill>(
    case: impl Fn() -> String,
    room: usize,
    expected: Result<&[T], Refused>,
    call: impl FnOnce(&mut [T]) -> Result<u32, Refused>,
) {
    const SIDE: usize = 20;
    let mut memory: Vec<T> = (0..SIDE + room + SIDE).map(T::fill).collect();
    let answer = call(&mut memory[SIDE..SIDE + room]);
    assert_eq!(answer, expected.map(|front| front.len() as u32), "{}", case());
    let front = expected.unwrap_or(&[]);
    for (at, &element) in memory.iter().enumerate() {
        let written = at.checked_sub(SIDE).and_then(|at| front.get(at));
        let as_it_was = T::fill(at);
        if element != *written.unwrap_or(&as_it_was) {
            let at = at as isize - SIDE as isize;
            panic!("{}: element {at} of the buffer is {element:?}", case());
        }
    }
}

impl Lines {
    fn count(&mut self, way: Way, refused: Option<Refused>) {
        let (number, at) = refused.unwrap_or((0, 0));
        *self.met.entry((way, number)).or_default().entry(at).or_default() += 1;
    }

    /// Reads a text into so many words, beside its plain rows.
    #[track_caller]
    fn read_into(&mut self, text: &[u8], plain: Result<&[u32], Refused>, room: usize) {
        let (bytes, lent) = among(text);
        let expected = match plain {
            Ok(words) if room < words.len() => Err((16, 0)),
            _ => plain,
        };
        let case = || {
            let shown = String::from_utf8_lossy(text);
            format!("{}: `{shown}` into {room} words", self.case)
        };
        lend(case, room, expected, |out| {
            line_to_plan(&bytes[lent], out).map(|read| read.words).map_err(pair)
        });
        assert!(bytes == among(text).0, "{}: written in the line or beside it", case());
        self.count(Way::Read, expected.err());
    }

    /// Reads a text that has these plain rows, or is refused so: into just enough words, into more
    /// and into fewer.
    #[track_caller]
    pub fn read_beside(&mut self, text: &[u8], plain: &Result<Vec<Row>, Refused>) {
        match plain {
            Ok(rows) => {
                let words = rows.as_flattened();
                for room in [words.len(), words.len() + 7, words.len() - 1, 0] {
                    self.read_into(text, Ok(words), room);
                }
            }
            Err(refused) => {
                for room in [9, 0] {
                    self.read_into(text, Err(*refused), room);
                }
            }
        }
    }

    /// Reads a text: its rows.
    #[track_caller]
    pub fn read(&mut self, text: impl AsRef<[u8]>) -> Result<Vec<Row>, Refused> {
        let text = text.as_ref();
        let plain = plan_of(text);
        self.read_beside(text, &plain);
        if plain.is_err() {
            self.read_into(text, Err(plain.clone().unwrap_err()), 300);
        }
        plain
    }

    /// Writes a plan into so many bytes, beside its plain line.
    #[track_caller]
    fn write_into(
        &mut self,
        volume: &[u8],
        plan: &[u32],
        plain: Result<&str, Refused>,
        room: usize,
    ) {
        let expected = match plain {
            Ok(line) if room < line.len() => Err((16, 0)),
            _ => plain.map(str::as_bytes),
        };
        let (lent_volume, lent_plan) = (volume.to_vec(), plan.to_vec());
        let case = || format!("{}: {plan:?} into {room} bytes", self.case);
        lend(case, room, expected, |out| {
            let written = plan_to_line(&lent_volume, &lent_plan, out);
            written.map(|written| written.bytes).map_err(pair)
        });
        let is_kept = lent_volume == volume && lent_plan == plan;
        assert!(is_kept, "{}: written in the volume or the plan", case());
        self.count(Way::Write, expected.err());
    }

    /// Writes a plan, into just enough bytes, into more and into fewer: its line.
    #[track_caller]
    pub fn write(&mut self, volume: &[u8], plan: &[u32]) -> Result<String, Refused> {
        let rows: Vec<Row> = plan.as_chunks().0.to_vec();
        let plain = plan::check(volume, plan).map(|_| line_of(&rows));
        let line = plain.as_deref().map_err(|refused| *refused);
        let rooms = match line {
            Ok(line) => [line.len(), line.len() + 9, line.len() - 1, 0],
            Err(_) => [0, 1, 40, 2_048],
        };
        for room in rooms {
            self.write_into(volume, plan, line, room);
        }
        plain
    }

    /// How often the call gave each number; 0 stands for an answer that is no refusal.
    pub fn met(&self, way: Way) -> BTreeMap<u32, usize> {
        let of_way = self.met.iter().filter(|((of, _), _)| *of == way);
        of_way.map(|((_, number), places)| (*number, places.values().sum())).collect()
    }

    /// The call gave each of these numbers at least so often, and no other.
    #[track_caller]
    pub fn assert_met(&self, way: Way, least: usize, numbers: &[u32]) {
        let met = self.met(way);
        let often = met.values().all(|&times| times >= least);
        assert!(met.keys().eq(numbers) && often, "{way:?} met {met:?}");
    }

    /// The call gave each of these numbers at so many different places at least.
    #[track_caller]
    pub fn assert_met_at(&self, way: Way, least: usize, numbers: &[u32]) {
        for &number in numbers {
            let places = self.met.get(&(way, number)).map_or(0, BTreeMap::len);
            assert!(places >= least, "{way:?} met {number} at {places} places");
        }
    }
}
