//! Joined volumes at the edges of blocks, of the largest volume and of the output.

use crate::support::joins::*;
use crate::support::*;

const WORDS: usize = 1_032_192;
const ROOM: usize = 4_194_304;

/// A rising list of so many postings, in documents from `doc` on, 50 in each, at positions up to
/// the last.
fn list(doc: u32, count: usize) -> Vec<u32> {
    (0..count as u32).map(|i| (doc + i / 50) * 65_536 + 65_535 - (49 - i % 50) * 1_000).collect()
}

/// Lists of these lengths, each starting at the same document.
fn lists(doc: u32, lengths: &[usize]) -> Lists {
    let lists: Vec<Vec<u32>> = lengths.iter().map(|&length| list(doc, length)).collect();
    Lists::new(&lists)
}

#[track_caller]
fn joined(trial: &mut Trial, first: Lists, second: Lists) -> Vec<u8> {
    let (least, _) = raises(&first, &second);
    let bill = Bill { first, second, raise: least };
    let [first, second] = bill.volumes();
    trial.join(&first, &second, least, bill.room()).unwrap_or_else(|why| {
        panic!("{}: refused {why:?}", trial.case);
    })
}

/// Two lists of either volume, of lengths with which lists and volumes begin and end at the edges
/// of blocks, and beside them, in the inputs and in the joined volume. Four words stand in front.
#[test]
fn lists_at_the_edges_of_blocks() {
    let mut trial = Trial::default();
    let lengths = [0, 1, 61, 121, 122, 123, 126, 248];
    let mut full = 0;
    for a in lengths {
        for b in lengths {
            for c in lengths {
                for d in lengths {
                    trial.case = format!("lists of {a} and {b}, and of {c} and {d}");
                    let volume = joined(&mut trial, lists(3, &[a, b]), lists(2, &[c, d]));
                    let words = 4 + a + b + c + d;
                    assert_eq!(volume.len(), 512 * words.div_ceil(126), "{}", trial.case);
                    full += usize::from(words % 126 == 0);
                }
            }
        }
    }
    assert!(full > 20, "{full} volumes without a zero word");
}

/// Counts that fill a block, or several, or end beside an edge: the joined lists begin there.
#[test]
fn counts_at_the_edges_of_blocks() {
    let mut trial = Trial::default();
    for count in [123, 124, 125, 126, 249, 250, 251, 1_006, 1_023, 1_024] {
        for (which, length) in
            [(0, 1), (0, 126), (count / 2, 130), (count - 1, 1), (count - 1, 252)]
        {
            trial.case = format!("{count} lists, {length} postings in list {which}");
            let mut lengths = vec![0; count];
            lengths[which] = length;
            let mut others = vec![0; count];
            others[count - 1 - which] += 125;
            others[which] += 1;
            joined(&mut trial, lists(0, &lengths), lists(9, &others));
            joined(&mut trial, lists(0, &others), lists(9, &lengths));
            joined(&mut trial, lists(0, &lengths), lists(9, &vec![0; count]));
            joined(&mut trial, lists(0, &vec![0; count]), lists(9, &lengths));
        }
    }
}

/// Long lists that go over many blocks of both inputs, each shifted against the other.
#[test]
fn lists_over_many_blocks() {
    let mut trial = Trial::default();
    for shift in 0..126 {
        trial.case = format!("shift {shift}");
        let volume =
            joined(&mut trial, lists(0, &[shift, 700, 3]), lists(0, &[125 - shift, 390, 500]));
        assert_eq!(volume.len(), 512 * (5_usize + 700 + 3 + 125 + 390 + 500).div_ceil(126));
    }
}

/// A volume of `count` lists with so many stream words, its postings in documents from 0 on.
fn of_words(count: usize, words: usize) -> Lists {
    let postings = words - 2 - count;
    let mut lengths = vec![postings / count; count];
    lengths[count / 2] += postings % count;
    let lists: Vec<Vec<u32>> =
        lengths.iter().map(|&length| (0..length as u32).map(|i| 40 * i).collect()).collect();
    Lists::new(&lists)
}

/// The largest volume, and one word more: 19. Joined of two halves, of one posting and the rest, or
/// of the largest volume and an empty one.
#[test]
fn the_largest_volume() {
    let mut trial = Trial::default();
    for (count, words) in [(1, WORDS / 2), (1_024, 1_027), (1_000, WORDS - 1), (7, 9), (5, WORDS)] {
        trial.case = format!("{count} lists, {words} words in the first");
        let first = of_words(count, words);
        let left = WORDS - words;
        let second = of_words(count, 2 + count + left);
        let longer = of_words(count, 2 + count + left + 1);
        let (raise, _) = raises(&first, &longer);
        let [first, second] = [first, second].map(|lists| lists.volume());
        let answer = trial.join(&first, &second, raise, ROOM);
        assert_eq!(answer.map(|volume| volume.len()), Ok(ROOM), "{}", trial.case);
        let answer = trial.join(&first, &second, raise, ROOM - 1);
        assert_eq!(answer, Err((20, 0, 0)), "{}: a byte too few", trial.case);
        if longer.words() <= WORDS {
            let longer = longer.volume();
            let answer = trial.join(&first, &longer, raise, ROOM + 512);
            assert_eq!(answer, Err((19, 0, 0)), "{}: a word more", trial.case);
        }
    }
    trial.assert_met(Call::Join, 3, &[0, 19, 20]);
}

/// Both are the largest volume, so that the joined words are over 2,000,000.
#[test]
fn two_of_the_largest() {
    let mut trial = Trial::default();
    let lists = of_words(64, WORDS);
    let (raise, _) = raises(&lists, &lists);
    let volume = lists.volume();
    for (raise, number) in [(raise, 19), (raise - 1, 25)] {
        let answer = trial.join(&volume, &volume, raise, 2 * ROOM);
        assert_eq!(answer, Err((number, 0, 0)), "raise {raise}");
    }
}

/// Outputs of every length up to some blocks more than the volume has.
#[test]
fn outputs_of_every_length() {
    let mut trial = Trial::default();
    let bill = Bill { first: lists(0, &[3, 70, 0]), second: lists(4, &[1, 60, 90]), raise: 9 };
    let [first, second] = bill.volumes();
    assert_eq!(bill.room(), 1_024);
    for room in 0..bill.room() + 1_100 {
        let answer = trial.join(&first, &second, bill.raise, room).map(|volume| volume.len());
        let expected = if room < 1_024 { Err((20, 0, 0)) } else { Ok(1_024) };
        assert_eq!(answer, expected, "room {room}");
    }
}
