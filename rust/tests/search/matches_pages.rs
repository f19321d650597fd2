//! Listing the tuples that pass through buffers of every length: what fits, what is named with
//! MORE, what lies behind the tuples, whole enumerations, and tens of thousands of tuples.

use crate::plain::search::choices;
use crate::support::matches::*;
use crate::support::plans::*;
use crate::support::searches::*;
use crate::support::*;
use lihambozy::calls::list_matches;
use lihambozy::{Plan, Volume};

/// So many variables, each on a list of its own, over positions from 10 on in document 6; all
/// tuples pass.
fn all_pass(sizes: &[u32]) -> Subject {
    let lists: Vec<Vec<u32>> = sizes.iter().map(|&size| (10..10 + size).collect()).collect();
    let lists: Vec<Of> = lists.iter().map(|list| &list[..]).collect();
    Subject::one_pattern(&[6], &[], &lists, &[])
}

/// A buffer of every length from nothing to more than all tuples need, for patterns of one variable
/// to eight: the tuples that fit whole, and MORE only where one is left.
#[test]
fn buffers_of_every_length() {
    let mut trial = Trial::default();
    for sizes in [
        &[5][..],
        &[2, 3],
        &[1, 1],
        &[2, 1, 2],
        &[1, 2, 1, 2],
        &[1, 1, 2, 1, 1],
        &[2, 1, 1, 1, 1, 2],
        &[1, 1, 1, 1, 1, 1, 3],
        &[2, 1, 1, 1, 1, 1, 1, 2],
        &[1; 8],
    ] {
        let subject = all_pass(sizes);
        let vars = sizes.len();
        let ranges: Vec<Vec<u32>> = sizes.iter().map(|&size| (10..10 + size).collect()).collect();
        let all = choices(&ranges);
        trial.case = format!("{sizes:?}");
        for first in 0..=all.len() {
            let behind_all = vec![65_535; vars];
            let from = all.get(first).unwrap_or(&behind_all);
            let left = &all[first..];
            for room in 0..=vars * (left.len() + 2) {
                let answer = trial.match_page(&subject, 0, 6, from, room);
                let expected = if room < vars {
                    Err((16, 0))
                } else {
                    let fit = (room / vars).min(left.len());
                    Ok((left[..fit].to_vec(), left.get(fit).cloned()))
                };
                assert_eq!(answer, expected, "{}: {from:?}, {room} words", trial.case);
            }
        }
    }
}

/// Whole enumerations with buffers of one length, of each length up to more than all tuples need,
/// and too small ones before each call.
#[test]
fn enumerations_with_every_buffer() {
    let mut trial = Trial::default();
    let one_list = Subject::over(
        &[&[], &[(3, 1), (3, 2), (3, 5)]],
        &[voice(1), voice(1), voice(1), near(0, 2, 0), END],
    );
    for (subject, doc) in [(all_pass(&[17]), 6), (all_pass(&[3, 4]), 6), (one_list, 3)] {
        let vars = subject.vars(0);
        let all = subject.passing(0, doc);
        assert!(all.len() >= 12, "{}", all.len());
        for room in vars..=vars * (all.len() + 1) + 1 {
            trial.case = format!("{vars} variables, {room} words");
            assert_eq!(trial.enumerate(&subject, 0, doc, room), all, "{}", trial.case);

            let mut refused = Enumeration::new(&subject, 0, doc);
            let (mut memory, lent) = memory_for(room);
            while !refused.done {
                for short in 0..vars {
                    let part = lent.start..lent.start + short;
                    let answer = refused.call(&mut trial, &mut memory, part);
                    assert_eq!(answer, Err((16, 0)), "{}", trial.case);
                }
                refused.call(&mut trial, &mut memory, lent.clone()).unwrap();
                refused.assert_whole(&trial.case);
            }
            assert_eq!(refused.tuples, all, "{}", trial.case);
            let fit = room / vars;
            assert_eq!(refused.answered, all.len().div_ceil(fit), "{}", trial.case);
        }
    }
}

/// MORE is never said where none is left: the buffer holds exactly those that are left, also where
/// positions, starts and neighbours lie behind the last tuple.
#[test]
fn no_more_where_none_is_left() {
    let mut trial = Trial::default();
    let full = list_in(&[5, 6, 7], &[0, 1, 2, 65_534, 65_535]);
    let titles = list_in(&[5, 6, 7], &[1, 65_535]);
    let volume = Lists::new(&[titles, full]).volume();
    for predicates in [
        &[][..],
        &[before(0, 1)],
        &[before(1, 0)],
        &[near(0, 1, 0)],
        &[span(2)],
        &[same_title(0, 1)],
        &[apart(0, 1, 0, 1)],
        &[apart(1, 0, 65_000, 65_535)],
    ] {
        let rows = [&[voice(1), voice(1)], predicates, &[END]].concat();
        let subject = Subject::new(&volume, &rows.concat());
        trial.case = format!("{predicates:?}");
        for doc in 5..=7 {
            let all = subject.passing(0, doc);
            assert!(all.len() > 1, "{}", trial.case);
            for (i, from) in all.iter().enumerate() {
                let left = 2 * (all.len() - i);
                for (room, is_more) in [(left - 1, left > 2), (left, false), (left + 1, false)] {
                    let (mut memory, lent) = memory_for(room.max(2));
                    let answer = trial.matches(&subject, 0, doc, from, &mut memory, lent).unwrap();
                    assert_eq!(answer.more.is_some(), is_more, "{}: {from:?}", trial.case);
                }
            }
        }
    }
}

/// All tuples of three variables with 40 positions, which 16 bits count, and with 42, which they do
/// not: in one call and in several.
#[test]
fn tens_of_thousands() {
    for size in [40, 42] {
        let subject = all_pass(&[size; 3]);
        let (volume, plan) = (subject.volume(), subject.plan());
        let count = (size * size * size) as usize;
        let tuple = |i: usize| -> [u32; 3] {
            let (i, size) = (i as u32, size);
            [10 + i / (size * size), 10 + i / size % size, 10 + i % size]
        };
        let mut out = vec![7; 3 * count + 4];
        let listed = list_matches(volume, plan, 0, 6, &[0; 3], &mut out).unwrap();
        assert_eq!((listed.count, listed.next), (count as u64, None));
        assert!(out[..3 * count].as_chunks().0.iter().enumerate().all(|(i, t)| *t == tuple(i)));
        assert_eq!(out[3 * count..], [7; 4]);

        // One word less: all but the last.
        let listed = list_matches(volume, plan, 0, 6, &[0; 3], &mut out[..3 * count - 1]).unwrap();
        assert_eq!(listed.count, count as u64 - 1);
        assert_eq!(listed.next.as_deref(), Some(&tuple(count - 1)[..]));

        // From the middle, in pages.
        let (mut first, mut calls) = (count / 2, 0);
        let mut from = tuple(first);
        loop {
            let mut out = [7; 3 * 1_000 + 2];
            let listed = list_matches(volume, plan, 0, 6, &from, &mut out).unwrap();
            let pages = out[..3 * listed.count as usize].as_chunks().0;
            assert!(pages.iter().enumerate().all(|(i, t)| *t == tuple(first + i)), "{first}");
            first += listed.count as usize;
            calls += 1;
            match listed.next {
                Some(next) => from.copy_from_slice(&next),
                None => break,
            }
        }
        assert_eq!((first, calls), (count, (count - count / 2).div_ceil(1_000)));
    }
}

/// Every position of a document: of one variable, and of two from the end.
#[test]
fn every_position_of_a_document() {
    let positions: Vec<u32> = (0..65_536).collect();
    for doc in [0, 6, 65_535] {
        let volume = Lists::new(&[vec![], list_in(&[doc], &positions)]).volume();
        let one = [voice(1), END].concat();
        let mut out = vec![7; 65_536 + 2];
        let listed = list_matches(&volume, &one, 0, doc, &[0], &mut out).unwrap();
        assert_eq!((listed.count, listed.next), (65_536, None));
        assert_eq!((&out[..65_536], &out[65_536..]), (&positions[..], &[7, 7][..]));

        // One word less: all but the last.
        let mut out = vec![7; 65_536];
        let listed = list_matches(&volume, &one, 0, doc, &[0], &mut out[..65_535]).unwrap();
        assert_eq!((listed.count, listed.next.as_deref()), (65_535, Some(&[65_535][..])));
        assert_eq!((&out[..65_535], out[65_535]), (&positions[..65_535], 7));

        let two = [voice(1), voice(1), END].concat();
        let (from, last) = ([65_535, 65_534], [65_535, 65_535]);
        for (room, count, next) in [(2, 1, Some(&last[..])), (3, 1, Some(&last)), (4, 2, None)] {
            let mut out = [7; 6];
            let listed = list_matches(&volume, &two, 0, doc, &from, &mut out[..room]).unwrap();
            assert_eq!((listed.count, listed.next.as_deref()), (count, next));
            let written = [from, last].concat();
            assert_eq!(out[..], [&written[..2 * count as usize], &[7; 4]].concat()[..6]);
        }
    }
}

/// The package's iterator over more tuples than one of its pages has, and just as many.
#[test]
fn pages_of_the_package() {
    let page = lihambozy::Matches::PAGE_TUPLES;
    for (sizes, count) in [
        (&[page as u32 - 1][..], page - 1),
        (&[page as u32], page),
        (&[page as u32 + 1], page + 1),
        (&[128, 128], page),
        (&[2, 3, 16_384], 6 * page),
        (&[4; 8], 4 * page),
    ] {
        let subject = all_pass(sizes);
        let volume = Volume::new(subject.volume()).unwrap();
        let plan = Plan::new(subject.plan().as_chunks().0);
        let ranges: Vec<Vec<u32>> = sizes.iter().map(|&size| (10..10 + size).collect()).collect();
        let all = choices(&ranges);
        assert_eq!(all.len(), count);
        let matches = volume.matches(&plan, 0, 6).unwrap();
        assert!(matches.map(|tuple| tuple.to_vec()).eq(all.iter().cloned()), "{sizes:?}");
        let middle = &all[count / 2];
        let matches = volume.matches_from(&plan, 0, 6, middle).unwrap().page_tuples(1_000);
        assert!(matches.map(|tuple| tuple.to_vec()).eq(all[count / 2..].iter().cloned()));
    }
}

/// Lengths that hold no tuple in 8, in 16, and as bytes in 32 bits, and starts that have the right
/// number of positions there. The memory of the longest is never touched but for its first words.
#[test]
#[cfg(target_pointer_width = "64")]
fn lengths_over_8_16_and_32_bits() {
    let volume = sample().volume();
    let plan = two(&[]).concat();
    for longer in [1 << 8, 1 << 16, 1 << 30] {
        let mut out = vec![0; longer + 2];
        let part = &mut out[..longer + 1];
        let listed = list_matches(&volume, &plan, 0, 1, &[0, 0], part).unwrap();
        assert_eq!((listed.count, listed.next), (4, None), "{longer}");
        assert_eq!(out[..8], [2, 5, 2, 7, 8, 5, 8, 7], "{longer}");
        assert!(out[8..256].iter().all(|&word| word == 0), "{longer}");
        out[..8].fill(0);
        let refused = list_matches(&volume, &plan, 0, 1, &out, &mut [0; 9]).map_err(pair);
        assert_eq!(refused, Err((17, 0)), "{longer}");
    }
}
