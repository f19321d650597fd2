//! Lists written and read back.

use crate::plain;
use crate::support::*;

/// Random lists go into a volume and come out again, the bytes those of the plain writer; buffers
/// are of every length that matters.
#[test]
fn random_lists_come_back() {
    let seed = 7_071;
    let mut rng = Rng::new(seed);
    let mut trial = Trial::default();
    for round in 0..1_500 {
        trial.case = format!("seed {seed}, round {round}");
        let most = rng.pick(&[1, 3, 10, 60]);
        let lists = random_lists(&mut rng, most);
        let room = lists.room() + rng.pick(&[0, 1, 511, 512, 4_000]);
        let volume = trial.write(&lists.counts, &lists.postings, room).unwrap();
        assert_eq!(volume.len(), lists.room(), "{}", trial.case);
        assert_eq!(
            trial.check(&volume),
            Ok((lists.counts.len() as u32, lists.postings.len() as u32)),
            "{}",
            trial.case
        );
        let (parts, _) = plain::cut(&lists.counts, &lists.postings);
        for (list, postings) in parts.iter().enumerate() {
            let room = postings.len() + rng.pick(&[0, 0, 1, 200]);
            let read = trial.read(&volume, list as u32, room);
            assert_eq!(read.as_deref(), Ok(*postings), "{}", trial.case);
        }
    }
}

/// An empty list fits an empty buffer; a longer one needs all its words.
#[test]
fn buffers_of_every_length() {
    let mut trial = Trial::default();
    let lists = four_blocks();
    let volume = lists.volume();
    for (list, postings) in plain::cut(&lists.counts, &lists.postings).0.iter().enumerate() {
        for room in 0..postings.len() + 3 {
            let expected = if room < postings.len() { Err((16, 0)) } else { Ok(*postings) };
            let read = trial.read(&volume, list as u32, room);
            assert_eq!(read.as_deref().map_err(|refused| *refused), expected);
        }
    }
    for room in 0..lists.room() + 3 {
        let written = trial.write(&lists.counts, &lists.postings, room);
        let expected = if room < lists.room() { Err((20, 0)) } else { Ok(volume.clone()) };
        assert_eq!(written, expected, "room {room}");
    }
}

/// 17 comes after the volume's own refusals and before 16.
#[test]
fn lists_that_are_not_there() {
    let mut trial = Trial::default();
    let volume = four_blocks().volume();
    for list in [5, 6, 1_023, 1_024, 1 << 16, 1 << 31, u32::MAX - 1, u32::MAX] {
        for room in [0, 1, 1_000] {
            assert_eq!(trial.read(&volume, list, room), Err((17, 0)), "list {list}");
        }
    }
    let mut unsealed = volume;
    unsealed[700] ^= 1;
    assert_eq!(trial.read(&unsealed, u32::MAX, 0), Err((3, 1)));
}

/// A volume may start at any address.
#[test]
fn any_alignment() {
    let lists = four_blocks();
    let volume = lists.volume();
    let mut unrising = volume.clone();
    set(&mut unrising, 200, 0);
    for offset in 0..=16 {
        let mut memory = vec![0x5a; 16 + volume.len() + 16];
        let lent = offset..offset + volume.len();

        let out = &mut memory[lent.clone()];
        let written = lihambozy::calls::write_volume(&lists.counts, &lists.postings, out);
        assert_eq!(written.map(|written| written.blocks), Ok(4));
        assert!(memory[lent.clone()] == volume);
        assert!(memory[..lent.start].iter().chain(&memory[lent.end..]).all(|&byte| byte == 0x5a));

        let checked = lihambozy::calls::check_volume(&memory[lent.clone()]).unwrap();
        assert_eq!((checked.lists, checked.postings), (5, 380));
        let mut list = [0; 200];
        let read = lihambozy::calls::read_list(&memory[lent.clone()], 3, &mut list);
        assert_eq!(read.map(|read| read.count), Ok(200));
        assert_eq!(list, lists.postings[160..360]);

        memory[lent.clone()].copy_from_slice(&unrising);
        let refused = lihambozy::calls::check_volume(&memory[lent]).map_err(pair);
        assert_eq!(refused.unwrap_err(), (7, 3), "offset {offset}");
    }
}
