//! Why two volumes are not joined, and in which order the refusals come: those of the first volume,
//! those of the second, 24, 25, 19, 20.

use crate::plain::join::JoinRefused;
use crate::plain::Refused;
use crate::support::*;

/// The volumes, what is added, the bytes of room, and the blocks written or the refusal.
type Row<'a> = (&'a str, &'a [u8], &'a [u8], u32, usize, Result<u32, JoinRefused>);

/// A refusal that is neither volume's own.
fn of_both(number: u32) -> Result<u32, JoinRefused> {
    Err((number, 0, 0))
}

/// The refusal of a volume, 1 or 2.
fn own(volume: u32, (number, at): Refused) -> Result<u32, JoinRefused> {
    Err((number, at, volume))
}

#[track_caller]
fn refused(
    trial: &mut Trial,
    name: String,
    first: &[u8],
    second: &[u8],
    raise: u32,
    room: usize,
    expected: Result<u32, JoinRefused>,
) {
    trial.case = name;
    let answer = trial.join(first, second, raise, room).map(|volume| volume.len() as u32 / 512);
    assert_eq!(answer, expected, "{}", trial.case);
}

/// Five lists, as those of `four_blocks`; all in document 0.
fn one_block() -> Lists {
    Lists::new(&[vec![1], vec![], vec![5, 9], vec![7], vec![0]])
}

/// Each of 1 to 8 and some two of them at once, in the first volume, in the second, and in both;
/// alone, and with 24, 25 and 20.
#[test]
fn of_either_volume() {
    let mut trial = Trial::default();
    let volumes = refused::volumes();
    assert!((1..=8).all(|number| volumes.iter().any(|(_, (of, _))| *of == number)));
    let accepted = one_block().volume();
    let fewer = sample().volume();
    for (volume, why) in &volumes {
        for (name, partner, raise, room) in [
            ("alone", &accepted, 1, 8_192),
            ("with 24", &fewer, 3, 8_192),
            ("with 25", &accepted, 0, 8_192),
            ("with 25, passed", &accepted, u32::MAX, 8_192),
            ("with 20", &accepted, 1, 0),
            ("with 20, a byte too few", &accepted, 1, 2_047),
            ("with 24, 25 and 20", &fewer, 0, 0),
        ] {
            let named = |of: &str| format!("{why:?} in the {of} volume, {name}");
            let first = own(1, *why);
            refused(&mut trial, named("first"), volume, partner, raise, room, first);
            let second = own(2, *why);
            refused(&mut trial, named("second"), partner, volume, raise, room, second);
        }
        for (other, of_second) in &volumes {
            let name = format!("{why:?} in the first volume, {of_second:?} in the second");
            refused(&mut trial, name, volume, other, 1, 8_192, own(1, *why));
        }
    }
    trial.assert_met(Call::Join, 20, &[1, 2, 3, 4, 5, 6, 7, 8]);
    trial.assert_met(Call::JoinSecond, 5, &[1, 2, 3, 4, 5, 6, 7, 8]);
    trial.assert_met_at(Call::JoinSecond, 2, &[2, 3, 7, 8]);
}

/// Each pair of 24, 25, 19 and 20, and more of them at once. The second volume is the largest, or
/// one that makes the joined volume one word too long.
#[test]
fn of_both_volumes() {
    let mut trial = Trial::default();
    let (small, other, large) = (one_block(), sample(), filling(5, 1_032_192));
    let [small, other, large] = [small, other, large].map(|lists| lists.volume());
    // The documents of the largest volume are 0 to 6.
    let rows: &[Row] = &[
        ("answered", &small, &small, 1, 512, Ok(1)),
        ("24", &small, &other, 1, 512, of_both(24)),
        ("25", &small, &small, 0, 512, of_both(25)),
        ("20", &small, &small, 1, 511, of_both(20)),
        ("24 before 25", &small, &other, u32::MAX, 512, of_both(24)),
        ("24 before 25, not above", &other, &small, 0, 512, of_both(24)),
        ("24 before 20", &small, &other, 1, 0, of_both(24)),
        ("24 before 25 and 20", &small, &other, u32::MAX, 511, of_both(24)),
        ("25 before 20", &small, &small, 0, 0, of_both(25)),
        ("19", &small, &large, 1, 4_194_816, of_both(19)),
        ("24 before 19", &other, &large, 3, 4_194_816, of_both(24)),
        ("24 before all", &other, &large, u32::MAX, 0, of_both(24)),
        ("25 before 19", &small, &large, 0, 4_194_816, of_both(25)),
        ("25 before 19, passed", &small, &large, 65_535, 4_194_816, of_both(25)),
        ("25 before 19 and 20", &large, &small, 0, 0, of_both(25)),
        ("19 before 20", &small, &large, 1, 0, of_both(19)),
        ("19 before 20, a byte too few", &large, &small, 500, 4_194_303, of_both(19)),
    ];
    for &(name, first, second, raise, room, expected) in rows {
        refused(&mut trial, name.to_string(), first, second, raise, room, expected);
    }
    trial.assert_met(Call::Join, 1, &[0, 19, 20, 24, 25]);
}

/// Each of 1 to 8 in either volume where the joined volume would be too long too, and longer than
/// the output.
#[test]
fn of_either_volume_before_19() {
    let mut trial = Trial::default();
    let small = one_block().volume();
    let lists = filling(5, 1_032_192);
    let mut large = lists.volume();
    let last = large.len() - 1;
    let start = lists.start(3);
    type Change<'a> = (Refused, &'a dyn Fn(&mut Vec<u8>));
    let changes: [Change; 8] = [
        ((1, 0), &|volume| volume.push(0)),
        ((2, 8_191), &|volume| renumber(volume, 8_191, 8_192)),
        ((3, 8_191), &|volume| volume[last] ^= 1),
        ((4, 0), &|volume| set(volume, 0, 2)),
        ((5, 0), &|volume| set(volume, 1, 1_025)),
        ((6, 0), &|volume| set(volume, 2, 4_000_000)),
        ((7, 3), &|volume| set(volume, start + 1, 0)),
        // The last list has a posting less, and is followed by a word that is not 0.
        ((8, 1_032_191), &|volume| set(volume, 6, lists.counts[4] - 1)),
    ];
    for (why, change) in changes {
        let kept = large.clone();
        change(&mut large);
        let name = format!("{why:?} before 19 and 20");
        refused(&mut trial, name.clone(), &large, &small, 500, 0, own(1, why));
        refused(&mut trial, name, &small, &large, 500, 4_194_816, own(2, why));
        large = kept;
    }
    trial.assert_met(Call::Join, 1, &[1, 2, 3, 4, 5, 6, 7, 8]);
    trial.assert_met(Call::JoinSecond, 1, &[1, 2, 3, 4, 5, 6, 7, 8]);
}
