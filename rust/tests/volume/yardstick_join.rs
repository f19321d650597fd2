//! The yardstick of the benchmarks beside the plain join: it is timed for the same work.

use crate::plain;
use crate::support::joins::*;
use crate::support::*;
use crate::yardstick;

/// Both join alike, in the answer and in every byte.
#[track_caller]
fn agree(first: &[u8], second: &[u8], raise: u32, room: usize) -> u32 {
    let (mut ours, mut plain) = (vec![9; room], vec![9; room]);
    let answer = yardstick::join::join_volumes(first, second, raise, &mut ours);
    let expected = plain::join::join_volumes(first, second, raise, &mut plain);
    assert_eq!(answer, expected, "raise {raise}, {room} bytes");
    assert!(ours == plain, "raise {raise}, {room} bytes");
    answer.err().map_or(0, |(number, ..)| number)
}

#[test]
fn the_yardstick_joins_as_the_plain_join() {
    let mut rng = Rng::new(1_032_192);
    let mut met = Met::default();
    for _ in 0..4_000 {
        let bill = random_bill(&mut rng);
        let [mut first, mut second] = bill.volumes();
        match rng.below(10) {
            0 => damage(&mut rng, &bill.first, &mut first),
            1 => damage(&mut rng, &bill.second, &mut second),
            _ => {}
        }
        let short = rng.below(bill.room());
        let room = rng.pick(&[bill.room(), bill.room(), bill.room() + 600, short]);
        met.count(&agree(&first, &second, bill.raise, room).to_string(), 1);
    }
    let large = filling(5, 1_032_192).volume();
    let other = four_blocks().volume();
    for room in [0, large.len(), large.len() + 512] {
        met.count(&agree(&other, &large, 1, room).to_string(), 1);
    }
    let none = Lists { counts: vec![0; 5], postings: vec![] }.volume();
    met.count(&agree(&none, &large, 1, large.len()).to_string(), 1);
    met.assert_at_least(&[("0", 1_000), ("3", 50), ("7", 10), ("8", 10), ("19", 3)]);
    met.assert_at_least(&[("20", 300), ("24", 100), ("25", 500)]);
}
