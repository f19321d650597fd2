//! The yardstick of the benchmarks beside the plain reader and writer: it is timed for the same
//! work.

use crate::inputs::{any_bytes, mutated, random_line};
use crate::plain::line::{line_of, plan_of};
use crate::support::plans::random_plan;
use crate::support::Rng;
use crate::yardstick::line::{read, write};

#[test]
fn the_yardstick_reads_as_the_plain_reader() {
    let seed = 5_501;
    let mut rng = Rng::new(seed);
    let mut met = [0; 24];
    for round in 0..1_000 {
        let line = random_line(&mut rng).into_bytes();
        let texts = [mutated(&mut rng, &line), any_bytes(&mut rng), line];
        for text in texts {
            let mut out = [7; 256];
            let answer = read(&text, &mut out).map(|words| out[..words as usize].to_vec());
            let plain = plan_of(&text).map(|rows| rows.concat());
            let shown = String::from_utf8_lossy(&text);
            assert_eq!(answer, plain, "seed {seed}, round {round}: `{shown}`");
            met[plain.map_or_else(|(number, _)| number as usize, |_| 0)] += 1;
        }
    }
    assert!([0, 21, 22, 23].iter().all(|&number| met[number] > 20), "{met:?}");
}

#[test]
fn the_yardstick_writes_as_the_plain_writer() {
    let seed = 5_502;
    let mut rng = Rng::new(seed);
    for round in 0..300 {
        let rows = random_plan(&mut rng, 1_024);
        let mut out = [7; 2_048];
        let bytes = write(&rows.concat(), &mut out).unwrap() as usize;
        let line = String::from_utf8_lossy(&out[..bytes]);
        assert_eq!(line, line_of(&rows), "seed {seed}, round {round}");
    }
}
