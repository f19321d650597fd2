//! Prefixes of many lines, changes of one byte, and lines changed at random, beside the plain
//! reader.

use crate::inputs::*;
use crate::plain::line::{opens_ninth, rows, Chart};
use crate::support::Rng;
use crate::trial::{Lines, Way};

/// Lines of every sort, with what may be wrong around each.
const LINES: [&str; 18] = [
    "[1]",
    "[1 2;b 0 1]|([3]&[4])",
    "[65536 65535 10000 9999 0]",
    "[1;n 65536 65536 65535]",
    "[1 2;a 0 1 65535 65535;s 65536]",
    "[1 2;n 0 1 3;b 0 1;t 1 0;s 9;a 0 1 2 3]",
    "[1]![2]![3]&[4]|[5]|[6]&[7]",
    "([1]|[2])&([3]|[4])!([5]&([6]![7]))",
    "(((((((([1]))))))))",
    "(((((((([1]|[2])&[3])|[4])&[5])|[6])&[7])|[8])&[9])",
    "((([1])))&((([2 3;s 4])))|((([5])))",
    "[1]&([2]&([3]&([4]&([5]&([6]&([7]&([8])))))))",
    "([1])|([2])|([3])",
    "[100 2000 30000;t 0 2]!([7;s 1]|[8;s 65535])",
    "<2:[1],[2 3;b 0 1],([4]|[5])>",
    "[1]!<1:<2:[2],[3]>,[4]&([5]|[6])>|[7]",
    "<8:[1],[2],[3],[4],[5],[6],[7],[8]>",
    "(<1:(<1:(<1:(<1:[1],[2]>),[3]>),[4]>),[5]>)",
];

/// Every prefix of a line is a line itself or is refused at its end, where no ninth bracket stands
/// in it.
#[test]
fn every_prefix() {
    let seed = 5_201;
    let mut rng = Rng::new(seed);
    let mut lines = Lines::default();
    let random: Vec<String> = (0..300).map(|_| random_line(&mut rng)).collect();
    let mut whole = 0;
    for line in LINES.iter().copied().chain(random.iter().map(String::as_str)) {
        lines.case = format!("seed {seed}, a prefix of `{line}`");
        let mut chart = Chart::default();
        for at in 0..=line.len().min(2_048) {
            let text = &line[..at];
            let prefix = match opens_ninth(text.as_bytes()) {
                Some(ninth) => Err((22, ninth as u32)),
                None if !chart.is_line() => Err((21, at as u32)),
                None if rows(text).len() > 64 => Err((23, 0)),
                None => Ok(rows(text)),
            };
            whole += usize::from(prefix.is_ok());
            lines.read_beside(text.as_bytes(), &prefix);
            assert!(at == line.len() || chart.push(line.as_bytes()[at]), "{}", lines.case);
        }
    }
    assert!(whole > 500, "{whole}");
    lines.assert_met(Way::Read, 100, &[0, 16, 21, 22, 23]);
    lines.assert_met_at(Way::Read, 500, &[21]);
}

/// One byte put in the place of another, put in, or taken out.
#[test]
fn every_change_of_one_byte() {
    let mut lines = Lines::default();
    let bytes = [SIGNS, b"x+-\t\n\0\x80\xff"].concat();
    for line in LINES {
        lines.case = format!("`{line}` changed");
        let line = line.as_bytes();
        for at in 0..=line.len() {
            let (front, behind) = line.split_at(at);
            for byte in &bytes {
                let _ = lines.read([front, &[*byte], behind].concat());
                if let Some((_, behind)) = behind.split_first() {
                    let _ = lines.read([front, &[*byte], behind].concat());
                }
            }
            if let Some((_, behind)) = behind.split_first() {
                let _ = lines.read([front, behind].concat());
            }
        }
    }
    lines.assert_met(Way::Read, 20, &[0, 16, 21, 22]);
    lines.assert_met_at(Way::Read, 40, &[21]);
    lines.assert_met_at(Way::Read, 2, &[22]);
}

/// A byte moved to any other place.
#[test]
fn bytes_moved() {
    let mut lines = Lines::default();
    for line in LINES {
        lines.case = format!("`{line}` with a byte moved");
        for from in 0..line.len() {
            for to in 0..line.len() {
                let mut text = line.as_bytes().to_vec();
                let byte = text.remove(from);
                text.insert(to, byte);
                let _ = lines.read(text);
            }
        }
    }
    lines.assert_met(Way::Read, 1_000, &[0, 16, 21]);
}

/// Random lines, as they are and with a few changes, and bytes of any sort.
#[test]
fn random_texts() {
    let seed = 5_202;
    let mut rng = Rng::new(seed);
    let mut lines = Lines::default();
    for round in 0..2_500 {
        lines.case = format!("seed {seed}, round {round}");
        let line = random_line(&mut rng);
        let whole = lines.read(&line);
        let is_expected = matches!(whole, Ok(_) | Err((21, 2_048) | (22, _) | (23, 0)));
        assert!(is_expected, "{}: {line} {whole:?}", lines.case);
        for _ in 0..3 {
            let _ = lines.read(mutated(&mut rng, line.as_bytes()));
        }
        let _ = lines.read(any_bytes(&mut rng));
    }
    lines.assert_met(Way::Read, 100, &[0, 16, 21, 22, 23]);
    lines.assert_met_at(Way::Read, 300, &[21]);
    lines.assert_met_at(Way::Read, 10, &[22]);
}
