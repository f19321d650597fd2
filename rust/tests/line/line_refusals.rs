//! Each refusal of the two calls, at several places, and their order. On a refusal nothing is
//! written, and behind what is written nothing is; `Lines` compares every element.

use crate::inputs::random_line;
use crate::plain::line::plan_of;
use crate::support::plans::*;
use crate::support::refused;
use crate::support::searches::random_fault;
use crate::support::*;
use crate::trial::{Lines, Way};
use lihambozy::calls::{check_plan, line_to_plan, plan_to_line};
use lihambozy::{Plan, Volume};

/// A line with several things wrong: the first that applies is told, whatever else is wrong and
/// however short the buffer is.
#[test]
fn the_order_of_reading() {
    let many = format!("[{}]", vec!["1"; 64].join(" "));
    let deep = "((((((((([1])))))))))";
    let long = format!("[{}]", vec!["1"; 1_024].join(" "));
    let rows = [
        // 21 for the length, before anything else
        (format!("{long}]"), (21, 2_048)),
        (format!("{deep}|{long}"), (21, 2_048)),
        (format!("x{long}"), (21, 2_048)),
        (long, (21, 2_048)),
        // 21 and 22 by byte
        (format!("{deep}]"), (22, 8)),
        (format!("x{deep}"), (21, 0)),
        (format!("[1]&&{deep}"), (21, 4)),
        (format!("[1]&{deep}&&"), (22, 12)),
        (format!("{many}&{deep}"), (22, many.len() as u32 + 9)),
        (format!("{many}]"), (21, many.len() as u32)),
        (many[..many.len() - 1].to_string(), (21, many.len() as u32 - 1)),
        // 23 of a line free of both
        (many, (23, 0)),
    ];
    let mut lines = Lines::default();
    for (line, refused) in rows {
        for room in [0, 1, 255, 256, 260, 5_000] {
            let mut out = vec![7; room];
            let answer = line_to_plan(line.as_bytes(), &mut out).map_err(pair);
            assert_eq!(answer, Err(refused), "{line} into {room}");
            assert!(out.iter().all(|&word| word == 7), "{line} into {room}: {out:?}");
        }
        assert_eq!(lines.read(&line), Err(refused), "{line}");
    }
    lines.assert_met(Way::Read, 2, &[21, 22, 23]);
}

/// A buffer of exactly the right length holds the rows, one word less does not; the words behind
/// the rows and on either side stay as they were.
#[test]
fn buffers_of_every_length() {
    let lines = ["[1]", "[1 2;b 0 1]|([3]&[4])", "[1;a 0 0 1 2;s 3]!([4]|[5])"];
    for line in lines {
        let rows = plan_of(line.as_bytes()).unwrap();
        let words = rows.concat();
        for room in 0..words.len() + 12 {
            for fill in [0, 7, u32::MAX] {
                let mut out = vec![fill; room];
                let answer = line_to_plan(line.as_bytes(), &mut out).map_err(pair);
                let mut expected = vec![fill; room];
                if room < words.len() {
                    assert_eq!(answer, Err((16, 0)), "{line} into {room}");
                } else {
                    assert_eq!(answer.map(|read| read.words), Ok(words.len() as u32), "{line}");
                    expected[..words.len()].copy_from_slice(&words);
                }
                assert_eq!(out, expected, "{line} into {room}");
            }
        }
    }
    let volume = sample().volume();
    for rows in [SAMPLE.to_vec(), [&SAMPLE[..], &[voice(1), END, FIRST_NOT_SECOND]].concat()] {
        let line = crate::plain::line::line_of(&rows);
        for room in 0..line.len() + 12 {
            for fill in [0, b']', 255] {
                let mut out = vec![fill; room];
                let answer = plan_to_line(&volume, &rows.concat(), &mut out).map_err(pair);
                let mut expected = vec![fill; room];
                if room < line.len() {
                    assert_eq!(answer, Err((16, 0)), "{line} into {room}");
                } else {
                    assert_eq!(answer.map(|written| written.bytes), Ok(line.len() as u32));
                    expected[..line.len()].copy_from_slice(line.as_bytes());
                }
                assert_eq!(out, expected, "{line} into {room}");
            }
        }
    }
}

/// 1 to 14 of the writer are those of the plan's check, with the same place, before 16.
#[test]
fn the_writer_refuses_as_the_check() {
    let volume = sample().volume();
    let mut lines = Lines::default();
    let plans: Vec<Vec<u32>> = { refused::plans().iter() }
        .map(|(rows, _)| rows.concat())
        .chain([vec![], vec![1, 1, 0], SAMPLE.concat(), [voice(1); 65].concat()])
        .collect();
    let volumes = refused::volumes().into_iter().map(|(volume, _)| volume);
    for volume in volumes.chain([volume]) {
        for plan in &plans {
            let checked = check_plan(&volume, plan).map_err(pair);
            let written = lines.write(&volume, plan);
            assert_eq!(written.as_ref().err(), checked.as_ref().err(), "{plan:?}");
            for room in [0, 2_048] {
                let mut out = vec![b'x'; room];
                let answer = plan_to_line(&volume, plan, &mut out).map_err(pair);
                match (checked, room) {
                    (Err(refused), _) => assert_eq!(answer, Err(refused), "{plan:?}"),
                    (Ok(_), 0) => assert_eq!(answer, Err((16, 0)), "{plan:?}"),
                    (Ok(_), _) => assert!(answer.is_ok(), "{plan:?}"),
                }
                let is_kept = out.iter().all(|&byte| byte == b'x');
                assert_eq!(is_kept, answer.is_err(), "{plan:?}");
            }
        }
    }
    lines.assert_met(Way::Write, 1, &[0, 1, 2, 3, 4, 5, 6, 7, 8, 9, 10, 11, 12, 13, 14, 16]);
    lines.assert_met_at(Way::Write, 3, &[10, 11, 13]);
}

/// Damaged volumes and spoiled plans at random.
#[test]
fn the_writer_at_random() {
    let seed = 5_301;
    let mut rng = Rng::new(seed);
    let mut lines = Lines::default();
    for round in 0..3_000 {
        let (volume, plan) = random_fault(&mut rng);
        lines.case = format!("seed {seed}, round {round}");
        let _ = lines.write(&volume, &plan);
    }
    lines.assert_met(Way::Write, 5, &[0, 1, 2, 3, 4, 5, 6, 7, 8, 9, 10, 11, 12, 13, 14, 16]);
    lines.assert_met_at(Way::Write, 5, &[10, 11, 13]);
}

/// The rows of a line may be refused: by its list numbers, voices, SPAN 0, a least over its most,
/// a ninth voice or figure. The grammar says nothing of these.
#[test]
fn rows_that_a_plan_cannot_have() {
    let volume = sample().volume();
    let mut lines = Lines::default();
    let nine = vec!["[1]"; 9].join("|");
    for (line, refused) in [
        ("[0]", (11, 0)),
        ("[3]", (11, 0)),
        ("[1 2 65536]", (11, 2)),
        ("[1;b 0 1]", (13, 1)),
        ("[1 2;n 0 2 1]", (13, 2)),
        ("[1 2;n 65536 65536 65535]", (13, 2)),
        ("[1 2;n 0 1 65536]", (10, 2)),
        ("[1;s 0]", (10, 1)),
        ("[1 2;a 0 1 3 2]", (10, 2)),
        ("[1]&[2;a 0 0 65535 0]", (10, 3)),
        ("[1 1 1 1 1 1 1 1 1]", (12, 8)),
        (&nine[..], (12, 23)),
    ] {
        let plan = lines.read(line).unwrap().concat();
        assert_eq!(check_plan(&volume, &plan).map_err(pair), Err(refused), "{line}");
        assert_eq!(lines.write(&volume, &plan), Err(refused), "{line}");
    }
    assert_eq!(lines.met(Way::Read).keys().copied().collect::<Vec<_>>(), [0, 16]);
}

/// The package hands the refusals on.
#[test]
fn the_package() {
    let volume = Volume::new(sample().volume()).unwrap();
    let seed = 5_302;
    let mut rng = Rng::new(seed);
    let (mut read, mut written) = (0, 0);
    for line in ["[1", "", "(((((((((", "[1] ", &"[1]|".repeat(600)] {
        assert_eq!(Plan::from_line(line).map_err(pair).err(), plan_of(line.as_bytes()).err());
    }
    for round in 0..1_500 {
        let line = random_line(&mut rng);
        let plain = plan_of(line.as_bytes());
        let plan = Plan::from_line(&line).map_err(pair);
        assert_eq!(plan.clone().map(|plan| plan.rows().to_vec()), plain, "{seed} {round}: {line}");
        let Ok(plan) = plan else { continue };
        read += 1;
        let checked = volume.check(&plan).map_err(pair);
        let line = plan.to_line(&volume).map_err(pair);
        assert_eq!(line.as_ref().err(), checked.as_ref().err(), "{seed} {round}");
        if let Ok(line) = line {
            assert_eq!(Plan::from_line(&line), Ok(plan), "{seed} {round}: {line}");
            written += 1;
        }
    }
    assert!(read > 1_000 && written > 10, "{read} {written}");
}
