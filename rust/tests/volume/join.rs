//! Two volumes joined: their lists, the documents of both, and how many lists there are.

use crate::plain;
use crate::support::joins::*;
use crate::support::*;

/// A list, told by document and position.
type List<'a> = &'a [(u32, u32)];
/// The first volume's lists, the second's, what is added, and whether they join or the refusal.
type Row<'a> = (&'a str, &'a [List<'a>], &'a [List<'a>], u32, Result<(), u32>);
/// The same, with the joined lists.
type Joined<'a> = (&'a str, &'a [List<'a>], &'a [List<'a>], u32, &'a [List<'a>]);

const MAX: u32 = u32::MAX;
const OK: Result<(), u32> = Ok(());
const CLASH: Result<(), u32> = Err(25);

fn lists(lists: &[List]) -> Lists {
    let posting = |&(doc, pos): &(u32, u32)| doc * 65_536 + pos;
    let list = |list: &List| list.iter().map(posting).collect();
    Lists::new(&lists.iter().map(list).collect::<Vec<Vec<u32>>>())
}

/// Joins into buffers of every length that matters. A refusal before 20 is told for each of them.
#[track_caller]
fn joins(trial: &mut Trial, bill: &Bill, expected: Result<(), u32>) {
    let [first, second] = bill.volumes();
    let room = bill.room();
    for room in [0, 1, room - 512, room - 1, room, room + 1, room + 511, room + 512, room + 5_000] {
        let answer = trial.join(&first, &second, bill.raise, room).map(|volume| volume.len());
        let expected = match expected {
            Err(number) => Err((number, 0, 0)),
            Ok(()) if room < bill.room() => Err((20, 0, 0)),
            Ok(()) => Ok(bill.room()),
        };
        assert_eq!(answer, expected, "{}: room {room}", trial.case);
    }
}

#[track_caller]
fn all_join(rows: &[Row]) {
    let mut trial = Trial::default();
    for &(name, first, second, raise, expected) in rows {
        trial.case = name.to_string();
        joins(&mut trial, &Bill { first: lists(first), second: lists(second), raise }, expected);
    }
}

/// Two works in a table: what the joined lists are, written out.
#[test]
fn lists_behind_lists() {
    let rows: &[Joined] = &[
        (
            "two works",
            &[&[(1, 0), (1, 6)], &[(1, 2), (1, 8), (2, 4)], &[(1, 5), (1, 7), (2, 9)]],
            &[&[(0, 0), (3, 1)], &[(0, 2)], &[(3, 3), (3, 4)]],
            3,
            &[
                &[(1, 0), (1, 6), (3, 0), (6, 1)],
                &[(1, 2), (1, 8), (2, 4), (3, 2)],
                &[(1, 5), (1, 7), (2, 9), (6, 3), (6, 4)],
            ],
        ),
        (
            "empty lists on either side, and on both",
            &[&[], &[(1, 2)], &[], &[(4, 0)]],
            &[&[(0, 7)], &[], &[], &[(2, 9)]],
            5,
            &[&[(5, 7)], &[(1, 2)], &[], &[(4, 0), (7, 9)]],
        ),
        (
            "first and last positions of first and last documents",
            &[&[(0, 0), (0, 65_535)], &[(0, 65_535), (7, 0), (7, 65_535)]],
            &[&[(0, 0), (9, 65_535)], &[(0, 0), (0, 65_535), (9, 0)]],
            65_526,
            &[
                &[(0, 0), (0, 65_535), (65_526, 0), (65_535, 65_535)],
                &[(0, 65_535), (7, 0), (7, 65_535), (65_526, 0), (65_526, 65_535), (65_535, 0)],
            ],
        ),
        (
            "neighbours as numbers",
            &[&[], &[(7, 65_535)]],
            &[&[], &[(0, 0)]],
            8,
            &[&[], &[(7, 65_535), (8, 0)]],
        ),
    ];
    let mut trial = Trial::default();
    for &(name, first, second, raise, joined) in rows {
        trial.case = name.to_string();
        let bill = Bill { first: lists(first), second: lists(second), raise };
        joins(&mut trial, &bill, OK);
        let [first, second] = bill.volumes();
        let volume = trial.join(&first, &second, raise, bill.room()).unwrap();
        assert!(volume == lists(joined).volume(), "{name}");
    }
}

/// A volume without a posting takes nothing and gives nothing, and clashes with none.
#[test]
fn volumes_without_a_posting() {
    let some: &[List] = &[&[(3, 0)], &[], &[(3, 9), (65_535, 65_535)]];
    let none: &[List] = &[&[], &[], &[]];
    for raise in [0, 1, 65_534, 65_535, 65_536, 65_537, 1 << 31, MAX - 65_535, MAX - 1, MAX] {
        all_join(&[
            ("the second has none", some, none, raise, OK),
            ("both have none", none, none, raise, OK),
            ("no list has any, T 1", &[&[]], &[&[]], raise, OK),
        ]);
        let mut trial = Trial::default();
        let [some, none] = [some, none].map(|of| lists(of).volume());
        assert_eq!(trial.join(&some, &none, raise, 512), Ok(some.clone()), "raise {raise}");
        assert_eq!(trial.join(&none, &none, raise, 512), Ok(none.clone()), "raise {raise}");
    }
    all_join(&[
        ("the first has none, raise 0", none, some, 0, OK),
        ("the first has none, 65,535 passed", none, some, 1, CLASH),
        ("the first has none, document 0", &[&[], &[]], &[&[], &[(0, 0)]], 0, OK),
        ("the first has none, 0 + 65,535", &[&[], &[]], &[&[], &[(0, 0)]], 65_535, OK),
        ("the first has none, 0 + 65,536", &[&[], &[]], &[&[], &[(0, 0)]], 65_536, CLASH),
    ]);
}

/// 25: a raised document is not above all documents of the first volume. All lists of both count.
#[test]
fn documents_of_both() {
    let low: &[List] = &[&[(0, 0)], &[(0, 1), (2, 2)], &[]];
    let high: &[List] = &[&[(3, 0)], &[], &[(4, 4)]];
    all_join(&[
        ("raise 0, documents apart", low, high, 0, OK),
        ("raise 0, exactly one above", &[&[(4, 0)]], &[&[(5, 0)]], 0, OK),
        ("raise 0, the same document", &[&[(4, 0)]], &[&[(4, 0)]], 0, CLASH),
        ("raise 0, far below", high, low, 0, CLASH),
        // The first's list and the second's would rise all the same.
        ("the same document, a later position", &[&[(4, 0)]], &[&[(4, 1)]], 0, CLASH),
        ("the same after raising", &[&[(9, 3)]], &[&[(2, 7)]], 7, CLASH),
        ("one too low", &[&[(9, 65_535)]], &[&[(2, 0)]], 6, CLASH),
        ("equal", &[&[(9, 65_535)]], &[&[(2, 0)]], 7, CLASH),
        ("exactly one above", &[&[(9, 65_535)]], &[&[(2, 0)]], 8, OK),
        ("far above", &[&[(9, 65_535)]], &[&[(2, 0)]], 60_000, OK),
        // Where the highest document of the first stands, and the lowest of the second.
        ("list 0 alone, equal", &[&[(5, 0)], &[(1, 0)]], &[&[(2, 0)], &[(9, 0)]], 3, CLASH),
        ("list 0 alone, above", &[&[(5, 0)], &[(1, 0)]], &[&[(2, 0)], &[(9, 0)]], 4, OK),
        ("the last list alone, equal", &[&[(1, 0)], &[(5, 0)]], &[&[(9, 0)], &[(2, 0)]], 3, CLASH),
        ("the last list alone, above", &[&[(1, 0)], &[(5, 0)]], &[&[(9, 0)], &[(2, 0)]], 4, OK),
        ("list 0 and the last list", &[&[(5, 0)], &[(1, 0)]], &[&[(9, 0)], &[(2, 0)]], 3, CLASH),
        ("list 0 and the last, above", &[&[(5, 0)], &[(1, 0)]], &[&[(9, 0)], &[(2, 0)]], 4, OK),
        ("the last list and list 0", &[&[(1, 0)], &[(5, 0)]], &[&[(2, 0)], &[(9, 0)]], 3, CLASH),
        ("the last and list 0, above", &[&[(1, 0)], &[(5, 0)]], &[&[(2, 0)], &[(9, 0)]], 4, OK),
        (
            "a list between, of both",
            &[&[(1, 0)], &[(1, 1), (6, 0)], &[(2, 0)]],
            &[&[(7, 0)], &[(2, 9), (8, 0)], &[(7, 0)]],
            4,
            CLASH,
        ),
        ("lists that are empty in the other", &[&[(5, 0)], &[]], &[&[], &[(5, 0)]], 0, CLASH),
        ("lists that are empty, above", &[&[(5, 0)], &[]], &[&[], &[(5, 0)]], 1, OK),
        ("empty lists turned around", &[&[], &[(5, 0)]], &[&[(5, 0)], &[]], 0, CLASH),
        // Each joined list rises, and yet the works are mixed.
        (
            "lists that rise, works that are mixed",
            &[&[], &[(1, 0)], &[(5, 0)]],
            &[&[], &[(1, 0)], &[(5, 0)]],
            2,
            CLASH,
        ),
        // The last posting of a list is the highest, the first the lowest.
        ("the last posting counts", &[&[(1, 0), (2, 0), (8, 0)]], &[&[(1, 0)]], 7, CLASH),
        ("the last posting, above", &[&[(1, 0), (2, 0), (8, 0)]], &[&[(1, 0)]], 8, OK),
        ("the first posting counts", &[&[(8, 0)]], &[&[(1, 0), (20, 0), (30, 0)]], 7, CLASH),
        ("the first posting, above", &[&[(8, 0)]], &[&[(1, 0), (20, 0), (30, 0)]], 8, OK),
        ("no document is above 65,535", &[&[(65_535, 0)]], &[&[(65_535, 0)]], 0, CLASH),
        ("nor any raised one", &[&[(65_535, 0)]], &[&[(0, 0)]], 65_536, CLASH),
    ]);
}

/// 25: a raised document passes 65,535. Sums do not wrap, in 16 bits or 32.
#[test]
fn documents_up_to_the_last() {
    let first: &[List] = &[&[(0, 0)], &[(1, 1)]];
    let one: &[List] = &[&[], &[(1, 65_535)]];
    let zero: &[List] = &[&[(0, 0)], &[]];
    let last: &[List] = &[&[(2, 0)], &[(65_535, 65_535)]];
    let ends: &[List] = &[&[(0, 0), (65_530, 65_535)], &[(7, 7)]];
    all_join(&[
        ("65,535 is reached", first, &[&[(2, 0)], &[(65_530, 9)]], 5, OK),
        ("65,535 is passed", first, &[&[(2, 0)], &[(65_530, 9)]], 6, CLASH),
        ("65,535 is reached in list 0", first, ends, 5, OK),
        ("65,535 is passed in list 0", first, ends, 6, CLASH),
        ("65,535 by itself", first, last, 0, OK),
        ("65,535 and one", first, last, 1, CLASH),
        (
            "passed by the last posting alone",
            first,
            &[&[], &[(3, 0), (4, 0), (9, 9)]],
            65_527,
            CLASH,
        ),
        ("reached by the last posting", first, &[&[], &[(3, 0), (4, 0), (9, 9)]], 65_526, OK),
        ("behind a document 65,534", &[&[(65_534, 0)], &[]], zero, 65_535, OK),
        ("behind a document 65,535", &[&[(65_535, 0)], &[]], zero, 65_535, CLASH),
        ("0 and 65,535", first, zero, 65_535, OK),
        ("0 and 65,536", first, zero, 65_536, CLASH),
        ("1 and 65,534", first, one, 65_534, OK),
        ("1 and 65,535", first, one, 65_535, CLASH),
        ("1 and 65,536", first, one, 65_536, CLASH),
        // A wrong sum is small again, and above all documents of the first.
        ("in 16 bits it is 3", first, zero, 65_539, CLASH),
        ("2^32 as a posting's number is 0", &[&[], &[]], one, 65_536, CLASH),
        ("as a posting's number it is 9", first, one, 65_536 + 8, CLASH),
        ("2^31", first, one, 1 << 31, CLASH),
        ("2^32 - 65,536", first, last, MAX - 65_535, CLASH),
        ("2^32 - 65,535, in 32 bits it is 0", &[&[], &[]], last, MAX - 65_534, CLASH),
        ("2^32 - 65,530, in 32 bits it is 5", &[&[], &[]], last, MAX - 65_529, CLASH),
        ("2^32 - 2", first, one, MAX - 1, CLASH),
        ("2^32 - 1", first, one, MAX, CLASH),
        ("2^32 - 1, in 32 bits it is 0", &[&[], &[]], one, MAX, CLASH),
        ("2^32 - 1, in 32 bits it is 4", &[&[], &[]], &[&[], &[(5, 0)]], MAX, CLASH),
        ("2^32 - 1 and document 0", &[&[], &[]], zero, MAX, CLASH),
    ]);
}

/// 24: the numbers of lists differ. It is told before 25.
#[test]
fn numbers_of_lists() {
    let of = |count: usize, doc: u32| {
        let one = [(doc, 3)];
        let rows: Vec<List> = (0..count).map(|i| if i % 3 == 0 { &one[..] } else { &[] }).collect();
        lists(&rows)
    };
    let mut trial = Trial::default();
    let counts = [1, 2, 3, 122, 123, 124, 125, 126, 250, 1_023, 1_024];
    for first in counts {
        for second in counts {
            for (doc, raise, clash) in [(6, 0, OK), (0, 0, CLASH), (1, MAX, CLASH)] {
                trial.case = format!("{first} and {second} lists, document {doc}, raise {raise}");
                let bill = Bill { first: of(first, 5), second: of(second, doc), raise };
                let expected = if first == second { clash } else { Err(24) };
                joins(&mut trial, &bill, expected);
            }
        }
    }
    for (first, second) in [(1, 2), (2, 1), (1_024, 1), (1_023, 1_024)] {
        trial.case = format!("{first} and {second} empty lists");
        let [first, second] = [first, second].map(|count| lists(&vec![&[][..]; count]));
        joins(&mut trial, &Bill { first, second, raise: 0 }, Err(24));
    }
    trial.assert_met(Call::Join, 20, &[0, 20, 24, 25]);
}

/// One slice, lent as both volumes.
#[test]
fn a_volume_joined_to_itself() {
    let mut trial = Trial::default();
    for lists in
        [sample(), four_blocks(), lists(&[&[]]), lists(&[&[(0, 0), (32_767, 65_535)], &[]])]
    {
        let volume = lists.volume();
        let (least, most) = raises(&lists, &lists);
        for raise in [0, least.saturating_sub(1), least, least + 1, 32_767, 32_768, most, MAX] {
            for room in [0, 512, 1_024, 4_096] {
                let answer = trial.join(&volume, &volume, raise, room);
                let is_clash = matches!(answer, Err((25, 0, 0)));
                assert_eq!(is_clash, !(least..=most).contains(&raise), "raise {raise}, {answer:?}");
            }
        }
    }
    let mut damaged = four_blocks().volume();
    damaged[700] ^= 1;
    assert_eq!(trial.join(&damaged, &damaged, 0, 9_000), Err((3, 1, 1)));
}

/// Volumes and output may start at any address.
#[test]
fn any_alignment() {
    let (first, second) = (four_blocks(), four_blocks());
    let bill = Bill { first, second, raise: 1 };
    let [first, second] = bill.volumes();
    let mut expected = vec![0; bill.room()];
    plain::join::join_volumes(&first, &second, 1, &mut expected).unwrap();
    for offset in 0..=16 {
        let at = |volume: &[u8], offset: usize| [&vec![0x5a; offset][..], volume].concat();
        let first = at(&first, offset);
        let second = at(&second, 3 * offset % 17);
        let mut memory = vec![0x5a; 16 + expected.len() + 16];
        let lent = (5 * offset % 17)..(5 * offset % 17) + expected.len();
        let answer = lihambozy::calls::join_volumes(
            &first[offset..],
            &second[3 * offset % 17..],
            1,
            &mut memory[lent.clone()],
        );
        assert_eq!(answer.map(|joined| joined.blocks as usize), Ok(expected.len() / 512));
        assert!(memory[lent.clone()] == expected, "offset {offset}");
        assert!(memory[..lent.start].iter().chain(&memory[lent.end..]).all(|&byte| byte == 0x5a));
    }
}
