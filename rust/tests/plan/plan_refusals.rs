//! Plans that are refused, and those just inside each limit: which refusal, and at which row.

use crate::plain::Refused;
use crate::support::plans::*;
use crate::support::*;

const MAX: u32 = u32::MAX;
const HALF: u32 = 1 << 31;

/// A VOICE that the sample volume has a list for.
const V: Row = voice(1);
/// The smallest pattern.
const P: [Row; 2] = [V, END];

/// F and V, or the refusal.
type Answer = Result<(u32, u32), Refused>;

/// Plans over the sample volume, which has three lists. A plan is told in pieces of rows.
#[test]
fn refused_in_order() {
    let eight = P.repeat(8);
    let seven_both = [BOTH; 7];
    let rows: &[(&str, &[&[Row]], Answer)] = &[
        // accepted
        ("one variable", &[&[V, END]], Ok((1, 1))),
        ("the last list", &[&[voice(2), END]], Ok((1, 1))),
        ("one list twice", &[&[V, V, END]], Ok((1, 2))),
        (
            "every predicate",
            &[&[
                V,
                V,
                near(0, 1, 9),
                before(1, 0),
                same_title(0, 1),
                span(9),
                apart(0, 1, 2, 9),
                END,
            ]],
            Ok((1, 2)),
        ),
        (
            "a variable named twice",
            &[&[V, near(0, 0, 0), before(0, 0), same_title(0, 0), apart(0, 0, 0, 0), END]],
            Ok((1, 1)),
        ),
        ("one predicate twice", &[&[V, V, before(0, 1), before(0, 1), END]], Ok((1, 2))),
        ("NEAR, the least c", &[&[V, V, near(0, 1, 0), END]], Ok((1, 2))),
        ("NEAR, the greatest c", &[&[V, V, near(0, 1, 65_535), END]], Ok((1, 2))),
        ("SPAN, the least c", &[&[V, span(1), END]], Ok((1, 1))),
        ("SPAN, the greatest c", &[&[V, span(65_536), END]], Ok((1, 1))),
        ("APART, the least c", &[&[V, V, apart_of(0, 1, 0), END]], Ok((1, 2))),
        ("APART, the greatest c", &[&[V, V, apart_of(0, 1, MAX), END]], Ok((1, 2))),
        ("APART, least is most", &[&[V, V, apart(1, 0, 7, 7), END]], Ok((1, 2))),
        ("eight variables", &[&[V; 8], &[END]], Ok((1, 8))),
        (
            "the last of eight variables",
            &[&[V; 8], &[near(7, 0, 1), before(0, 7), same_title(7, 7), apart(7, 0, 1, 2), END]],
            Ok((1, 8)),
        ),
        ("eight patterns", &[&eight, &seven_both], Ok((8, 8))),
        ("eight variables twice", &[&[V; 8], &[END], &[V; 8], &[END, EITHER]], Ok((2, 16))),
        ("BOTH", &[&P, &P, &[BOTH]], Ok((2, 2))),
        ("EITHER", &[&P, &P, &[EITHER]], Ok((2, 2))),
        ("FIRST NOT SECOND", &[&P, &P, &[FIRST_NOT_SECOND]], Ok((2, 2))),
        ("operators in a row", &[&P, &P, &P, &[BOTH, EITHER]], Ok((3, 3))),
        ("a pattern behind an operator", &[&P, &P, &[BOTH], &P, &[FIRST_NOT_SECOND]], Ok((3, 3))),
        (
            "predicates in each pattern",
            &[&[V, span(1), END], &[V, V, before(1, 0), END, BOTH]],
            Ok((2, 3)),
        ),
        // 10, unknown kind
        ("10, kind 0", &[&[[0, 0, 0, 0]]], Err((10, 0))),
        ("10, kind 0 of a VOICE's words", &[&[[0, 1, 0, 0]], &P], Err((10, 0))),
        ("10, kind 12", &[&P, &P, &[[12, 0, 0, 0]]], Err((10, 4))),
        ("10, kind 12 with two variables", &[&[V, V, [12, 0, 1, 0], END]], Err((10, 2))),
        ("10, kind 12 of an AT LEAST's words", &[&P, &P, &[[12, 1, 2, 0]]], Err((10, 4))),
        ("10, kind 11 in 8 bits", &[&P, &P, &[[267, 1, 2, 0]]], Err((10, 4))),
        ("10, kind 11 in 31 bits", &[&P, &P, &[[HALF + 11, 1, 2, 0]]], Err((10, 4))),
        ("10, kind 10 in 8 bits", &[&[V, V, [266, 0, 1, 1], END]], Err((10, 2))),
        ("10, kind 10 in 31 bits", &[&[V, V, [HALF + 10, 0, 1, 1], END]], Err((10, 2))),
        ("10, kind 2^32 - 1", &[&[[MAX, 0, 0, 0]], &P], Err((10, 0))),
        ("10, kind 1 in 8 bits", &[&[[257, 1, 0, 0], END]], Err((10, 0))),
        ("10, kind 6 in 16 bits", &[&[V, [65_542, 0, 0, 0]]], Err((10, 1))),
        ("10, kind 6 in 31 bits", &[&[V, [HALF + 6, 0, 0, 0]]], Err((10, 1))),
        // 10, c out of range
        ("10, NEAR, c is one too large", &[&[V, V, near(0, 1, 65_536), END]], Err((10, 2))),
        ("10, NEAR, c is 2^32 - 1", &[&[V, V, near(0, 1, MAX), END]], Err((10, 2))),
        ("10, SPAN, c is 0", &[&[V, V, span(0), END]], Err((10, 2))),
        ("10, SPAN, c is one too large", &[&[V, span(65_537), END]], Err((10, 1))),
        ("10, SPAN, c is 2^32 - 1", &[&[V, span(MAX), END]], Err((10, 1))),
        // 10, least exceeds most
        ("10, APART, least is one too large", &[&[V, V, apart(0, 1, 8, 7), END]], Err((10, 2))),
        ("10, APART, least 1 and most 0", &[&[V, V, apart_of(0, 1, 65_536), END]], Err((10, 2))),
        ("10, APART, the greatest least", &[&[V, apart_of(0, 0, MAX - 1), END]], Err((10, 1))),
        ("10, APART in a later pattern", &[&P, &[V, V, apart(1, 0, 1, 0), END]], Err((10, 4))),
        // 11
        ("11, list 0", &[&[voice(0), END]], Err((11, 0))),
        ("11, list T", &[&[V, voice(3), END]], Err((11, 1))),
        ("11, list T + 1", &[&[voice(4), END]], Err((11, 0))),
        ("11, list 2^32 - 1", &[&[V, V, voice(MAX), END]], Err((11, 2))),
        ("11, list 1 in 16 bits", &[&[voice(65_537), END]], Err((11, 0))),
        ("11, list 1 in 31 bits", &[&[voice(HALF + 1), END]], Err((11, 0))),
        ("11, in a later pattern", &[&P, &[V, voice(0), END, BOTH]], Err((11, 3))),
        // 12
        ("12, a ninth variable", &[&[V; 9], &[END]], Err((12, 8))),
        ("12, a ninth variable ends the plan", &[&[V; 9]], Err((12, 8))),
        ("12, a ninth variable of the second pattern", &[&P, &[V; 9], &[END, BOTH]], Err((12, 10))),
        (
            "12, a ninth variable behind eight",
            &[&[V; 8], &[END], &[V; 9], &[END, BOTH]],
            Err((12, 17)),
        ),
        ("12, a ninth variable of the eighth pattern", &[&P.repeat(7), &[V; 9]], Err((12, 22))),
        ("12, a ninth pattern", &[&eight, &P, &[BOTH; 8]], Err((12, 16))),
        (
            "12, a ninth pattern behind operators",
            &[&eight, &seven_both, &P, &[BOTH]],
            Err((12, 23)),
        ),
        ("12, a ninth pattern ends the plan", &[&eight, &[BOTH, V]], Err((12, 17))),
        // 13, VOICE
        ("13, VOICE after NEAR", &[&[V, V, near(0, 1, 1), V, END]], Err((13, 3))),
        ("13, VOICE after BEFORE", &[&[V, V, before(0, 1), V, END]], Err((13, 3))),
        ("13, VOICE after SAME TITLE", &[&[V, V, same_title(0, 1), V, END]], Err((13, 3))),
        ("13, VOICE after SPAN", &[&[V, span(1), V, END]], Err((13, 2))),
        ("13, VOICE after APART", &[&[V, V, apart(0, 1, 0, 9), V, END]], Err((13, 3))),
        (
            "13, VOICE after a predicate of the second pattern",
            &[&P, &[V, span(1), V, END, BOTH]],
            Err((13, 4)),
        ),
        ("13, an eighth variable after a predicate", &[&[V; 7], &[span(1), V, END]], Err((13, 8))),
        // 13, predicates
        ("13, NEAR first", &[&[near(0, 0, 1)], &P], Err((13, 0))),
        ("13, BEFORE first", &[&[before(0, 0)], &P], Err((13, 0))),
        ("13, SAME TITLE first", &[&[same_title(0, 0)], &P], Err((13, 0))),
        ("13, SPAN first", &[&[span(1)], &P], Err((13, 0))),
        ("13, APART first", &[&[apart(0, 0, 0, 1)], &P], Err((13, 0))),
        ("13, NEAR behind END", &[&P, &[near(0, 0, 1)]], Err((13, 2))),
        ("13, BEFORE behind END", &[&P, &[before(0, 0)]], Err((13, 2))),
        ("13, SAME TITLE behind END", &[&P, &[same_title(0, 0)]], Err((13, 2))),
        ("13, SPAN behind END", &[&P, &[span(1)]], Err((13, 2))),
        ("13, APART behind END", &[&P, &[apart(0, 0, 0, 1)]], Err((13, 2))),
        ("13, APART of two answers", &[&P, &P, &[apart(0, 0, 0, 0)]], Err((13, 4))),
        ("13, SPAN behind an operator", &[&P, &P, &[BOTH, span(1)]], Err((13, 5))),
        ("13, NEAR, a is not there", &[&[V, V, near(2, 0, 1), END]], Err((13, 2))),
        ("13, NEAR, b is not there", &[&[V, V, near(0, 2, 1), END]], Err((13, 2))),
        ("13, BEFORE, a is not there", &[&[V, V, before(2, 0), END]], Err((13, 2))),
        ("13, BEFORE, b is not there", &[&[V, V, before(0, 2), END]], Err((13, 2))),
        ("13, SAME TITLE, a is not there", &[&[V, V, same_title(2, 0), END]], Err((13, 2))),
        ("13, SAME TITLE, b is not there", &[&[V, V, same_title(0, 2), END]], Err((13, 2))),
        ("13, APART, a is not there", &[&[V, V, apart(2, 0, 0, 1), END]], Err((13, 2))),
        ("13, APART, b is not there", &[&[V, V, apart(0, 2, 0, 1), END]], Err((13, 2))),
        ("13, APART, neither is there", &[&[V, V, apart(2, 2, 0, 0), END]], Err((13, 2))),
        ("13, APART, a is 0 in 16 bits", &[&[V, apart(65_536, 0, 0, 1), END]], Err((13, 1))),
        ("13, APART, b is 2^32 - 1", &[&[V, apart(0, MAX, 0, 1), END]], Err((13, 1))),
        ("13, neither is there", &[&[V, before(1, 1), END]], Err((13, 1))),
        ("13, a ninth variable is named", &[&[V; 8], &[near(0, 8, 1), END]], Err((13, 8))),
        ("13, a is 2^32 - 1", &[&[V, near(MAX, 0, 1), END]], Err((13, 1))),
        ("13, b is 2^32 - 1", &[&[V, same_title(0, MAX), END]], Err((13, 1))),
        ("13, a is 0 in 16 bits", &[&[V, before(65_536, 0), END]], Err((13, 1))),
        ("13, b is 0 in 31 bits", &[&[V, before(0, HALF), END]], Err((13, 1))),
        (
            "13, a variable of the pattern before",
            &[&[V, V, END], &[V, before(0, 1), END, BOTH]],
            Err((13, 4)),
        ),
        // 13, END and the operators
        ("13, END first", &[&[END], &P], Err((13, 0))),
        ("13, END behind END", &[&P, &[END]], Err((13, 2))),
        ("13, END behind an operator", &[&P, &P, &[BOTH, END]], Err((13, 5))),
        ("13, BOTH first", &[&[BOTH], &P], Err((13, 0))),
        ("13, EITHER first", &[&[EITHER], &P], Err((13, 0))),
        ("13, FIRST NOT SECOND first", &[&[FIRST_NOT_SECOND], &P], Err((13, 0))),
        ("13, BOTH of one answer", &[&P, &[BOTH]], Err((13, 2))),
        ("13, EITHER of one answer", &[&P, &[EITHER]], Err((13, 2))),
        ("13, FIRST NOT SECOND of one answer", &[&P, &[FIRST_NOT_SECOND]], Err((13, 2))),
        ("13, BOTH of one answer again", &[&P, &P, &[BOTH, BOTH]], Err((13, 5))),
        ("13, an operator before its second answer", &[&P, &[EITHER], &P], Err((13, 2))),
        ("13, BOTH in a pattern, no answer", &[&[V, BOTH, END]], Err((13, 1))),
        ("13, BOTH in a pattern, one answer", &[&P, &[V, BOTH, END]], Err((13, 3))),
        ("13, BOTH in a pattern, two answers", &[&P, &P, &[V, BOTH, END]], Err((13, 5))),
        ("13, EITHER in a pattern, two answers", &[&P, &P, &[V, EITHER, END]], Err((13, 5))),
        (
            "13, FIRST NOT SECOND in a pattern, two answers",
            &[&P, &P, &[V, FIRST_NOT_SECOND, END]],
            Err((13, 5)),
        ),
        ("13, BOTH behind a predicate", &[&P, &P, &[V, span(1), BOTH, END]], Err((13, 6))),
        // 14
        ("14, a VOICE alone", &[&[V]], Err((14, 0))),
        ("14, a predicate at the end", &[&[V, V, before(0, 1)]], Err((14, 0))),
        ("14, the second pattern is open", &[&P, &[V]], Err((14, 0))),
        ("14, two patterns and an open one", &[&P, &P, &[BOTH, V, V]], Err((14, 0))),
        ("14, two answers", &[&P, &P], Err((14, 0))),
        ("14, two answers behind BOTH", &[&P, &P, &P, &[BOTH]], Err((14, 0))),
        ("14, two answers behind EITHER", &[&P, &P, &P, &[EITHER]], Err((14, 0))),
        (
            "14, two answers behind FIRST NOT SECOND",
            &[&P, &P, &P, &[FIRST_NOT_SECOND]],
            Err((14, 0)),
        ),
        ("14, eight answers", &[&eight], Err((14, 0))),
        // in one row, 10 before 11 before 12 before 13
        ("10 before 11", &[&[[1, 0, 1, 0], END]], Err((10, 0))),
        ("10 before 12", &[&[V; 8], &[[1, 1, 0, 1], END]], Err((10, 8))),
        ("10 before 13, VOICE", &[&[V, span(1), [1, 1, 1, 0], END]], Err((10, 2))),
        ("10 before 13, NEAR", &[&[V, near(0, 1, 65_536), END]], Err((10, 1))),
        ("10 before 13, BEFORE", &[&[[3, 0, 0, 1]], &P], Err((10, 0))),
        ("10 before 13, SAME TITLE", &[&[V, [4, 5, 5, 5], END]], Err((10, 1))),
        ("10 before 13, SPAN", &[&P, &[span(0)]], Err((10, 2))),
        ("10 before 13, APART", &[&[V, apart(0, 1, 1, 0), END]], Err((10, 1))),
        ("10 before 13, APART first", &[&[apart(0, 0, 65_535, 0)], &P], Err((10, 0))),
        ("10 before 13, END", &[&P, &[[6, 0, 1, 0]]], Err((10, 2))),
        ("10 before 13, BOTH", &[&P, &[[7, 1, 0, 0]]], Err((10, 2))),
        ("10 before 11, 12 and 13", &[&[V; 8], &[span(1), [1, 0, 0, 1], END]], Err((10, 9))),
        ("11 before 12, a ninth variable", &[&[V; 8], &[voice(3), END]], Err((11, 8))),
        ("11 before 12, a ninth pattern", &[&eight, &[voice(0), END]], Err((11, 16))),
        ("11 before 13", &[&[V, span(1), voice(0), END]], Err((11, 2))),
        ("11 before 12 and 13", &[&[V; 8], &[span(1), voice(3), END]], Err((11, 9))),
        ("12 before 13", &[&[V; 8], &[span(1), V, END]], Err((12, 9))),
        // rows go upward
        ("13 of row 0 before 10 of row 1", &[&[END, [0, 0, 0, 0]]], Err((13, 0))),
        ("13 of row 0 before 11 of row 1", &[&[END, voice(0)]], Err((13, 0))),
        ("13 of row 2 before 12 of row 12", &[&[V, span(1), V, END], &[V; 9]], Err((13, 2))),
        ("12 of row 8 before 10 of row 9", &[&[V; 9], &[[12, 0, 0, 0]]], Err((12, 8))),
        ("12 of row 8 before 11 of row 9", &[&[V; 9], &[voice(0)]], Err((12, 8))),
        ("11 of row 0 before 10 of row 1", &[&[voice(0), [0, 0, 0, 0]]], Err((11, 0))),
        ("11 of row 1 before 10 of row 3", &[&[V, voice(3), span(1), span(0), END]], Err((11, 1))),
        (
            "13 of row 2 before 10 of row 3",
            &[&[V, V, apart(0, 2, 0, 0), apart(0, 1, 1, 0), END]],
            Err((13, 2)),
        ),
        (
            "10 of row 2 before 13 of row 3",
            &[&[V, V, apart(0, 1, 1, 0), apart(0, 2, 0, 0), END]],
            Err((10, 2)),
        ),
        ("10 of row 1 before 10 of row 2", &[&[V, [6, 1, 0, 0], [0, 0, 0, 0]]], Err((10, 1))),
        ("13 of row 1 before 13 of row 2", &[&[V, before(0, 1), before(1, 0), END]], Err((13, 1))),
        ("13 of row 2 before 13 of row 3", &[&P, &[END, END]], Err((13, 2))),
        // 14 behind every row
        ("10 before 14", &[&[V, V, [0, 0, 0, 0]]], Err((10, 2))),
        ("11 before 14", &[&[V, voice(3)]], Err((11, 1))),
        ("12 before 14", &[&eight, &[V]], Err((12, 16))),
        ("13 before 14", &[&P, &P, &[V, V, BOTH]], Err((13, 6))),
    ];
    let volume = sample().volume();
    let mut trial = Trial::default();
    for &(name, pieces, answer) in rows {
        trial.case = name.to_string();
        assert_eq!(trial.plan(&volume, &pieces.concat().concat()), answer, "{name}");
    }
    trial.assert_met(Call::Plan, 7, &[0, 10, 11, 12, 13, 14]);
    trial.assert_met_at(Call::Plan, 4, &[10, 11, 12, 13]);
}

/// Each word that a kind does not use, in a row that is in order but for it.
#[test]
fn unused_words() {
    let two = [P, P].concat();
    let rows: &[(&[Row], Row, &[usize])] = &[
        (&[], V, &[2, 3]),
        (&[V], V, &[2, 3]),
        (&[V, V], before(0, 1), &[3]),
        (&[V, V], same_title(0, 1), &[3]),
        (&[V, V], span(5), &[1, 2]),
        (&[V], END, &[1, 2, 3]),
        (&two, BOTH, &[1, 2, 3]),
        (&two, EITHER, &[1, 2, 3]),
        (&two, FIRST_NOT_SECOND, &[1, 2, 3]),
    ];
    let volume = sample().volume();
    let mut trial = Trial::default();
    for &(front, row, unused) in rows {
        let plan = [front, &[row]].concat();
        trial.case = format!("{row:?}");
        let answer = trial.plan(&volume, &plan.concat());
        assert!(matches!(answer, Ok(_) | Err((14, 0))), "{row:?}: {answer:?}");
        for &word in unused {
            for value in [1, 2, 256, 65_536, HALF, MAX] {
                let mut plan = plan.clone();
                plan[front.len()][word] = value;
                trial.case = format!("{row:?}, word {word} is {value}");
                let refused = (10, front.len() as u32);
                assert_eq!(trial.plan(&volume, &plan.concat()), Err(refused), "{}", trial.case);
            }
        }
    }
}

/// The lists that a VOICE may name, by the number of lists and whatever they hold.
#[test]
fn lists_of_the_volume() {
    let mut trial = Trial::default();
    for t in [1, 2, 3, 1_023, 1_024] {
        // Every other list is empty, the last one among them.
        let lists: Vec<Vec<u32>> = (0..t).map(|i| vec![7; (t - 1 - i) as usize % 2]).collect();
        let volume = Lists::new(&lists).volume();
        for list in [0, 1, 2, t / 2, t - 1, t, t + 1, 1 << 16, HALF, MAX - 1, MAX] {
            trial.case = format!("list {list} of {t}");
            let plan = [voice(list), END].concat();
            let answer = if 0 < list && list < t { Ok((1, 1)) } else { Err((11, 0)) };
            assert_eq!(trial.plan(&volume, &plan), answer, "{}", trial.case);
        }
    }
}

/// 1 to 8 come first, whatever the plan.
#[test]
fn volumes_before_plans() {
    let accepted = four_blocks().volume();
    let volumes = refused::volumes();
    let plans = [
        ("in order", SAMPLE.concat(), Ok((1, 2))),
        ("9, no words", vec![], Err((9, 0))),
        ("9, a word missing", SAMPLE.concat()[..19].to_vec(), Err((9, 0))),
        ("9, 65 rows", [&[V][..], &[span(1); 63], &[END]].concat().concat(), Err((9, 0))),
        ("10", [0, 0, 0, 0].to_vec(), Err((10, 0))),
        ("11", [V, voice(0), END].concat(), Err((11, 1))),
        ("12", [V; 9].concat(), Err((12, 8))),
        ("13", [V, V, V, before(0, 3)].concat(), Err((13, 3))),
        ("14", [V, V].concat(), Err((14, 0))),
    ];
    let mut trial = Trial::default();
    for (name, plan, answer) in plans {
        trial.case = format!("plan {name}");
        assert_eq!(trial.plan(&accepted, &plan), answer, "{name}");
        for (volume, refused) in &volumes {
            trial.case = format!("volume {refused:?}, plan {name}");
            assert_eq!(trial.plan(volume, &plan), Err(*refused), "{}", trial.case);
        }
    }
}
