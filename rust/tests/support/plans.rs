//! Plans for the tests: rows by name, random plans, and changes of them.

use super::Rng;
pub use lihambozy::row::{PlanRow as Row, *};

/// The sample plan of document 01.
pub const SAMPLE: [Row; 5] = [voice(1), voice(2), before(0, 1), same_title(0, 1), END];

/// The sample's two variables with other predicates.
pub fn two(predicates: &[Row]) -> Vec<Row> {
    [&[voice(1), voice(2)], predicates, &[END]].concat()
}

/// The variables of each pattern of the plan of 64 rows with the most of them, 56.
pub const WIDEST: [u32; 7] = [8; 7];

/// That plan, whose rows have 120 words. Each variable has the list given for its number. So many
/// of the patterns are to be found.
pub fn widest_plan_on(list: impl Fn(u32) -> u32, least: u32) -> Vec<Row> {
    let mut vars = 0..;
    let mut rows = vec![];
    for count in WIDEST {
        rows.extend(vars.by_ref().take(count as usize).map(|var| voice(list(var))));
        rows.push(END);
    }
    rows.push(at_least(least, WIDEST.len() as u32));
    rows
}

/// The same with all variables on list 1, and AT LEAST 1.
pub fn widest_plan() -> Vec<Row> {
    widest_plan_on(|_| 1, 1)
}

/// Whether the parts, in order and with operators alone around them, are the whole plan, each of
/// them from a VOICE to the first END behind it.
pub fn makes(plan: &[u32], parts: &[&[u32]]) -> bool {
    let kinds = |words: &[u32]| words.chunks(4).map(|row| row[0]).collect::<Vec<u32>>();
    let operators = |words: &[u32]| {
        let is_operator = |row: &&[u32]| [7, 8, 9, 11].contains(&row[0]);
        4 * words.chunks(4).take_while(is_operator).count()
    };
    let mut rest = plan;
    for part in parts {
        rest = &rest[operators(rest)..];
        let kinds = kinds(part);
        if kinds[0] != 1 || kinds.iter().position(|&kind| kind == 6) != Some(kinds.len() - 1) {
            return false;
        }
        match rest.strip_prefix(*part) {
            Some(behind) => rest = behind,
            None => return false,
        }
    }
    operators(rest) == rest.len()
}

/// An APART row of any c: its least may exceed its most.
pub fn apart_of(a: u32, b: u32, c: u32) -> Row {
    [lihambozy::kind::APART, a, b, c]
}

/// A row of a pattern with so many variables, none of its words at fault.
fn random_predicate(rng: &mut Rng, vars: usize) -> Row {
    let (a, b) = (rng.below(vars) as u32, rng.below(vars) as u32);
    let c = rng.word() % 65_536;
    match rng.below(5) {
        0 => near(a, b, rng.pick(&[0, 1, 65_535, c])),
        1 => before(a, b),
        2 => same_title(a, b),
        3 => span(rng.pick(&[1, 2, 65_536, 1 + c])),
        _ => {
            let any = rng.word() as u16;
            let least = rng.pick(&[0, 1, 65_534, 65_535, c as u16]);
            let more = rng.pick(&[0, 1, 65_535, any]);
            apart(a, b, least, least.saturating_add(more))
        }
    }
}

/// AT LEAST of two or more of so many answers.
pub fn random_at_least(rng: &mut Rng, answers: usize) -> Row {
    let any = 2 + rng.below(answers - 1);
    let of = rng.pick(&[2, any, answers, answers]);
    let any = 1 + rng.below(of);
    at_least(rng.pick(&[1, any, any, of]) as u32, of as u32)
}

/// What joins the answers of so many patterns to one: the rows behind each of them.
pub fn random_joins(rng: &mut Rng, patterns: usize) -> Vec<Vec<Row>> {
    // Out of four rows, so many are AT LEAST. Answers are joined as soon as there are two, or
    // later.
    let often = rng.pick(&[0, 0, 1, 4, 4]);
    let seldom = rng.pick(&[1, 2, 99, 99]);
    let mut answers = 0;
    let mut behind = |pattern: usize| {
        answers += 1;
        let mut rows = vec![];
        while answers > 1 && (pattern + 1 == patterns || rng.below(seldom) == 0) {
            let operator = rng.pick(&[BOTH, EITHER, EITHER, FIRST_NOT_SECOND]);
            let row = if rng.below(4) < often { random_at_least(rng, answers) } else { operator };
            // An operator has 0 for the answers that it takes, and takes two.
            answers -= (row[2] as usize).max(2) - 1;
            rows.push(row);
        }
        rows
    };
    (0..patterns).map(&mut behind).collect()
}

/// A plan in order, over a volume of so many lists, two at least: 1 to 8 patterns in 2 to 64 rows.
pub fn random_plan(rng: &mut Rng, lists: usize) -> Vec<Row> {
    let any = 1 + rng.below(8);
    let count = rng.pick(&[1, 2, 3, 7, 8, any]);
    let joins = random_joins(rng, count);
    // The variables and the predicates of each pattern.
    let mut sizes = vec![(1, 0); count];
    // A VOICE and an END for each pattern, and what joins them, are there already.
    let room = 64 - 2 * count - joins.iter().map(Vec::len).sum::<usize>();
    let more = rng.pick(&[0, 1, 5, room / 2, room - 3, room]);
    // Out of four rows more, so many are VOICE.
    let voices = rng.pick(&[0, 1, 2, 3, 4, 4]);
    for _ in 0..more {
        let pattern = rng.below(count);
        let open: Vec<usize> = (0..count).filter(|&i| sizes[i].0 < 8).collect();
        if rng.below(4) < voices && !open.is_empty() {
            sizes[rng.pick(&open)].0 += 1;
        } else {
            sizes[pattern].1 += 1;
        }
    }

    let mut rows = Vec::new();
    for ((vars, predicates), joins) in sizes.into_iter().zip(joins) {
        rows.extend((0..vars).map(|_| voice(1 + rng.below(lists - 1) as u32)));
        rows.extend((0..predicates).map(|_| random_predicate(rng, vars)));
        rows.push(END);
        rows.extend(joins);
    }
    rows
}

/// A row that may stand in some plan.
pub fn random_row(rng: &mut Rng, lists: usize) -> Row {
    match rng.below(8) {
        0..=2 => voice(1 + rng.below(lists) as u32),
        3 => random_predicate(rng, 8),
        4 => random_predicate(rng, 2),
        5 | 6 => END,
        _ => {
            let most = rng.pick(&[2, 2, 3, 8]);
            let some = random_at_least(rng, most);
            rng.pick(&[BOTH, EITHER, FIRST_NOT_SECOND, some])
        }
    }
}

/// Changes one word or one row, or removes, doubles, moves or adds one.
pub fn spoil(rng: &mut Rng, rows: &mut Vec<Row>, lists: usize) {
    let count = rows.len();
    if count == 0 {
        return;
    }
    let (at, other) = (rng.below(count), rng.below(count));
    match rng.below(11) {
        0 | 1 => {
            let t = lists as u32;
            let edges = [0, 1, 2, 7, 8, 65_535, 65_536, 65_537, t - 1, t, 1 << 31, u32::MAX];
            rows[at][1 + rng.below(3)] = rng.pick(&edges);
        }
        2 => rows[at][0] = rng.pick(&[0, 1, 2, 3, 4, 5, 6, 7, 8, 9, 10, 11, 12, 257, u32::MAX]),
        3 => rows[at] = random_row(rng, lists),
        4 => {
            rows.remove(at);
        }
        5 => rows.insert(at, rows[at]),
        6 => rows.insert(at, rows[other]),
        7 => rows.insert(at, random_row(rng, lists)),
        8 => rows.insert(at, voice(1)),
        9 => rows.swap(at, other),
        _ => rows.swap(at, (at + 1) % count),
    }
}

/// The words of a plan that is in order but for so many changes; now and then it is cut anywhere or
/// goes on.
pub fn spoiled_plan(rng: &mut Rng, lists: usize, changes: usize) -> Vec<u32> {
    let mut rows = random_plan(rng, lists.max(2));
    for _ in 0..changes {
        spoil(rng, &mut rows, lists);
    }
    let mut plan = rows.concat();
    match rng.below(20) {
        0 => plan.truncate(rng.below(plan.len() + 1)),
        1 => plan.push(rng.pick(&[0, 1, 6, u32::MAX])),
        2 => plan.extend([1, 1, 0, 0].repeat(rng.below(70))),
        _ => {}
    }
    plan
}

/// Rows without order, or words without rows.
pub fn nonsense_plan(rng: &mut Rng, lists: usize) -> Vec<u32> {
    let any = 1 + rng.below(70);
    let count = rng.pick(&[1, 2, 3, 4, 6, any]);
    let small_row = |rng: &mut Rng| [13, 3, 3, 3].map(|end| rng.below(end) as u32);
    let mixed_row = |rng: &mut Rng| match rng.below(12) {
        0 => small_row(rng),
        1 => random_row(rng, lists),
        _ => voice(1),
    };
    match rng.below(6) {
        0 => (0..4 * count + rng.below(2)).map(|_| rng.word() >> rng.below(32)).collect(),
        1 => (0..count).flat_map(|_| small_row(rng)).collect(),
        2 | 3 => (0..count).flat_map(|_| mixed_row(rng)).collect(),
        _ => (0..count).flat_map(|_| random_row(rng, lists)).collect(),
    }
}
