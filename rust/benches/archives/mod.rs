//! The made-up archives of the benchmarks, and the plans that they run over them.

use super::support::Rng;
use super::yardstick::late;
use lihambozy::calls::volume_len;
use lihambozy::{kind, Posting};

/// Posting lists as the writer takes them: how long each one is, and all of them back to back.
pub struct Lists {
    pub counts: Vec<u32>,
    pub postings: Vec<u32>,
}

impl Lists {
    fn new(lists: &[Vec<u32>]) -> Lists {
        Lists {
            counts: lists.iter().map(|list| list.len() as u32).collect(),
            postings: lists.concat(),
        }
    }

    /// The volume of the lists.
    pub fn volume(&self) -> Vec<u8> {
        let length = volume_len(self.counts.len(), self.postings.len());
        let mut volume = vec![0; length.expect("the lists fit a volume")];
        late::write_volume(&self.counts, &self.postings, &mut volume).expect("each list rises");
        volume
    }

    /// As many lists, of which all but the given ones are empty.
    pub fn only(&self, numbers: &[u32]) -> Lists {
        let mut rest = &self.postings[..];
        let lists: Vec<Vec<u32>> = (0..)
            .zip(&self.counts)
            .map(|(number, &count)| {
                let (list, behind) = rest.split_at(count as usize);
                rest = behind;
                if numbers.contains(&number) {
                    list.to_vec()
                } else {
                    vec![]
                }
            })
            .collect();
        Lists::new(&lists)
    }

    /// The documents that have a posting.
    pub fn docs(&self) -> usize {
        let mut docs: Vec<u32> = self.postings.iter().map(|posting| posting >> 16).collect();
        docs.sort_unstable();
        docs.dedup();
        docs.len()
    }
}

/// A made-up season: each posting lies 1 to 4,096 behind the one before it. The state grows by
/// 2,654,435,769 for each, wrapping, and the gap is 1 + state / 1,048,576. List 0 is made like the
/// others, so that in most documents words stand before the first start.
pub fn season(seed: u32, list_count: usize, length: usize) -> Lists {
    let mut state = seed;
    let mut list = || {
        let mut posting = 0;
        let mut next = || {
            state = state.wrapping_add(2_654_435_769);
            posting += 1 + state / 1_048_576;
            posting
        };
        (0..length).map(|_| next()).collect()
    };
    let lists: Vec<Vec<u32>> = (0..list_count).map(|_| list()).collect();
    Lists::new(&lists)
}

/// An archive like one of real titles. Documents lie one to five apart; each has 2 to 10 titles,
/// one in forty ten times as many, of 2 to 9 words each; its first word starts its first title. Two
/// words out of three are drawn from all lists, the n-th of them with a weight of 1 / (n + 1); the
/// third is drawn from four neighbouring lists, the same throughout the document. One word in fifty
/// stands in a second list too, and one in eight is followed by a position that no list has.
pub fn repertory(seed: u64, list_count: usize, posting_count: usize) -> Lists {
    let mut rng = Rng::new(seed);
    let words = list_count as u64 - 1;
    // The sums of the weights up to each list, in parts of 2^32.
    let sums: Vec<u64> = (1..=words)
        .scan(0, |sum, n| {
            *sum += (1 << 32) / (n + 1);
            Some(*sum)
        })
        .collect();
    let mut lists = vec![vec![]; list_count];
    let mut left = posting_count;
    let mut doc = 0;
    while left > 0 {
        doc += 1 + rng.below(5) as u16;
        let topic = 1 + 4 * rng.below(words / 4);
        let titles = (2 + rng.below(9)) * if rng.below(40) == 0 { 10 } else { 1 };
        let mut pos = rng.below(4) as u16;
        for _ in 0..titles {
            let mut put = |list: u64, pos: u16| {
                let list: &mut Vec<u32> = &mut lists[list as usize];
                if left > 0 && list.last() != Some(&Posting::new(doc, pos).word()) {
                    list.push(Posting::new(doc, pos).word());
                    left -= 1;
                }
            };
            put(0, pos);
            for _ in 0..2 + rng.below(8) {
                for _ in 0..if rng.below(50) == 0 { 2 } else { 1 } {
                    let list = if rng.below(3) == 0 {
                        topic + rng.below(4)
                    } else {
                        let weight = rng.below(sums[words as usize - 1]);
                        1 + sums.partition_point(|&sum| sum <= weight) as u64
                    };
                    put(list, pos);
                }
                pos += if rng.below(8) == 0 { 2 } else { 1 };
            }
        }
    }
    Lists::new(&lists)
}

/// One document, in which each of eight lists has all positions below `positions`, and titles start
/// at regular distances.
pub fn one_document(positions: u32, starts: u32) -> Lists {
    let doc = 20_000 << 16;
    let starts = (0..starts).map(|i| doc + i * positions / starts).collect();
    let mut lists = vec![starts];
    lists.resize(9, (doc..doc + positions).collect());
    Lists::new(&lists)
}

/// One document, in which one of so many lists has position 5, and no other list has any.
pub fn one_list(list_count: u32, number: u32) -> Lists {
    let mut lists = vec![vec![]; list_count as usize];
    lists[number as usize].push((CROWDED << 16) + 5);
    Lists::new(&lists)
}

/// A row of a plan: kind, a, b and c.
pub type Row = [u32; 4];

/// A plan with a name.
pub struct Plan {
    pub name: &'static str,
    pub rows: Vec<Row>,
}

impl Plan {
    /// The lists that the plan uses, and list 0.
    pub fn lists(&self) -> Vec<u32> {
        let voices = self.rows.iter().filter(|row| row[0] == kind::VOICE);
        let mut lists: Vec<u32> = voices.map(|row| row[1]).collect();
        lists.push(0);
        lists
    }

    /// The rows by the names of their kinds.
    pub fn text(&self) -> String {
        let rows = self.rows.iter().map(|&[kind, a, b, c]| match kind {
            kind::VOICE => format!("VOICE {a}"),
            kind::NEAR => format!("NEAR {a} {b} {c}"),
            kind::BEFORE => format!("BEFORE {a} {b}"),
            kind::SAME_TITLE => format!("SAME TITLE {a} {b}"),
            kind::SPAN => format!("SPAN {c}"),
            kind::END => "END".to_string(),
            kind::BOTH => "BOTH".to_string(),
            kind::EITHER => "EITHER".to_string(),
            kind::APART => format!("APART {a} {b} {} {}", c >> 16, c & 0xffff),
            kind::AT_LEAST => format!("AT LEAST {a} {b}"),
            _ => "FIRST NOT SECOND".to_string(),
        });
        rows.collect::<Vec<String>>().join(", ")
    }
}

fn near(a: u32, b: u32, c: u32) -> Row {
    [kind::NEAR, a, b, c]
}

fn before(a: u32, b: u32) -> Row {
    [kind::BEFORE, a, b, 0]
}

fn same_title(a: u32, b: u32) -> Row {
    [kind::SAME_TITLE, a, b, 0]
}

fn span(c: u32) -> Row {
    [kind::SPAN, 0, 0, c]
}

fn apart(a: u32, b: u32, least: u32, most: u32) -> Row {
    [kind::APART, a, b, least << 16 | most]
}

fn at_least(least: u32, of: u32) -> Row {
    [kind::AT_LEAST, least, of, 0]
}

const BOTH: Row = [kind::BOTH, 0, 0, 0];
const EITHER: Row = [kind::EITHER, 0, 0, 0];
const FIRST_NOT_SECOND: Row = [kind::FIRST_NOT_SECOND, 0, 0, 0];

/// The rows of a pattern, VOICE to END.
fn pattern(lists: &[u32], predicates: &[Row]) -> Vec<Row> {
    let voices = lists.iter().map(|&list| [kind::VOICE, list, 0, 0]);
    voices.chain(predicates.iter().copied()).chain([[kind::END, 0, 0, 0]]).collect()
}

/// The lists and limits with which the plans run over an archive.
pub struct Filling {
    /// The lists of most plans.
    pub lists: [u32; 8],
    /// A list that is rare, where the archive has one.
    pub rare: u32,
    /// The limit of NEAR, and the least of APART. Its most is four times as much.
    pub near: u32,
    /// The limit of SPAN for three variables. Eight have four times as much.
    pub span: u32,
}

/// Twelve plans, from one variable to six patterns.
pub fn plans(filling: &Filling) -> [Plan; 12] {
    let &Filling { lists: [a, b, c, d, e, f, g, h], rare, near: n, span: s } = filling;
    let plan = |name, parts: &[Vec<Row>]| Plan { name, rows: parts.concat() };
    [
        plan("one variable", &[pattern(&[a], &[])]),
        plan("NEAR", &[pattern(&[a, b], &[near(0, 1, n)])]),
        plan("APART", &[pattern(&[a, b], &[apart(0, 1, n, 4 * n)])]),
        plan("BEFORE and SAME TITLE", &[pattern(&[a, b], &[before(0, 1), same_title(0, 1)])]),
        plan("SPAN of three", &[pattern(&[a, b, c], &[span(s)])]),
        plan(
            "EITHER of two NEAR",
            &[pattern(&[a, b], &[near(0, 1, n)]), pattern(&[c, d], &[near(0, 1, n)]), vec![EITHER]],
        ),
        plan(
            "BOTH",
            &[
                pattern(&[a, b], &[before(1, 0), near(0, 1, n)]),
                pattern(&[c, d], &[same_title(0, 1)]),
                vec![BOTH],
            ],
        ),
        plan(
            "FIRST NOT SECOND",
            &[
                pattern(&[a, b], &[before(0, 1)]),
                pattern(&[a, b], &[near(0, 1, n)]),
                vec![FIRST_NOT_SECOND],
            ],
        ),
        plan(
            "AT LEAST 2 of 4",
            &[
                pattern(&[a], &[]),
                pattern(&[b], &[]),
                pattern(&[c], &[]),
                pattern(&[d], &[]),
                vec![at_least(2, 4)],
            ],
        ),
        plan(
            "eight variables",
            &[pattern(
                &[a, b, c, d, e, f, g, h],
                &[before(0, 1), near(2, 3, 4 * n), same_title(4, 5), span(4 * s)],
            )],
        ),
        plan(
            "six patterns",
            &[
                pattern(&[a, b], &[near(0, 1, n), before(0, 1)]),
                pattern(&[c, d, e], &[span(s)]),
                vec![EITHER],
                pattern(&[f], &[]),
                pattern(&[g, h], &[same_title(0, 1)]),
                vec![EITHER, BOTH],
                pattern(&[a, h], &[near(0, 1, n)]),
                pattern(&[b, a, b], &[before(0, 1), before(1, 2)]),
                vec![BOTH, FIRST_NOT_SECOND],
            ],
        ),
        plan("rare and frequent", &[pattern(&[rare, a], &[near(0, 1, n)])]),
    ]
}

/// Plans that no document makes true, over `one_document`: each kind of predicate leaves variables
/// short until one of them has passed all its positions.
pub fn endless_plans() -> [Plan; 5] {
    let plan = |name, predicates: Vec<Row>| Plan {
        name,
        rows: pattern(&[1, 2, 3, 4, 5, 6, 7, 8], &predicates),
    };
    // Two variables of which each is to stand before the other move on by turns.
    let turns = [before(0, 1), before(1, 0)];
    // The least moves a variable that stands behind variable 0, the most one in front of it.
    let behind = (1..4).map(|var| apart(0, var, 0, 0));
    let in_front = (4..8).map(|var| apart(var, 0, 0, 0));
    [
        plan("NEAR", (1..8).map(|var| near(0, var, 0)).chain(turns).collect()),
        plan("BEFORE", (0..8).map(|var| before(var, (var + 1) % 8)).collect()),
        plan("SPAN", vec![span(1), before(0, 1)]),
        plan("SAME TITLE", (1..8).map(|var| same_title(0, var)).chain(turns).collect()),
        plan("APART", behind.chain(in_front).chain([before(1, 0)]).collect()),
    ]
}

/// The plan of 64 rows with the most variables, 56, all of them on one list.
pub fn widest_plan(list: u32) -> Plan {
    let patterns = pattern(&[list; 8], &[]).repeat(7);
    Plan { name: "56 variables", rows: [patterns, vec![at_least(1, 7)]].concat() }
}

/// The document of `few_matches`, of `all_match` and of `one_list`.
pub const CROWDED: u32 = 20_000;

/// One document in which each of eight lists has a position in every stretch of sixteen: list i has
/// the i-th of the stretch, but list 8 has one further on, so that the eight do not stand side by
/// side. In the last stretches they do. A title starts with each stretch, and another at the
/// position of list 8 where it is further on.
pub fn few_matches(stretches: u32, matches: u32) -> Lists {
    let first = |stretch: u32| (CROWDED << 16) + 16 * stretch;
    let is_match = |stretch: u32| stretch >= stretches - matches;
    let starts = |stretch: u32| {
        let second = (!is_match(stretch)).then_some(first(stretch) + 8);
        [first(stretch)].into_iter().chain(second)
    };
    let last = |stretch: u32| first(stretch) + if is_match(stretch) { 7 } else { 8 };
    let mut lists = vec![(0..stretches).flat_map(starts).collect()];
    lists.extend((0..7).map(|i| (0..stretches).map(|stretch| first(stretch) + i).collect()));
    lists.push((0..stretches).map(last).collect());
    Lists::new(&lists)
}

/// Plans over `few_matches`, each with the tuples that pass where the eight stand side by side in
/// eight stretches. For all plans but the last they are the eight of a stretch. For the last,
/// variables 0 to 6 stand in different stretches, variable 0 in the last of them, and variable 7
/// beside variable 6. There each variable but the last two leaves the ones behind it to be looked
/// for from the front of the document.
pub fn few_plans(stretches: u32) -> [(Plan, Vec<[u32; 8]>); 6] {
    let at = |stretch: u32, var: u32| 16 * (stretches - 8 + stretch) + var;
    let side_by_side: Vec<[u32; 8]> =
        (0..8).map(|stretch| std::array::from_fn(|var| at(stretch, var as u32))).collect();
    // All stretches but one, the last first.
    let but_one = |out: u32| -> [u32; 8] {
        let mut left = (0..8).rev().filter(|&stretch| stretch != out);
        let mut tuple: [u32; 8] =
            std::array::from_fn(|var| left.next().map_or(0, |stretch| at(stretch, var as u32)));
        tuple[7] = tuple[6] + 1;
        tuple
    };
    let falling: Vec<[u32; 8]> = (0..8).rev().map(but_one).collect();
    let of = |name, predicates: Vec<Row>| Plan {
        name,
        rows: pattern(&[1, 2, 3, 4, 5, 6, 7, 8], &predicates),
    };
    let plan = |name, predicates: Vec<Row>| (of(name, predicates), side_by_side.clone());
    let back = (0..6).map(|var| before(var + 1, var)).chain([apart(6, 7, 0, 0)]);
    [
        plan("NEAR", (0..7).map(|var| near(var, var + 1, 0)).collect()),
        plan("SPAN", vec![span(8)]),
        plan("BEFORE and SPAN", (0..7).map(|var| before(var, var + 1)).chain([span(8)]).collect()),
        plan("SAME TITLE", (1..8).map(|var| same_title(0, var)).collect()),
        plan("APART", (0..7).map(|var| apart(var, var + 1, 0, 0)).collect()),
        (of("BEFORE and APART", back.collect()), falling),
    ]
}

/// One document in which each of eight lists has so many positions, sixteen apart.
pub fn all_match(positions: u32) -> Lists {
    let list: Vec<u32> = (0..positions).map(|i| (CROWDED << 16) + 16 * i).collect();
    let mut lists = vec![vec![CROWDED << 16]];
    lists.resize(9, list);
    Lists::new(&lists)
}

/// Plans over `all_match` for which all tuples pass.
pub fn all_plans() -> [Plan; 4] {
    let lists = [1, 2, 3, 4, 5, 6, 7, 8];
    let plan =
        |name, lists: &[u32], predicates: &[Row]| Plan { name, rows: pattern(lists, predicates) };
    let met = [near(0, 1, 65_535), span(65_536)];
    let ties: Vec<Row> =
        (1..8).map(|var| near(0, var, 65_535)).chain([same_title(0, 7), span(65_536)]).collect();
    [
        plan("two variables", &lists[..2], &[]),
        plan("two variables, predicates that all meet", &lists[..2], &met),
        plan("eight variables", &lists, &[]),
        plan("eight variables, predicates that all meet", &lists, &ties),
    ]
}
