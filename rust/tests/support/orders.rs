//! Orders of a pattern's variables, which have the variable of each place, and plans with their
//! variables in another order.

use super::plans::Row;
use super::Rng;
use lihambozy::kind;

/// All orders of so many variables.
pub fn orders(count: usize) -> Vec<Vec<usize>> {
    let Some(last) = count.checked_sub(1) else { return vec![vec![]] };
    let with_last = |order: Vec<usize>| {
        (0..count).map(move |at| [&order[..at], &[last], &order[at..]].concat())
    };
    orders(last).into_iter().flat_map(with_last).collect()
}

/// All orders of up to four variables; of more, their own order, that turned around, and some.
pub fn many_orders(rng: &mut Rng, count: usize) -> Vec<Vec<usize>> {
    if count <= 4 {
        return orders(count);
    }
    let some = (0..8).map(|_| random_order(rng, count));
    [(0..count).collect(), (0..count).rev().collect()].into_iter().chain(some).collect()
}

/// An order of so many variables.
pub fn random_order(rng: &mut Rng, vars: usize) -> Vec<usize> {
    let mut order: Vec<usize> = (0..vars).collect();
    for var in 1..vars {
        order.swap(var, rng.below(var + 1));
    }
    order
}

/// The rows of a pattern, VOICE to END, with its variables in this order, and its predicates' names
/// with them.
pub fn in_order(rows: &[Row], order: &[usize]) -> Vec<Row> {
    let place = |var: u32| order.iter().position(|&old| old == var as usize).unwrap() as u32;
    let voices = order.iter().map(|&var| rows[var]);
    let others = rows[order.len()..].iter().map(|&[kind, a, b, c]| match kind {
        kind::NEAR | kind::BEFORE | kind::SAME_TITLE | kind::APART => [kind, place(a), place(b), c],
        _ => [kind, a, b, c],
    });
    voices.chain(others).collect()
}

/// A tuple of variables in this order, as one of the variables in their own.
pub fn turned_back<T: Copy>(tuple: &[T], order: &[usize]) -> Vec<T> {
    let place = |var| order.iter().position(|&old| old == var).expect("each variable once");
    (0..tuple.len()).map(|var| tuple[place(var)]).collect()
}

/// The same of the words of a row that a pattern's variables have, a position and a title start for
/// each.
pub fn pairs_turned_back(words: &[u32], order: &[usize]) -> Vec<u32> {
    turned_back(words.as_chunks::<2>().0, order).concat()
}

/// A plan with the variables of each pattern in another order, and these orders.
pub fn in_other_orders(rng: &mut Rng, plan: &[u32]) -> (Vec<Row>, Vec<Vec<usize>>) {
    let (mut moved, mut open, mut orders) = (vec![], vec![], vec![]);
    for row in plan.chunks(4) {
        open.push([row[0], row[1], row[2], row[3]]);
        match row[0] {
            kind::END => {
                let vars = open.iter().filter(|row| row[0] == kind::VOICE).count();
                let order = random_order(rng, vars);
                moved.extend(in_order(&open, &order));
                orders.push(order);
                open.clear();
            }
            kind::BOTH | kind::EITHER | kind::FIRST_NOT_SECOND | kind::AT_LEAST => {
                moved.append(&mut open);
            }
            _ => {}
        }
    }
    (moved, orders)
}
