//! The kinds of cases.

use crate::case::Case;
use crate::support::Rng;
use crate::{joins, large, lines, package, plans, searches, texts, volumes};

/// A kind of case.
pub struct Kind {
    pub name: &'static str,
    /// How many cases of this kind there are beside the others: the more, the less time one takes,
    /// so that each kind has its share.
    weight: usize,
    pub run: fn(&mut Case),
}

/// The kinds of cases. The first one is that of case 0 alone.
pub static KINDS: [Kind; 12] = [
    Kind { name: "bytes changed", weight: 0, run: volumes::bytes_changed },
    Kind { name: "writing", weight: 1200, run: volumes::writing },
    Kind { name: "damage", weight: 2500, run: volumes::damaged },
    Kind { name: "joins", weight: 300, run: joins::joins },
    Kind { name: "plans", weight: 1500, run: plans::plans },
    Kind { name: "searches", weight: 8000, run: searches::searches },
    Kind { name: "positions", weight: 3000, run: searches::positions },
    Kind { name: "matches", weight: 1400, run: searches::matches },
    Kind { name: "package", weight: 2500, run: package::package },
    Kind { name: "texts", weight: 700, run: texts::texts },
    Kind { name: "lines", weight: 300, run: lines::lines },
    Kind { name: "large", weight: 3, run: large::large },
];

/// A kind, as often as its weight says.
pub fn pick(rng: &mut Rng) -> &'static Kind {
    let mut left = rng.below(KINDS.iter().map(|kind| kind.weight).sum());
    let chosen = |kind: &&Kind| match left.checked_sub(kind.weight) {
        Some(behind) => {
            left = behind;
            false
        }
        None => true,
    };
    KINDS.iter().find(chosen).expect("a number below the sum is below some part of it")
}
