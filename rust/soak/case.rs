//! A case.

use crate::report::Counts;
use crate::support::Rng;

/// A case: what it draws from, and where it counts.
pub struct Case<'a> {
    pub rng: Rng,
    pub counts: &'a mut Counts,
}
