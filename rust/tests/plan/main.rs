//! Plans: those of document 01, those that are refused, at their limits, and at random.

#[path = "../plain/mod.rs"]
mod plain;
#[path = "../support/mod.rs"]
mod support;

mod plan_apart;
mod plan_at_least;
mod plan_document;
mod plan_exhaustive;
mod plan_limits;
mod plan_random;
mod plan_refusals;
