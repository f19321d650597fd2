//! Typed lines: those of document 02, those with AT LEAST, all short ones, prefixes and changes of
//! many, those at the limits, those that are refused, and plans as lines, there and back; and the
//! yardstick of the benchmarks.

#[path = "../plain/mod.rs"]
mod plain;
#[path = "../support/mod.rs"]
mod support;
#[path = "../../benches/yardstick/mod.rs"]
mod yardstick;

mod inputs;
mod trial;

mod line_at_least;
mod line_document;
mod line_exhaustive;
mod line_limits;
mod line_prefixes;
mod line_refusals;
mod line_round_trip;
mod yardstick_line;
