//! Volumes: written, read, damaged and joined, and at their limits; and the yardsticks of the
//! benchmarks.

#[path = "../plain/mod.rs"]
mod plain;
#[path = "../support/mod.rs"]
mod support;
#[path = "../../benches/yardstick/mod.rs"]
mod yardstick;

mod damage;
mod document;
mod halves;
mod join;
mod join_blocks;
mod join_random;
mod join_refusals;
mod late;
mod limits;
mod round_trip;
mod writer;
mod yardstick_join;
