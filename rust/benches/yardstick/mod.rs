//! The yardsticks, which the benchmarks time the library beside: Rust as one would write it for
//! speed, without intrinsics. `late` checks and writes volumes, `join` joins two, `walk` searches
//! them, `line` reads and writes typed lines.

#![allow(dead_code)]

pub mod join;
pub mod late;
pub mod line;
pub mod walk;
