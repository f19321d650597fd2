//! Searches: documents listed, in joined volumes too, with title starts beside the positions,
//! positions tested, and all tuples listed that pass in a document; and the yardstick of the
//! benchmarks.

#[path = "../plain/mod.rs"]
mod plain;
#[path = "../support/mod.rs"]
mod support;
#[path = "../../benches/yardstick/mod.rs"]
mod yardstick;

mod join_search;
mod matches_document;
mod matches_edges;
mod matches_pages;
mod matches_random;
mod matches_refusals;
mod matches_relations;
mod search_apart;
mod search_at_least;
mod search_document;
mod search_edges;
mod search_order;
mod search_random;
mod search_refusals;
mod search_starts;
mod search_titles;
mod test_positions;
mod yardstick_walk;
