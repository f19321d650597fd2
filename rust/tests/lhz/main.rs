//! The command `lhz`.

#[path = "../plain/mod.rs"]
mod plain;
#[path = "../support/mod.rs"]
mod support;

mod lhz;
mod lhz_arguments;
mod lhz_files;
mod lhz_forms;
mod lhz_help;
mod lhz_join;
mod lhz_line;
mod lhz_listing;
mod lhz_matches;
mod lhz_names;
mod lhz_output;
mod lhz_plan;
mod lhz_refusals;
mod lhz_text;
