//! What lies on a reader's desk: the guide, the trace, the header and the example in C, the program
//! `lister`, the Makefile, and the edits that must be refused.

#[path = "../plain/mod.rs"]
mod plain;
#[path = "../support/mod.rs"]
mod support;

mod c_example;
mod edits;
mod guide;
mod header;
mod lister;
mod make;
mod trace;
