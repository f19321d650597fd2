//! The command `lhz`: checks, reads, writes, joins and searches the volumes of a surtitle archive
//! from a terminal, over the proved library. What it prints is in document 01's words.

#![forbid(unsafe_code)]

mod arguments;
mod commands;
mod failure;
mod files;
mod help;
mod listing;

use failure::Failure;
use std::io::{self, BufWriter, Write};
use std::process::ExitCode;

fn main() -> ExitCode {
    let mut out = BufWriter::new(io::stdout().lock());
    let answered = commands::run(std::env::args_os().skip(1), &mut out);
    match answered.and_then(|()| out.flush().map_err(Failure::output)) {
        Ok(()) => ExitCode::SUCCESS,
        Err(failure) => failure.tell(&mut out),
    }
}
