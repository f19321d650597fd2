//! Reads, writes and joins the volumes of a surtitle archive, checks plans over them, lists the
//! documents that match, lists all tuples of positions that pass in one of them, and reads and
//! writes plans as typed lines.
//!
//! A [`Volume`] is an inverted index as one piece of bytes: 1 to 1,024 posting lists in blocks of
//! 512 bytes, each block numbered and under a checksum. A [`Posting`] is a document (01: scene) and
//! a position in it (01: place), as one 32-bit number. Each list rises strictly; list 0 holds the
//! positions at which titles start, the others belong to words. (01 is the document that fixes the
//! layout; `include/lihambozy.h` tells it.)
//!
//! A [`Plan`] is a query over a volume, as rows of four words: a [`kind`], and the words a, b and c
//! that it uses ([`row`]). Its patterns (01: figures) are made of variables (01: voices) and
//! predicates on their positions (01: conditions); operators join the answers of the patterns into
//! one. It can be typed as a line ([`Plan::from_line`]) and told as one ([`Plan::to_line`]).
//! [`mod@line`] tells what could stand where a typed line is refused, and [`Names`] tells the words
//! of its lists.
//!
//! A tuple of positions (01: choice), one for each variable of a pattern, passes in a document if
//! each is in its variable's list there and all predicates hold. A pattern is found where some
//! tuple passes, and then has its least positions (01: earliest places), which are smallest in
//! every variable together. A document matches (01: is true) if the one answer left at the end is
//! yes for it. A [`Search`] is an iterator over the [`Row`]s of all documents that match. A row
//! has the least positions of each pattern that is found, each with the start of its title
//! ([`Position`]). [`Matches`] is an iterator over all tuples that pass for a pattern in a
//! document, each a [`Match`].
//!
//! What does not fit is answered by a [`Refusal`], with document 01's number and place and a
//! sentence for a person.
//!
//! ```
//! use lihambozy::{text, Plan, Volume};
//!
//! // One list a line, list 0 first: where titles start, and two words, as scene:place.
//! let lists = text::lists("1:0 1:6\n1:2 1:8 2:4\n1:5 1:7 2:9\n")?;
//! let volume = Volume::of_lists(&lists)?;
//! assert_eq!((volume.list_count(), volume.posting_count()), (3, 8));
//!
//! // The first word before the second, in one title.
//! let plan: Plan = "VOICE 1\nVOICE 2\nBEFORE 0 1\nSAME TITLE 0 1\nEND".parse()?;
//! let mut search = volume.search(&plan)?;
//! let row = search.next().expect("scene 1 is true");
//! assert!(search.next().is_none());
//! assert_eq!(search.tally(), 6);
//!
//! // The figure is found with its voices at 2 and 5, both in the title that starts at 0.
//! assert_eq!(row.to_string(), "scene 1 1 2 0 5 0");
//! let found = row.pattern(0).expect("the figure is found");
//! assert_eq!(found.tuple(), [2, 5]);
//! assert!(found.iter().all(|var| var.title_start == Some(0)));
//!
//! // In scene 1 the places 2 and 5 pass, and 2 and 7 do not: a title starts between them. In scene
//! // 2 no title starts at all.
//! assert!(volume.test(&plan, 0, 1, &[2, 5])?);
//! assert!(!volume.test(&plan, 0, 1, &[2, 7])?);
//! assert!(!volume.test(&plan, 0, 2, &[4, 9])?);
//!
//! // With at most two places between the words, in any order and across titles, three choices pass
//! // in scene 1. The first is what a row shows.
//! let near: Plan = "VOICE 1\nVOICE 2\nNEAR 0 1 2\nEND".parse()?;
//! let matches = volume.matches(&near, 0, 1)?;
//! let tuples: Vec<String> = matches.map(|tuple| tuple.to_string()).collect();
//! assert_eq!(tuples, ["places 2 5", "places 8 5", "places 8 7"]);
//!
//! // Both plans as typed lines.
//! assert_eq!(Plan::from_line("[1 2;b 0 1;t 0 1]")?, plan);
//! assert_eq!(near.to_line(&volume)?, "[1 2;n 0 1 2]");
//! # Ok::<(), Box<dyn std::error::Error>>(())
//! ```
//!
//! The work is done by the proved library behind `include/lihambozy.h`. This crate lends it slices
//! ([`calls`], one function a call) and keeps the buffers of searches and matches.

#![deny(unsafe_code)]
#![warn(missing_docs)]

pub mod calls;
#[allow(unsafe_code)]
mod ffi;
pub mod kind;
pub mod line;
mod matches;
mod names;
mod plan;
mod positions;
mod posting;
mod refusal;
pub mod row;
mod search;
pub mod text;
mod volume;

pub use matches::{Match, Matches};
pub use names::Names;
pub use plan::Plan;
pub use positions::{Position, Positions, PositionsIter};
pub use posting::Posting;
pub use refusal::{JoinRefusal, Refusal, Which};
pub use search::{Row, Search};
pub use volume::Volume;

#[cfg(test)]
#[path = "../tests/plain/mod.rs"]
mod plain;

/// The guide, whose program runs as a documentation test.
#[cfg(doctest)]
#[doc = include_str!("../../docs/GUIDE.md")]
struct Guide;

/// Bytes of a block.
pub const BLOCK_BYTES: usize = 512;
/// Words of a block that belong to the stream, 32 bits each.
pub const BLOCK_WORDS: usize = 126;
/// Blocks of the largest volume.
pub const MAX_BLOCKS: usize = 8_192;
/// Stream words of the largest volume.
pub const MAX_WORDS: usize = MAX_BLOCKS * BLOCK_WORDS;
/// Lists of a volume, at most.
pub const MAX_LISTS: usize = 1_024;
/// Words of a row of a plan, 32 bits each: kind, a, b and c.
pub const ROW_WORDS: usize = 4;
/// Rows of a plan, at most.
pub const MAX_ROWS: usize = 64;
/// Patterns of a plan, at most.
pub const MAX_PATTERNS: usize = 8;
/// Variables of a pattern, at most.
pub const MAX_VARS: usize = 8;
/// What a row of a listing has as the start of a position's title where no title starts at or
/// before the position.
pub const NO_START: u32 = 65_536;
/// Bytes of a line, at most. A buffer of so many holds the line of every plan.
pub const MAX_LINE_BYTES: usize = 2_048;
