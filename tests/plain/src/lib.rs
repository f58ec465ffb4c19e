//! SEG-UKOOA ADS metafiles 1.00, the chunk table, in plain safe Rust: another implementation of the specification,
//! written from its text alone, to compare the proved library with.
//!
//! | module | holds |
//! |---|---|
//! | `number` | the numbers of a refusal |
//! | `field` | text fields judged and valued; sums |
//! | `fields` | fields read in file order |
//! | `header` | the file header |
//! | `chunk`, `multi` | one chunk; the contents of a MultiChunk |
//! | `reading` | the chunks one after another; `read` |
//! | `writer` | lines written into a lent buffer |
//! | `begin`, `append` | the calls that write a file |
//! | `parent`, `part` | `parent`; `contents` and `gather` |
//! | `ancestors` | every row that a row rests on |
//! | `relations` | the contents of a relation chunk, written and checked |
//! | `price` | the price statement |
//! | `blocks` | a file carried in blocks: `pack` and `unpack` |
//! | `listing` | the text of the listing |
#![forbid(unsafe_code)]

mod ancestors;
mod append;
mod begin;
mod blocks;
mod chunk;
mod description;
pub mod field;
mod fields;
mod header;
mod listing;
mod multi;
pub mod number;
mod parent;
mod part;
mod price;
mod reading;
mod relations;
mod writer;

pub use ancestors::{ancestors, Ancestry};
pub use append::{append, Ends};
pub use begin::{begin, Beginning};
pub use blocks::{pack, unpack};
pub use chunk::Ending;
pub use description::Description;
pub use field::Serial;
pub use listing::listing;
pub use parent::{parent, Parent};
pub use part::{contents, gather};
pub use price::{price, Statement};
pub use reading::{read, Reading, Row};
pub use relations::{relations_check, relations_check_latest, relations_write, DECLARED, MALFORMED, UNDECLARED};

/// An I12 and the places of a file of 2^30 bytes are held as `usize`.
const _: () = assert!(usize::BITS >= 64);
