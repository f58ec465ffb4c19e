#![doc = include_str!("../README.md")]

mod ancestors;
mod answers;
mod blocks;
mod description;
mod ffi;
mod layout;
mod pricing;
mod reading;
mod refusal;
mod relations;
mod show;
mod sizes;
mod writing;

pub use ancestors::{ancestors, Ancestry};
pub use answers::{Ending, Ends, Parent, Reading, Row, Table};
pub use blocks::{pack, unpack};
pub use description::Description;
pub use pricing::{price, Statement};
pub use reading::{contents, gather, listing, parent, read, read_all};
pub use refusal::Refusal;
pub use relations::{relations_check, relations_check_latest, relations_write, Checked, Verdict};
pub use sizes::{append_room, begin_room, most_rows, most_verdicts, packed_bytes, price_room, relations_room};
pub use sizes::{ANCESTORS_ROOM, BLOCK_BYTES, BLOCK_DATA, LISTING_ROOM, MOST_BYTES, MOST_MARK, MOST_PARENTS};
pub use sizes::{SERIAL_COMPARED, STACK_BYTES};
pub use writing::{append, begin, Header};
