//! The proved library, through its C interface, and `plain` on the same calls: every answer and every buffer must be
//! equal.
//!
//! | module | holds |
//! |---|---|
//! | `ffi` | the C interface |
//! | `kernels` | inner functions of the library: two sums, two searches, the hash of a serial number, day numbers |
//! | `random` | seeded numbers |
//! | `build`, `generate` | files built field by field; valid files of every kind |
//! | `simple` | files of very many empty chunks |
//! | `hashes` | the hash of serial numbers; serial numbers with one hash |
//! | `relations` | the contents of a relation chunk |
//! | `graph` | rows that depend on each other |
//! | `blocks` | a file in blocks |
//! | `damage` | damages of each kind of field |
//! | `describe` | a chunk description for both |
//! | `both` | each call with both, compared |
//! | `tally` | how often each number of each call arose |
//! | `parts` | the cases |

pub mod blocks;
pub mod both;
pub mod build;
pub mod damage;
pub mod describe;
pub mod ffi;
pub mod generate;
pub mod graph;
pub mod hashes;
pub mod kernels;
pub mod parts;
pub mod random;
pub mod relations;
pub mod simple;
pub mod tally;
