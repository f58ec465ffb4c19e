//! "What a refused call gives": the numbers.

/// "first 65 bytes don't match"
pub const TITLE: u8 = 1;
/// "NUL000 (tape)"
pub const TAPE: u8 = 2;
/// "mark begins "MiniChunk=""
pub const MARK: u8 = 3;
/// "bytes end too soon; open mark not found"
pub const SHORT: u8 = 4;
/// "label, LF, mark or listed word differs"
pub const DIFFERS: u8 = 5;
/// "field out of form or range"
pub const FORM: u8 = 6;
/// "length disagrees with what it measures, or type count outside 1 to 64"
pub const LENGTH: u8 = 7;
/// "short ID twice or undeclared, no mini-chunk"
pub const SHORT_ID: u8 = 8;
/// "whole chunk, serial already in a row"
pub const REPEATED: u8 = 9;
/// "another whole chunk, its serial new, and no row left"
pub const FULL: u8 = 10;
/// "a lent byte buffer over 2^30, or length over the buffer's; tested first"
pub const LIMIT: u8 = 11;
/// "append: file not clean"
pub const UNCLEAN: u8 = 12;
/// "row not in the reading; parents repeated or over 16"
pub const ROW: u8 = 13;
/// "no dependency j; gather: not a MultiChunk or ID undeclared"
pub const DEPENDENCY: u8 = 14;
/// "begin, append: mark has a zero byte"
pub const ZERO: u8 = 15;
/// "open under LLC or for BIN, or open with the mark first found in data + mark before the data's end"
pub const OPEN: u8 = 16;
/// "append of a MultiChunk"
pub const MULTI: u8 = 17;
/// "lent buffer too short for the result", "for a list too"
pub const ROOM: u8 = 18;
/// "A row of another sub-format gets 19"
pub const RELATIONS: u8 = 19;
/// "a wrong heading line 20"
pub const HEADING: u8 = 20;
/// "A total above 18 digits is refused with 21"
pub const TOTAL: u8 = 21;
/// "If a chain from k comes back to any chunk on it, the number is 23"
pub const CIRCLE: u8 = 23;
/// "more than 64 rows in the reading gives 24"
pub const OVER_64: u8 = 24;
/// "The first wrong block decides, tested for its sum with 27"
pub const BLOCK_SUM: u8 = 27;
/// "its number with 28"
pub const BLOCK_NUMBER: u8 = 28;
/// "then its use, a spare byte that isn't zero or a partial block with 29"
pub const BLOCK_USE: u8 = 29;

/// "a lent byte buffer over 2^30"
pub fn over_limit(lengths: &[usize]) -> bool {
    lengths.iter().any(|&length| length > 1 << 30)
}
