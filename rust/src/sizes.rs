//! The sizes of `ads.h` that callers need.

/// Bytes by which two serial numbers are compared: all but the check, which may be written in several ways.
pub const SERIAL_COMPARED: usize = 35;

/// Bytes of the longest file, and of the longest buffer, that a call takes: 2^30.
pub const MOST_BYTES: usize = 1 << 30;

/// Bytes of the longest mark.
pub const MOST_MARK: usize = 999;

/// Parents that one [`append`](crate::append) takes.
pub const MOST_PARENTS: usize = 16;

/// Stack that a call may take: 1 MiB.
pub const STACK_BYTES: usize = 1 << 20;

/// Bytes that are enough for any [`listing`](crate::listing).
pub const LISTING_ROOM: usize = 10_240;

/// Entries that are enough for the [`ancestors`](crate::ancestors) of any row.
pub const ANCESTORS_ROOM: usize = 63;

/// Bytes of a block.
pub const BLOCK_BYTES: usize = 512;

/// Bytes of a file that a block holds at most.
pub const BLOCK_DATA: usize = 504;

/// Rows that are enough for any file of this length: a chunk has at least 856 bytes.
///
/// ```
/// let file = std::fs::read("../samples/two-chunks.ads")?;
/// let mut rows = vec![ads::Row::default(); ads::most_rows(file.len())];
/// assert_eq!(ads::read(&file, &mut rows).count, 2);
/// # Ok::<(), std::io::Error>(())
/// ```
pub const fn most_rows(length: usize) -> usize {
    length / 856 + 1
}

/// Bytes that [`begin`](crate::begin) writes.
///
/// ```
/// assert_eq!(ads::begin_room(90), 499);
/// ```
pub const fn begin_room(mark_length: usize) -> usize {
    319 + 2 * mark_length
}

/// Bytes that [`relations_write`](crate::relations_write) writes at most for a file whose rows have so many dependencies
/// together.
///
/// ```
/// let file = std::fs::read("../samples/survey.ads")?;
/// let dependencies = ads::read_all(&file).rows.iter().map(|row| row.dependencies).sum();
/// let mut text = vec![0; ads::relations_room(dependencies)];
/// assert_eq!(ads::relations_write(&file, &mut text), Ok(131 + 605 * 4));
/// # Ok::<(), std::io::Error>(())
/// ```
pub const fn relations_room(dependencies: usize) -> usize {
    131 + 605 * dependencies
}

/// Verdicts that are enough for [`relations_check`](crate::relations_check) of a row with so many bytes of contents, and for
/// [`relations_check_latest`](crate::relations_check_latest) of a file none of whose rows has more: a relation line has at least
/// 12 bytes, and a line feed before it.
///
/// ```
/// assert_eq!(ads::most_verdicts(131 + 605), 56);
/// ```
pub const fn most_verdicts(bytes: usize) -> usize {
    bytes / 13
}

/// Bytes that are enough for [`price`](crate::price) of a file with so many rows; [`most_rows`] of its length are enough for
/// any file. A line has at most 7, 10 and 18 digits and three bytes more, the last one 25 bytes.
///
/// ```
/// assert_eq!(ads::price_room(2), 38 * 2 + 25);
/// ```
pub const fn price_room(rows: usize) -> usize {
    38 * rows + 25
}

/// Bytes that [`pack`](crate::pack) writes for a file of this length: 512 for each started 504, and for no bytes one block, too.
///
/// ```
/// assert_eq!([0, 1, 504, 505].map(ads::packed_bytes), [512, 512, 512, 1024]);
/// ```
pub const fn packed_bytes(length: usize) -> usize {
    let blocks = length.div_ceil(BLOCK_DATA);
    BLOCK_BYTES * if blocks == 0 { 1 } else { blocks }
}

/// Bytes of a file of `length` bytes and the chunk that [`append`](crate::append) adds to it. [`MOST_MARK`] for the
/// mark's length is enough for any file.
///
/// ```
/// let length = ads::begin_room(0);
/// assert_eq!(ads::append_room(length, 0, 0, 0, 3), 1178);
/// ```
pub const fn append_room(
    length: usize,
    mark_length: usize,
    parent_count: usize,
    specific_length: usize,
    contents_length: usize,
) -> usize {
    length + 856 + 344 * parent_count + specific_length + contents_length + 2 * mark_length
}
