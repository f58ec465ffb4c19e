//! The calls that read a file. A refused one leaves what it was lent untouched; only `read` answers values beside a
//! refusal.
//!
//! Safety of each call: a slice is passed with its length and is never null, a pointer to an array is to as many bytes
//! as the function takes, and what is written (`&mut`) overlaps nothing else that is lent.
use std::alloc::{alloc_zeroed, handle_alloc_error, Layout};

use crate::refusal::unless_refused;
use crate::{ffi, most_rows, Parent, Reading, Refusal, Row, Table, MOST_BYTES};

/// Reads the file into a table of rows. Those past the count are not written.
///
/// ```
/// use ads::{Refusal, Row};
///
/// let file = std::fs::read("../samples/two-chunks.ads")?;
/// let mut rows = [Row::default(); 1];
/// let reading = ads::read(&file, &mut rows);
/// assert_eq!((reading.count, reading.stop), (1, rows[0].end));
/// assert_eq!(reading.refusal, Some(Refusal::RowsFull));
/// # Ok::<(), std::io::Error>(())
/// ```
pub fn read(file: &[u8], rows: &mut [Row]) -> Reading {
    let answer = unsafe { ffi::ads_read(file.as_ptr(), file.len(), rows.as_mut_ptr(), rows.len()) };
    Reading { count: answer.count, stop: answer.stop, good: answer.good, refusal: Refusal::answered(answer.number) }
}

/// Reads the file into a table that has rows enough. Only the memory of rows that the file has is touched and kept.
///
/// ```
/// let file = std::fs::read("../samples/two-chunks.ads")?;
/// let table = ads::read_all(&file);
/// assert!(table.reading.is_clean(&file));
/// for row in &table.rows {
///     println!("{} {} {}", row.place, row.bytes, if row.good { "good" } else { "bad" });
/// }
/// assert_eq!(table.rows.len(), 2);
/// # Ok::<(), std::io::Error>(())
/// ```
pub fn read_all(file: &[u8]) -> Table {
    let mut rows = blank_rows(most_rows(file.len().min(MOST_BYTES)));
    let reading = read(file, &mut rows);
    rows.truncate(reading.count);
    rows.shrink_to_fit();
    Table { rows, reading }
}

/// So many blank rows, at least one, in zeroed memory, which the system hands out only where it is written.
fn blank_rows(count: usize) -> Vec<Row> {
    let layout = Layout::array::<Row>(count).expect("the rows of 2^30 bytes fit into memory's addresses");
    // safe: the layout isn't empty and is that of a vector with this capacity; zeros are a row, `Row::default()`
    unsafe {
        let rows = alloc_zeroed(layout).cast::<Row>();
        if rows.is_null() {
            handle_alloc_error(layout);
        }
        Vec::from_raw_parts(rows, count, count)
    }
}

/// The parent that a row's dependency names, both counted from 0; None where it is missing.
///
/// ```
/// use ads::{Parent, Refusal};
///
/// let file = std::fs::read("../samples/two-chunks.ads")?;
/// assert_eq!(ads::parent(&file, 1, 0), Ok(Some(Parent { row: 0, agree: true })));
/// assert_eq!(ads::parent(&file, 0, 0), Err(Refusal::NoDependency));
/// # Ok::<(), std::io::Error>(())
/// ```
pub fn parent(file: &[u8], row: usize, dependency: usize) -> Result<Option<Parent>, Refusal> {
    let answer = unsafe { ffi::ads_parent(file.as_ptr(), file.len(), row, dependency) };
    let parent = Parent { row: answer.row, agree: answer.agree };
    unless_refused(answer.number, answer.found.then_some(parent))
}

/// The part of the file that the row names, uncopied. It takes a reading of the file up to the row; the row itself,
/// where it is at hand, names the same part.
///
/// ```
/// use ads::Refusal;
///
/// let file = std::fs::read("../samples/one-chunk.ads")?;
/// assert_eq!(ads::contents(&file, 0), Ok(&b"abc"[..]));
/// assert_eq!(ads::contents(&file, 1), Err(Refusal::NoRow));
///
/// let row = ads::read_all(&file).rows[0];
/// assert_eq!(&file[row.contents..][..row.bytes], b"abc");
/// # Ok::<(), std::io::Error>(())
/// ```
pub fn contents(file: &[u8], row: usize) -> Result<&[u8], Refusal> {
    let part = unsafe { ffi::ads_contents(file.as_ptr(), file.len(), row) };
    unless_refused(part.number, &file[part.place..part.place + part.bytes])
}

/// Joins, in order, the data of a MultiChunk's mini-chunks under one short ID into the buffer and answers their length;
/// as many bytes as the row has are enough.
///
/// ```
/// let file = std::fs::read("../samples/multichunk.ads")?;
/// let row = ads::read_all(&file).rows[0];
/// let mut joined = vec![0; row.bytes];
/// let length = ads::gather(&file, 0, b"P2/91", &mut joined)?;
/// assert_eq!(&joined[..length], b"12345");
/// # Ok::<(), Box<dyn std::error::Error>>(())
/// ```
pub fn gather(file: &[u8], row: usize, id: &[u8], buffer: &mut [u8]) -> Result<usize, Refusal> {
    let answer = unsafe {
        ffi::ads_gather(file.as_ptr(), file.len(), row, id.as_ptr(), id.len(), buffer.as_mut_ptr(), buffer.len())
    };
    unless_refused(answer.number, answer.length)
}

/// Writes the listing of the file's table as text into the buffer and answers its length. The text of an input over
/// 65,536 bytes is `end 0 11` and a line feed; that of no bytes begins with `header none`.
///
/// ```
/// let file = std::fs::read("../samples/one-chunk.ads")?;
/// let mut text = [0; ads::LISTING_ROOM];
/// let length = ads::listing(&file, &mut text)?;
/// assert!(text[..length].starts_with(b"header good\nchunks 1\n"));
/// # Ok::<(), Box<dyn std::error::Error>>(())
/// ```
pub fn listing(input: &[u8], buffer: &mut [u8]) -> Result<usize, Refusal> {
    let answer = unsafe { ffi::ads_listing(input.as_ptr(), input.len(), buffer.as_mut_ptr(), buffer.len()) };
    unless_refused(answer.number, answer.length)
}
