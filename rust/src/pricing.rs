//! The price statement of a file. Of the safety of the call the same holds as of those that read a file.
use crate::refusal::unless_refused;
use crate::{ffi, Refusal};

/// What [`price`] answers beside the text. `header`, `chunks` and `unread` add to the file's length.
#[derive(Clone, Copy, Debug, PartialEq, Eq, Hash)]
pub struct Statement {
    /// Bytes of the text, at the start of the buffer.
    pub length: usize,
    /// Bytes of the file header, 319 and twice the mark's; 0 if it isn't whole.
    pub header: usize,
    /// Bytes of the chunks in rows, end less place.
    pub chunks: usize,
    /// Bytes from the stop on.
    pub unread: usize,
}

/// Writes the price statement of the file into the buffer: a line for each row with its number, its contents bytes and its
/// cents, then `total` and the sum of the cents. A row with a good sum costs `fee` cents, and `rate` cents for each started
/// 1,024 contents bytes; one with a bad sum costs 0. Rows before a fault count. [`Refusal::Total`] where the total has more
/// than 18 digits. [`price_room`](crate::price_room) says how many bytes are enough.
///
/// ```
/// let file = std::fs::read("../samples/two-chunks.ads")?;
/// let mut text = vec![0; ads::price_room(ads::most_rows(file.len()))];
/// let statement = ads::price(&file, 100, 7, &mut text)?;
/// assert_eq!(&text[..statement.length], b"0 3 107\n1 7 107\ntotal 214\n");
/// assert_eq!((statement.header, statement.chunks, statement.unread), (319, 2066, 0));
/// # Ok::<(), Box<dyn std::error::Error>>(())
/// ```
pub fn price(file: &[u8], fee: u64, rate: u64, buffer: &mut [u8]) -> Result<Statement, Refusal> {
    let ffi::Priced { length, header, chunks, unread, number } =
        unsafe { ffi::ads_price(file.as_ptr(), file.len(), fee, rate, buffer.as_mut_ptr(), buffer.len()) };
    unless_refused(number, Statement { length, header, chunks, unread })
}
