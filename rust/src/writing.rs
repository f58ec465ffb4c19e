//! The calls that write into a lent buffer. A refused one leaves it untouched. Safety of each call as in `reading`.
use std::fmt;

use crate::refusal::unless_refused;
use crate::show::Bytes;
use crate::{ffi, Description, Ends, Refusal};

/// What [`begin`] writes into the header of a file.
#[derive(Clone, Copy, PartialEq, Eq, Hash)]
pub struct Header<'a> {
    /// Separator_Strategy: LLC or NUL.
    pub strategy: &'a [u8; 3],
    /// The mark, at most 999 bytes; under NUL at least one.
    pub mark: &'a [u8],
    /// Chunk_Serial_Number.
    pub serial: &'a [u8; 38],
    /// Chunk_Recording_Date.
    pub recorded: &'a [u8; 8],
    /// Chunk_Recording_Agent, at most 32 bytes.
    pub recorder: &'a [u8],
    /// Chunk_Writing_Date.
    pub written: &'a [u8; 8],
    /// Chunk_Writing_Agent, at most 32 bytes.
    pub writer: &'a [u8],
}

/// The fields as text.
impl fmt::Debug for Header<'_> {
    fn fmt(&self, f: &mut fmt::Formatter<'_>) -> fmt::Result {
        f.debug_struct("Header")
            .field("strategy", &Bytes(self.strategy))
            .field("mark", &Bytes(self.mark))
            .field("serial", &Bytes(self.serial))
            .field("recorded", &Bytes(self.recorded))
            .field("recorder", &Bytes(self.recorder))
            .field("written", &Bytes(self.written))
            .field("writer", &Bytes(self.writer))
            .finish()
    }
}

/// Writes a file header at the start of the buffer and answers its length, which [`begin_room`](crate::begin_room) says
/// beforehand.
///
/// ```
/// use ads::Header;
///
/// let header = Header {
///     strategy: b"NUL",
///     mark: b"****",
///     serial: b"#20240101000000000SURVEYDESK0100001196",
///     recorded: b"20240229",
///     recorder: b"RECORDER",
///     written: b"20240301",
///     writer: b"DESK",
/// };
/// let mut file = vec![0; ads::begin_room(header.mark.len())];
/// assert_eq!(ads::begin(&header, &mut file), Ok(file.len()));
/// assert!(ads::read_all(&file).reading.is_clean(&file));
///
/// let on_tape = Header { mark: b"", ..header };
/// assert_eq!(ads::begin(&on_tape, &mut file), Err(ads::Refusal::Tape));
/// ```
pub fn begin(header: &Header<'_>, buffer: &mut [u8]) -> Result<usize, Refusal> {
    let answer = unsafe {
        ffi::ads_begin(
            header.strategy.as_ptr(),
            header.mark.as_ptr(),
            header.mark.len(),
            header.serial.as_ptr(),
            header.recorded.as_ptr(),
            header.recorder.as_ptr(),
            header.recorder.len(),
            header.written.as_ptr(),
            header.writer.as_ptr(),
            header.writer.len(),
            buffer.as_mut_ptr(),
            buffer.len(),
        )
    };
    unless_refused(answer.number, answer.length)
}

/// Appends a chunk to the file that the buffer's first `length` bytes hold; [`append_room`](crate::append_room) says
/// how long the buffer must be. The parents are rows of that file, at most 16, none twice; `open` leaves the content
/// length 0 (NUL and TXT only), and the row says [`Found`](crate::Ending::Found), else
/// [`Counted`](crate::Ending::Counted). Then write the buffer's bytes from the old length to the first end, from there to
/// the second, and from there to the third, each on disk before the next.
///
/// ```
/// let file = std::fs::read("../samples/one-chunk.ads")?;
/// let description = ads::Description::new()
///     .sub_format(b"ADS\\DATA\\TEST")
///     .generic_type(b"TXT")
///     .synch_type(b"SPE")
///     .time_standard(b"NUL")
///     .time_offset(b"+0000      0.000")
///     .event_synch(b"NUL")
///     .serial_number(b"#20240229123456789SURVEYDESK0100043002")
///     .recording(b"20240229", b"RECORDER")
///     .writing(b"20240301", b"DESK");
/// let (parents, contents) = ([0], b"data");
///
/// let mut buffer = file.clone();
/// buffer.resize(ads::append_room(file.len(), ads::MOST_MARK, parents.len(), 0, contents.len()), 0);
/// let ends = ads::append(&mut buffer, file.len(), description, &parents, b"", contents, false)?;
/// buffer.truncate(ends.third);
/// assert_eq!(ads::read_all(&buffer).rows[1].place, file.len());
/// assert_eq!(ads::contents(&buffer, 1)?, contents);
/// # Ok::<(), Box<dyn std::error::Error>>(())
/// ```
pub fn append(
    buffer: &mut [u8],
    length: usize,
    description: Description,
    parents: &[usize],
    specific: &[u8],
    contents: &[u8],
    open: bool,
) -> Result<Ends, Refusal> {
    let answer = unsafe {
        ffi::ads_append(
            buffer.as_mut_ptr(),
            buffer.len(),
            length,
            description,
            parents.as_ptr(),
            parents.len(),
            specific.as_ptr(),
            specific.len(),
            contents.as_ptr(),
            contents.len(),
            open,
        )
    };
    let ends = Ends { first: answer.first, second: answer.second, third: answer.third };
    unless_refused(answer.number, ends)
}
