//! What the calls answer.
use std::fmt;

use crate::show::Bytes;
use crate::{ffi, Refusal};

/// How the end of a chunk was found. Displayed, it is in words.
///
/// ```
/// use ads::Ending;
///
/// let survey = std::fs::read("../samples/survey.ads")?;
/// let endings: Vec<Ending> = ads::read_all(&survey).rows.iter().map(|row| row.ending).collect();
/// assert_eq!(endings, [Ending::Counted, Ending::Found, Ending::ByMiniChunks, Ending::Counted]);
/// assert_eq!(Ending::ByMiniChunks.to_string(), "by mini-chunks");
/// # Ok::<(), std::io::Error>(())
/// ```
#[repr(u8)]
#[derive(Clone, Copy, Debug, Default, PartialEq, Eq, PartialOrd, Ord, Hash)]
pub enum Ending {
    /// By the content length.
    #[default]
    Counted = 0,
    /// By the mark, where the content length is 0.
    Found = 1,
    /// By the mini-chunks of a MultiChunk.
    ByMiniChunks = 2,
}

impl fmt::Display for Ending {
    fn fmt(&self, f: &mut fmt::Formatter<'_>) -> fmt::Result {
        f.write_str(match self {
            Ending::Counted => "counted",
            Ending::Found => "found",
            Ending::ByMiniChunks => "by mini-chunks",
        })
    }
}

/// One chunk of the table. Places are counted from the file's first byte.
#[repr(C)]
#[derive(Clone, Copy, PartialEq, Eq, Hash)]
pub struct Row {
    /// Serial number, as it stands. Two are the same if their first [`SERIAL_COMPARED`](crate::SERIAL_COMPARED) bytes are.
    pub serial: [u8; 38],
    /// Where the chunk begins.
    pub place: usize,
    /// Bytes of its header.
    pub header: usize,
    /// Contents place: after the content length line; for a MultiChunk, its first line.
    pub contents: usize,
    /// Contents bytes.
    pub bytes: usize,
    /// Where the chunk ends, its closing included.
    pub end: usize,
    /// Dependency count.
    pub dependencies: usize,
    /// Time offset in units of 10^-10 second; 0 under SPE or NUL standard.
    pub offset: i64,
    /// It is a MultiChunk.
    pub multichunk: bool,
    /// Its sum is good.
    pub good: bool,
    /// How its end was found: the library writes no byte here that is none of these.
    pub ending: Ending,
}

/// A row to be written over: all 0, false and counted.
impl Default for Row {
    fn default() -> Row {
        Row {
            serial: [0; 38],
            place: 0,
            header: 0,
            contents: 0,
            bytes: 0,
            end: 0,
            dependencies: 0,
            offset: 0,
            multichunk: false,
            good: false,
            ending: Ending::Counted,
        }
    }
}

/// The serial number as text.
impl fmt::Debug for Row {
    fn fmt(&self, f: &mut fmt::Formatter<'_>) -> fmt::Result {
        f.debug_struct("Row")
            .field("serial", &Bytes(&self.serial))
            .field("place", &self.place)
            .field("header", &self.header)
            .field("contents", &self.contents)
            .field("bytes", &self.bytes)
            .field("end", &self.end)
            .field("dependencies", &self.dependencies)
            .field("offset", &self.offset)
            .field("multichunk", &self.multichunk)
            .field("good", &self.good)
            .field("ending", &self.ending)
            .finish()
    }
}

/// What [`read`](crate::read) answers beside the rows, whether the reading reached the file's end or not.
#[derive(Clone, Copy, Debug, PartialEq, Eq, Hash)]
pub struct Reading {
    /// Rows written to the table.
    pub count: usize,
    /// End of the last chunk in a row, else of the header; 0 if that isn't whole.
    pub stop: usize,
    /// Header sum good; never where the header isn't whole.
    pub good: bool,
    /// What stands at `stop`, where the reading didn't reach the file's end. None doesn't say that the file is clean:
    /// [`is_clean`](Reading::is_clean) does.
    pub refusal: Option<Refusal>,
}

impl Reading {
    /// Whether the file is clean: it has a byte, no refusal, and the reading stopped at its end. Only to a clean file can
    /// [`append`](crate::append) append. A file of no bytes has no refusal and isn't clean.
    ///
    /// ```
    /// let file = std::fs::read("../samples/two-chunks.ads")?;
    /// assert!(ads::read_all(&file).reading.is_clean(&file));
    /// let cut = &file[..file.len() - 1];
    /// assert!(!ads::read_all(cut).reading.is_clean(cut));
    /// let none = ads::read_all(b"").reading;
    /// assert!(none.refusal.is_none() && !none.is_clean(b""));
    /// # Ok::<(), std::io::Error>(())
    /// ```
    pub fn is_clean(&self, file: &[u8]) -> bool {
        let reading = ffi::Reading {
            count: self.count,
            stop: self.stop,
            good: self.good,
            number: self.refusal.map_or(0, Refusal::number),
        };
        // safe with any values: all are passed by value
        unsafe { ffi::ads_is_clean(reading, file.len()) }
    }
}

/// The table of a file, by [`read_all`](crate::read_all).
#[derive(Clone, Debug, PartialEq, Eq, Hash)]
pub struct Table {
    /// As many rows as the reading counts.
    pub rows: Vec<Row>,
    /// Where the reading stopped, and at what.
    pub reading: Reading,
}

/// A parent that was found.
#[derive(Clone, Copy, Debug, PartialEq, Eq, Hash)]
pub struct Parent {
    /// The row with the dependency's serial number.
    pub row: usize,
    /// The dependency names that row's own sub-format.
    pub agree: bool,
}

/// The ends of append's three writes.
#[derive(Clone, Copy, Debug, PartialEq, Eq, Hash)]
pub struct Ends {
    /// Of the header with its content length line.
    pub first: usize,
    /// Of the data.
    pub second: usize,
    /// Of the closing.
    pub third: usize,
}
