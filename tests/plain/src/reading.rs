//! "Reading": the chunks one after another, and the call `read`.

use std::collections::HashSet;

use crate::chunk::{Chunk, Ending};
use crate::field::{compared, Serial};
use crate::header::Header;
use crate::number::{over_limit, FULL, LIMIT, REPEATED};

/// "A row holds: serial, place, header bytes, contents place (after the content length line; for a MultiChunk, its first
/// line), contents bytes, end, dependency count, offset (0 under SPE or NUL standard), MultiChunk or not, sum good or not."
/// And how the end was found.
#[derive(Clone, Copy, Debug, PartialEq, Eq)]
pub struct Row {
    pub serial: Serial,
    pub place: usize,
    pub header: usize,
    pub contents: usize,
    pub bytes: usize,
    pub end: usize,
    pub dependencies: usize,
    pub offset: i64,
    pub multichunk: bool,
    pub good: bool,
    pub ending: Ending,
}

/// "The answer is count, stop [..], header sum good [..], number."
#[derive(Clone, Copy, Debug, PartialEq, Eq)]
pub struct Reading {
    pub count: usize,
    pub stop: usize,
    pub good: bool,
    pub number: u8,
}

impl Reading {
    /// "Clean means number 0 and stop at the file's end": of a file of so many bytes. Of no bytes: "this reading doesn't
    /// count as clean".
    pub fn is_clean(&self, length: usize) -> bool {
        length != 0 && self.number == 0 && self.stop == length
    }
}

/// The chunks behind a whole header, up to the first fault, which comes last: each whole, its serial number in no row
/// before it.
pub struct Chunks<'a> {
    file: &'a [u8],
    header: Header<'a>,
    at: Option<usize>,
    serials: HashSet<&'a [u8]>,
}

impl<'a> Chunks<'a> {
    pub fn new(file: &'a [u8], header: Header<'a>) -> Self {
        let at = Some(header.end);
        Chunks { file, header, at, serials: HashSet::new() }
    }
}

impl<'a> Iterator for Chunks<'a> {
    type Item = Result<Chunk<'a>, u8>;

    fn next(&mut self) -> Option<Self::Item> {
        let at = self.at.take().filter(|&at| at < self.file.len())?;
        // "whole chunk, serial already in a row"
        let chunk = Chunk::read(self.file, at, &self.header).and_then(|chunk| {
            if self.serials.insert(compared(chunk.serial)) {
                Ok(chunk)
            } else {
                Err(REPEATED)
            }
        });
        self.at = chunk.as_ref().ok().map(|chunk| chunk.end);
        Some(chunk)
    }
}

/// "a reading with rows enough": the chunks that have a row, whatever stops it.
pub fn rows<'a>(file: &'a [u8]) -> impl Iterator<Item = Chunk<'a>> {
    Header::read(file).ok().into_iter().flat_map(|header| Chunks::new(file, header)).map_while(Result::ok)
}

/// "Rows are a lent list of records; those past the count are not written."
pub fn read(file: &[u8], rows: &mut [Row]) -> Reading {
    // "Read given 11 answers count 0, stop 0, header sum not good."
    let without_header = |number| Reading { count: 0, stop: 0, good: false, number };
    if over_limit(&[file.len()]) {
        return without_header(LIMIT);
    }
    // "A file of no bytes now reads with number 0, no rows, stop 0 and header sum not good, and no longer with 4."
    if file.is_empty() {
        return without_header(0);
    }
    let header = match Header::read(file) {
        Ok(header) => header,
        Err(number) => return without_header(number),
    };
    let mark = header.mark;
    let mut reading = Reading { count: 0, stop: header.end, good: header.sum_good(file), number: 0 };
    for chunk in Chunks::new(file, header) {
        match (chunk, rows.get_mut(reading.count)) {
            (Err(number), _) => reading.number = number,
            (Ok(_), None) => {
                reading.number = FULL;
                break;
            }
            (Ok(chunk), Some(row)) => {
                *row = Row {
                    serial: *chunk.serial,
                    place: chunk.place,
                    header: chunk.header,
                    contents: chunk.contents,
                    bytes: chunk.bytes,
                    end: chunk.end,
                    dependencies: chunk.dependencies,
                    offset: chunk.offset,
                    multichunk: chunk.multichunk,
                    good: chunk.sum_good(file, mark),
                    ending: chunk.ending,
                };
                reading.count += 1;
                reading.stop = chunk.end;
            }
        }
    }
    reading
}
