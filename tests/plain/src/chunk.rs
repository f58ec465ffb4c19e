//! "Chunk": one chunk, from its first byte to its closing mark.

use crate::field::{self, Serial};
use crate::fields::Fields;
use crate::header::{Header, Integrity, SUMMED_INTEGRITY};
use crate::multi;
use crate::number::{LENGTH, SHORT};

/// "the header takes 568 + 344 × n + s bytes"
pub const HEADER_BYTES: usize = 568;
pub const DEPENDENCY_BYTES: usize = 344;

/// "The row says it: counted, found, or by mini-chunks".
#[derive(Clone, Copy, Debug, PartialEq, Eq)]
pub enum Ending {
    Counted,
    Found,
    ByMiniChunks,
}

/// A whole chunk of a file: where it stands and what its row holds, but for the sum.
pub struct Chunk<'a> {
    pub serial: &'a Serial,
    pub sub_format: &'a [u8; 256],
    pub place: usize,
    pub header: usize,
    pub contents: usize,
    pub bytes: usize,
    pub end: usize,
    pub dependencies: usize,
    pub offset: i64,
    pub multichunk: bool,
    pub ending: Ending,
    /// The day number of Chunk_Writing_Date.
    pub written: u32,
    stated_sum: u8,
}

struct ChunkHeader<'a> {
    sub_format: &'a [u8; 256],
    multichunk: bool,
    offset: i64,
    dependencies: usize,
}

impl<'a> Chunk<'a> {
    pub fn read(file: &'a [u8], place: usize, head: &Header) -> Result<Self, u8> {
        let mut fields = Fields::new(file, place);
        let header = chunk_header(&mut fields)?;
        let header_end = fields.at();
        let (contents, end, ending) = if header.multichunk {
            multi::read(&mut fields, |_, _| ())?;
            (header_end, fields.at(), Ending::ByMiniChunks)
        } else {
            data(&mut fields, head)?
        };
        // "Closing: mark, integrity data, mark."
        fields.same(head.mark)?;
        let integrity = Integrity::read(&mut fields)?;
        fields.same(head.mark)?;
        Ok(Chunk {
            serial: integrity.serial,
            sub_format: header.sub_format,
            place,
            header: header_end - place,
            contents,
            bytes: end - contents,
            end: fields.at(),
            dependencies: header.dependencies,
            offset: header.offset,
            multichunk: header.multichunk,
            ending,
            written: integrity.written,
            stated_sum: integrity.stated_sum,
        })
    }

    /// "The sum is modulo 256, over the chunk (header and contents), the mark after it, and the first 250 bytes of
    /// integrity data."
    pub fn sum_good(&self, file: &[u8], mark: &[u8]) -> bool {
        let end = self.contents + self.bytes + mark.len() + SUMMED_INTEGRITY;
        field::sum(&file[self.place..end]) == self.stated_sum
    }

    /// Dependency j: its serial number and sub-format.
    pub fn dependency(&self, file: &'a [u8], j: usize) -> (&'a [u8], &'a [u8]) {
        let first = self.place + HEADER_BYTES + DEPENDENCY_BYTES * j;
        (&file[first + 25..][..38], &file[first + 87..][..256])
    }
}

/// "If, and only if, SubFormat_ID is ADS\SYS\MultiChunk"
pub fn is_multi_chunk(sub_format: &[u8; 256]) -> bool {
    sub_format.strip_prefix(b"ADS\\SYS\\MultiChunk").is_some_and(|rest| rest.iter().all(|&byte| byte == b' '))
}

/// "Lines in order: Chunk_Header_Length= I12; SubFormat_ID= A256; Generic_Type= BIN or TXT; [the four time and event
/// lines]; Chunk_Dependency_Length= I12; Chunk_Dependency_Count= I4; for each, Dependency_Serial_Number= serial and
/// Dependency_SubFormatID= A256. [..] Specific data, s free bytes (none for a MultiChunk: 7), follow."
fn chunk_header<'a>(fields: &mut Fields<'a>) -> Result<ChunkHeader<'a>, u8> {
    let header_length = fields.length(b"Chunk_Header_Length=")?;
    fields.lf()?;
    let sub_format = fields.line(b"SubFormat_ID=", Fields::text::<256>)?;
    let multichunk = is_multi_chunk(sub_format);
    fields.line(b"Generic_Type=", |f| f.word(&[b"BIN", b"TXT"]))?;
    let offset = times(fields)?;
    let dependency_length = fields.length(b"Chunk_Dependency_Length=")?;
    fields.lf()?;
    fields.same(b"Chunk_Dependency_Count=")?;
    let dependencies = fields.count(4)?;
    // "the dependency length is 29 + 344 × n and the header length 536 + 344 × n + s"
    if dependency_length != 29 + DEPENDENCY_BYTES * dependencies {
        return Err(LENGTH);
    }
    let specific = header_length
        .checked_sub(536 + DEPENDENCY_BYTES * dependencies)
        .filter(|&specific| specific == 0 || !multichunk)
        .ok_or(LENGTH)?;
    fields.lf()?;
    for _ in 0..dependencies {
        fields.line(b"Dependency_Serial_Number=", Fields::serial)?;
        fields.line(b"Dependency_SubFormatID=", Fields::text::<256>)?;
    }
    fields.take(specific)?;
    Ok(ChunkHeader { sub_format, multichunk, offset, dependencies })
}

/// "Chunk_Time_Synch_Type= GEN or SPE; Chunk_Time_Standard= UTC, NUL or ALT, then 38 bytes; Chunk_Time_Offset= offset;
/// Chunk_Event_Synch= NUL, SLV or MAS, then 38 bytes". Answers the "offset (0 under SPE or NUL standard)".
pub fn times(fields: &mut Fields) -> Result<i64, u8> {
    let synch = fields.line(b"Chunk_Time_Synch_Type=", |f| f.word(&[b"GEN", b"SPE"]))?;
    let standard = fields.line(b"Chunk_Time_Standard=", |f| word_and_serial(f, &[b"UTC", b"NUL", b"ALT"]))?;
    let offset = fields.line(b"Chunk_Time_Offset=", Fields::offset)?;
    fields.line(b"Chunk_Event_Synch=", |f| word_and_serial(f, &[b"NUL", b"SLV", b"MAS"]))?;
    let counts = synch == b"GEN" && standard != b"NUL";
    Ok(if counts { offset } else { 0 })
}

/// "The 38 bytes must be a serial number after ALT, SLV and MAS; elsewhere they are free".
fn word_and_serial<'a>(fields: &mut Fields<'a>, listed: &[&[u8; 3]]) -> Result<&'a [u8; 3], u8> {
    let word = fields.word(listed)?;
    if [b"ALT", b"SLV", b"MAS"].contains(&word) {
        fields.serial()?;
    } else {
        fields.take(38)?;
    }
    Ok(word)
}

/// "Contents: "Chunk_Content_Length=", I12, LF, data. The count is the data's length plus 1. Under LLC 0 is refused (7).
/// Under NUL 0 means open: the data end at the first place where the mark occurs. Otherwise the count rules and the mark
/// isn't searched for." Answers where the data start and end, and how their end was found.
fn data(fields: &mut Fields, head: &Header) -> Result<(usize, usize, Ending), u8> {
    let count = fields.length(b"Chunk_Content_Length=")?;
    if count == 0 && !head.nul {
        return Err(LENGTH);
    }
    fields.lf()?;
    let start = fields.at();
    let (length, ending) = match count.checked_sub(1) {
        Some(length) => (length, Ending::Counted),
        None => (find(fields.rest(), head.mark).ok_or(SHORT)?, Ending::Found),
    };
    fields.take(length)?;
    Ok((start, fields.at(), ending))
}

/// The first place where a mark of at least one byte occurs.
pub fn find(bytes: &[u8], mark: &[u8]) -> Option<usize> {
    let mut from = 0;
    loop {
        let at = from + bytes[from..].iter().position(|&byte| byte == mark[0])?;
        if bytes[at..].starts_with(mark) {
            return Some(at);
        }
        from = at + 1;
    }
}
