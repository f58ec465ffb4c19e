//! "Append": one more chunk behind a clean file.

use crate::chunk::{find, Chunk, DEPENDENCY_BYTES, HEADER_BYTES};
use crate::description::{Checked, Description};
use crate::field::compared;
use crate::header::{Header, INTEGRITY_BYTES};
use crate::number::*;
use crate::reading::{Chunks, Reading};
use crate::writer::Writer;

/// "Three writes, each on disk before the next: header with content length line; data; closing. The answer is the three
/// ends."
#[derive(Clone, Copy, Debug, PartialEq, Eq)]
pub struct Ends {
    pub first: usize,
    pub second: usize,
    pub third: usize,
}

/// "Chunk_Content_Length=", I12, LF
const CONTENT_LINE_BYTES: usize = 34;

/// "Given: the file and its length in a longer lent buffer, the fields, rows named as parents, specific data, contents,
/// counted or open." "Append tests 11, 12, 6, 17, 13, 9, 15, 16, 18".
pub fn append(
    buffer: &mut [u8],
    length: usize,
    description: &Description,
    parents: &[usize],
    specific: &[u8],
    data: &[u8],
    open: bool,
) -> Result<Ends, u8> {
    if length > buffer.len()
        || over_limit(&[
            buffer.len(),
            specific.len(),
            data.len(),
            description.sub_format.len(),
            description.recorder.len(),
            description.writer.len(),
        ])
    {
        return Err(LIMIT);
    }
    let (file, behind) = buffer.split_at_mut(length);
    let (mark, nul, rows) = clean(file).ok_or(UNCLEAN)?;
    let fields = Checked::new(description).ok_or(FORM)?;
    if fields.is_multi_chunk() {
        return Err(MULTI);
    }
    let parents = named(parents, &rows).ok_or(ROW)?;
    if rows.iter().any(|row| compared(row.serial) == compared(fields.integrity.serial())) {
        return Err(REPEATED);
    }
    if mark.contains(&0) {
        return Err(ZERO);
    }
    if open && !(nul && fields.is_text() && !found_early(data, mark)) {
        return Err(OPEN);
    }
    let dependency_bytes = DEPENDENCY_BYTES * parents.len();
    let first = HEADER_BYTES + dependency_bytes + specific.len() + CONTENT_LINE_BYTES;
    let second = first + data.len();
    let third = second + INTEGRITY_BYTES + 2 * mark.len();
    let mut writer = Writer::new(behind.get_mut(..third).ok_or(ROOM)?);

    fields.put_lines(536 + dependency_bytes + specific.len(), &mut writer);
    writer.number(b"Chunk_Dependency_Length=", 12, 29 + dependency_bytes);
    writer.number(b"Chunk_Dependency_Count=", 4, parents.len());
    for parent in parents {
        writer.line(b"Dependency_Serial_Number=", parent.serial);
        writer.line(b"Dependency_SubFormatID=", parent.sub_format);
    }
    writer.put(specific);
    writer.number(b"Chunk_Content_Length=", 12, if open { 0 } else { data.len() + 1 });
    writer.put(data);
    writer.closing(mark, &fields.integrity);
    Ok(Ends { first: length + first, second: length + second, third: length + third })
}

/// The mark, whether NUL, and the rows of a clean file.
fn clean(file: &[u8]) -> Option<(&[u8], bool, Vec<Chunk<'_>>)> {
    let header = Header::read(file).ok()?;
    let (mark, nul) = (header.mark, header.nul);
    let mut reading = Reading { count: 0, stop: header.end, good: false, number: 0 };
    let mut rows = Vec::new();
    for chunk in Chunks::new(file, header) {
        match chunk {
            Ok(chunk) => {
                reading.stop = chunk.end;
                rows.push(chunk);
            }
            Err(number) => reading.number = number,
        }
    }
    reading.is_clean(file.len()).then_some((mark, nul, rows))
}

/// The chunks of the rows named; none if "row not in the reading; parents repeated or over 16".
fn named<'r, 'a>(parents: &[usize], rows: &'r [Chunk<'a>]) -> Option<Vec<&'r Chunk<'a>>> {
    let repeated = |(at, row)| parents[..at].contains(row);
    if parents.len() > 16 || parents.iter().enumerate().any(repeated) {
        return None;
    }
    parents.iter().map(|&row| rows.get(row)).collect()
}

/// "the mark first found in data + mark before the data's end"
fn found_early(data: &[u8], mark: &[u8]) -> bool {
    let straddles = |at: usize| {
        let (inside, behind) = mark.split_at(data.len() - at);
        data.ends_with(inside) && mark.starts_with(behind)
    };
    let from = (data.len() + 1).saturating_sub(mark.len());
    find(data, mark).is_some() || (from..data.len()).any(straddles)
}
