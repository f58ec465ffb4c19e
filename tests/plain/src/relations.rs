//! "Contents of ADS\SYS\Relations read and written": the text for a file, and a verdict on each relation line of one.

use std::collections::{HashMap, HashSet};

use crate::chunk::Chunk;
use crate::field::{compared, is_text, padded, serial_day};
use crate::number::{over_limit, HEADING, LIMIT, RELATIONS, ROOM, ROW};
use crate::reading::rows;

/// "The sub-format ID of the Master Relation Chunk is ADS\SYS\Relations"
const SUB_FORMAT: &[u8] = b"ADS\\SYS\\Relations";

/// "the first line which identifies the sub-format and gives field (column) headings"
const HEADINGS: [&[u8]; 5] = [
    b"ADS Metafile Master Relation Chunk Revision 1.00",
    b"Child serial number",
    b"Child sub-format ID",
    b"Parent serial number",
    b"Parent sub-format ID",
];

/// "Each conforming line will contain 5 fields, the first of which will declare the meaning of the line."
const RELATION: &[u8] = b"ADS relation";

/// "some row's header declares exactly that dependency"
pub const DECLARED: u32 = 1;
/// No row's header does.
pub const UNDECLARED: u32 = 2;
/// "A line that has the name and not five well-formed fields is reported as malformed."
pub const MALFORMED: u32 = 3;

/// Into a lent buffer: "a call that writes answers the length reached and keeps the bytes past it".
pub fn relations_write(file: &[u8], buffer: &mut [u8]) -> Result<usize, u8> {
    if over_limit(&[file.len(), buffer.len()]) {
        return Err(LIMIT);
    }
    let text = text(file);
    buffer.get_mut(..text.len()).ok_or(ROOM)?.copy_from_slice(&text);
    Ok(text.len())
}

/// "The writer lists, each line with its LF, every dependency of every row, in row order, but none of a relations row and
/// none that names that sub-format or finds such a row."
fn text(file: &[u8]) -> Vec<u8> {
    let rows: Vec<Chunk> = rows(file).collect();
    let (relations, others): (Vec<&Chunk>, Vec<&Chunk>) = rows.iter().partition(|row| is_relations(row.sub_format));
    let relations: HashSet<&[u8]> = relations.into_iter().map(|row| compared(row.serial)).collect();
    let mut text = line(HEADINGS);
    for row in others {
        for (serial, sub_format) in (0..row.dependencies).map(|j| row.dependency(file, j)) {
            if !is_relations(sub_format) && !relations.contains(compared(serial)) {
                text.extend(line([RELATION, row.serial, row.sub_format, serial, sub_format]));
            }
        }
    }
    text
}

fn is_relations(sub_format: &[u8]) -> bool {
    padded::<256>(SUB_FORMAT).is_some_and(|name| name == sub_format)
}

/// "lines of five fields divided by tabs", "each line with its LF"
fn line(fields: [&[u8]; 5]) -> Vec<u8> {
    let mut line = fields.join(&b'\t');
    line.push(b'\n');
    line
}

/// A verdict for each relation line of a row's contents, into a lent list; answers how many.
/// "A row of another sub-format gets 19, a wrong heading line 20, after 13 in the order."
pub fn relations_check(file: &[u8], row: usize, verdicts: &mut [u32]) -> Result<usize, u8> {
    if over_limit(&[file.len()]) {
        return Err(LIMIT);
    }
    check(file, &rows(file).collect::<Vec<Chunk>>(), row, verdicts)
}

/// "It decides which of several relation chunks holds: the latest Chunk_Writing_Date, and of equal dates the later row."
/// "The relations check of U1 uses this choice when no row is named; with no such row it gives 13." Answers the row too.
pub fn relations_check_latest(file: &[u8], verdicts: &mut [u32]) -> Result<(usize, usize), u8> {
    if over_limit(&[file.len()]) {
        return Err(LIMIT);
    }
    let rows: Vec<Chunk> = rows(file).collect();
    let relations = rows.iter().enumerate().filter(|(_, chunk)| is_relations(chunk.sub_format));
    let (row, _) = relations.max_by_key(|(row, chunk)| (chunk.written, *row)).ok_or(ROW)?;
    Ok((check(file, &rows, row, verdicts)?, row))
}

fn check(file: &[u8], rows: &[Chunk], row: usize, verdicts: &mut [u32]) -> Result<usize, u8> {
    let chunk = rows.get(row).ok_or(ROW)?;
    if !is_relations(chunk.sub_format) {
        return Err(RELATIONS);
    }
    // "A last line may lack its LF": then there is no empty line behind it
    let mut lines = file[chunk.contents..][..chunk.bytes].split(|&byte| byte == b'\n');
    if lines.next() != Some(&HEADINGS.join(&b'\t')) {
        return Err(HEADING);
    }
    let by_serial: HashMap<&[u8], &Chunk> = rows.iter().map(|row| (compared(row.serial), row)).collect();
    let found: Vec<u32> = lines.filter_map(|line| verdict(file, &by_serial, line)).collect();
    verdicts.get_mut(..found.len()).ok_or(ROOM)?.copy_from_slice(&found);
    Ok(found.len())
}

/// "Lines without a defined name are comments": none.
fn verdict(file: &[u8], rows: &HashMap<&[u8], &Chunk>, line: &[u8]) -> Option<u32> {
    let fields: Vec<&[u8]> = line.split(|&byte| byte == b'\t').collect();
    if fields[0] != RELATION {
        return None;
    }
    let [_, child, child_format, parent, parent_format] = fields[..] else {
        return Some(MALFORMED);
    };
    if ![child, parent].into_iter().all(is_serial_field) || ![child_format, parent_format].into_iter().all(is_name) {
        return Some(MALFORMED);
    }
    let declares = |row: &&Chunk| {
        let mut named = (0..row.dependencies).map(|j| row.dependency(file, j));
        row.sub_format == child_format
            && named.any(|(serial, name)| compared(serial) == compared(parent) && name == parent_format)
    };
    let declared = rows.get(compared(child)).is_some_and(declares);
    Some(if declared { DECLARED } else { UNDECLARED })
}

/// "<Serial Number> is the verbatim serial number"
fn is_serial_field(field: &[u8]) -> bool {
    field.try_into().ok().and_then(serial_day).is_some()
}

/// "the A256 is the verbatim SubFormat_ID"
fn is_name(field: &[u8]) -> bool {
    field.len() == 256 && is_text(field)
}
