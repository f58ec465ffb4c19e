//! The contents of a MultiChunk.

use crate::chunk::times;
use crate::fields::Fields;
use crate::header::MINI_CHUNK;
use crate::number::{LENGTH, SHORT, SHORT_ID};

pub type ShortId = [u8; 10];

/// "the contents instead are: Multi_Chunk_Header_Length= I12; MiniChunk_Type_Count= I4 from 1 to 64; for each type [..];
/// then mini-chunks". Hands the short ID and data of each mini-chunk over, in order; answers the declared short IDs.
pub fn read<'a>(
    fields: &mut Fields<'a>,
    mut mini_chunk: impl FnMut(&'a ShortId, &'a [u8]),
) -> Result<Vec<&'a ShortId>, u8> {
    let declared = types(fields)?;
    // "Where the first must stand, fewer than 10 bytes left are 4, other bytes 8."
    if fields.rest().len() < MINI_CHUNK.len() {
        return Err(SHORT);
    }
    if !fields.rest().starts_with(MINI_CHUNK) {
        return Err(SHORT_ID);
    }
    // "Mini-chunks go on while the next 10 bytes are "MiniChunk="."
    while fields.rest().starts_with(MINI_CHUNK) {
        fields.same(MINI_CHUNK)?;
        let id = fields.text()?;
        if !declared.contains(&id) {
            return Err(SHORT_ID);
        }
        let length = fields.count(12)?;
        mini_chunk(id, fields.take(length)?);
    }
    Ok(declared)
}

/// "for each type SubType_Header_Length= I12, SubFormat_ID=, SubFormat_Short_ID= A10, then the four time and event lines
/// and specific data (length 484 + s)". "The header length is 27 plus 518 + s for each type."
fn types<'a>(fields: &mut Fields<'a>) -> Result<Vec<&'a ShortId>, u8> {
    let header_length = fields.length(b"Multi_Chunk_Header_Length=")?;
    fields.lf()?;
    fields.same(b"MiniChunk_Type_Count=")?;
    let count = fields.count(4)?;
    if !(1..=64).contains(&count) {
        return Err(LENGTH);
    }
    fields.lf()?;

    let mut declared = Vec::with_capacity(count);
    let mut measured = 27;
    for left in (0..count).rev() {
        let length = fields.length(b"SubType_Header_Length=")?;
        let specific = length.checked_sub(484).ok_or(LENGTH)?;
        measured += 518 + specific;
        // "Multi_Chunk_Header_Length at the last SubType_Header_Length, after that one's own test"
        if left == 0 && header_length != measured {
            return Err(LENGTH);
        }
        fields.lf()?;
        fields.line(b"SubFormat_ID=", Fields::text::<256>)?;
        fields.same(b"SubFormat_Short_ID=")?;
        let id = fields.text()?;
        if declared.contains(&id) {
            return Err(SHORT_ID);
        }
        declared.push(id);
        fields.lf()?;
        times(fields)?;
        fields.take(specific)?;
    }
    Ok(declared)
}
