//! The calls `contents` and `gather`.

use crate::field::padded;
use crate::fields::Fields;
use crate::multi::{self, ShortId};
use crate::number::{over_limit, DEPENDENCY, LIMIT, ROOM, ROW};
use crate::reading::rows;

/// "Contents hands back the part of the file that the row names, uncopied".
pub fn contents(file: &[u8], row: usize) -> Result<&[u8], u8> {
    if over_limit(&[file.len()]) {
        return Err(LIMIT);
    }
    let chunk = rows(file).nth(row).ok_or(ROW)?;
    Ok(&file[chunk.contents..][..chunk.bytes])
}

/// "Gather joins, in order, one short ID's mini-chunk data into a lent buffer and answers the length; bytes past it keep
/// their old state."
pub fn gather(file: &[u8], row: usize, id: &[u8], buffer: &mut [u8]) -> Result<usize, u8> {
    if over_limit(&[file.len(), id.len(), buffer.len()]) {
        return Err(LIMIT);
    }
    let chunk = rows(file).nth(row).ok_or(ROW)?;
    if !chunk.multichunk {
        return Err(DEPENDENCY);
    }
    let id: ShortId = padded(id).ok_or(DEPENDENCY)?;
    let mut parts = Vec::new();
    let mut length = 0;
    let declared = multi::read(&mut Fields::new(file, chunk.contents), |of, data| {
        if *of == id {
            parts.push(data);
            length += data.len();
        }
    });
    if !declared.is_ok_and(|ids| ids.contains(&&id)) {
        return Err(DEPENDENCY);
    }
    let mut rest = buffer.get_mut(..length).ok_or(ROOM)?;
    for part in parts {
        let (here, behind) = rest.split_at_mut(part.len());
        here.copy_from_slice(part);
        rest = behind;
    }
    Ok(length)
}
