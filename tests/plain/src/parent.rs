//! "Parent of row k, dependency j, both from 0: the row with that serial and whether the sub-formats agree, or missing."

use crate::chunk::Chunk;
use crate::field::compared;
use crate::number::{over_limit, DEPENDENCY, LIMIT, ROW};
use crate::reading::rows;

#[derive(Clone, Copy, Debug, PartialEq, Eq)]
pub struct Parent {
    pub row: usize,
    pub agree: bool,
}

/// Missing is `None`. "Parent, contents and gather test 11 and then by rising number."
pub fn parent(file: &[u8], row: usize, dependency: usize) -> Result<Option<Parent>, u8> {
    if over_limit(&[file.len()]) {
        return Err(LIMIT);
    }
    let rows: Vec<Chunk> = rows(file).collect();
    let chunk = rows.get(row).ok_or(ROW)?;
    if dependency >= chunk.dependencies {
        return Err(DEPENDENCY);
    }
    let (serial, sub_format) = chunk.dependency(file, dependency);
    let found = rows.iter().position(|chunk| compared(chunk.serial) == compared(serial));
    Ok(found.map(|row| Parent { row, agree: rows[row].sub_format == sub_format }))
}
