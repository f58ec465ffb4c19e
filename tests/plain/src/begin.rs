//! "Begin is given strategy, mark, serial, both dates and both agents, writes these bytes at the start of a lent buffer
//! and answers their number."

use crate::field::Serial;
use crate::header::{FORMAT, INTEGRITY_BYTES, MINI_CHUNK, TITLE_BYTES};
use crate::number::{over_limit, FORM, LIMIT, MARK, ROOM, TAPE, ZERO};
use crate::writer::{Given, Writer};

/// What begin is given.
#[derive(Clone, Copy, Debug)]
pub struct Beginning<'a> {
    pub strategy: [u8; 3],
    pub mark: &'a [u8],
    pub serial: Serial,
    pub recorded: [u8; 8],
    pub recorder: &'a [u8],
    pub written: [u8; 8],
    pub writer: &'a [u8],
}

/// "begin 11, 6, 2, 3, 15, 18"
pub fn begin(given: &Beginning, buffer: &mut [u8]) -> Result<usize, u8> {
    let mark = given.mark;
    if over_limit(&[mark.len(), given.recorder.len(), given.writer.len(), buffer.len()]) {
        return Err(LIMIT);
    }
    let integrity =
        Given::checked(given.serial, (given.recorded, given.recorder), (given.written, given.writer)).ok_or(FORM)?;
    if ![b"LLC", b"NUL"].contains(&&given.strategy) || mark.len() > 999 {
        return Err(FORM);
    }
    if given.strategy == *b"NUL" && mark.is_empty() {
        return Err(TAPE);
    }
    if mark.starts_with(MINI_CHUNK) {
        return Err(MARK);
    }
    if mark.contains(&0) {
        return Err(ZERO);
    }
    let length = TITLE_BYTES + INTEGRITY_BYTES + 2 * mark.len();
    let mut writer = Writer::new(buffer.get_mut(..length).ok_or(ROOM)?);
    writer.put(FORMAT);
    writer.number(&given.strategy, 3, mark.len());
    writer.closing(mark, &integrity);
    Ok(length)
}
