//! "File header" and "Integrity data, 254 bytes".

use crate::field::{self, Serial};
use crate::fields::Fields;
use crate::number::{FORM, MARK, SHORT, TAPE, TITLE};

pub const FORMAT: &[u8; 58] = b"Format_ID=Ancillary Data Standard 1.00\nSeparator_Strategy=";
/// "65 bytes"
pub const TITLE_BYTES: usize = 65;
pub const INTEGRITY_BYTES: usize = 254;
/// "the first 250 bytes of integrity data"
pub const SUMMED_INTEGRITY: usize = 250;
pub const MINI_CHUNK: &[u8; 10] = b"MiniChunk=";

/// A whole file header.
pub struct Header<'a> {
    /// NUL, where a content length of 0 means open; else LLC.
    pub nul: bool,
    pub mark: &'a [u8],
    pub end: usize,
    stated_sum: u8,
}

impl<'a> Header<'a> {
    /// "Then mark, integrity data summed over these 65 bytes in place of a chunk, mark."
    pub fn read(file: &'a [u8]) -> Result<Self, u8> {
        let (nul, length) = title(file.first_chunk().ok_or(SHORT)?)?;
        let mut fields = Fields::new(file, TITLE_BYTES);
        let mark = fields.take(length)?;
        if mark.starts_with(MINI_CHUNK) {
            return Err(MARK);
        }
        let integrity = Integrity::read(&mut fields)?;
        fields.same(mark)?;
        Ok(Header { nul, mark, end: fields.at(), stated_sum: integrity.stated_sum })
    }

    pub fn sum_good(&self, file: &[u8]) -> bool {
        let summed = TITLE_BYTES + self.mark.len() + SUMMED_INTEGRITY;
        field::sum(&file[..summed]) == self.stated_sum
    }
}

/// ""Format_ID=Ancillary Data Standard 1.00" LF, "Separator_Strategy=", LLC or NUL, I3 mark length, LF: 65 bytes."
fn title(title: &[u8; TITLE_BYTES]) -> Result<(bool, usize), u8> {
    let length = field::count(&title[61..64]).ok_or(TITLE)?;
    let nul = &title[58..61] == b"NUL";
    if !title.starts_with(FORMAT) || !(nul || &title[58..61] == b"LLC") || title[64] != b'\n' {
        return Err(TITLE);
    }
    if nul && length == 0 {
        return Err(TAPE);
    }
    Ok((nul, length))
}

pub struct Integrity<'a> {
    pub serial: &'a Serial,
    /// The day number of Chunk_Writing_Date.
    pub written: u32,
    pub stated_sum: u8,
}

impl<'a> Integrity<'a> {
    /// "Lines, each label, field, LF: Chunk_Serial_Number= serial; Chunk_Recording_Date= date; Chunk_Recording_Agent=
    /// A32 (not A24); Chunk_Writing_Date= date; Chunk_Writing_Agent= A32; Chunk_Integrity_Checksum= I3 to 255."
    pub fn read(fields: &mut Fields<'a>) -> Result<Self, u8> {
        let serial = fields.line(b"Chunk_Serial_Number=", Fields::serial)?;
        fields.line(b"Chunk_Recording_Date=", Fields::date)?;
        fields.line(b"Chunk_Recording_Agent=", Fields::text::<32>)?;
        let written = fields.line(b"Chunk_Writing_Date=", Fields::date)?;
        fields.line(b"Chunk_Writing_Agent=", Fields::text::<32>)?;
        let stated_sum =
            fields.line(b"Chunk_Integrity_Checksum=", |fields| u8::try_from(fields.count(3)?).map_err(|_| FORM))?;
        Ok(Integrity { serial, written, stated_sum })
    }
}
