//! The fields of a new chunk, "built by chained methods that take it by value and hand it back".

use crate::chunk::is_multi_chunk;
use crate::field::{is_text, offset, padded, serial_day, Serial};
use crate::writer::{Given, Writer};

/// A field that isn't given is out of form, a text that isn't given is empty.
#[derive(Clone, Copy, Debug)]
pub struct Description<'a> {
    pub(crate) sub_format: &'a [u8],
    generic: [u8; 3],
    synch: [u8; 3],
    standard: [u8; 3],
    alternate: Serial,
    offset: [u8; 16],
    event: [u8; 3],
    linked: Serial,
    serial: Serial,
    recorded: [u8; 8],
    pub(crate) recorder: &'a [u8],
    written: [u8; 8],
    pub(crate) writer: &'a [u8],
}

/// "elsewhere they are free, and the writer is given none and puts spaces"
const NONE: Serial = [b' '; 38];

#[rustfmt::skip]
impl<'a> Description<'a> {
    pub fn new() -> Self {
        Description {
            sub_format: b"", generic: [0; 3], synch: [0; 3], standard: [0; 3], alternate: NONE, offset: [0; 16], event: [0; 3],
            linked: NONE, serial: NONE, recorded: [0; 8], recorder: b"", written: [0; 8], writer: b"",
        }
    }
    pub fn sub_format(self, sub_format: &'a [u8]) -> Self { Description { sub_format, ..self } }
    pub fn generic_type(self, generic: [u8; 3]) -> Self { Description { generic, ..self } }
    pub fn synch_type(self, synch: [u8; 3]) -> Self { Description { synch, ..self } }
    pub fn time_standard(self, standard: [u8; 3]) -> Self { Description { standard, alternate: NONE, ..self } }
    pub fn alternate_standard(self, alternate: Serial) -> Self { Description { standard: *b"ALT", alternate, ..self } }
    pub fn time_offset(self, offset: [u8; 16]) -> Self { Description { offset, ..self } }
    pub fn event_synch(self, event: [u8; 3]) -> Self { Description { event, linked: NONE, ..self } }
    pub fn slave_event(self, linked: Serial) -> Self { Description { event: *b"SLV", linked, ..self } }
    pub fn master_event(self, linked: Serial) -> Self { Description { event: *b"MAS", linked, ..self } }
    pub fn serial_number(self, serial: Serial) -> Self { Description { serial, ..self } }
    pub fn recording(self, recorded: [u8; 8], recorder: &'a [u8]) -> Self { Description { recorded, recorder, ..self } }
    pub fn writing(self, written: [u8; 8], writer: &'a [u8]) -> Self { Description { written, writer, ..self } }
}

impl Default for Description<'_> {
    fn default() -> Self {
        Self::new()
    }
}

/// A description in form, its texts padded.
pub struct Checked<'a> {
    given: Description<'a>,
    sub_format: [u8; 256],
    pub integrity: Given,
}

impl<'a> Checked<'a> {
    /// "6 field out of form or range; [..] there too a wrong listed word, an over-long text"
    pub fn new(given: &Description<'a>) -> Option<Self> {
        let sub_format = padded(given.sub_format)?;
        let integrity = Given::checked(given.serial, (given.recorded, given.recorder), (given.written, given.writer))?;
        let good = is_text(&sub_format)
            && [b"BIN", b"TXT"].contains(&&given.generic)
            && [b"GEN", b"SPE"].contains(&&given.synch)
            && listed(given.standard, &[b"UTC", b"NUL"], &[b"ALT"], &given.alternate)
            && offset(&given.offset).is_some()
            && listed(given.event, &[b"NUL"], &[b"SLV", b"MAS"], &given.linked);
        good.then_some(Checked { given: *given, sub_format, integrity })
    }

    pub fn is_multi_chunk(&self) -> bool {
        is_multi_chunk(&self.sub_format)
    }

    pub fn is_text(&self) -> bool {
        self.given.generic == *b"TXT"
    }

    /// From the header's first line to Chunk_Event_Synch, for a header length.
    pub fn put_lines(&self, header_length: usize, writer: &mut Writer) {
        let given = &self.given;
        writer.number(b"Chunk_Header_Length=", 12, header_length);
        writer.line(b"SubFormat_ID=", &self.sub_format);
        writer.line(b"Generic_Type=", &given.generic);
        writer.line(b"Chunk_Time_Synch_Type=", &given.synch);
        writer.put(b"Chunk_Time_Standard=");
        writer.line(&given.standard, &given.alternate);
        writer.line(b"Chunk_Time_Offset=", &given.offset);
        writer.put(b"Chunk_Event_Synch=");
        writer.line(&given.event, &given.linked);
    }
}

/// "The 38 bytes must be a serial number after ALT, SLV and MAS".
fn listed(word: [u8; 3], free: &[&[u8; 3]], with_serial: &[&[u8; 3]], serial: &Serial) -> bool {
    free.contains(&&word) || with_serial.contains(&&word) && serial_day(serial).is_some()
}
