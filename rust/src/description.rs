//! The description of a chunk to append.
use std::fmt;

use crate::ffi;
use crate::show::Bytes;

#[repr(C)]
#[derive(Clone, Copy)]
pub(crate) struct Text<const WIDTH: usize> {
    pub(crate) bytes: [u8; WIDTH],
    pub(crate) given: usize,
}

/// The fields of a chunk to append, built by chained methods. Nothing is judged here: a text of any length is taken,
/// and [`append`](crate::append) refuses what is out of form, over-long or was never set (6).
///
/// ```
/// let description = ads::Description::new()
///     .sub_format(b"ADS\\DATA\\TEST")
///     .generic_type(b"TXT")
///     .synch_type(b"GEN")
///     .time_standard(b"UTC")
///     .time_offset(b"+0000      8.035")
///     .event_synch(b"NUL")
///     .serial_number(b"#20240229123456789SURVEYDESK0100042001")
///     .recording(b"20240229", b"RECORDER")
///     .writing(b"20240301", b"DESK");
/// let shown = format!("{description:?}");
/// assert!(shown.starts_with(r#"Description { subformat: b"ADS\\DATA\\TEST", generic: b"TXT", synch: b"GEN""#));
/// assert!(shown.ends_with(r#"written: b"20240301", writer: b"DESK" }"#));
/// ```
///
/// A serial number beside the time standard or the event comes by methods of its own, and the last call holds:
///
/// ```
/// # use ads::Description;
/// let serial = b"#20240101000000000SURVEYDESK0100001196";
/// let described = Description::new().time_standard(b"UTC").alternate_standard(serial).master_event(serial);
/// assert!(format!("{described:?}").contains("standard: b\"ALT\", alternate: b\"#20240101"));
/// assert!(format!("{:?}", described.slave_event(serial)).contains("event: b\"SLV\", linked: b\"#20240101"));
/// ```
#[must_use = "each method hands the description back"]
#[repr(C)]
#[derive(Clone, Copy)]
pub struct Description {
    pub(crate) subformat: Text<256>,
    pub(crate) generic: [u8; 3],
    pub(crate) synch: [u8; 3],
    pub(crate) standard: [u8; 3],
    pub(crate) alternate: [u8; 38],
    pub(crate) offset: [u8; 16],
    pub(crate) event: [u8; 3],
    pub(crate) linked: [u8; 38],
    pub(crate) serial: [u8; 38],
    pub(crate) recorded: [u8; 8],
    pub(crate) recorder: Text<32>,
    pub(crate) written: [u8; 8],
    pub(crate) writer: Text<32>,
}

/// The text that is kept, and the length that was given where that is more.
impl<const WIDTH: usize> fmt::Debug for Text<WIDTH> {
    fn fmt(&self, f: &mut fmt::Formatter<'_>) -> fmt::Result {
        Bytes(&self.bytes[..self.given.min(WIDTH)]).fmt(f)?;
        if self.given > WIDTH {
            write!(f, ".. of {} bytes", self.given)?;
        }
        Ok(())
    }
}

/// A field of fixed width without the spaces at its end. One that was never set is zeros, and shown as such.
struct Field<'a>(&'a [u8]);

impl fmt::Debug for Field<'_> {
    fn fmt(&self, f: &mut fmt::Formatter<'_>) -> fmt::Result {
        if self.0.iter().all(|byte| *byte == 0) {
            return f.write_str("unset");
        }
        let end = self.0.iter().rposition(|byte| *byte != b' ').map_or(0, |last| last + 1);
        Bytes(&self.0[..end]).fmt(f)
    }
}

/// The fields as text.
impl fmt::Debug for Description {
    fn fmt(&self, f: &mut fmt::Formatter<'_>) -> fmt::Result {
        f.debug_struct("Description")
            .field("subformat", &self.subformat)
            .field("generic", &Field(&self.generic))
            .field("synch", &Field(&self.synch))
            .field("standard", &Field(&self.standard))
            .field("alternate", &Field(&self.alternate))
            .field("offset", &Field(&self.offset))
            .field("event", &Field(&self.event))
            .field("linked", &Field(&self.linked))
            .field("serial", &Field(&self.serial))
            .field("recorded", &Field(&self.recorded))
            .field("recorder", &self.recorder)
            .field("written", &Field(&self.written))
            .field("writer", &self.writer)
            .finish()
    }
}

impl Default for Description {
    fn default() -> Description {
        Description::new()
    }
}

// Safety of each call: a pointer to an array is to as many bytes as the function takes, a slice is passed with its
// length.
impl Description {
    /// Nothing given.
    pub fn new() -> Description {
        unsafe { ffi::ads_description_new() }
    }

    /// SubFormat_ID, at most 256 bytes.
    pub fn sub_format(self, text: &[u8]) -> Description {
        unsafe { ffi::ads_sub_format(self, text.as_ptr(), text.len()) }
    }

    /// Generic_Type: BIN or TXT.
    pub fn generic_type(self, word: &[u8; 3]) -> Description {
        unsafe { ffi::ads_generic_type(self, word.as_ptr()) }
    }

    /// Chunk_Time_Synch_Type: GEN or SPE.
    pub fn synch_type(self, word: &[u8; 3]) -> Description {
        unsafe { ffi::ads_synch_type(self, word.as_ptr()) }
    }

    /// Chunk_Time_Standard: UTC or NUL.
    pub fn time_standard(self, word: &[u8; 3]) -> Description {
        unsafe { ffi::ads_time_standard(self, word.as_ptr()) }
    }

    /// Chunk_Time_Standard: ALT, with its serial number.
    pub fn alternate_standard(self, serial: &[u8; 38]) -> Description {
        unsafe { ffi::ads_alternate_standard(self, serial.as_ptr()) }
    }

    /// Chunk_Time_Offset, as it stands in the file: sign, hours, minutes, seconds.
    pub fn time_offset(self, bytes: &[u8; 16]) -> Description {
        unsafe { ffi::ads_time_offset(self, bytes.as_ptr()) }
    }

    /// Chunk_Event_Synch: NUL.
    pub fn event_synch(self, word: &[u8; 3]) -> Description {
        unsafe { ffi::ads_event_synch(self, word.as_ptr()) }
    }

    /// Chunk_Event_Synch: SLV, with its serial number.
    pub fn slave_event(self, serial: &[u8; 38]) -> Description {
        unsafe { ffi::ads_slave_event(self, serial.as_ptr()) }
    }

    /// Chunk_Event_Synch: MAS, with its serial number.
    pub fn master_event(self, serial: &[u8; 38]) -> Description {
        unsafe { ffi::ads_master_event(self, serial.as_ptr()) }
    }

    /// Chunk_Serial_Number.
    pub fn serial_number(self, serial: &[u8; 38]) -> Description {
        unsafe { ffi::ads_serial_number(self, serial.as_ptr()) }
    }

    /// Recording date and agent; an agent has at most 32 bytes.
    pub fn recording(self, date: &[u8; 8], agent: &[u8]) -> Description {
        unsafe { ffi::ads_recording(self, date.as_ptr(), agent.as_ptr(), agent.len()) }
    }

    /// Writing date and agent.
    pub fn writing(self, date: &[u8; 8], agent: &[u8]) -> Description {
        unsafe { ffi::ads_writing(self, date.as_ptr(), agent.as_ptr(), agent.len()) }
    }
}
