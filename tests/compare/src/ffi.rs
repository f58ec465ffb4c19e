//! The C interface of the proved library, include/ads.h, and thin safe functions over it.
//!
//! A safe function passes the pointer and length of a slice. The functions of `claimed` pass a length of their own
//! beside a pointer; the library is to refuse it (11) before it looks at a byte.

use std::mem::offset_of;
use std::sync::OnceLock;

use plain::{Beginning, Ending, Serial};

/// One row of the table, 104 bytes.
#[repr(C)]
#[derive(Clone, Copy)]
pub struct Row {
    pub serial: Serial,
    pub place: usize,
    pub header: usize,
    pub contents: usize,
    pub bytes: usize,
    pub end: usize,
    pub dependencies: usize,
    pub offset: i64,
    pub multichunk: bool,
    pub good: bool,
    pub ending: u8,
}

#[repr(C)]
#[derive(Clone, Copy, Debug, PartialEq, Eq)]
pub struct Reading {
    pub count: usize,
    pub stop: usize,
    pub good: bool,
    pub number: u8,
}

#[repr(C)]
#[derive(Clone, Copy, Debug, PartialEq, Eq)]
pub struct Written {
    pub length: usize,
    pub number: u8,
}

#[repr(C)]
#[derive(Clone, Copy, Debug, PartialEq, Eq)]
pub struct ParentAnswer {
    pub row: usize,
    pub found: bool,
    pub agree: bool,
    pub number: u8,
}

#[repr(C)]
#[derive(Clone, Copy, Debug, PartialEq, Eq)]
pub struct Ends {
    pub first: usize,
    pub second: usize,
    pub third: usize,
    pub number: u8,
}

#[repr(C)]
#[derive(Clone, Copy, Debug, PartialEq, Eq)]
pub struct Part {
    pub place: usize,
    pub bytes: usize,
    pub number: u8,
}

#[repr(C)]
#[derive(Clone, Copy, Debug, PartialEq, Eq)]
pub struct Counted {
    pub count: usize,
    pub number: u8,
}

/// `row` is the one checked.
#[repr(C)]
#[derive(Clone, Copy, Debug, PartialEq, Eq)]
pub struct CountedRow {
    pub count: usize,
    pub row: usize,
    pub number: u8,
}

/// How many rows are listed, and how many dependencies name none.
#[repr(C)]
#[derive(Clone, Copy, Debug, PartialEq, Eq)]
pub struct Ancestry {
    pub count: usize,
    pub missing: usize,
    pub number: u8,
}

/// The length of the text, and the file's bytes in three parts.
#[repr(C)]
#[derive(Clone, Copy, Debug, PartialEq, Eq)]
pub struct Priced {
    pub length: usize,
    pub header: usize,
    pub chunks: usize,
    pub unread: usize,
    pub number: u8,
}

impl From<Written> for (usize, u8) {
    fn from(answer: Written) -> Self {
        (answer.length, answer.number)
    }
}

impl From<Counted> for (usize, u8) {
    fn from(answer: Counted) -> Self {
        (answer.count, answer.number)
    }
}

#[repr(C)]
#[derive(Clone, Copy)]
pub struct Text<const N: usize> {
    pub bytes: [u8; N],
    pub given: usize,
}

#[repr(C)]
#[derive(Clone, Copy)]
pub struct Description {
    pub subformat: Text<256>,
    pub generic: [u8; 3],
    pub synch: [u8; 3],
    pub standard: [u8; 3],
    pub alternate: Serial,
    pub offset: [u8; 16],
    pub event: [u8; 3],
    pub linked: Serial,
    pub serial: Serial,
    pub recorded: [u8; 8],
    pub recorder: Text<32>,
    pub written: [u8; 8],
    pub writer: Text<32>,
}

const _: () = assert!(size_of::<Row>() == 104 && offset_of!(Row, ending) == 98);

/// ADS_COUNTED, ADS_FOUND, ADS_BY_MINI_CHUNKS
const ENDINGS: [Ending; 3] = [Ending::Counted, Ending::Found, Ending::ByMiniChunks];

#[rustfmt::skip]
mod c {
    use super::{
        Ancestry, Counted, CountedRow, Description, Ends, ParentAnswer, Part, Priced, Reading, Row, Serial, Written,
    };

    extern "C" {
        pub fn ads_description_new() -> Description;
        pub fn ads_sub_format(d: Description, text: *const u8, length: usize) -> Description;
        pub fn ads_generic_type(d: Description, word: *const [u8; 3]) -> Description;
        pub fn ads_synch_type(d: Description, word: *const [u8; 3]) -> Description;
        pub fn ads_time_standard(d: Description, word: *const [u8; 3]) -> Description;
        pub fn ads_alternate_standard(d: Description, serial: *const Serial) -> Description;
        pub fn ads_time_offset(d: Description, bytes: *const [u8; 16]) -> Description;
        pub fn ads_event_synch(d: Description, word: *const [u8; 3]) -> Description;
        pub fn ads_slave_event(d: Description, serial: *const Serial) -> Description;
        pub fn ads_master_event(d: Description, serial: *const Serial) -> Description;
        pub fn ads_serial_number(d: Description, serial: *const Serial) -> Description;
        pub fn ads_recording(d: Description, date: *const [u8; 8], agent: *const u8, length: usize) -> Description;
        pub fn ads_writing(d: Description, date: *const [u8; 8], agent: *const u8, length: usize) -> Description;

        pub fn ads_begin(strategy: *const [u8; 3], mark: *const u8, mark_length: usize, serial: *const Serial,
            recorded: *const [u8; 8], recorder: *const u8, recorder_length: usize,
            written: *const [u8; 8], writer: *const u8, writer_length: usize,
            buffer: *mut u8, buffer_length: usize) -> Written;
        pub fn ads_read(file: *const u8, length: usize, rows: *mut Row, room: usize) -> Reading;
        pub fn ads_is_clean(reading: Reading, length: usize) -> bool;
        pub fn ads_parent(file: *const u8, length: usize, row: usize, dependency: usize) -> ParentAnswer;
        pub fn ads_append(buffer: *mut u8, buffer_length: usize, length: usize, description: Description,
            parents: *const usize, parent_count: usize, specific: *const u8, specific_length: usize,
            contents: *const u8, contents_length: usize, open: bool) -> Ends;
        pub fn ads_ancestors(file: *const u8, length: usize, row: usize, rows: *mut usize, room: usize) -> Ancestry;
        pub fn ads_contents(file: *const u8, length: usize, row: usize) -> Part;
        pub fn ads_gather(file: *const u8, length: usize, row: usize, id: *const u8, id_length: usize,
            buffer: *mut u8, buffer_length: usize) -> Written;
        pub fn ads_relations_write(file: *const u8, length: usize, buffer: *mut u8, buffer_length: usize) -> Written;
        pub fn ads_relations_check(file: *const u8, length: usize, row: usize, verdicts: *mut u32, room: usize) -> Counted;
        pub fn ads_relations_check_latest(file: *const u8, length: usize, verdicts: *mut u32, room: usize) -> CountedRow;
        pub fn ads_price(file: *const u8, length: usize, fee: u64, rate: u64, buffer: *mut u8, buffer_length: usize) -> Priced;
        pub fn ads_pack(file: *const u8, length: usize, buffer: *mut u8, buffer_length: usize) -> Written;
        pub fn ads_unpack(blocks: *const u8, length: usize, buffer: *mut u8, buffer_length: usize) -> Written;
        pub fn ads_listing(input: *const u8, length: usize, buffer: *mut u8, buffer_length: usize) -> Written;
    }
}

/// A table of rows as plain memory, so that rows never written can be looked at.
pub struct Table {
    rows: Vec<[u64; 13]>,
}

impl Table {
    pub const PATTERN: u64 = 0xA5C3_96E1_5A3C_691E;

    pub fn new(room: usize) -> Self {
        Table { rows: vec![[Self::PATTERN; 13]; room] }
    }

    pub fn as_mut_ptr(&mut self) -> *mut Row {
        self.rows.as_mut_ptr().cast()
    }

    /// A row that the library wrote.
    pub fn row(&self, row: usize) -> plain::Row {
        let memory = &self.rows[row];
        let flags = memory[12].to_le_bytes();
        let mut serial = [0; 38];
        for (at, byte) in serial.iter_mut().enumerate() {
            *byte = memory[at / 8].to_le_bytes()[at % 8];
        }
        assert!(flags[0] <= 1 && flags[1] <= 1 && flags[2] <= 2, "flags and ending are {flags:?}");
        plain::Row {
            serial,
            place: memory[5] as usize,
            header: memory[6] as usize,
            contents: memory[7] as usize,
            bytes: memory[8] as usize,
            end: memory[9] as usize,
            dependencies: memory[10] as usize,
            offset: memory[11] as i64,
            multichunk: flags[0] == 1,
            good: flags[1] == 1,
            ending: ENDINGS[usize::from(flags[2])],
        }
    }

    /// Whether the rows from one on hold the pattern, in every byte.
    pub fn untouched_from(&self, row: usize) -> bool {
        self.rows[row..].iter().all(|memory| *memory == [Self::PATTERN; 13])
    }

    pub fn room(&self) -> usize {
        self.rows.len()
    }
}

/// The methods of a description, each handing it back.
#[rustfmt::skip]
impl Description {
    pub fn new() -> Self { unsafe { c::ads_description_new() } }
    pub fn sub_format(self, text: &[u8]) -> Self { unsafe { c::ads_sub_format(self, text.as_ptr(), text.len()) } }
    pub fn generic_type(self, word: [u8; 3]) -> Self { unsafe { c::ads_generic_type(self, &word) } }
    pub fn synch_type(self, word: [u8; 3]) -> Self { unsafe { c::ads_synch_type(self, &word) } }
    pub fn time_standard(self, word: [u8; 3]) -> Self { unsafe { c::ads_time_standard(self, &word) } }
    pub fn alternate_standard(self, serial: Serial) -> Self { unsafe { c::ads_alternate_standard(self, &serial) } }
    pub fn time_offset(self, bytes: [u8; 16]) -> Self { unsafe { c::ads_time_offset(self, &bytes) } }
    pub fn event_synch(self, word: [u8; 3]) -> Self { unsafe { c::ads_event_synch(self, &word) } }
    pub fn slave_event(self, serial: Serial) -> Self { unsafe { c::ads_slave_event(self, &serial) } }
    pub fn master_event(self, serial: Serial) -> Self { unsafe { c::ads_master_event(self, &serial) } }
    pub fn serial_number(self, serial: Serial) -> Self { unsafe { c::ads_serial_number(self, &serial) } }
    pub fn recording(self, date: [u8; 8], agent: &[u8]) -> Self {
        unsafe { c::ads_recording(self, &date, agent.as_ptr(), agent.len()) }
    }
    pub fn writing(self, date: [u8; 8], agent: &[u8]) -> Self {
        unsafe { c::ads_writing(self, &date, agent.as_ptr(), agent.len()) }
    }
}

impl Default for Description {
    fn default() -> Self {
        Self::new()
    }
}

/// Under ADS_EXACT every slice is lent as a copy on the heap that is as long as the slice, so that a checker of memory
/// sees the first byte before or behind it.
fn exact(long: usize) -> bool {
    static ASKED: OnceLock<bool> = OnceLock::new();
    *ASKED.get_or_init(|| std::env::var_os("ADS_EXACT").is_some()) && long <= 1 << 24
}

fn lent<R>(bytes: &[u8], call: impl FnOnce(&[u8]) -> R) -> R {
    if exact(bytes.len()) {
        call(&Box::<[u8]>::from(bytes))
    } else {
        call(bytes)
    }
}

/// Bytes, or the numbers of a list.
fn lent_mut<T: Copy, R>(list: &mut [T], call: impl FnOnce(&mut [T]) -> R) -> R {
    if exact(size_of_val(list)) {
        let mut copy = Box::<[T]>::from(&*list);
        let answer = call(&mut copy);
        list.copy_from_slice(&copy);
        answer
    } else {
        call(list)
    }
}

#[rustfmt::skip]
pub fn begin(given: &Beginning, buffer: &mut [u8]) -> Written {
    let Beginning { strategy, mark, serial, recorded, recorder, written, writer } = given;
    lent(mark, |mark| lent(recorder, |recorder| lent(writer, |writer| lent_mut(buffer, |buffer| unsafe {
        c::ads_begin(strategy, mark.as_ptr(), mark.len(), serial, recorded, recorder.as_ptr(), recorder.len(),
            written, writer.as_ptr(), writer.len(), buffer.as_mut_ptr(), buffer.len())
    }))))
}

pub fn read(file: &[u8], table: &mut Table) -> Reading {
    lent(file, |file| unsafe { c::ads_read(file.as_ptr(), file.len(), table.as_mut_ptr(), table.room()) })
}

pub fn is_clean(reading: Reading, length: usize) -> bool {
    unsafe { c::ads_is_clean(reading, length) }
}

pub fn parent(file: &[u8], row: usize, dependency: usize) -> ParentAnswer {
    lent(file, |file| unsafe { c::ads_parent(file.as_ptr(), file.len(), row, dependency) })
}

/// ADS_ANCESTORS_ROOM
pub const ANCESTORS_ROOM: usize = 63;

pub fn ancestors(file: &[u8], row: usize, rows: &mut [usize]) -> Ancestry {
    lent(file, |file| {
        lent_mut(rows, |rows| unsafe {
            c::ads_ancestors(file.as_ptr(), file.len(), row, rows.as_mut_ptr(), rows.len())
        })
    })
}

#[rustfmt::skip]
pub fn append(
    buffer: &mut [u8], length: usize, description: Description, parents: &[usize], specific: &[u8], contents: &[u8], open: bool,
) -> Ends {
    lent(specific, |specific| lent(contents, |contents| lent_mut(buffer, |buffer| unsafe {
        c::ads_append(buffer.as_mut_ptr(), buffer.len(), length, description, parents.as_ptr(), parents.len(),
            specific.as_ptr(), specific.len(), contents.as_ptr(), contents.len(), open)
    })))
}

pub fn contents(file: &[u8], row: usize) -> Part {
    lent(file, |file| unsafe { c::ads_contents(file.as_ptr(), file.len(), row) })
}

#[rustfmt::skip]
pub fn gather(file: &[u8], row: usize, id: &[u8], buffer: &mut [u8]) -> Written {
    lent(file, |file| lent(id, |id| lent_mut(buffer, |buffer| unsafe {
        c::ads_gather(file.as_ptr(), file.len(), row, id.as_ptr(), id.len(), buffer.as_mut_ptr(), buffer.len())
    })))
}

pub fn relations_write(file: &[u8], buffer: &mut [u8]) -> Written {
    lent(file, |file| {
        lent_mut(buffer, |buffer| unsafe {
            c::ads_relations_write(file.as_ptr(), file.len(), buffer.as_mut_ptr(), buffer.len())
        })
    })
}

pub fn relations_check(file: &[u8], row: usize, verdicts: &mut [u32]) -> Counted {
    lent(file, |file| {
        lent_mut(verdicts, |verdicts| unsafe {
            c::ads_relations_check(file.as_ptr(), file.len(), row, verdicts.as_mut_ptr(), verdicts.len())
        })
    })
}

pub fn relations_check_latest(file: &[u8], verdicts: &mut [u32]) -> CountedRow {
    lent(file, |file| {
        lent_mut(verdicts, |verdicts| unsafe {
            c::ads_relations_check_latest(file.as_ptr(), file.len(), verdicts.as_mut_ptr(), verdicts.len())
        })
    })
}

/// ADS_PRICE_ROOM
pub const fn price_room(rows: usize) -> usize {
    38 * rows + 25
}

pub fn price(file: &[u8], fee: u64, rate: u64, buffer: &mut [u8]) -> Priced {
    lent(file, |file| {
        lent_mut(buffer, |buffer| unsafe {
            c::ads_price(file.as_ptr(), file.len(), fee, rate, buffer.as_mut_ptr(), buffer.len())
        })
    })
}

/// ADS_PACKED_BYTES
pub const fn packed_bytes(length: usize) -> usize {
    512 * if length == 0 { 1 } else { length.div_ceil(504) }
}

pub fn pack(file: &[u8], buffer: &mut [u8]) -> Written {
    lent(file, |file| {
        lent_mut(buffer, |buffer| unsafe { c::ads_pack(file.as_ptr(), file.len(), buffer.as_mut_ptr(), buffer.len()) })
    })
}

pub fn unpack(blocks: &[u8], buffer: &mut [u8]) -> Written {
    lent(blocks, |blocks| {
        lent_mut(buffer, |buffer| unsafe {
            c::ads_unpack(blocks.as_ptr(), blocks.len(), buffer.as_mut_ptr(), buffer.len())
        })
    })
}

pub fn listing(input: &[u8], buffer: &mut [u8]) -> Written {
    lent(input, |input| {
        lent_mut(buffer, |buffer| unsafe {
            c::ads_listing(input.as_ptr(), input.len(), buffer.as_mut_ptr(), buffer.len())
        })
    })
}

/// Calls in which a length is claimed that is over 2^30, or over the buffer's, beside a pointer to few bytes.
#[rustfmt::skip]
pub mod claimed {
    use super::{
        c, Ancestry, Counted, CountedRow, Description, Ends, ParentAnswer, Part, Priced, Reading, Table, Written,
    };

    const FEW: [u8; 8] = [0; 8];

    fn few(length: usize) -> (*const u8, usize) {
        assert!(length <= FEW.len() || length > 1 << 30);
        (FEW.as_ptr(), length)
    }

    pub fn begin(mark: usize, recorder: usize, writer: usize, buffer: (&mut [u8; 400], usize)) -> Written {
        assert!([mark, recorder, writer, buffer.1].iter().any(|&length| length > 1 << 30));
        let (mark, recorder, writer) = (few(mark), few(recorder), few(writer));
        unsafe {
            c::ads_begin(b"LLC", mark.0, mark.1, &[b' '; 38], b"20240229", recorder.0, recorder.1,
                b"20240229", writer.0, writer.1, buffer.0.as_mut_ptr(), buffer.1)
        }
    }

    pub fn read(length: usize, table: &mut Table) -> Reading {
        assert!(length > 1 << 30);
        unsafe { c::ads_read(few(length).0, length, table.as_mut_ptr(), table.room()) }
    }

    pub fn parent(length: usize) -> ParentAnswer {
        assert!(length > 1 << 30);
        unsafe { c::ads_parent(few(length).0, length, 0, 0) }
    }

    pub fn ancestors(length: usize, rows: &mut [usize; 2]) -> Ancestry {
        assert!(length > 1 << 30);
        unsafe { c::ads_ancestors(few(length).0, length, 0, rows.as_mut_ptr(), rows.len()) }
    }

    pub fn contents(length: usize) -> Part {
        assert!(length > 1 << 30);
        unsafe { c::ads_contents(few(length).0, length, 0) }
    }

    pub fn gather(file: usize, id: usize, buffer: (&mut [u8; 8], usize)) -> Written {
        assert!([file, id, buffer.1].iter().any(|&length| length > 1 << 30));
        let (file, id) = (few(file), few(id));
        unsafe { c::ads_gather(file.0, file.1, 0, id.0, id.1, buffer.0.as_mut_ptr(), buffer.1) }
    }

    /// The buffer of 8 bytes claimed as so long, the file's length, and lengths of specific data and contents.
    pub fn append(buffer: (&mut [u8; 8], usize), length: usize, d: Description, specific: usize, contents: usize) -> Ends {
        let texts = [d.subformat.given, d.recorder.given, d.writer.given];
        let lengths = [buffer.1, specific, contents];
        assert!(length > buffer.1 || lengths.iter().chain(&texts).any(|&length| length > 1 << 30));
        let (specific, contents) = (few(specific), few(contents));
        unsafe {
            c::ads_append(buffer.0.as_mut_ptr(), buffer.1, length, d, [0].as_ptr(), 1,
                specific.0, specific.1, contents.0, contents.1, false)
        }
    }

    pub fn relations_write(file: usize, buffer: (&mut [u8; 8], usize)) -> Written {
        assert!([file, buffer.1].iter().any(|&length| length > 1 << 30));
        unsafe { c::ads_relations_write(few(file).0, file, buffer.0.as_mut_ptr(), buffer.1) }
    }

    pub fn relations_check(length: usize, verdicts: &mut [u32; 2]) -> Counted {
        assert!(length > 1 << 30);
        unsafe { c::ads_relations_check(few(length).0, length, 0, verdicts.as_mut_ptr(), verdicts.len()) }
    }

    pub fn relations_check_latest(length: usize, verdicts: &mut [u32; 2]) -> CountedRow {
        assert!(length > 1 << 30);
        unsafe { c::ads_relations_check_latest(few(length).0, length, verdicts.as_mut_ptr(), verdicts.len()) }
    }

    pub fn price(file: usize, buffer: (&mut [u8; 8], usize)) -> Priced {
        assert!([file, buffer.1].iter().any(|&length| length > 1 << 30));
        let file = few(file);
        unsafe { c::ads_price(file.0, file.1, 1, 1, buffer.0.as_mut_ptr(), buffer.1) }
    }

    pub fn pack(file: usize, buffer: (&mut [u8; 8], usize)) -> Written {
        assert!([file, buffer.1].iter().any(|&length| length > 1 << 30));
        let file = few(file);
        unsafe { c::ads_pack(file.0, file.1, buffer.0.as_mut_ptr(), buffer.1) }
    }

    pub fn unpack(blocks: usize, buffer: (&mut [u8; 8], usize)) -> Written {
        assert!([blocks, buffer.1].iter().any(|&length| length > 1 << 30));
        let blocks = few(blocks);
        unsafe { c::ads_unpack(blocks.0, blocks.1, buffer.0.as_mut_ptr(), buffer.1) }
    }

    pub fn listing(input: usize, buffer: (&mut [u8; 8], usize)) -> Written {
        assert!(buffer.1 > 1 << 30);
        let input = few(input);
        unsafe { c::ads_listing(input.0, input.1, buffer.0.as_mut_ptr(), buffer.1) }
    }
}
