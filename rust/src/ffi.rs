//! The functions of include/ads.h. A slice is a pointer, never null, and its length.
use crate::{Description, Row};

#[repr(C)]
pub struct Reading {
    pub count: usize,
    pub stop: usize,
    pub good: bool,
    pub number: u8,
}

#[repr(C)]
pub struct Written {
    pub length: usize,
    pub number: u8,
}

#[repr(C)]
pub struct Counted {
    pub count: usize,
    pub number: u8,
}

#[repr(C)]
pub struct CountedRow {
    pub count: usize,
    pub row: usize,
    pub number: u8,
}

#[repr(C)]
pub struct Parent {
    pub row: usize,
    pub found: bool,
    pub agree: bool,
    pub number: u8,
}

#[repr(C)]
pub struct Ends {
    pub first: usize,
    pub second: usize,
    pub third: usize,
    pub number: u8,
}

#[repr(C)]
pub struct Part {
    pub place: usize,
    pub bytes: usize,
    pub number: u8,
}

#[repr(C)]
pub struct Ancestry {
    pub count: usize,
    pub missing: usize,
    pub number: u8,
}

#[repr(C)]
pub struct Priced {
    pub length: usize,
    pub header: usize,
    pub chunks: usize,
    pub unread: usize,
    pub number: u8,
}

extern "C" {
    pub fn ads_begin(
        strategy: *const u8,
        mark: *const u8,
        mark_length: usize,
        serial: *const u8,
        recorded: *const u8,
        recorder: *const u8,
        recorder_length: usize,
        written: *const u8,
        writer: *const u8,
        writer_length: usize,
        buffer: *mut u8,
        buffer_length: usize,
    ) -> Written;
    pub fn ads_read(file: *const u8, length: usize, rows: *mut Row, room: usize) -> Reading;
    pub fn ads_is_clean(reading: Reading, length: usize) -> bool;
    pub fn ads_parent(file: *const u8, length: usize, row: usize, dependency: usize) -> Parent;
    pub fn ads_ancestors(file: *const u8, length: usize, row: usize, rows: *mut usize, room: usize) -> Ancestry;
    pub fn ads_contents(file: *const u8, length: usize, row: usize) -> Part;
    pub fn ads_gather(
        file: *const u8,
        length: usize,
        row: usize,
        id: *const u8,
        id_length: usize,
        buffer: *mut u8,
        buffer_length: usize,
    ) -> Written;
    pub fn ads_relations_write(file: *const u8, length: usize, buffer: *mut u8, buffer_length: usize) -> Written;
    pub fn ads_relations_check(file: *const u8, length: usize, row: usize, verdicts: *mut u32, room: usize) -> Counted;
    pub fn ads_relations_check_latest(file: *const u8, length: usize, verdicts: *mut u32, room: usize) -> CountedRow;
    pub fn ads_price(
        file: *const u8,
        length: usize,
        fee: u64,
        rate: u64,
        buffer: *mut u8,
        buffer_length: usize,
    ) -> Priced;
    pub fn ads_pack(file: *const u8, length: usize, buffer: *mut u8, buffer_length: usize) -> Written;
    pub fn ads_unpack(blocks: *const u8, length: usize, buffer: *mut u8, buffer_length: usize) -> Written;
    pub fn ads_listing(input: *const u8, length: usize, buffer: *mut u8, buffer_length: usize) -> Written;
    pub fn ads_append(
        buffer: *mut u8,
        buffer_length: usize,
        length: usize,
        description: Description,
        parents: *const usize,
        parent_count: usize,
        specific: *const u8,
        specific_length: usize,
        contents: *const u8,
        contents_length: usize,
        open: bool,
    ) -> Ends;

    pub fn ads_description_new() -> Description;
    pub fn ads_sub_format(d: Description, text: *const u8, length: usize) -> Description;
    pub fn ads_generic_type(d: Description, word: *const u8) -> Description;
    pub fn ads_synch_type(d: Description, word: *const u8) -> Description;
    pub fn ads_time_standard(d: Description, word: *const u8) -> Description;
    pub fn ads_alternate_standard(d: Description, serial: *const u8) -> Description;
    pub fn ads_time_offset(d: Description, bytes: *const u8) -> Description;
    pub fn ads_event_synch(d: Description, word: *const u8) -> Description;
    pub fn ads_slave_event(d: Description, serial: *const u8) -> Description;
    pub fn ads_master_event(d: Description, serial: *const u8) -> Description;
    pub fn ads_serial_number(d: Description, serial: *const u8) -> Description;
    pub fn ads_recording(d: Description, date: *const u8, agent: *const u8, length: usize) -> Description;
    pub fn ads_writing(d: Description, date: *const u8, agent: *const u8, length: usize) -> Description;
}
