//! Inner functions of the proved library, which it doesn't export: the archive `kernels` has them for tests and benchmark.

mod c {
    extern "C" {
        pub fn kernel_byte_sum(s: *const u8, length: usize) -> u8;
        pub fn kernel_word_sum(s: *const u8, length: usize) -> u8;
        pub fn kernel_find_plain(mark: *const u8, mark_length: usize, s: *const u8, length: usize) -> usize;
        pub fn kernel_find(mark: *const u8, mark_length: usize, s: *const u8, length: usize) -> super::Found;
        pub fn kernel_hash(s: *const u8, length: usize) -> u64;
        pub fn kernel_day(date: *const u8, length: usize) -> u32;
    }
}

/// The sum byte by byte.
pub fn byte_sum(s: &[u8]) -> u8 {
    unsafe { c::kernel_byte_sum(s.as_ptr(), s.len()) }
}

/// The sum by words.
pub fn word_sum(s: &[u8]) -> u8 {
    unsafe { c::kernel_word_sum(s.as_ptr(), s.len()) }
}

/// The first place of a mark, or the end, and how many places were tried.
#[repr(C)]
#[derive(Clone, Copy, Debug, PartialEq, Eq)]
pub struct Found {
    pub place: usize,
    pub tried: usize,
}

/// The first place of a mark, every place of its first byte tried; the end where it doesn't occur.
pub fn find_plain(mark: &[u8], s: &[u8]) -> usize {
    unsafe { c::kernel_find_plain(mark.as_ptr(), mark.len(), s.as_ptr(), s.len()) }
}

/// The same by a table of shifts. For a mark of no bytes, or of over 999, no place is counted.
pub fn find(mark: &[u8], s: &[u8]) -> Found {
    unsafe { c::kernel_find(mark.as_ptr(), mark.len(), s.as_ptr(), s.len()) }
}

/// The hash by which the index finds a serial number.
pub fn hash(serial: &[u8; 38]) -> u64 {
    unsafe { c::kernel_hash(serial.as_ptr(), serial.len()) }
}

/// The day number of a date; none where the bytes aren't one.
pub fn day(date: &[u8]) -> Option<u32> {
    let number = unsafe { c::kernel_day(date.as_ptr(), date.len()) };
    (number > 0).then_some(number)
}
