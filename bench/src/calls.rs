//! The calls that are timed. Each is handed out as a closure that holds what it is lent.

use std::hint::black_box;

use compare::both::BLANK;
use compare::build::File;
use compare::ffi::{self, Table};
use plain::Row;

use crate::files;

pub fn proved_reading(file: &File) -> impl FnMut() + '_ {
    proved_rows(&file.bytes, file.rows.len())
}

pub fn plain_reading(file: &File) -> impl FnMut() + '_ {
    plain_rows(&file.bytes, file.rows.len())
}

/// A reading that must give so many rows.
pub fn proved_rows(bytes: &[u8], count: usize) -> impl FnMut() + '_ {
    let mut table = Table::new(count + 1);
    move || assert_eq!(black_box(ffi::read(black_box(bytes), &mut table)).count, count)
}

pub fn plain_rows(bytes: &[u8], count: usize) -> impl FnMut() + '_ {
    let mut rows: Vec<Row> = vec![BLANK; count + 1];
    move || assert_eq!(black_box(plain::read(black_box(bytes), &mut rows)).count, count)
}

pub fn proved_contents(bytes: &[u8], row: usize) -> impl FnMut() + '_ {
    move || assert_eq!(black_box(ffi::contents(black_box(bytes), row)).number, 0)
}

pub fn summed(file: &File) -> impl FnMut() + '_ {
    sum_of(plain::field::sum, &file.bytes)
}

pub fn sum_of(sum: fn(&[u8]) -> u8, bytes: &[u8]) -> impl FnMut() + '_ {
    move || {
        black_box(sum(black_box(bytes)));
    }
}

/// Sums of so many bytes, from sixteen starts in turns.
pub fn sums_of(sum: fn(&[u8]) -> u8, bytes: &[u8], length: usize, calls: usize) -> impl FnMut() + '_ {
    move || {
        for call in 0..calls {
            black_box(sum(black_box(&bytes[call % 16..][..length])));
        }
    }
}

pub fn copied_and_summed(from: &[u8], to: &mut [u8]) -> u8 {
    from.iter().zip(to).fold(0, |sum, (from, to)| {
        *to = *from;
        sum.wrapping_add(*from)
    })
}

/// The mark sought behind each content length line by its first byte, 64 bytes at a time: what a search for one byte can do.
pub fn searched(file: &File) -> impl FnMut() + '_ {
    let found: usize = file.rows.iter().map(|row| row.bytes).sum();
    move || {
        let rest = |row: &Row| &black_box(&file.bytes)[row.contents..];
        let sum: usize = file.rows.iter().map(|row| find_by_first(&file.mark, rest(row))).sum();
        assert_eq!(sum, found);
    }
}

fn find_by_first(mark: &[u8], bytes: &[u8]) -> usize {
    let mut from = 0;
    while let Some(on) = find_byte(mark[0], &bytes[from..]) {
        if bytes[from + on..].starts_with(mark) {
            return from + on;
        }
        from += on + 1;
    }
    bytes.len()
}

fn find_byte(byte: u8, bytes: &[u8]) -> Option<usize> {
    let here = |part: &[u8]| part.iter().position(|&other| other == byte);
    let mut stretches = bytes.chunks_exact(64);
    for (number, stretch) in (&mut stretches).enumerate() {
        if stretch.iter().fold(false, |has, &other| has | (other == byte)) {
            return here(stretch).map(|on| number * 64 + on);
        }
    }
    here(stretches.remainder()).map(|on| bytes.len() / 64 * 64 + on)
}

/// One of the proved searches over bytes in which the mark is not.
pub fn search_of<'a>(find: fn(&[u8], &[u8]) -> usize, mark: &'a [u8], bytes: &'a [u8]) -> impl FnMut() + 'a {
    move || assert_eq!(find(black_box(mark), black_box(bytes)), bytes.len())
}

/// The file in a buffer with room for one chunk more, of so many parents and bytes.
pub fn room_for(file: &File, parents: usize, bytes: usize) -> Vec<u8> {
    let mut buffer = file.bytes.clone();
    buffer.resize(file.bytes.len() + 568 + 344 * parents + 34 + bytes + 254, 0);
    buffer
}

/// The same description for both: the two types have methods of the same names.
macro_rules! described {
    ($description:ty) => {
        <$description>::new()
            .sub_format(b"ADS\\DATA\\TEST")
            .generic_type(*b"TXT")
            .synch_type(*b"GEN")
            .time_standard(*b"UTC")
            .time_offset(*b"+0000      8.035")
            .event_synch(*b"NUL")
            .serial_number(files::serial(888_888))
            .recording(*b"20240229", b"RECORDER")
            .writing(*b"20240301", b"WRITER")
    };
}

#[rustfmt::skip]
pub fn proved_append<'a>(buffer: &'a mut [u8], length: usize, parents: &'a [usize], data: &'a [u8]) -> impl FnMut() + 'a {
    let description = described!(ffi::Description);
    move || {
        let ends = ffi::append(black_box(&mut *buffer), length, description, parents, b"", data, false);
        assert_eq!(ends.number, 0);
    }
}

#[rustfmt::skip]
pub fn plain_append<'a>(buffer: &'a mut [u8], length: usize, parents: &'a [usize], data: &'a [u8]) -> impl FnMut() + 'a {
    let description = described!(plain::Description);
    move || assert!(plain::append(black_box(&mut *buffer), length, &description, parents, b"", data, false).is_ok())
}
