//! Bytes written one after another into a lent buffer that is long enough.

use crate::field::{self, day, is_text, padded, serial_day, Serial};

pub struct Writer<'b> {
    buffer: &'b mut [u8],
    at: usize,
}

impl<'b> Writer<'b> {
    pub fn new(buffer: &'b mut [u8]) -> Self {
        Writer { buffer, at: 0 }
    }

    pub fn put(&mut self, bytes: &[u8]) {
        self.buffer[self.at..][..bytes.len()].copy_from_slice(bytes);
        self.at += bytes.len();
    }

    pub fn line(&mut self, label: &[u8], field: &[u8]) {
        self.put(label);
        self.put(field);
        self.put(b"\n");
    }

    /// A label, a number of so many digits and LF.
    pub fn number(&mut self, label: &[u8], digits: usize, value: usize) {
        self.line(label, format!("{value:0digits$}").as_bytes());
    }

    /// "mark, integrity data, mark", the sum over all that was written.
    pub fn closing(&mut self, mark: &[u8], given: &Given) {
        self.put(mark);
        self.line(b"Chunk_Serial_Number=", &given.serial);
        self.line(b"Chunk_Recording_Date=", &given.recorded);
        self.line(b"Chunk_Recording_Agent=", &given.recorder);
        self.line(b"Chunk_Writing_Date=", &given.written);
        self.line(b"Chunk_Writing_Agent=", &given.writer);
        let label = b"Chunk_Integrity_Checksum=";
        let sum = field::sum(&self.buffer[..self.at]).wrapping_add(field::sum(label));
        self.number(label, 3, usize::from(sum));
        self.put(mark);
    }
}

/// The fields of integrity data but for the sum.
pub struct Given {
    serial: Serial,
    recorded: [u8; 8],
    recorder: [u8; 32],
    written: [u8; 8],
    writer: [u8; 32],
}

impl Given {
    /// None for a "field out of form or range" or "an over-long text".
    pub fn checked(
        serial: Serial,
        (recorded, recorder): ([u8; 8], &[u8]),
        (written, writer): ([u8; 8], &[u8]),
    ) -> Option<Self> {
        let (recorder, writer) = (padded(recorder)?, padded(writer)?);
        let days = [serial_day(&serial), day(&recorded), day(&written)];
        let good = days.iter().all(Option::is_some) && is_text(&recorder) && is_text(&writer);
        good.then_some(Given { serial, recorded, recorder, written, writer })
    }

    pub fn serial(&self) -> &Serial {
        &self.serial
    }
}
