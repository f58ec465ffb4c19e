//! Chunks with nothing special about them, and files of very many empty ones, which differ in serial number and sum alone, or in
//! what their one dependency names, in their sub-format and in their writing date too.

use plain::{field, Reading, Serial};

use crate::both::Run;
use crate::build::{filled, Chunk, Closing, Contents, File, Times};
use crate::generate::{with_check, MULTI_CHUNK, RELATIONS};
use crate::random::Random;
use crate::relations::text;

pub fn closing(serial: Serial) -> Closing {
    Closing {
        serial,
        recorded: *b"20240229",
        recorder: b"RECORDER".to_vec(),
        written: *b"20240301",
        writer: b"WRITER".to_vec(),
        sum_off: 0,
    }
}

pub fn times() -> Times {
    Times {
        synch: *b"GEN",
        standard: *b"UTC",
        alternate: [b' '; 38],
        offset: *b"+0000      8.035",
        value: 80_350_000_000,
        event: *b"NUL",
        linked: [b' '; 38],
    }
}

pub fn chunk(serial: Serial, contents: Contents) -> Chunk {
    let multi = matches!(contents, Contents::Multi(..));
    Chunk {
        sub_format: if multi { MULTI_CHUNK.to_vec() } else { b"ADS\\DATA\\TEST".to_vec() },
        generic: *b"TXT",
        times: times(),
        dependencies: Vec::new(),
        specific: Vec::new(),
        contents,
        closing: closing(serial),
    }
}

/// Serial numbers that count: a millisecond and one of the random number from row to row.
pub fn counted(count: usize) -> Vec<Serial> {
    let of = |row: usize| {
        let (seconds, milliseconds, random) = (row / 1000, row % 1000, row % 65536);
        let (hour, minute, second) = (seconds / 3600, seconds / 60 % 60, seconds % 60);
        let first = format!("#20240229{hour:02}{minute:02}{second:02}{milliseconds:03}SURVEYDESK01{random:05}");
        with_check(first.into_bytes().try_into().expect("35 bytes"))
    };
    (0..count).map(of).collect()
}

/// Serial numbers of any time, processor and random number. There are so many processors that none repeats.
pub fn random(count: usize) -> Vec<Serial> {
    let mut random = Random::new(0, "random serial numbers", 0);
    (0..count).map(|_| random_serial(&mut random)).collect()
}

pub fn random_serial(random: &mut Random) -> Serial {
    let mut first = *b"#20240229hhmmssmmmPROCESSOR...12345";
    for (at, below, width) in [(9, 24, 2), (11, 60, 2), (13, 60, 2), (15, 1000, 3), (30, 65536, 5)] {
        put(&mut first[at..at + width], random.below(below));
    }
    for byte in &mut first[18..30] {
        *byte = random.between(32, 126) as u8;
    }
    with_check(first)
}

/// A number in digits, with zeros in front.
pub fn put(digits: &mut [u8], mut number: usize) {
    for digit in digits.iter_mut().rev() {
        *digit = b'0' + (number % 10) as u8;
        number /= 10;
    }
}

/// A serial number that no file here has.
pub const MISSING: Serial = *b"#19990101000000000SURVEYDESK0165535239";

/// A file of empty chunks under LLC000, one for each serial number, with good sums.
pub struct Many {
    pub bytes: Vec<u8>,
    pub header: usize,
    /// The chunk under a serial number of zero bytes; a dependency's is that, too.
    blank: Vec<u8>,
}

impl Many {
    /// Bytes of a chunk without dependencies.
    pub const CHUNK: usize = 856;
    /// Where a chunk has its sub-format, and the serial number of its dependency.
    const NAME: usize = 46;
    const PARENT: usize = 568 + 25;

    pub fn of(serials: &[Serial]) -> Self {
        let many = Many::like(&chunk([0; 38], Contents::Counted(Vec::new())), serials);
        assert_eq!(many.blank.len(), Self::CHUNK);
        many
    }

    /// Each chunk has one dependency, on the row with this number; on none where there is no such row.
    pub fn depending(serials: &[Serial], parent: impl Fn(usize) -> usize) -> Self {
        let mut blank = chunk([0; 38], Contents::Counted(Vec::new()));
        blank.dependencies = vec![([0; 38], blank.sub_format.clone())];
        let mut many = Many::like(&blank, serials);
        for row in 0..serials.len() {
            many.depend(row, serials.get(parent(row)).unwrap_or(&MISSING));
        }
        many
    }

    /// Relation chunks, each with the heading alone.
    pub fn relations(serials: &[Serial]) -> Self {
        let mut blank = chunk([0; 38], Contents::Counted(text(&[])));
        blank.sub_format = RELATIONS.to_vec();
        Many::like(&blank, serials)
    }

    fn like(blank: &Chunk, serials: &[Serial]) -> Self {
        let mut file = File::new(false, b"", &closing(counted(1)[0]));
        file.push(blank);
        let blank = file.bytes.split_off(file.header_end);
        let mut many = Many { bytes: file.bytes, header: file.header_end, blank };
        many.bytes.reserve_exact((serials.len() + 3) * many.blank.len());
        for serial in serials {
            many.push(serial);
        }
        many
    }

    pub fn push(&mut self, serial: &Serial) {
        self.bytes.extend(&self.blank);
        self.set(self.chunks() - 1, serial);
    }

    /// Takes the chunks from a row on away.
    pub fn truncate(&mut self, row: usize) {
        self.bytes.truncate(self.place(row));
    }

    pub fn chunks(&self) -> usize {
        (self.bytes.len() - self.header) / self.blank.len()
    }

    /// Where the chunk of a row begins.
    pub fn place(&self, row: usize) -> usize {
        self.header + row * self.blank.len()
    }

    /// Where a chunk has its serial number.
    fn serial_at(&self) -> usize {
        self.blank.len() - 254 + 20
    }

    pub fn serial(&self, row: usize) -> Serial {
        let at = self.place(row) + self.serial_at();
        self.bytes[at..at + 38].try_into().expect("38 bytes")
    }

    /// Gives a row another serial number.
    pub fn set(&mut self, row: usize, serial: &Serial) {
        self.change(row, self.serial_at(), serial);
    }

    /// Gives a row's dependency another serial number.
    pub fn depend(&mut self, row: usize, parent: &Serial) {
        self.change(row, Self::PARENT, parent);
    }

    /// Gives a row another sub-format.
    pub fn rename(&mut self, row: usize, sub_format: &[u8]) {
        self.change(row, Self::NAME, &filled(sub_format, 256));
    }

    /// Gives a row another writing date.
    pub fn date(&mut self, row: usize, written: &[u8; 8]) {
        self.change(row, self.blank.len() - 254 + 163, written);
    }

    /// Puts other bytes at a place of a row's chunk, and the sum that belongs to it.
    fn change(&mut self, row: usize, at: usize, bytes: &[u8]) {
        let place = self.place(row);
        let chunk = &mut self.bytes[place..place + self.blank.len()];
        let was = field::sum(&chunk[at..][..bytes.len()]);
        chunk[at..][..bytes.len()].copy_from_slice(bytes);
        let digits = chunk.len() - 4..chunk.len() - 1;
        let sum = field::number(&chunk[digits.clone()]).expect("three digits") as u8;
        put(&mut chunk[digits], usize::from(sum.wrapping_sub(was).wrapping_add(field::sum(bytes))));
    }

    /// So many bytes are read by both into a table of so many rows: up to that row, and there they stop with that number.
    pub fn stops(&self, bytes: usize, room: usize, row: usize, number: u8) {
        let (reading, rows) = Run::new(0).read(&self.bytes[..bytes], room);
        assert_eq!(
            reading,
            Reading { count: row, stop: self.place(row), good: true, number },
            "{bytes} bytes, {room} rows"
        );
        assert!(rows.iter().enumerate().all(|(row, of)| of.serial == self.serial(row) && of.good));
    }

    /// The whole file, with a row more than it has chunks.
    pub fn stops_at(&self, row: usize, number: u8) {
        self.stops(self.bytes.len(), self.chunks() + 1, row, number);
    }
}
