//! Files built field by field. Where each field stands and of what kind it is is kept, so that it can be damaged, and the
//! rows that a right reading gives are kept beside the bytes.

use plain::{Ending, Row, Serial};

use crate::random::Random;

#[derive(Clone, Copy, Debug, PartialEq, Eq)]
pub enum Kind {
    Title,
    FirstMark,
    Mark,
    /// The first mark behind open data.
    OpenMark,
    Label,
    MiniLabel,
    Lf,
    Word,
    Text,
    Date,
    Serial,
    /// The serial number of a chunk's own integrity data.
    OwnSerial,
    Offset,
    Free,
    Data,
    HeaderLength,
    DependencyLength,
    DependencyCount,
    ContentLength,
    MultiLength,
    TypeCount,
    SubTypeLength,
    ShortId,
    MiniId,
    MiniLength,
    Checksum,
}

#[derive(Clone, Copy, Debug)]
pub struct Span {
    pub kind: Kind,
    pub start: usize,
    pub end: usize,
}

/// The fields of integrity data; the sum stated is the right one plus `sum_off`.
#[derive(Clone)]
pub struct Closing {
    pub serial: Serial,
    pub recorded: [u8; 8],
    pub recorder: Vec<u8>,
    pub written: [u8; 8],
    pub writer: Vec<u8>,
    pub sum_off: u8,
}

/// The four time and event lines; `value` is the offset's value.
#[derive(Clone)]
pub struct Times {
    pub synch: [u8; 3],
    pub standard: [u8; 3],
    pub alternate: Serial,
    pub offset: [u8; 16],
    pub value: i64,
    pub event: [u8; 3],
    pub linked: Serial,
}

#[derive(Clone)]
pub struct Type {
    pub sub_format: Vec<u8>,
    pub id: [u8; 10],
    pub times: Times,
    pub specific: Vec<u8>,
}

#[derive(Clone)]
pub enum Contents {
    Counted(Vec<u8>),
    Open(Vec<u8>),
    /// Types, and mini-chunks as the number of a type and data.
    Multi(Vec<Type>, Vec<(usize, Vec<u8>)>),
}

#[derive(Clone)]
pub struct Chunk {
    pub sub_format: Vec<u8>,
    pub generic: [u8; 3],
    pub times: Times,
    pub dependencies: Vec<(Serial, Vec<u8>)>,
    pub specific: Vec<u8>,
    pub contents: Contents,
    pub closing: Closing,
}

#[derive(Clone, Default)]
pub struct File {
    pub bytes: Vec<u8>,
    pub spans: Vec<Span>,
    pub rows: Vec<Row>,
    pub sub_formats: Vec<Vec<u8>>,
    pub mark: Vec<u8>,
    pub nul: bool,
    pub header_end: usize,
    pub header_good: bool,
    /// How lengths, counts and checks get spaces in front; without it numbers are filled with zeros, and serial numbers
    /// stand as they are given.
    padding: Option<Random>,
}

impl File {
    pub fn new(nul: bool, mark: &[u8], closing: &Closing) -> Self {
        File::start(nul, mark, closing, None)
    }

    /// Every number that may have spaces in front has as many as `random` says, down to its last digit.
    pub fn padded(nul: bool, mark: &[u8], closing: &Closing, random: Random) -> Self {
        File::start(nul, mark, closing, Some(random))
    }

    fn start(nul: bool, mark: &[u8], closing: &Closing, padding: Option<Random>) -> Self {
        let mut file = File { mark: mark.to_vec(), nul, padding, ..File::default() };
        let mut title = b"Format_ID=Ancillary Data Standard 1.00\nSeparator_Strategy=".to_vec();
        title.extend(if nul { b"NUL" } else { b"LLC" });
        title.extend(file.number(mark.len(), 3));
        title.push(b'\n');
        file.field(Kind::Title, &title);
        file.header_good = file.closing(0, Kind::FirstMark, closing, Kind::Serial);
        file.header_end = file.bytes.len();
        file
    }

    fn field(&mut self, kind: Kind, bytes: &[u8]) {
        let start = self.bytes.len();
        self.bytes.extend(bytes);
        let end = self.bytes.len();
        self.spans.push(Span { kind, start, end });
    }

    fn line(&mut self, label: &str, kind: Kind, bytes: &[u8]) {
        self.field(Kind::Label, label.as_bytes());
        self.field(kind, bytes);
        self.field(Kind::Lf, b"\n");
    }

    /// A number in so many bytes.
    fn number(&mut self, value: usize, width: usize) -> Vec<u8> {
        let mut bytes = format!("{value:0width$}").into_bytes();
        if let Some(random) = &mut self.padding {
            pad(&mut bytes, random);
        }
        bytes
    }

    /// A serial number, its check written as the file writes numbers.
    fn serial(&mut self, serial: &Serial) -> Serial {
        let mut serial = *serial;
        if let Some(random) = &mut self.padding {
            pad(&mut serial[35..], random);
        }
        serial
    }

    fn number_line(&mut self, label: &str, kind: Kind, value: usize, width: usize) {
        let bytes = self.number(value, width);
        self.line(label, kind, &bytes);
    }

    fn length(&mut self, label: &str, kind: Kind, value: usize) {
        self.number_line(label, kind, value, 12);
    }

    fn word_line(&mut self, label: &str, word: &[u8; 3], serial: &Serial) {
        self.field(Kind::Label, label.as_bytes());
        self.field(Kind::Word, word);
        if [b"ALT", b"SLV", b"MAS"].contains(&word) {
            let serial = self.serial(serial);
            self.field(Kind::Serial, &serial);
        } else {
            self.field(Kind::Free, serial);
        }
        self.field(Kind::Lf, b"\n");
    }

    fn times(&mut self, times: &Times) {
        self.line("Chunk_Time_Synch_Type=", Kind::Word, &times.synch);
        self.word_line("Chunk_Time_Standard=", &times.standard, &times.alternate);
        self.line("Chunk_Time_Offset=", Kind::Offset, &times.offset);
        self.word_line("Chunk_Event_Synch=", &times.event, &times.linked);
    }

    /// Mark, integrity data summed from a place on, mark. Answers whether the sum is good.
    fn closing(&mut self, from: usize, first_mark: Kind, closing: &Closing, serial: Kind) -> bool {
        let mark = self.mark.clone();
        self.field(first_mark, &mark);
        let own = self.serial(&closing.serial);
        self.line("Chunk_Serial_Number=", serial, &own);
        self.line("Chunk_Recording_Date=", Kind::Date, &closing.recorded);
        self.line("Chunk_Recording_Agent=", Kind::Text, &filled(&closing.recorder, 32));
        self.line("Chunk_Writing_Date=", Kind::Date, &closing.written);
        self.line("Chunk_Writing_Agent=", Kind::Text, &filled(&closing.writer, 32));
        self.field(Kind::Label, b"Chunk_Integrity_Checksum=");
        let sum: u64 = self.bytes[from..].iter().map(|&byte| u64::from(byte)).sum();
        let stated = self.number(((sum + u64::from(closing.sum_off)) % 256) as usize, 3);
        self.field(Kind::Checksum, &stated);
        self.field(Kind::Lf, b"\n");
        self.field(Kind::Mark, &mark);
        closing.sum_off == 0
    }

    pub fn push(&mut self, chunk: &Chunk) {
        let place = self.bytes.len();
        let n = chunk.dependencies.len();
        let header = 568 + 344 * n + chunk.specific.len();
        self.length("Chunk_Header_Length=", Kind::HeaderLength, header - 32);
        self.line("SubFormat_ID=", Kind::Text, &filled(&chunk.sub_format, 256));
        self.line("Generic_Type=", Kind::Word, &chunk.generic);
        self.times(&chunk.times);
        self.length("Chunk_Dependency_Length=", Kind::DependencyLength, 29 + 344 * n);
        self.number_line("Chunk_Dependency_Count=", Kind::DependencyCount, n, 4);
        for (serial, sub_format) in &chunk.dependencies {
            let serial = self.serial(serial);
            self.line("Dependency_Serial_Number=", Kind::Serial, &serial);
            self.line("Dependency_SubFormatID=", Kind::Text, &filled(sub_format, 256));
        }
        self.field(Kind::Free, &chunk.specific);
        let (contents, ending) = self.contents(&chunk.contents);
        let end = self.bytes.len();
        let mark = if ending == Ending::Found { Kind::OpenMark } else { Kind::Mark };
        let good = self.closing(place, mark, &chunk.closing, Kind::OwnSerial);
        let serial = end + self.mark.len() + 20;
        let counts = chunk.times.synch == *b"GEN" && chunk.times.standard != *b"NUL";
        self.rows.push(Row {
            serial: self.bytes[serial..serial + 38].try_into().expect("38 bytes"),
            place,
            header,
            contents,
            bytes: end - contents,
            end: self.bytes.len(),
            dependencies: n,
            offset: if counts { chunk.times.value } else { 0 },
            multichunk: ending == Ending::ByMiniChunks,
            good,
            ending,
        });
        self.sub_formats.push(chunk.sub_format.clone());
    }

    /// Answers the contents place and how their end is to be found.
    fn contents(&mut self, contents: &Contents) -> (usize, Ending) {
        let (count, data, ending) = match contents {
            Contents::Counted(data) => (data.len() + 1, data, Ending::Counted),
            Contents::Open(data) => (0, data, Ending::Found),
            Contents::Multi(types, minis) => return (self.multi(types, minis), Ending::ByMiniChunks),
        };
        self.length("Chunk_Content_Length=", Kind::ContentLength, count);
        let place = self.bytes.len();
        self.field(Kind::Data, data);
        (place, ending)
    }

    fn multi(&mut self, types: &[Type], minis: &[(usize, Vec<u8>)]) -> usize {
        let place = self.bytes.len();
        let length: usize = types.iter().map(|of| 518 + of.specific.len()).sum();
        self.length("Multi_Chunk_Header_Length=", Kind::MultiLength, 27 + length);
        self.number_line("MiniChunk_Type_Count=", Kind::TypeCount, types.len(), 4);
        for of in types {
            self.length("SubType_Header_Length=", Kind::SubTypeLength, 484 + of.specific.len());
            self.line("SubFormat_ID=", Kind::Text, &filled(&of.sub_format, 256));
            self.line("SubFormat_Short_ID=", Kind::ShortId, &of.id);
            self.times(&of.times);
            self.field(Kind::Free, &of.specific);
        }
        for (of, data) in minis {
            self.field(Kind::MiniLabel, b"MiniChunk=");
            self.field(Kind::MiniId, &types[*of].id);
            let length = self.number(data.len(), 12);
            self.field(Kind::MiniLength, &length);
            self.field(Kind::Data, data);
        }
        place
    }
}

/// Spaces for some, all or none of the zeros in front; the last digit stays.
pub fn pad(digits: &mut [u8], random: &mut Random) {
    let zeros = zeros(digits);
    digits[..random.between(0, zeros)].fill(b' ');
}

/// Spaces for all of them.
pub fn spaces(digits: &mut [u8]) {
    let zeros = zeros(digits);
    digits[..zeros].fill(b' ');
}

fn zeros(digits: &[u8]) -> usize {
    digits[..digits.len() - 1].iter().take_while(|digit| b" 0".contains(digit)).count()
}

/// A text with spaces on its right.
pub fn filled(text: &[u8], width: usize) -> Vec<u8> {
    let mut text = text.to_vec();
    text.resize(width, b' ');
    text
}
