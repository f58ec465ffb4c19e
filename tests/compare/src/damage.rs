//! Damages: for each kind of field, every way in which it can be wrong that has its own number.

use crate::build::{spaces, Kind, Span};
use crate::generate::{otherwise, with_check};
use crate::random::Random;

/// A damage of one field: its name, the number that a reading must give if nothing else is wrong (none where it depends on
/// what follows), and what it does to the bytes.
#[derive(Clone, Copy)]
pub struct Way {
    pub name: &'static str,
    pub number: Option<u8>,
    pub apply: fn(&mut Vec<u8>, Span, &mut Random),
}

const fn way(name: &'static str, number: u8, apply: fn(&mut Vec<u8>, Span, &mut Random)) -> Way {
    Way { name, number: Some(number), apply }
}

const fn any(name: &'static str, apply: fn(&mut Vec<u8>, Span, &mut Random)) -> Way {
    Way { name, number: None, apply }
}

fn put(file: &mut [u8], span: Span, at: usize, bytes: &[u8]) {
    file[span.start + at..][..bytes.len()].copy_from_slice(bytes);
}

/// New digits of a serial number, with a right check.
fn serial(file: &mut [u8], span: Span, at: usize, bytes: &[u8]) {
    put(file, span, at, bytes);
    let field = &mut file[span.start..span.end];
    let checked = with_check(field[..35].try_into().expect("35 bytes"));
    field.copy_from_slice(&checked);
}

fn value(digits: &[u8]) -> i64 {
    String::from_utf8_lossy(digits).trim_start().parse().unwrap_or(0)
}

fn number(file: &mut [u8], span: Span, change: i64) {
    let value = value(&file[span.start..span.end]);
    let width = span.end - span.start;
    let value = format!("{:0width$}", (value + change).max(0));
    put(file, span, 0, &value.as_bytes()[value.len() - width..]);
}

/// In every field.
const ANYWHERE: &[Way] = &[
    any("the file ends before it", |f, s, _| f.truncate(s.start)),
    any("the file ends in it", |f, s, r| f.truncate(r.between(s.start, s.end))),
    any("the file ends before its last byte", |f, s, _| f.truncate((s.end - 1).max(s.start))),
    any("it is left out", |f, s, _| drop(f.drain(s.start..s.end))),
    any("it stands twice", |f, s, _| {
        let field = f[s.start..s.end].to_vec();
        f.splice(s.start..s.start, field);
    }),
    any("a byte before it", |f, s, r| f.insert(s.start, r.pick(b"\n 0#\0"))),
    any("zeros", |f, s, _| f[s.start..s.end].fill(0)),
    any("a bit", |f, s, r| {
        if s.end > s.start {
            f[r.between(s.start, s.end - 1)] ^= 1 << r.below(8);
        }
    }),
];

const TITLE: &[Way] = &[
    way("Format_ID", 1, |f, s, _| put(f, s, 0, b"f")),
    way("version", 1, |f, s, _| put(f, s, 37, b"1")),
    way("first LF", 1, |f, s, _| put(f, s, 38, b"\r")),
    way("second label", 1, |f, s, _| put(f, s, 57, b":")),
    way("strategy", 1, |f, s, _| put(f, s, 58, b"llc")),
    way("mark length of spaces", 1, |f, s, _| put(f, s, 61, b"   ")),
    way("mark length, a space behind", 1, |f, s, _| put(f, s, 63, b" ")),
    way("mark length, a space inside", 1, |f, s, _| put(f, s, 61, b"0 ")),
    way("mark length, a sign", 1, |f, s, r| put(f, s, 61, &[r.pick(b"+-")])),
    way("mark length, a tab", 1, |f, s, _| put(f, s, 61, b"\t")),
    way("mark length, spaces in front", 0, |f, s, _| spaces(&mut f[s.start + 61..s.start + 64])),
    way("last LF", 1, |f, s, _| put(f, s, 64, b" ")),
    way("any byte", 1, |f, s, r| f[s.start + r.below(58)] ^= 0x40),
    way("tape", 2, |f, s, r| put(f, s, 58, &r.pick(&[*b"NUL000", *b"NUL 00", *b"NUL  0"]))),
    any("LLC", |f, s, _| put(f, s, 58, b"LLC")),
    any("NUL", |f, s, _| put(f, s, 58, b"NUL")),
    any("longer mark", |f, s, r| put(f, s, 61 + r.below(3), b"9")),
];

const FIRST_MARK: &[Way] = &[any("begins MiniChunk=", |f, s, _| {
    let length = (s.end - s.start).min(10);
    put(f, s, 0, &b"MiniChunk="[..length]);
})];

/// Of at least one byte.
const SAME: &[Way] = &[
    way("first byte", 5, |f, s, _| f[s.start] ^= 0x20),
    way("last byte", 5, |f, s, _| f[s.end - 1] ^= 1),
    way("some byte", 5, |f, s, r| f[r.between(s.start, s.end - 1)] ^= 0x80),
];

/// A mini-chunk's label, and the first mark behind open data: what follows decides.
const ENDING: &[Way] =
    &[any("first byte", |f, s, _| f[s.start] ^= 0x20), any("last byte", |f, s, _| f[s.end - 1] ^= 1)];

const WORD: &[Way] = &[
    way("no word", 5, |f, s, _| put(f, s, 0, b"ABC")),
    way("small letters", 5, |f, s, _| f[s.start..s.end].make_ascii_lowercase()),
    way("spaces", 5, |f, s, _| put(f, s, 0, b"   ")),
    any("NUL", |f, s, _| put(f, s, 0, b"NUL")),
    any("ALT", |f, s, _| put(f, s, 0, b"ALT")),
    any("SLV", |f, s, _| put(f, s, 0, b"SLV")),
    any("MAS", |f, s, _| put(f, s, 0, b"MAS")),
    any("SPE", |f, s, _| put(f, s, 0, b"SPE")),
    any("BIN", |f, s, _| put(f, s, 0, b"BIN")),
];

const TEXT: &[Way] = &[
    way("byte 31", 6, |f, s, _| f[s.start] = 31),
    way("byte 127", 6, |f, s, _| f[s.end - 1] = 127),
    way("byte 128", 6, |f, s, r| f[r.between(s.start, s.end - 1)] = 128),
    way("LF", 6, |f, s, r| f[r.between(s.start, s.end - 1)] = 10),
    way("zero", 6, |f, s, _| f[s.end - 1] = 0),
    any("byte 126", |f, s, _| f[s.end - 1] = 126),
    any("MultiChunk", |f, s, _| {
        let length = (s.end - s.start).min(18);
        f[s.start..s.end].fill(b' ');
        put(f, s, 0, &b"ADS\\SYS\\MultiChunk"[..length]);
    }),
];

const DATE: &[Way] = &[
    way("year 0", 6, |f, s, _| put(f, s, 0, b"0000")),
    way("month 0", 6, |f, s, _| put(f, s, 4, b"00")),
    way("month 13", 6, |f, s, _| put(f, s, 4, b"13")),
    way("day 0", 6, |f, s, _| put(f, s, 6, b"00")),
    way("day 32", 6, |f, s, _| put(f, s, 6, b"32")),
    way("31 April", 6, |f, s, _| put(f, s, 4, b"0431")),
    way("29 February 2023", 6, |f, s, _| put(f, s, 0, b"20230229")),
    way("29 February 1900", 6, |f, s, _| put(f, s, 0, b"19000229")),
    way("no digit", 6, |f, s, r| f[s.start + r.below(8)] = b' '),
    way("no digit next to them", 6, |f, s, r| {
        let byte = r.pick(b"/:");
        f[s.start + r.below(8)] = byte;
    }),
];

const SERIAL: &[Way] = &[
    way("no #", 6, |f, s, _| serial(f, s, 0, b"$")),
    way("date", 6, |f, s, _| serial(f, s, 1, b"20230229")),
    way("hour 24", 6, |f, s, _| serial(f, s, 9, b"24")),
    way("minute 60", 6, |f, s, _| serial(f, s, 11, b"60")),
    way("second 60", 6, |f, s, _| serial(f, s, 13, b"60")),
    way("millisecond", 6, |f, s, _| serial(f, s, 15, b"1 3")),
    way("processor 31", 6, |f, s, _| serial(f, s, 18, &[31])),
    way("processor 127", 6, |f, s, _| serial(f, s, 29, &[127])),
    way("random 65536", 6, |f, s, _| serial(f, s, 30, b"65536")),
    way("random no digits", 6, |f, s, _| serial(f, s, 30, b"1234x")),
    way("random, a space in front", 6, |f, s, _| serial(f, s, 30, b" 0042")),
    way("hour, a space in front", 6, |f, s, _| serial(f, s, 9, b" 7")),
    way("check off by one", 6, |f, s, _| {
        let check = value(&f[s.end - 3..s.end]);
        put(f, s, 35, format!("{:03}", (check + 1) % 256).as_bytes());
    }),
    way("check 256 more", 6, |f, s, _| {
        let check = value(&f[s.end - 3..s.end]);
        put(f, s, 35, format!("{:03}", check + 256).as_bytes());
    }),
    way("check of spaces", 6, |f, s, _| put(f, s, 35, b"   ")),
    way("check, a space behind", 6, |f, s, _| put(f, s, 37, b" ")),
    way("check, a space inside", 6, |f, s, _| put(f, s, 35, b"0 ")),
    way("check, a tab", 6, |f, s, _| put(f, s, 35, b"\t")),
    way("check, spaces in front", 0, |f, s, _| spaces(&mut f[s.end - 3..s.end])),
    any("random 65535", |f, s, _| serial(f, s, 30, b"65535")),
];

/// The serial number of an earlier chunk, where there is one.
fn earlier(file: &mut [u8], span: Span) {
    let label = b"Chunk_Serial_Number=";
    let mut places = (0..span.start - label.len()).rev().filter(|&at| file[at..].starts_with(label));
    if let Some(at) = places.next() {
        let earlier = file[at + label.len()..][..38].to_vec();
        put(file, span, 0, &earlier);
    }
}

const OWN_SERIAL: &[Way] = &[
    any("an earlier one", |f, s, _| earlier(f, s)),
    any("an earlier one, its check written otherwise", |f, s, _| {
        earlier(f, s);
        let other = otherwise(f[s.start..s.end].try_into().expect("38 bytes"));
        put(f, s, 0, &other);
    }),
];

const OFFSET: &[Way] = &[
    way("sign", 6, |f, s, _| put(f, s, 0, b" ")),
    way("hours 24", 6, |f, s, _| put(f, s, 1, b"24")),
    way("hours no digits", 6, |f, s, _| put(f, s, 1, b" 1")),
    way("minutes 60", 6, |f, s, _| put(f, s, 3, b"60")),
    way("seconds 60", 6, |f, s, _| put(f, s, 5, b"60         ")),
    way("seconds 99999999999", 6, |f, s, _| put(f, s, 5, b"99999999999")),
    way("one point", 6, |f, s, _| put(f, s, 5, b"     .     ")),
    way("two points", 6, |f, s, _| put(f, s, 5, b"    1.2.3  ")),
    way("spaces", 6, |f, s, _| put(f, s, 5, b"           ")),
    way("space inside", 6, |f, s, _| put(f, s, 5, b"    1 2    ")),
    way("minus inside", 6, |f, s, _| put(f, s, 5, b"       -1.0")),
    way("a tab", 6, |f, s, _| put(f, s, 5, b"\t        1")),
    any("59.99999999", |f, s, _| put(f, s, 5, b"59.99999999")),
    any("60.00000000", |f, s, _| put(f, s, 5, b"60.00000000")),
    any("minus zero", |f, s, _| put(f, s, 0, b"-0000         .0")),
];

const DIGITS: &[Way] = &[
    way("spaces in front", 0, |f, s, _| spaces(&mut f[s.start..s.end])),
    way("spaces only", 6, |f, s, _| f[s.start..s.end].fill(b' ')),
    way("a space behind", 6, |f, s, _| f[s.end - 1] = b' '),
    way("a space inside", 6, |f, s, _| put(f, s, s.end - s.start - 3, b"0 ")),
    way("a sign", 6, |f, s, _| f[s.start] = b'+'),
    way("a sign behind spaces", 6, |f, s, r| {
        f[s.start..s.end - 1].fill(b' ');
        f[s.end - 2] = r.pick(b"+-");
    }),
    way("a tab", 6, |f, s, _| f[s.start] = b'\t'),
    way("no digit", 6, |f, s, r| {
        let byte = r.pick(b"/:\0x");
        f[r.between(s.start, s.end - 1)] = byte;
    }),
];

const LENGTH: &[Way] = &[
    any("0", |f, s, _| f[s.start..s.end].fill(b'0')),
    any("1", |f, s, _| put(f, s, 0, b"000000000001")),
    any("one less", |f, s, _| number(f, s, -1)),
    any("one more", |f, s, _| number(f, s, 1)),
    any("one dependency less", |f, s, _| number(f, s, -344)),
    any("one dependency more", |f, s, _| number(f, s, 344)),
    any("34 more", |f, s, _| number(f, s, 34)),
    any("999999999999", |f, s, _| f[s.start..s.end].fill(b'9')),
    any("2 to the 32 more", |f, s, _| number(f, s, 1 << 32)),
];

const DEPENDENCY_LENGTH: &[Way] = &[
    way("one less", 7, |f, s, _| number(f, s, -1)),
    way("one more", 7, |f, s, _| number(f, s, 1)),
    way("999999999999", 7, |f, s, _| f[s.start..s.end].fill(b'9')),
];

const COUNT: &[Way] = &[
    way("one more", 7, |f, s, _| number(f, s, 1)),
    way("9999", 7, |f, s, _| put(f, s, 0, b"9999")),
    any("0", |f, s, _| put(f, s, 0, b"0000")),
    any("one less", |f, s, _| number(f, s, -1)),
];

const TYPE_COUNT: &[Way] = &[
    way("0", 7, |f, s, _| put(f, s, 0, b"0000")),
    way("65", 7, |f, s, _| put(f, s, 0, b"0065")),
    way("9999", 7, |f, s, _| put(f, s, 0, b"9999")),
    any("one more", |f, s, _| number(f, s, 1)),
    any("one less", |f, s, _| number(f, s, -1)),
    any("64", |f, s, _| put(f, s, 0, b"0064")),
];

const MULTI_LENGTH: &[Way] = &[
    way("one less", 7, |f, s, _| number(f, s, -1)),
    way("one more", 7, |f, s, _| number(f, s, 1)),
    way("0", 7, |f, s, _| f[s.start..s.end].fill(b'0')),
    way("999999999999", 7, |f, s, _| f[s.start..s.end].fill(b'9')),
];

const SUB_TYPE_LENGTH: &[Way] =
    &[way("483", 7, |f, s, _| put(f, s, 0, b"000000000483")), way("0", 7, |f, s, _| f[s.start..s.end].fill(b'0'))];

const SHORT_ID: &[Way] = &[any("the one before", |f, s, _| {
    let label = b"SubFormat_Short_ID=";
    let mut places = (0..s.start - label.len()).rev().filter(|&at| f[at..].starts_with(label));
    if let Some(at) = places.next() {
        let before = f[at + label.len()..][..10].to_vec();
        put(f, s, 0, &before);
    }
})];

const MINI_ID: &[Way] = &[way("undeclared", 8, |f, s, _| put(f, s, 0, b"?undeclar?"))];

const CHECKSUM: &[Way] = &[
    way("256", 6, |f, s, _| put(f, s, 0, b"256")),
    way("999", 6, |f, s, _| put(f, s, 0, b"999")),
    way("another", 0, |f, s, _| {
        let sum = value(&f[s.start..s.end]);
        put(f, s, 0, format!("{:03}", (sum + 1) % 256).as_bytes());
    }),
    way("255", 0, |f, s, _| put(f, s, 0, b"255")),
];

/// The ways of a field's own kind.
pub fn own_ways(span: Span) -> impl Iterator<Item = &'static Way> {
    let own: &'static [&'static [Way]] = match span.kind {
        Kind::Title => &[TITLE],
        Kind::FirstMark => &[FIRST_MARK, SAME],
        Kind::Mark | Kind::Label | Kind::Lf => &[SAME],
        Kind::MiniLabel | Kind::OpenMark => &[ENDING],
        Kind::Word => &[WORD],
        Kind::Text => &[TEXT],
        Kind::Date => &[DATE],
        Kind::Serial => &[SERIAL],
        Kind::OwnSerial => &[SERIAL, OWN_SERIAL],
        Kind::Offset => &[OFFSET],
        Kind::Free | Kind::Data => &[],
        Kind::HeaderLength | Kind::ContentLength | Kind::MiniLength => &[DIGITS, LENGTH],
        Kind::DependencyLength => &[DIGITS, DEPENDENCY_LENGTH, LENGTH],
        Kind::DependencyCount => &[DIGITS, COUNT],
        Kind::MultiLength => &[DIGITS, MULTI_LENGTH, LENGTH],
        Kind::TypeCount => &[DIGITS, TYPE_COUNT],
        Kind::SubTypeLength => &[DIGITS, SUB_TYPE_LENGTH, LENGTH],
        Kind::ShortId => &[TEXT, SHORT_ID],
        Kind::MiniId => &[TEXT, MINI_ID],
        Kind::Checksum => &[DIGITS, CHECKSUM],
    };
    let empty = span.end == span.start;
    own.iter().filter(move |_| !empty).flat_map(|ways| ways.iter())
}

/// The ways of a field's own kind, and those of every field.
pub fn ways(span: Span) -> Vec<Way> {
    own_ways(span).chain(ANYWHERE).copied().collect()
}
