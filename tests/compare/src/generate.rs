//! Valid files of every kind.

use plain::Serial;

use crate::build::{pad, spaces, Chunk, Closing, Contents, File, Times, Type};
use crate::random::Random;

pub const MULTI_CHUNK: &[u8] = b"ADS\\SYS\\MultiChunk";
pub const RELATIONS: &[u8] = b"ADS\\SYS\\Relations";

/// A serial number, its check now and then with spaces in front.
pub fn serial(random: &mut Random) -> Serial {
    let processor: Vec<u8> = match random.below(3) {
        0 => b"SURVEYDESK01".to_vec(),
        1 => random.text(12),
        _ => b"            ".to_vec(),
    };
    let mut bytes = vec![b'#'];
    bytes.extend(date(random));
    bytes.extend(
        format!("{:02}{:02}{:02}{:03}", random.below(24), random.below(60), random.below(60), random.below(1000))
            .bytes(),
    );
    bytes.extend(processor);
    let number = if random.one_in(8) { 65535 } else { random.below(65536) };
    bytes.extend(format!("{number:05}").bytes());
    let mut serial = with_check(bytes.try_into().expect("35 bytes"));
    if random.one_in(4) {
        pad(&mut serial[35..], random);
    }
    serial
}

/// The first 35 bytes and their check.
pub fn with_check(first: [u8; 35]) -> Serial {
    let sum: u32 = first.iter().map(|&byte| u32::from(byte)).sum();
    let mut serial = [0; 38];
    serial[..35].copy_from_slice(&first);
    serial[35..].copy_from_slice(format!("{:03}", sum % 256).as_bytes());
    serial
}

/// "serials are compared by their first 35 bytes"
pub fn same_serial(a: &[u8], b: &[u8]) -> bool {
    a[..35] == b[..35]
}

/// The same serial number with its check written otherwise, where that is below 100: spaces for zeros, or zeros for spaces.
pub fn otherwise(serial: &Serial) -> Serial {
    let mut other = with_check(serial[..35].try_into().expect("35 bytes"));
    if other == *serial {
        spaces(&mut other[35..]);
    }
    other
}

pub fn date(random: &mut Random) -> [u8; 8] {
    let fixed = [*b"20240229", *b"20000229", *b"00010101", *b"99991231", *b"19000228"];
    if random.one_in(3) {
        return random.pick(&fixed);
    }
    let text = format!("{:04}{:02}{:02}", random.between(1, 9999), random.between(1, 12), random.between(1, 28));
    text.into_bytes().try_into().expect("8 bytes")
}

/// An offset of any form, and its value.
pub fn offset(random: &mut Random) -> ([u8; 16], i64) {
    let (hours, minutes) = (random.below(24), random.below(60));
    let whole = random.between(0, 59);
    let digits = random.between(0, 10);
    let fraction: String = (0..digits).map(|_| (b'0' + random.below(10) as u8) as char).collect();
    let mut core = match random.below(4) {
        0 => format!("{whole}"),
        1 => format!("{whole:02}."),
        _ => format!("{whole}.{fraction}"),
    };
    if random.one_in(6) {
        core = format!(".{fraction}0");
    }
    if random.one_in(6) {
        core = format!("{core:0>11}");
    }
    core.truncate(11);
    let left = random.between(0, 11 - core.len());
    let text = format!("{:left$}{core}", "");
    let minus = random.one_in(2);
    let bytes = format!("{}{hours:02}{minutes:02}{text:11}", if minus { '-' } else { '+' });
    let (whole, fraction) = core.split_once('.').unwrap_or((&core, ""));
    let whole: i64 = if whole.is_empty() { 0 } else { whole.parse().expect("digits") };
    let fraction: i64 = format!("{fraction:0<10}").parse().expect("digits");
    let seconds = hours as i64 * 3600 + minutes as i64 * 60 + whole;
    let value = seconds * 10_000_000_000 + fraction;
    (bytes.into_bytes().try_into().expect("16 bytes"), if minus { -value } else { value })
}

fn linked(random: &mut Random, needed: bool) -> Serial {
    match (needed, random.below(3)) {
        (true, _) | (false, 0) => serial(random),
        (false, 1) => [b' '; 38],
        (false, _) => random.bytes(38).try_into().expect("38 bytes"),
    }
}

pub fn times(random: &mut Random) -> Times {
    let standard = random.pick(&[*b"UTC", *b"NUL", *b"ALT"]);
    let event = random.pick(&[*b"NUL", *b"SLV", *b"MAS"]);
    let (offset, value) = offset(random);
    Times {
        synch: random.pick(&[*b"GEN", *b"SPE"]),
        standard,
        alternate: linked(random, standard == *b"ALT"),
        offset,
        value,
        event,
        linked: linked(random, event != *b"NUL"),
    }
}

pub fn text(random: &mut Random, longest: usize) -> Vec<u8> {
    let length = match random.below(5) {
        0 => 0,
        1 => longest,
        _ => random.between(0, longest.min(20)),
    };
    random.text(length)
}

/// A sub-format, never the MultiChunk's, but often like it.
pub fn sub_format(random: &mut Random) -> Vec<u8> {
    match random.below(8) {
        0 => b"ADS\\SYS\\MultiChunk2".to_vec(),
        1 => b" ADS\\SYS\\MultiChunk".to_vec(),
        2 => b"ADS\\SYS\\MULTICHUNK".to_vec(),
        3 | 4 => b"ADS\\DATA\\TEST".to_vec(),
        _ => text(random, 256),
    }
}

pub fn closing(random: &mut Random) -> Closing {
    Closing {
        serial: serial(random),
        recorded: date(random),
        recorder: text(random, 32),
        written: date(random),
        writer: text(random, 32),
        sum_off: if random.one_in(4) { random.below(256) as u8 } else { 0 },
    }
}

/// A mark of so many bytes, free of "MiniChunk=" at its start.
pub fn mark_of(random: &mut Random, length: usize) -> Vec<u8> {
    let mut mark = match random.below(6) {
        0 => random.bytes(length),
        1 => random.few_letters(length),
        2 => b"AB".iter().cycle().take(length).copied().collect(),
        3 => b"Chunk_Serial_Number=#\n0".iter().cycle().take(length).copied().collect(),
        4 => random.pick(&[b"xMiniChunk=", b"MiniChunk-="]).iter().cycle().take(length).copied().collect(),
        _ => vec![random.pick(b"\n=0 C\0"); length],
    };
    if mark.starts_with(b"MiniChunk=") {
        mark[0] = b'm';
    }
    mark
}

pub fn mark(random: &mut Random, nul: bool) -> Vec<u8> {
    let least = usize::from(nul);
    let length = match random.below(10) {
        0 => 999,
        1 => random.between(least, 999),
        2 => 90,
        3 | 4 => least,
        _ => random.between(least, 12),
    };
    mark_of(random, length)
}

/// Data in which, with the mark behind them, the mark first occurs at their end.
pub fn open_data(random: &mut Random, mark: &[u8]) -> Vec<u8> {
    let mut data = data(random, mark);
    let joined = [&data[..], mark].concat();
    let first = joined.windows(mark.len()).position(|part| part == mark);
    data.truncate(first.expect("the mark stands at the end"));
    data
}

/// Data of any kind, often with the mark or its beginning in them.
pub fn data(random: &mut Random, mark: &[u8]) -> Vec<u8> {
    let length = random.pick(&[0, 1, 2, 3, 7, 30, 200]);
    match random.below(5) {
        0 => random.bytes(length),
        1 => random.few_letters(length),
        2 => mark.iter().cycle().take(if mark.is_empty() { 0 } else { length }).copied().collect(),
        3 => [&random.few_letters(length)[..], &mark[..mark.len() / 2]].concat(),
        _ => b"MiniChunk=\nChunk_Serial_Number=".iter().cycle().take(length).copied().collect(),
    }
}

/// Bytes of the so many letters from A on; of 256 letters these are all bytes.
pub fn letters(random: &mut Random, count: usize, length: usize) -> Vec<u8> {
    (0..length).map(|_| b'A'.wrapping_add(random.below(count) as u8)).collect()
}

/// Data of so many letters with the mark in them: whole, either part of it, and with a byte changed.
pub fn with_marks(random: &mut Random, mark: &[u8], count: usize, length: usize) -> Vec<u8> {
    let mut data = Vec::new();
    while data.len() < length {
        let cut = random.below(mark.len() + 1);
        match random.below(8) {
            0 => data.extend(mark),
            1 => data.extend(&mark[..cut]),
            2 => data.extend(&mark[cut..]),
            3 => {
                let at = data.len() + random.below(mark.len());
                data.extend(mark);
                data[at] ^= random.pick(&[1, 3, 0x80]);
            }
            _ => {
                let length = random.between(1, 2 * mark.len() + 70);
                data.extend(letters(random, count, length));
            }
        }
    }
    data.truncate(length);
    data
}

fn types(random: &mut Random, count: usize) -> Vec<Type> {
    let same = random.text(6);
    (0..count)
        .map(|number| {
            let id = match random.below(2) {
                0 => format!("{number:<10}").into_bytes(),
                _ => [&same[..], format!("{number:4}").as_bytes()].concat(),
            };
            Type {
                sub_format: if random.one_in(5) { MULTI_CHUNK.to_vec() } else { text(random, 256) },
                id: id.try_into().expect("10 bytes"),
                times: times(random),
                specific: if random.one_in(3) { data(random, b"") } else { Vec::new() },
            }
        })
        .collect()
}

pub fn multi(random: &mut Random) -> Contents {
    let count = match random.below(12) {
        0 => 64,
        1 => random.between(1, 64),
        _ => random.between(1, 4),
    };
    let types = types(random, count);
    let minis = (0..random.between(1, 6)).map(|_| (random.below(count), data(random, b""))).collect();
    Contents::Multi(types, minis)
}

/// One more chunk, its serial number new, for a file that may have dependencies on rows before, itself, later and none.
pub fn chunk(random: &mut Random, file: &File, later: &Serial) -> Chunk {
    let contents = match random.below(if file.nul { 6 } else { 4 }) {
        0 => multi(random),
        1..=3 => Contents::Counted(data(random, &file.mark)),
        _ => Contents::Open(open_data(random, &file.mark)),
    };
    let is_multi = matches!(contents, Contents::Multi(..));
    let sub_format = if is_multi { MULTI_CHUNK.to_vec() } else { sub_format(random) };
    let closing = closing(random);
    let count = random.pick(&[0, 0, 0, 0, 1, 1, 2, 5, 30]);
    let dependencies = (0..count)
        .map(|_| match random.below(4) {
            0 if !file.rows.is_empty() => {
                let row = random.below(file.rows.len());
                (file.rows[row].serial, file.sub_formats[row].clone())
            }
            1 => (closing.serial, sub_format.clone()),
            2 => (*later, text(random, 256)),
            _ => (serial(random), text(random, 256)),
        })
        .collect();
    Chunk {
        sub_format,
        generic: random.pick(&[*b"BIN", *b"TXT"]),
        times: times(random),
        dependencies,
        specific: if is_multi || random.one_in(2) { Vec::new() } else { data(random, &file.mark) },
        contents,
        closing,
    }
}

/// A valid file with so many chunks; in half of them, by chance, numbers have spaces in front.
pub fn file(random: &mut Random, nul: bool, chunks: usize) -> File {
    let mark = mark(random, nul);
    let first = closing(random);
    let mut file = match random.one_in(2) {
        true => File::padded(nul, &mark, &first, random.clone()),
        false => File::new(nul, &mark, &first),
    };
    let mut later = serial(random);
    for _ in 0..chunks {
        let mut next = chunk(random, &file, &later);
        if random.one_in(3) {
            next.closing.serial = later;
            later = serial(random);
        }
        if file.rows.iter().all(|row| !same_serial(&row.serial, &next.closing.serial)) {
            file.push(&next);
        }
    }
    file
}
