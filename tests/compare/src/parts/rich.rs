//! A file with something of everything: every field damaged in every way, every truncation, every byte set to zero.

use crate::both::Run;
use crate::build::{Chunk, Closing, Contents, File, Span, Times, Type};
use crate::damage::{ways, Way};
use crate::generate::{with_check, MULTI_CHUNK};
use crate::parts::look;
use crate::random::Random;

fn serial(number: u32) -> [u8; 38] {
    let first = format!("#20240229123456789SURVEYDESK01{number:05}");
    with_check(first.into_bytes().try_into().expect("35 bytes"))
}

fn closing(number: u32) -> Closing {
    Closing {
        serial: serial(number),
        recorded: *b"20240229",
        recorder: b"RECORDER".to_vec(),
        written: *b"20240301",
        writer: b"WRITER".to_vec(),
        sum_off: 0,
    }
}

fn times(standard: &[u8; 3], event: &[u8; 3]) -> Times {
    let free = [b' '; 38];
    Times {
        synch: *b"GEN",
        standard: *standard,
        alternate: if standard == b"ALT" { serial(100) } else { free },
        offset: *b"-0100      8.035",
        value: -36_080_350_000_000,
        event: *event,
        linked: if event == b"NUL" { free } else { serial(101) },
    }
}

/// Counted with dependencies and specific data, a MultiChunk, open (under NUL), empty, with a serial number on each line.
fn rich(nul: bool, mark: &[u8]) -> File {
    with_chunks(File::new(nul, mark, &closing(0)))
}

fn with_chunks(mut file: File) -> File {
    let test = b"ADS\\DATA\\TEST".to_vec();
    let plain = Chunk {
        sub_format: test.clone(),
        generic: *b"TXT",
        times: times(b"UTC", b"NUL"),
        dependencies: Vec::new(),
        specific: Vec::new(),
        contents: Contents::Counted(b"first".to_vec()),
        closing: closing(1),
    };
    file.push(&plain);
    let of = |id: &[u8; 10], standard, event, specific: &[u8]| Type {
        sub_format: b"ADS\\DATA\\DEPTH".to_vec(),
        id: *id,
        times: times(standard, event),
        specific: specific.to_vec(),
    };
    let types = vec![of(b"P1        ", b"ALT", b"NUL", b"specific\0"), of(b"P2        ", b"UTC", b"MAS", b"")];
    let minis = vec![(0, b"one".to_vec()), (1, Vec::new()), (0, b"three".to_vec()), (1, b"MiniChunk=".to_vec())];
    file.push(&Chunk {
        sub_format: MULTI_CHUNK.to_vec(),
        dependencies: vec![(serial(1), test.clone())],
        contents: Contents::Multi(types, minis),
        closing: closing(2),
        ..plain.clone()
    });
    let data = b"data with \0 and \n".to_vec();
    file.push(&Chunk {
        times: times(b"ALT", b"SLV"),
        dependencies: vec![(serial(4), b"later".to_vec()), (serial(99), b"missing".to_vec())],
        specific: b"specific\n\0data".to_vec(),
        contents: if file.nul { Contents::Open(data) } else { Contents::Counted(data) },
        closing: closing(3),
        ..plain.clone()
    });
    file.push(&Chunk {
        generic: *b"BIN",
        times: times(b"NUL", b"NUL"),
        contents: Contents::Counted(Vec::new()),
        closing: closing(4),
        ..plain
    });
    file
}

pub fn files() -> Vec<(&'static str, File)> {
    vec![
        ("LLC000", rich(false, b"")),
        ("LLC, a short mark", rich(false, b"=\n=")),
        ("NUL, ABAB", rich(true, b"ABAB")),
        ("NUL, a mark like a label", rich(true, b"Chunk_Serial_Number=#20\0")),
        ("NUL, spaces in front", with_chunks(File::padded(true, b"ABAB", &closing(0), Random::new(0, "spaces", 0)))),
    ]
}

pub fn run(run: &mut Run) {
    for (name, file) in files() {
        run.names = vec![name.to_string()];
        every_damage(run, &file);
        every_truncation(run, &file);
        every_zero(run, &file);
    }
}

fn every_damage(run: &mut Run, file: &File) {
    run.part = "every damage of a rich file";
    run.case = 0;
    each_damage(run, file, |run, random, bytes, span, way| {
        let (reading, _) = run.read(bytes, 5);
        let right = way.number.is_none_or(|number| number == reading.number);
        run.demand(right, &format!("{reading:?}, not number {:?}", way.number), bytes, span.start);
        look(run, random, bytes, reading.count);
    });
}

/// The file with each field damaged in each way, one at a time.
pub fn each_damage(run: &mut Run, file: &File, mut each: impl FnMut(&mut Run, &mut Random, &[u8], Span, Way)) {
    for &span in &file.spans {
        for way in ways(span) {
            run.case += 1;
            run.names.truncate(1);
            run.names.push(format!("{:?} at {}: {}", span.kind, span.start, way.name));
            let mut random = Random::new(run.seed, run.part, run.case);
            let mut bytes = file.bytes.clone();
            (way.apply)(&mut bytes, span, &mut random);
            each(run, &mut random, &bytes, span, way);
        }
    }
    run.names.truncate(1);
}

fn every_truncation(run: &mut Run, file: &File) {
    run.part = "every truncation of a rich file";
    // no bytes read with 0, too
    let whole: Vec<usize> = file.rows.iter().map(|row| row.end).chain([0, file.header_end]).collect();
    for length in 0..file.bytes.len() {
        run.case = length as u64;
        let mut random = Random::new(run.seed, run.part, run.case);
        let bytes = &file.bytes[..length];
        let (reading, _) = run.read(bytes, 5);
        let expected = if whole.contains(&length) { 0 } else { 4 };
        let mini_chunks = reading.count == 1;
        let right = reading.number == expected || mini_chunks && reading.number == 5;
        run.demand(right, &format!("{reading:?} of {length} bytes"), bytes, length);
        look(run, &mut random, bytes, reading.count);
        if length % 8 == 0 {
            let _ = run.listing(bytes, 1000);
        }
    }
}

fn every_zero(run: &mut Run, file: &File) {
    run.part = "every byte of a rich file set to zero";
    let mut bytes = file.bytes.clone();
    for place in 0..bytes.len() {
        run.case = place as u64;
        let mut random = Random::new(run.seed, run.part, run.case);
        let was = std::mem::replace(&mut bytes[place], 0);
        let (reading, _) = run.read(&bytes, random.pick(&[2, 5, 9]));
        look(run, &mut random, &bytes, reading.count);
        if place % 8 == 0 {
            let _ = run.listing(&bytes, 1000);
        }
        bytes[place] = was;
    }
}
