//! The files that are read.

use compare::build::{Contents, File, Type};
use compare::generate::with_check;
use compare::random::Random;
use compare::simple::{chunk, closing, times};
use plain::Serial;

pub const MIB: usize = 1 << 20;

pub fn serial(number: usize) -> Serial {
    let first = format!(
        "#20240229{:02}{:02}{:02}{:03}SURVEY{:06}{:05}",
        number / 3600 % 24,
        number / 60 % 60,
        number % 60,
        number % 1000,
        number,
        number % 65536
    );
    with_check(first.into_bytes().try_into().expect("35 bytes"))
}

fn header(nul: bool, mark: &[u8]) -> File {
    File::new(nul, mark, &closing(serial(999_999)))
}

/// So many counted chunks of so many bytes. The last one has these rows as parents.
pub fn counted(chunks: usize, bytes: usize, parents: &[usize]) -> File {
    with_counted(header(false, b""), chunks, bytes, parents)
}

/// So many empty chunks, with spaces in front of the numbers at random.
pub fn padded(chunks: usize) -> File {
    let random = Random::new(1, "padded", 0);
    with_counted(File::padded(false, b"", &closing(serial(999_999)), random), chunks, 0, &[])
}

fn with_counted(mut file: File, chunks: usize, bytes: usize, parents: &[usize]) -> File {
    let mut random = Random::new(1, "counted", 0);
    for number in 0..chunks {
        let mut chunk = chunk(serial(number), Contents::Counted(random.bytes(bytes)));
        if number + 1 == chunks {
            chunk.dependencies = parents.iter().map(|&row| (serial(row), chunk.sub_format.clone())).collect();
        }
        file.push(&chunk);
    }
    file
}

/// So many open chunks of so many bytes, with a mark of 90 bytes.
pub fn open(chunks: usize, bytes: usize) -> File {
    open_depending(chunks, bytes, |_| Vec::new())
}

/// The same, each with the dependencies that are given for its number.
pub fn open_depending(chunks: usize, bytes: usize, parents: impl Fn(usize) -> Vec<Serial>) -> File {
    let mut random = Random::new(1, "open", 0);
    let mark = random.text(90);
    let mut file = header(true, &mark);
    for number in 0..chunks {
        let mut chunk = chunk(serial(number), Contents::Open(random.bytes(bytes)));
        chunk.dependencies = parents(number).into_iter().map(|serial| (serial, chunk.sub_format.clone())).collect();
        file.push(&chunk);
    }
    file
}

/// Marks that are slow to search for, 90 bytes each, with data of so many bytes in which they are not.
pub fn hostile(bytes: usize) -> [(&'static str, Vec<u8>, Vec<u8>); 4] {
    let with = |at: usize| (0..90).map(|place| if place == at { b'B' } else { b'A' }).collect();
    let stars = (1..=bytes).map(|place| if place % 89 == 0 { b'X' } else { b'*' }).collect();
    let same = vec![b'A'; bytes];
    [
        ("90 stars in 88 and another", vec![b'*'; 90], stars),
        ("B, 89 A in A", with(0), same.clone()),
        ("A, B, 88 A in A", with(1), same.clone()),
        ("45 A, B, 44 A in A", with(45), same),
    ]
}

/// One MultiChunk with four types and so many mini-chunks of so many bytes.
pub fn multi(mini_chunks: usize, bytes: usize) -> File {
    let mut random = Random::new(1, "multi", 0);
    let types = (0..4)
        .map(|number| Type {
            sub_format: b"ADS\\DATA\\DEPTH".to_vec(),
            id: format!("{:<10}", format!("P{number}")).into_bytes().try_into().expect("10 bytes"),
            times: times(),
            specific: Vec::new(),
        })
        .collect();
    let minis = (0..mini_chunks).map(|number| (number % 4, random.bytes(bytes))).collect();
    let mut file = header(false, b"");
    file.push(&chunk(serial(0), Contents::Multi(types, minis)));
    file
}
