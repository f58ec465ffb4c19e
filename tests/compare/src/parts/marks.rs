//! Open chunks under marks of 1 to 999 bytes over one, two and all letters, in data with whole and half marks: read, cut short
//! around the last mark, and appended.

use crate::both::Run;
use crate::build::{Contents, File};
use crate::describe::Step;
use crate::generate;
use crate::parts::appends;
use crate::random::Random;

pub fn run(run: &mut Run, cases: u64) {
    run.part = "marks";
    for case in 0..cases {
        run.case = case;
        let mut random = Random::new(run.seed, run.part, case);
        let random = &mut random;
        let letters = [1, 2, 256][case as usize % 3];
        let length = match random.below(4) {
            0 => random.between(1, 999),
            1 => random.pick(&[1, 2, 7, 8, 9, 15, 16, 17, 90, 999]),
            _ => random.between(1, 100),
        };
        let mark = generate::letters(random, letters, length);
        run.names = vec![format!("mark of {length} over {letters} letters")];
        let file = read(run, random, &mark, letters);
        if !mark.contains(&0) {
            append(run, random, file, letters);
        }
    }
}

/// Where the mark first occurs in data and mark.
fn first(mark: &[u8], data: &[u8]) -> usize {
    let joined = [data, mark].concat();
    joined.windows(mark.len()).position(|part| part == mark).expect("the mark stands at the end")
}

fn data(random: &mut Random, mark: &[u8], letters: usize) -> Vec<u8> {
    let length = match random.below(3) {
        0 => random.below(2 * mark.len() + 3),
        _ => random.below(5_001),
    };
    generate::with_marks(random, mark, letters, length)
}

/// Two open chunks, each with what is before the first mark in the data and the mark behind them.
fn read(run: &mut Run, random: &mut Random, mark: &[u8], letters: usize) -> File {
    let mut file = File::new(true, mark, &generate::closing(random));
    let later = generate::serial(random);
    while file.rows.len() < 2 {
        let mut chunk = generate::chunk(random, &file, &later);
        let mut data = data(random, mark, letters);
        data.truncate(first(mark, &data));
        chunk.contents = Contents::Open(data);
        chunk.sub_format = b"ADS\\DATA\\TEST".to_vec();
        file.push(&chunk);
    }
    let (reading, rows) = run.read(&file.bytes, 3);
    let whole = reading.number == 0 && rows == file.rows;
    run.demand(whole, &format!("{reading:?} of a valid file"), &file.bytes, reading.stop);
    // cut inside the last chunk's first mark, and with a byte of it changed
    let row = file.rows[1];
    for _ in 0..4 {
        let at = row.contents + row.bytes + random.below(mark.len());
        let (cut, _) = run.read(&file.bytes[..at], 3);
        run.demand(cut.number == 4 && cut.count == 1, &format!("{cut:?} of a cut file"), &file.bytes, at);
        let mut changed = file.bytes.clone();
        changed[at] ^= random.pick(&[1, 3, 0x80]);
        run.read(&changed, 3);
    }
    file
}

/// Appended to it: accepted with data before the first mark, refused with 16 where the mark is found in them.
fn append(run: &mut Run, random: &mut Random, file: File, letters: usize) {
    let mut case = appends::good(random, true, true, 0);
    case.given.description.0.push(Step::GenericType(*b"TXT"));
    case.given.parents.clear();
    case.length = file.bytes.len();
    case.file = file;
    for early in [true, false] {
        case.given.data = data(random, &case.file.mark, letters);
        let at = first(&case.file.mark, &case.given.data);
        if !early {
            case.given.data.truncate(at);
        }
        case.behind = case.needed();
        let right = if at < case.given.data.len() { Some(16) } else { None };
        let answer = case.call(run).err();
        run.demand(answer == right, &format!("append gave {answer:?}, the mark is at {at}"), &case.given.data, at);
    }
}
