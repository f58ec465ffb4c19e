//! "which of several relation chunks holds: the latest Chunk_Writing_Date, and of equal dates the later row": three relations
//! rows with dates in every order, each with a bad sum, a wrong heading or another name, the file cut in every chunk; files
//! of every kind; and every damage of a file.

use plain::Serial;

use crate::both::Run;
use crate::build::{Chunk, Contents, File};
use crate::generate::{self, same_serial, with_check, RELATIONS};
use crate::parts::relations::{contents, either, rooms, with_chunks};
use crate::parts::rich::each_damage;
use crate::random::Random;
use crate::relations::{is_relations, lines_of, text};
use crate::simple::{chunk, closing, MISSING};

pub fn run(run: &mut Run, cases: u64) {
    run.part = "latest";
    run.case = 0;
    every_order(run);
    every_damage(run);
    for case in 0..cases {
        run.case = case;
        generated(run, &mut Random::new(run.seed, run.part, case));
    }
}

const DATES: [[u8; 8]; 3] = [*b"20231231", *b"20240101", *b"20240229"];

/// What is changed in a relation chunk.
#[derive(Clone, Copy, Debug, PartialEq)]
enum Change {
    Nothing,
    Sum,
    Heading,
    Name,
}

const CHANGES: [Change; 4] = [Change::Nothing, Change::Sum, Change::Heading, Change::Name];

/// A writing date of those above, and the change. The recording date is of the other order.
type Of = (usize, Change);

/// Rows of the relation chunks; the others have data.
const ROWS: [usize; 3] = [1, 3, 4];
const LAST: usize = 5;

fn serial(row: usize) -> Serial {
    let first = format!("#20240229123456789SURVEYDESK01{:05}", 65_000 - row);
    with_check(first.into_bytes().try_into().expect("35 bytes"))
}

/// The first relation chunk has one malformed line, the second two, the third three.
fn relations(number: usize, (date, change): Of) -> Chunk {
    let mut contents = text(&vec![b"ADS relation".to_vec(); number + 1]);
    contents[0] ^= u8::from(change == Change::Heading);
    let mut chunk = chunk(serial(ROWS[number]), Contents::Counted(contents));
    chunk.sub_format = if change == Change::Name { b"ADS\\SYS\\Relation".to_vec() } else { RELATIONS.to_vec() };
    chunk.closing.sum_off = u8::from(change == Change::Sum);
    (chunk.closing.written, chunk.closing.recorded) = (DATES[date], DATES[DATES.len() - 1 - date]);
    chunk
}

fn file(mark: &[u8], of: &[Of; 3]) -> File {
    let chunks: Vec<Chunk> = (0..=LAST)
        .map(|row| match ROWS.iter().position(|&of| of == row) {
            Some(number) => relations(number, of[number]),
            None => chunk(serial(row), Contents::Counted(b"data".to_vec())),
        })
        .collect();
    with_chunks(&File::new(!mark.is_empty(), mark, &closing(MISSING)), &chunks)
}

/// Of the relation chunks among so many rows: row and verdicts of the one that holds.
fn right(of: &[Of; 3], rows: usize) -> Result<(usize, Vec<u32>), u8> {
    let mut found: Vec<(usize, usize)> =
        (0..3).filter(|&each| of[each].1 != Change::Name && ROWS[each] < rows).map(|each| (of[each].0, each)).collect();
    found.sort_unstable();
    let &(_, number) = found.last().ok_or(13)?;
    match of[number].1 {
        Change::Heading => Err(20),
        _ => Ok((ROWS[number], vec![plain::MALFORMED; number + 1])),
    }
}

fn every_order(run: &mut Run) {
    let mark: Vec<u8> = (33..123).collect();
    for case in 0..27 * 64 {
        let (dates, changes) = (case % 27, case / 27);
        let of = [(1, 1), (3, 4), (9, 16)].map(|(date, change)| (dates / date % 3, CHANGES[changes / change % 4]));
        run.case = case as u64;
        run.names = vec![format!("{of:?}")];
        let file = file(if case % 2 == 0 { b"" } else { &mark }, &of);
        holds(run, &file.bytes, right(&of, LAST + 1));
        // each one by its number, whichever holds
        for (number, &row) in ROWS.iter().enumerate() {
            let answer = run.relations_check(&file.bytes, row, 9);
            let right = match of[number].1 {
                Change::Name => Err(19),
                Change::Heading => Err(20),
                _ => Ok(vec![plain::MALFORMED; number + 1]),
            };
            run.demand(answer == right, &format!("{answer:?}, not {right:?}"), &file.bytes, 0);
        }
        // "behind a fault" there is no row: the chunk cut short, its last byte changed, an earlier serial number
        let row = case % (LAST + 1);
        let end = file.rows[row].end;
        holds(run, &file.bytes[..end - 1], right(&of, row));
        let mut bytes = file.bytes.clone();
        bytes[end - 1] ^= 1;
        holds(run, &bytes, right(&of, row));
        if row > 0 {
            let at = end - file.mark.len() - 254 + 20;
            bytes[end - 1] ^= 1;
            bytes[at..at + 38].copy_from_slice(&file.rows[0].serial);
            holds(run, &bytes, right(&of, row));
        }
    }
}

/// The answer, into lists that are longer, just long enough, and too short.
fn holds(run: &mut Run, file: &[u8], right: Result<(usize, Vec<u32>), u8>) {
    let answer = run.relations_check_latest(file, 400);
    run.demand(answer == right, &format!("{answer:?}, not {right:?}"), file, 0);
    let count = right.as_ref().map_or(0, |(_, verdicts)| verdicts.len());
    rooms(run, file, count, right, |run, room| run.relations_check_latest(file, room));
}

fn every_damage(run: &mut Run) {
    let of = [(2, Change::Nothing), (1, Change::Nothing), (2, Change::Sum)];
    run.names = vec!["file damaged".to_string()];
    for mark in [&b""[..], b"ABAB"] {
        each_damage(run, &file(mark, &of), |run, random, bytes, _, _| {
            let _ = run.relations_check_latest(bytes, random.between(0, 4));
        });
    }
}

/// A file of every kind of chunk, some of them relations rows, of few dates or of any.
fn generated(run: &mut Run, random: &mut Random) {
    let nul = random.one_in(2);
    let start = generate::file(random, nul, 0);
    let later = generate::serial(random);
    let few = random.one_in(2);
    let mut file = start.clone();
    let mut chunks: Vec<Chunk> = Vec::new();
    for _ in 0..random.below(9) {
        let mut chunk = generate::chunk(random, &file, &later);
        if random.one_in(2) {
            chunk.sub_format = RELATIONS.to_vec();
            chunk.contents = Contents::Counted(Vec::new());
            if few {
                chunk.closing.written = random.pick(&DATES);
            }
        }
        if file.rows.iter().all(|row| !same_serial(&row.serial, &chunk.closing.serial)) {
            file.push(&chunk);
            chunks.push(chunk);
        }
    }
    let lines = lines_of(&file);
    for chunk in chunks.iter_mut().filter(|chunk| is_relations(&chunk.sub_format)) {
        let contents = contents(random, &lines);
        chunk.contents = either(random, &file, contents);
    }
    let file = with_chunks(&start, &chunks);
    run.names = vec![format!("{} chunks, mark of {}, NUL {nul}", chunks.len(), file.mark.len())];
    // the eight digits sort as the days do
    let relations = (0..chunks.len()).filter(|&row| is_relations(&chunks[row].sub_format));
    let right = match relations.max_by_key(|&row| (chunks[row].closing.written, row)) {
        Some(row) => run.relations_check(&file.bytes, row, 400).map(|verdicts| (row, verdicts)),
        None => Err(13),
    };
    holds(run, &file.bytes, right);
}
