//! One file and its relation chunk: every byte of the contents changed, left out and put there twice, the contents cut short
//! at every byte, each field changed, and every field of the file itself damaged in every way.

use plain::Serial;

use crate::both::Run;
use crate::build::{Contents, File};
use crate::generate::{otherwise, with_check, RELATIONS};
use crate::parts::relations::{rooms, written};
use crate::parts::rich::each_damage;
use crate::relations::{line, lines_of, text, HEADING_BYTES, LINE_BYTES};
use crate::simple::{chunk, closing, MISSING};

const EDIT: &[u8] = b"ADS\\DATA\\EDIT";
const LOG: &[u8] = b"ADS\\DATA\\LOG";

/// Row, sub-format and the numbers of the serial numbers on which it depends; 9 is in no row.
type Of = (&'static [u8], &'static [u32]);

/// The relation chunk stands between the others.
const ROWS: [Of; 4] = [(LOG, &[]), (EDIT, &[0, 9, 1]), (RELATIONS, &[0]), (EDIT, &[2, 3, 0])];
const ROW: usize = 2;

fn serial(number: u32) -> Serial {
    let first = format!("#20240229123456789SURVEYDESK01{:05}", 42 + number);
    with_check(first.into_bytes().try_into().expect("35 bytes"))
}

fn name(number: u32) -> &'static [u8] {
    ROWS.get(number as usize).map_or(b"GONE", |row| row.0)
}

fn file(mark: &[u8], contents: Contents) -> File {
    let mut file = File::new(!mark.is_empty(), mark, &closing(MISSING));
    for (number, (sub_format, parents)) in ROWS.iter().enumerate() {
        let is_row = number == ROW;
        let data = if is_row { contents.clone() } else { Contents::Counted(b"data".to_vec()) };
        let mut chunk = chunk(serial(number as u32), data);
        chunk.sub_format = sub_format.to_vec();
        chunk.dependencies = parents.iter().map(|&number| (serial(number), name(number).to_vec())).collect();
        file.push(&chunk);
    }
    file
}

/// Of row 1 on row 0, on none, on itself; of row 3 on itself and on row 0.
fn lines() -> Vec<Vec<u8>> {
    let pairs = [(1, 0), (1, 9), (1, 1), (3, 3), (3, 0)];
    pairs.map(|(child, parent)| line(&serial(child), name(child), &serial(parent), name(parent))).to_vec()
}

pub fn run(run: &mut Run) {
    run.part = "relation lines";
    run.case = 0;
    run.names = vec!["as written".to_string()];
    as_written(run);
    run.names = vec!["contents changed".to_string()];
    every_byte(run);
    every_length(run);
    every_pair(run);
    run.names = vec!["file damaged".to_string()];
    every_damage(run);
}

/// Counted under LLC000, open and counted under NUL with a mark of 90 bytes.
fn as_written(run: &mut Run) {
    let text = text(&lines());
    assert_eq!(text.len(), HEADING_BYTES + 5 * LINE_BYTES);
    let mark: Vec<u8> = (33..123).collect();
    for (mark, contents) in [
        (&b""[..], Contents::Counted(text.clone())),
        (&mark[..], Contents::Counted(text.clone())),
        (&mark[..], Contents::Open(text.clone())),
    ] {
        let file = file(mark, contents);
        assert_eq!(lines_of(&file), lines());
        written(run, &file.bytes, &text);
        check(run, &file.bytes, Ok(vec![1; 5]));
    }
}

fn check(run: &mut Run, file: &[u8], right: Result<Vec<u32>, u8>) {
    let answer = run.relations_check(file, ROW, 9);
    run.demand(answer == right, &format!("{answer:?}, not {right:?}"), file, 0);
    let count = right.as_ref().map_or(0, Vec::len);
    rooms(run, file, count, right, |run, room| run.relations_check(file, ROW, room));
}

fn verdicts(run: &mut Run, contents: Vec<u8>) -> Result<Vec<u32>, u8> {
    run.case += 1;
    run.relations_check(&file(b"", Contents::Counted(contents)).bytes, ROW, 9)
}

/// Of two lines, the last without LF.
fn two_lines() -> Vec<u8> {
    let mut text = text(&lines()[..2]);
    text.pop();
    text
}

/// A change of the heading gives 20, whatever stands behind it; one of a line leaves it no longer declared.
fn every_byte(run: &mut Run) {
    let text = two_lines();
    for at in 0..text.len() {
        let byte = text[at];
        for new in [&[byte ^ 1][..], b"\t", b"\n", b"\r", b" ", b"\x1f", b"\x7f", b"", &[byte, byte]] {
            let changed = [&text[..at], new, &text[at + 1..]].concat();
            let answer = verdicts(run, changed.clone());
            // a second LF is an empty line
            let right = match changed == text || new == b"\n\n" {
                true => answer == Ok(vec![1, 1]),
                false if at < HEADING_BYTES => answer == Err(20),
                false => answer.as_ref().is_ok_and(|verdicts| *verdicts != [1, 1] || in_a_check(at)),
            };
            run.demand(right, &format!("{answer:?} with {new:?} at {at}"), &changed, at);
        }
    }
}

/// A serial number's check may be written in several ways.
fn in_a_check(at: usize) -> bool {
    let on = (at - HEADING_BYTES) % LINE_BYTES;
    (48..51).contains(&on) || (344..347).contains(&on)
}

fn every_length(run: &mut Run) {
    let text = two_lines();
    for length in 0..=text.len() {
        let answer = verdicts(run, text[..length].to_vec());
        let right = match length {
            0..130 => Err(20),
            _ if length < HEADING_BYTES + 12 => Ok(vec![]),
            _ if length < HEADING_BYTES + LINE_BYTES - 1 => Ok(vec![3]),
            _ if length < HEADING_BYTES + LINE_BYTES + 12 => Ok(vec![1]),
            _ if length < text.len() => Ok(vec![1, 3]),
            _ => Ok(vec![1, 1]),
        };
        run.demand(answer == right, &format!("{answer:?}, not {right:?}, of {length} bytes"), &text, length);
    }
}

/// Every child with every parent, each under every name and either writing: those of a header are declared.
fn every_pair(run: &mut Run) {
    for (child, parent) in (0..10).flat_map(|child| (0..10).map(move |parent| (child, parent))) {
        let declares = ROWS.get(child as usize).is_some_and(|row| row.1.contains(&parent));
        for child_name in [LOG, EDIT, RELATIONS, b"GONE"] {
            for parent_name in [LOG, EDIT, RELATIONS, b"GONE"] {
                let named = child_name == name(child) && parent_name == name(parent);
                let verdict = if declares && named { plain::DECLARED } else { plain::UNDECLARED };
                let serials = [serial(child), serial(parent)];
                let [other_child, other_parent] = serials.map(|serial| otherwise(&serial));
                let lines = [
                    line(&serials[0], child_name, &serials[1], parent_name),
                    line(&other_child, child_name, &other_parent, parent_name),
                ];
                let answer = verdicts(run, text(&lines));
                run.demand(answer == Ok(vec![verdict; 2]), &format!("{answer:?}, not {verdict}"), &lines[0], 0);
            }
        }
    }
}

fn every_damage(run: &mut Run) {
    for mark in [&b""[..], b"ABAB"] {
        each_damage(run, &file(mark, Contents::Counted(text(&lines()))), |run, random, bytes, _, _| {
            let _ = run.relations_write(bytes, HEADING_BYTES + LINE_BYTES * random.between(0, 6));
            let _ = run.relations_check(bytes, ROW, random.between(0, 6));
        });
    }
}
