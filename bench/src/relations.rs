//! Relations of files of empty chunks with one dependency each: the text written, and checked as the last chunk of the file with
//! its lines in order and shuffled, each beside a reading of the same file. And the check of the latest, of several relation
//! chunks.

use std::hint::black_box;

use compare::ffi;
use compare::random::Random;
use compare::relations::{chunk_with, line as relation, text, HEADING_BYTES, LINE_BYTES};
use compare::simple::{random, Many, MISSING};
use plain::Serial;

use crate::calls::proved_rows;
use crate::timing::turn;
use crate::{in_readings, Report};

const SIZES: [usize; 3] = [1_000, 10_000, 100_000];

/// What is timed, and how many readings of its file it may take.
const CALLS: [(&str, f64); 3] = [("written", 5.0), ("checked, in order", 5.0), ("checked, shuffled", 10.0)];

/// Of each call a reading, the proved and the plain one.
const TIMES: usize = 3 * CALLS.len();

pub fn relations(kept: &mut Vec<f64>) -> Report {
    let mut report = Report::default();
    kept.resize(SIZES.len() * TIMES, f64::INFINITY);
    for (&chunks, kept) in SIZES.iter().zip(kept.chunks_mut(TIMES)) {
        let files = files(chunks);
        one_turn(kept, &files, chunks);
        for (((name, most), file), times) in CALLS.iter().zip(&files).zip(kept.chunks(3)) {
            let name = format!("(xi) relations {name}, {chunks}");
            in_readings(&mut report, &name, times, file.len(), *most);
        }
    }
    report
}

/// Chunks with a dependency each, and so many relation chunks behind them.
const DEPENDING: usize = 10_000;
const LATEST: [usize; 3] = [1, 3, 10_000];

/// (xii) The check of the latest of several relation chunks, beside a reading of the same file.
pub fn latest(kept: &mut Vec<f64>) -> Report {
    let mut report = Report::default();
    kept.resize(LATEST.len() * 3, f64::INFINITY);
    for (&count, times) in LATEST.iter().zip(kept.chunks_mut(3)) {
        let (file, row) = with_latest(count);
        let mut lists = [vec![0; DEPENDING], vec![0; DEPENDING]];
        let [for_proved, for_plain] = &mut lists;
        let checked = Ok((DEPENDING, row));
        turn(
            times,
            &mut [
                (20, &mut proved_rows(&file, DEPENDING + count)),
                (20, &mut || assert_eq!(ffi::relations_check_latest(black_box(&file), for_proved).row, row)),
                (20, &mut || assert_eq!(plain::relations_check_latest(black_box(&file), for_plain), checked)),
            ],
        );
        assert!(lists.iter().all(|list| list.iter().all(|&verdict| verdict == plain::DECLARED)));
        let name = format!("(xii) relations checked, latest of {count}");
        in_readings(&mut report, &name, times, file.len(), 5.0);
    }
    report
}

/// The relation chunk in the middle is the latest and has the text for the file; the others have a heading alone. Answers its
/// row too.
fn with_latest(count: usize) -> (Vec<u8>, usize) {
    let serials = random(DEPENDING + count - 1);
    let (mut file, lines) = depending(&serials[..DEPENDING]);
    let mut others = Many::relations(&serials[DEPENDING..]);
    for row in 0..count - 1 {
        others.date(row, b"20240229");
    }
    let half = count / 2;
    file.extend(&others.bytes[others.header..others.place(half)]);
    file.extend(chunk_with(MISSING, &[], text(&lines)));
    file.extend(&others.bytes[others.place(half)..]);
    (file, DEPENDING + half)
}

/// A file of chunks with a dependency each, and the lines of its relations.
fn depending(serials: &[Serial]) -> (Vec<u8>, Vec<Vec<u8>>) {
    let parent = |row: usize| (row * 7_919 + 3) % serials.len();
    let name = b"ADS\\DATA\\TEST";
    let lines =
        serials.iter().enumerate().map(|(row, child)| relation(child, name, &serials[parent(row)], name)).collect();
    (Many::depending(serials, parent).bytes, lines)
}

/// The file; with the text for it in a chunk behind; and with its lines shuffled.
fn files(chunks: usize) -> [Vec<u8>; 3] {
    let (file, mut lines) = depending(&random(chunks));
    let with = |lines: &[Vec<u8>]| [&file[..], &chunk_with(MISSING, &[], text(lines))].concat();
    let in_order = with(&lines);
    Random::new(1, "shuffled lines", 0).shuffle(&mut lines);
    let shuffled = with(&lines);
    [file, in_order, shuffled]
}

/// Short files more often than long ones.
fn one_turn(kept: &mut [f64], [file, in_order, shuffled]: &[Vec<u8>; 3], chunks: usize) {
    let mut buffers = [vec![0; HEADING_BYTES + LINE_BYTES * chunks], vec![0; HEADING_BYTES + LINE_BYTES * chunks]];
    let mut lists = [vec![0; chunks], vec![0; chunks], vec![0; chunks], vec![0; chunks]];
    let [for_proved, for_plain] = &mut buffers;
    let [first, second, third, fourth] = &mut lists;
    let often = (300_000 / chunks).clamp(1, 100);
    turn(
        kept,
        &mut [
            (often, &mut proved_rows(file, chunks)),
            (often, &mut || assert_eq!(ffi::relations_write(black_box(file), for_proved).length, for_proved.len())),
            (often, &mut || assert_eq!(plain::relations_write(black_box(file), for_plain), Ok(for_plain.len()))),
            (often, &mut proved_rows(in_order, chunks + 1)),
            (often, &mut || assert_eq!(ffi::relations_check(black_box(in_order), chunks, first).count, chunks)),
            (often, &mut || assert_eq!(plain::relations_check(black_box(in_order), chunks, second), Ok(chunks))),
            (often, &mut proved_rows(shuffled, chunks + 1)),
            (often, &mut || assert_eq!(ffi::relations_check(black_box(shuffled), chunks, third).count, chunks)),
            (often, &mut || assert_eq!(plain::relations_check(black_box(shuffled), chunks, fourth), Ok(chunks))),
        ],
    );
    assert!(
        buffers[0] == buffers[1] && lists.iter().all(|list| list.iter().all(|&verdict| verdict == plain::DECLARED))
    );
}
