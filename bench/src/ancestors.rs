//! (xiv) Every row that the last of 64 rows rests on, beside a reading of the same file and beside contents of the last row, a
//! reading without sums. One file is in memory at a time.

use std::hint::black_box;

use compare::build::File;
use compare::ffi;
use compare::graph::{self, all_before, Graph};
use plain::Serial;

use crate::calls::{proved_contents, proved_reading};
use crate::files::{open_depending, serial, MIB};
use crate::timing::turn;
use crate::{goal, in_readings, Report};

const ROWS: usize = 64;
const LAST: usize = ROWS - 1;

/// A name, how the file is made, and how many rows the last one rests on.
type Rested = (&'static str, fn() -> File, usize);

const FILES: [Rested; 4] = [
    ("each names all before", || rows(&all_before(ROWS)), LAST),
    ("9,999 each, on all before", || rows(&full(|row, number| (row > 0).then(|| number % row))), LAST),
    ("9,999 each, on none", || rows(&full(|_, _| None)), 0),
    ("63 each, open chunks of 1 MiB", || open_depending(ROWS, MIB, |row| named(row, LAST)), LAST),
];

fn serials() -> Vec<Serial> {
    (0..ROWS).map(serial).collect()
}

fn rows(graph: &Graph) -> File {
    graph::file(graph, &serials())
}

/// As many dependencies of each row as a header can have.
fn full(parent: impl Fn(usize, usize) -> Option<usize>) -> Graph {
    (0..ROWS).map(|row| (0..9_999).map(|number| parent(row, number)).collect()).collect()
}

/// All rows before, and then none, so many together.
fn named(row: usize, count: usize) -> Vec<Serial> {
    (0..count).map(|number| serial(if number < row { number } else { 777_777 })).collect()
}

/// How many readings of its file it may take, and how many milliseconds more than a reading without sums where each names all
/// before.
const MOST: f64 = 3.0;
const BEHIND: f64 = 1.0;

/// Of each file a reading, the proved call, the plain one, and contents of the last row.
pub fn ancestors(kept: &mut Vec<f64>) -> Report {
    let mut report = Report::default();
    kept.resize(FILES.len() * 4, f64::INFINITY);
    for ((name, make, count), times) in FILES.iter().zip(kept.chunks_mut(4)) {
        let file = make();
        one_turn(times, &file, *count);
        let name = format!("(xiv) ancestors, {name}");
        in_readings(&mut report, &name, &times[..3], file.bytes.len(), MOST);
        let [behind, behind_contents] = [0, 3].map(|other| (times[1] - times[other]) * 1e3);
        report
            .lines
            .push(format!("{:48} {behind:10.3} {behind_contents:10.3}   ms behind it, behind one without sums", ""));
        if file.bytes.len() < MIB {
            report.goals.push(goal(&format!("{name}, ms behind one without sums"), behind_contents, BEHIND, false));
        }
    }
    report
}

/// Short files more often than long ones.
fn one_turn(kept: &mut [f64], file: &File, count: usize) {
    let bytes = &file.bytes[..];
    let mut lists = [[0; ffi::ANCESTORS_ROOM]; 2];
    let [for_proved, for_plain] = &mut lists;
    let often = (128 * MIB / bytes.len()).clamp(2, 100);
    turn(
        kept,
        &mut [
            (often, &mut proved_reading(file)),
            (often, &mut || assert_eq!(black_box(ffi::ancestors(black_box(bytes), LAST, for_proved)).count, count)),
            (often, &mut || assert!(black_box(plain::ancestors(black_box(bytes), LAST, for_plain)).is_ok())),
            (often, &mut proved_contents(bytes, LAST)),
        ],
    );
    assert!(lists[0] == lists[1]);
}
