//! (xiii) The price statement of the files of (i) to (iv) and of few and many empty chunks, beside a reading of the same file. One
//! file is in memory at a time.

use std::hint::black_box;

use compare::build::File;
use compare::ffi;

use crate::calls::proved_reading;
use crate::files::{counted, multi, open, MIB};
use crate::timing::turn;
use crate::{in_readings, Report};

/// A name, and how the file is made.
type Priced = (&'static str, fn() -> File);

const FILES: [Priced; 6] = [
    ("8 counted chunks of 8 MiB", || counted(8, 8 * MIB, &[])),
    ("50,000 chunks, 64 MiB", || counted(50_000, 64 * MIB / 50_000 - 856, &[])),
    ("64 open chunks of 1 MiB", || open(64, MIB)),
    ("600,000 mini-chunks", || multi(600_000, 64 * MIB / 600_000 - 32)),
    ("1000 empty chunks", || counted(1_000, 0, &[])),
    ("100000 empty chunks", || counted(100_000, 0, &[])),
];

/// How many readings of its file it may take.
const MOST: f64 = 2.3;

/// Of each file a reading, the proved statement and the plain one.
pub fn prices(kept: &mut Vec<f64>) -> Report {
    let mut report = Report::default();
    kept.resize(FILES.len() * 3, f64::INFINITY);
    for ((name, make), times) in FILES.iter().zip(kept.chunks_mut(3)) {
        let file = make();
        one_turn(times, &file);
        in_readings(&mut report, &format!("(xiii) price, {name}"), times, file.bytes.len(), MOST);
    }
    report
}

/// Short files more often than long ones.
fn one_turn(kept: &mut [f64], file: &File) {
    let bytes = &file.bytes[..];
    let room = ffi::price_room(file.rows.len());
    let mut texts = [vec![0; room], vec![0; room]];
    let [for_proved, for_plain] = &mut texts;
    let often = (500_000 / file.rows.len()).clamp(1, 100);
    turn(
        kept,
        &mut [
            (often, &mut proved_reading(file)),
            (often, &mut || assert_eq!(black_box(ffi::price(black_box(bytes), 100, 7, for_proved)).number, 0)),
            (often, &mut || assert!(black_box(plain::price(black_box(bytes), 100, 7, for_plain)).is_ok())),
        ],
    );
    assert!(texts[0] == texts[1]);
}
