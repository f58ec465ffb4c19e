//! (xv) A file of 1 MiB and one of 64 MiB packed and unpacked, beside a copy and a sum of the same bytes.

use std::hint::black_box;

use compare::blocks::packed;
use compare::ffi;
use compare::random::Random;

use crate::files::MIB;
use crate::timing::{turn, Call};
use crate::{goal, line, Report};

/// The sizes, and how often a call is made in one turn.
const SIZES: [(usize, usize); 2] = [(MIB, 20), (64 * MIB, 1)];
const TURNS: usize = 10;

/// How many copies and sums of its file a call may take.
const MOST: f64 = 3.0;

/// Of each file a copy and a sum; then packed by both, and unpacked by both.
pub fn blocks(kept: &mut Vec<f64>) -> Report {
    let mut report = Report::default();
    kept.resize(SIZES.len() * 5, f64::INFINITY);
    for (&(bytes, often), times) in SIZES.iter().zip(kept.chunks_mut(5)) {
        turns(times, bytes, often);
        for (call, pair) in ["packed", "unpacked"].iter().zip(times[1..].chunks(2)) {
            let name = format!("(xv) {call}, {} MiB", bytes / MIB);
            let passes = pair[0] / times[0];
            report.lines.push(line(&name, pair, bytes, None));
            report.lines.push(format!("{:48} {passes:10.2}   copies and sums, {:.3} ms each", "", times[0] * 1e3));
            report.goals.push(goal(&format!("{name}, in copies and sums"), passes, MOST, false));
        }
    }
    report
}

/// Every buffer is touched before.
fn turns(kept: &mut [f64], bytes: usize, often: usize) {
    let file = Random::new(0, "blocks", 0).bytes(bytes);
    let packed = packed(&file);
    let mut blocks = [vec![1; packed.len()], vec![1; packed.len()]];
    let mut files = [vec![1; bytes], vec![1; bytes], vec![1; bytes]];
    let [proved_blocks, plain_blocks] = &mut blocks;
    let [copy, proved_file, plain_file] = &mut files;
    let calls: &mut [Call] = &mut [
        (often, &mut || {
            black_box(copied_and_summed(black_box(&file), black_box(copy)));
        }),
        (often, &mut || assert_eq!(black_box(ffi::pack(black_box(&file), proved_blocks)).number, 0)),
        (often, &mut || assert!(black_box(plain::pack(black_box(&file), plain_blocks)).is_ok())),
        (often, &mut || assert_eq!(black_box(ffi::unpack(black_box(&packed), proved_file)).number, 0)),
        (often, &mut || assert!(black_box(plain::unpack(black_box(&packed), plain_file)).is_ok())),
    ];
    for _ in 0..TURNS {
        turn(kept, calls);
    }
    assert!(blocks.iter().all(|blocks| *blocks == packed) && files.iter().all(|other| *other == file));
}

/// The sum is modulo 65,536.
fn copied_and_summed(from: &[u8], to: &mut [u8]) -> u16 {
    to.copy_from_slice(from);
    from.iter().fold(0u16, |sum, &byte| sum.wrapping_add(byte.into()))
}
