//! Files of very many empty chunks, with a MultiChunk and a chunk with dependencies behind them: one in memory at a time, and
//! one turn over each in a round.

use std::hint::black_box;

use compare::ffi;
use compare::hashes::one_hash;
use compare::parts::every_call::{new_serials, Case};
use compare::simple::{counted, random, Many};
use plain::Serial;

use crate::calls::{plain_rows, proved_contents, proved_rows};
use crate::timing::turn;
use crate::{goal, line, Report};

const SIZES: [usize; 4] = [1_000, 100_000, 300_000, 1_200_000];

const HOSTILE: [usize; 2] = [100_000, 400_000];

/// How serial numbers are made, so many of them.
type Serials = (&'static str, fn(usize) -> Vec<Serial>);

const GOOD: [Serials; 2] = [("counted", counted), ("random", random)];

/// What is timed, in this order; plain's reading last.
const CALLS: [&str; 8] = [
    "read",
    "contents",
    "gather",
    "parent, an early row",
    "parent, before the middle",
    "parent, a late row",
    "append",
    "plain's reading",
];

/// Of each call.
type Times = [f64; CALLS.len()];

/// (ix) How the time of a chunk grows up to the longest file.
pub fn growth(kept: &mut Vec<f64>) -> Report {
    let (mut lines, mut goals) = (Vec::new(), Vec::new());
    kept.resize(GOOD.len() * SIZES.len() * CALLS.len(), f64::INFINITY);
    for (serials, kept) in GOOD.iter().zip(kept.chunks_mut(SIZES.len() * CALLS.len())) {
        let each = sizes(kept, "(ix)", serials, &SIZES, &mut lines);
        let (small, large) = (each[0], each[SIZES.len() - 1]);
        for (at, call) in CALLS[..CALLS.len() - 1].iter().enumerate() {
            let name = format!("(ix) {call}, {}: a chunk at 1,200,000, of 1,000", serials.0);
            goals.push(goal(&name, large[at] / small[at], 3.0, false));
        }
    }
    Report { lines, goals }
}

/// (x) Serial numbers that all have one hash: one slot, one tag, and the same bits of the filter.
pub fn hostile(kept: &mut Vec<f64>) -> Report {
    let mut lines = Vec::new();
    kept.resize(HOSTILE.len() * CALLS.len(), f64::INFINITY);
    sizes(kept, "(x)", &("hostile", one_hash), &HOSTILE, &mut lines);
    Report { lines, goals: Vec::new() }
}

/// A turn over the file of each size, and lines for each. Answers the nanoseconds of a chunk.
fn sizes(
    kept: &mut [f64],
    part: &str,
    (name, serials): &Serials,
    sizes: &[usize],
    lines: &mut Vec<String>,
) -> Vec<Times> {
    let mut each = Vec::new();
    for (&chunks, kept) in sizes.iter().zip(kept.chunks_mut(CALLS.len())) {
        let case = Case::new(Many::of(&serials(chunks)), 7, chunks / 2 - 1);
        one_turn(kept, &case);
        let times: Times = std::array::from_fn(|at| kept[at] / (case.last + 1) as f64 * 1e9);
        let [read, contents, gather, early, middle, late, append, plain] = times;
        let both = [kept[0], kept[CALLS.len() - 1]];
        lines.push(line(&format!("{part} read, {chunks} chunks, {name}"), &both, case.bytes.len(), None));
        lines.push(format!("{:48} {read:10.1} {plain:10.1}   ns a chunk", ""));
        lines.push(format!("{:12}contents {contents:.1}, gather {gather:.1}, append {append:.1}", ""));
        lines.push(format!(
            "{:12}parent, an early row {early:.1}, before the middle {middle:.1}, a late one {late:.1}",
            ""
        ));
        each.push(times);
    }
    each
}

/// Short files more often than long ones.
fn one_turn(kept: &mut [f64], case: &Case) {
    let bytes = &case.bytes[..];
    let (mut buffer, given) = case.append(new_serials()[2]);
    let description = given.description.proved();
    let parent = |of: usize| move || assert!(black_box(ffi::parent(black_box(bytes), case.last, of)).found);
    let gather = || ffi::gather(black_box(bytes), case.multi, b"P1", &mut [0; 8]);
    let often = (600_000 / case.last).clamp(1, 100);
    turn(
        kept,
        &mut [
            (often, &mut proved_rows(bytes, case.last + 1)),
            (often, &mut proved_contents(bytes, case.last)),
            (often, &mut || assert_eq!(black_box(gather()).length, 8)),
            (often, &mut parent(0)),
            (often, &mut parent(1)),
            (often, &mut parent(2)),
            (often, &mut || {
                let lent = black_box(&mut buffer[..]);
                let ends = ffi::append(lent, bytes.len(), description, &given.parents, b"", b"new", false);
                assert_eq!(ends.number, 0);
            }),
            (often, &mut plain_rows(bytes, case.last + 1)),
        ],
    );
}
