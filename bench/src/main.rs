//! Times of the proved library and of `plain` on the same bytes, in one run: `cargo run --release --offline`.
//!
//! Best of many repetitions. What is compared is timed in turns, and all of it in several rounds, so that a machine which is
//! slow for a while is slow for all or for none. Tables of rows are allocated and touched before. A goal that isn't reached
//! is marked. Parts can be asked for by name: `cargo run --release --offline -- i iv`.

mod ancestors;
mod blocks;
mod calls;
mod files;
mod many;
mod prices;
mod relations;
mod timing;

use std::hint::black_box;

use calls::{plain_append, plain_reading, proved_append, proved_contents, proved_reading, summed};
use compare::build::File;
use compare::ffi;
use compare::kernels;
use compare::random::Random;
use files::MIB;
use timing::{best, Call};

const ROUNDS: usize = 4;

fn main() {
    let asked: Vec<String> = std::env::args().skip(1).collect();
    let wanted = |part: &&Part| asked.is_empty() || asked.iter().any(|name| name == part.0);
    let parts: Vec<&Part> = PARTS.iter().filter(wanted).collect();
    let mut kept = vec![Vec::new(); parts.len()];
    for _ in 1..ROUNDS {
        for (part, kept) in parts.iter().zip(&mut kept) {
            part.1(kept);
        }
    }
    let reports: Vec<Report> = parts.iter().zip(&mut kept).map(|(part, kept)| part.1(kept)).collect();
    println!(
        "{:48} {:>10} {:>10} {:>7} {:>8} {:>8} {:>8}",
        "", "proved ms", "plain ms", "ratio", "GB/s", "plain", "sum"
    );
    for text in reports.iter().flat_map(|report| &report.lines) {
        println!("{text}");
    }
    println!();
    for text in reports.iter().flat_map(|report| &report.goals) {
        println!("{text}");
    }
}

/// What a part says of the best times so far.
#[derive(Default)]
struct Report {
    lines: Vec<String>,
    goals: Vec<String>,
}

/// A part, by the name by which it can be asked for alone. It makes one round, and keeps the best times.
type Part = (&'static str, fn(&mut Vec<f64>) -> Report);

#[rustfmt::skip]
const PARTS: [Part; 16] = [
    ("sums", both_sums), ("i", large), ("ii", small), ("iii", open), ("iv", mini_chunks), ("v", growth),
    ("vii", small_open), ("viii", hostile_marks), ("ix", many::growth), ("x", many::hostile),
    ("xi", relations::relations), ("xii", relations::latest), ("xiii", prices::prices), ("xiv", ancestors::ancestors),
    ("xv", blocks::blocks), ("append", long_append),
];

type Sum = fn(&[u8]) -> u8;

/// Proved by words, proved byte by byte, plain.
const SUMS: [Sum; 3] = [kernels::word_sum, kernels::byte_sum, plain::field::sum];

/// How often the sum of a few bytes is taken for one time.
const CALLS: usize = 100_000;

/// The sums in turns, over 64 MiB and over 852 bytes, which is what the sum of an empty chunk is taken of; these from sixteen
/// starts.
fn both_sums(times: &mut Vec<f64>) -> Report {
    let bytes = Random::new(0, "sums", 0).bytes(64 * MIB);
    let mut long = SUMS.map(|sum| calls::sum_of(sum, &bytes));
    let mut short = SUMS.map(|sum| calls::sums_of(sum, &bytes, 852, CALLS));
    let long = long.iter_mut().map(|call| (1, call as &mut dyn FnMut()));
    let short = short.iter_mut().map(|call| (1, call as &mut dyn FnMut()));
    best(times, &mut long.chain(short).collect::<Vec<Call>>());
    let mut lines = Vec::new();
    for (name, times, bytes) in [("64 MiB", &times[..3], 64 * MIB), ("100,000 x 852 bytes", &times[3..], 852 * CALLS)] {
        let [words, single, plain] = [times[0], times[1], times[2]];
        lines.push(line(&format!("sum by words, {name}"), &[words, plain], bytes, None));
        lines.push(line(&format!("sum byte by byte, {name}"), &[single, plain], bytes, None));
        lines.push(format!("{:48} {:29.2}   by words, of byte by byte", "", words / single));
    }
    Report { lines, goals: Vec::new() }
}

fn large(kept: &mut Vec<f64>) -> Report {
    let file = files::counted(8, 8 * MIB, &[]);
    let lines = reading(kept, "(i) read, 8 counted chunks of 8 MiB", &file);
    let goals = vec![
        goal("(i) speed, of the sum's", kept[2] / kept[0], 0.9, true),
        goal("(i) time, of the sum's", kept[0] / kept[2], 1.5, false),
    ];
    Report { lines, goals }
}

/// (ii), and (vi) beside it: parent, contents and append on the same file, in turns with the reading.
#[rustfmt::skip]
fn small(times: &mut Vec<f64>) -> Report {
    let chunks = 50_000;
    let last = chunks - 1;
    let file = files::counted(chunks, 64 * MIB / chunks - 856, &[5, last / 2 - 1, chunks - 10]);
    let bytes = &file.bytes[..];
    let mut lent = [calls::room_for(&file, 2, 11), calls::room_for(&file, 2, 11)];
    let [for_proved, for_plain] = &mut lent;
    best(times, &mut [
        (1, &mut proved_reading(&file)),
        (1, &mut plain_reading(&file)),
        (1, &mut summed(&file)),
        (1, &mut || assert!(black_box(ffi::parent(black_box(bytes), last, 0)).found)),
        (1, &mut || assert!(black_box(plain::parent(black_box(bytes), last, 0)).is_ok_and(|found| found.is_some()))),
        (1, &mut || assert!(black_box(ffi::parent(black_box(bytes), last, 1)).found)),
        (1, &mut || assert!(black_box(plain::parent(black_box(bytes), last, 1)).is_ok_and(|found| found.is_some()))),
        (1, &mut || assert!(black_box(ffi::parent(black_box(bytes), last, 2)).found)),
        (1, &mut || assert!(black_box(plain::parent(black_box(bytes), last, 2)).is_ok_and(|found| found.is_some()))),
        (1, &mut proved_contents(bytes, last)),
        (1, &mut || assert!(black_box(plain::contents(black_box(bytes), last)).is_ok())),
        (1, &mut proved_append(for_proved, bytes.len(), &[7, last], b"a few bytes")),
        (1, &mut plain_append(for_plain, bytes.len(), &[7, last], b"a few bytes")),
    ]);
    assert!(lent[0] == lent[1]);
    let mut lines = vec![line("(ii) read, 50,000 chunks, 64 MiB", &times[..2], bytes.len(), Some(times[2]))];
    let mut goals = vec![goal("(ii) time, of plain's", times[0] / times[1], 1.0, false)];
    for (name, pair) in OTHER_CALLS.iter().zip(times[3..].chunks(2)) {
        lines.push(line(name, pair, bytes.len(), None));
        goals.push(goal(&format!("{name}, of one reading"), pair[0] / times[0], 1.2, false));
    }
    Report { lines, goals }
}

const OTHER_CALLS: [&str; 5] = [
    "(vi) parent of the last row, an early one",
    "(vi) parent of the last row, before the middle",
    "(vi) parent of the last row, a late one",
    "(vi) contents of the last row",
    "(vi) append of 11 bytes, two parents",
];

/// The reading, beside one plain sum and one search for the mark's first byte over the same bytes.
#[rustfmt::skip]
fn open(times: &mut Vec<f64>) -> Report {
    let file = files::open(64, MIB);
    best(times, &mut [
        (1, &mut proved_reading(&file)), (1, &mut plain_reading(&file)), (1, &mut summed(&file)),
        (1, &mut calls::searched(&file)),
    ]);
    let lines = vec![
        line("(iii) read, 64 open chunks of 1 MiB, mark of 90", &times[..2], file.bytes.len(), Some(times[2])),
        format!("{:48} {:10.3} {:10.3}   ms: one sum, one search by the first byte", "", times[2] * 1e3, times[3] * 1e3),
    ];
    let goals = vec![
        goal("(iii) time, of one sum and one search by the first byte", times[0] / (times[2] + times[3]), 1.3, false),
        goal("(iii) time, of plain's", times[0] / times[1], 1.0, false),
    ];
    Report { lines, goals }
}

fn small_open(kept: &mut Vec<f64>) -> Report {
    let file = files::open(50_000, 100);
    let lines = reading(kept, "(vii) read, 50,000 open chunks of 100 bytes", &file);
    Report { lines, goals: vec![goal("(vii) time, of plain's", kept[0] / kept[1], 1.0, false)] }
}

/// Hostile marks: the search by shifts and the plain search in turns.
fn hostile_marks(times: &mut Vec<f64>) -> Report {
    let hostile = files::hostile(64 * MIB);
    let by_shifts = |mark: &[u8], bytes: &[u8]| kernels::find(mark, bytes).place;
    let mut searches = Vec::new();
    for (_, mark, bytes) in &hostile {
        searches.extend([by_shifts, kernels::find_plain].map(|find| calls::search_of(find, mark, bytes)));
    }
    best(times, &mut searches.iter_mut().map(|call| (1, call as &mut dyn FnMut())).collect::<Vec<Call>>());
    let (mut lines, mut goals) = (Vec::new(), Vec::new());
    for ((name, ..), pair) in hostile.iter().zip(times.chunks(2)) {
        lines.push(line(&format!("(viii) {name}"), pair, 64 * MIB, None));
        goals.push(goal(&format!("(viii) {name}, of the plain search"), pair[0] / pair[1], 4.0, false));
        goals.push(goal(&format!("(viii) {name}, seconds for 64 MiB"), pair[0], 2.0, false));
    }
    Report { lines, goals }
}

fn mini_chunks(kept: &mut Vec<f64>) -> Report {
    let file = files::multi(600_000, 64 * MIB / 600_000 - 32);
    let lines = reading(kept, "(iv) read, 600,000 mini-chunks", &file);
    Report { lines, goals: vec![goal("(iv) time, of plain's", kept[0] / kept[1], 1.0, false)] }
}

/// The three sizes in turns: a hundred readings of the smallest, ten of the next, one of the largest. The largest once more
/// with spaces in front of its numbers.
#[rustfmt::skip]
fn growth(times: &mut Vec<f64>) -> Report {
    let counted = |chunks| files::counted(chunks, 0, &[]);
    let files = [counted(1_000), counted(10_000), counted(100_000), files::padded(100_000)];
    let [small, middle, large, padded] = &files;
    best(times, &mut [
        (100, &mut proved_reading(small)), (100, &mut plain_reading(small)), (100, &mut summed(small)),
        (10, &mut proved_reading(middle)), (10, &mut plain_reading(middle)), (10, &mut summed(middle)),
        (1, &mut proved_reading(large)), (1, &mut plain_reading(large)), (1, &mut summed(large)),
        (1, &mut proved_reading(padded)), (1, &mut plain_reading(padded)), (1, &mut summed(padded)),
    ]);
    let (mut lines, mut each) = (Vec::new(), Vec::new());
    for ((file, of_file), padded) in files.iter().zip(times.chunks(3)).zip(["", "", "", ", padded"]) {
        let chunks = file.rows.len();
        let a_chunk = |seconds: f64| seconds / chunks as f64 * 1e9;
        let name = format!("(v) read, {chunks} empty chunks{padded}");
        lines.push(line(&name, &of_file[..2], file.bytes.len(), Some(of_file[2])));
        lines.push(format!("{:48} {:10.1} {:10.1}   ns a chunk", "", a_chunk(of_file[0]), a_chunk(of_file[1])));
        each.push(a_chunk(of_file[0]));
    }
    Report { lines, goals: vec![goal("(v) time a chunk at 100,000, of that at 1,000", each[2] / each[0], 1.5, false)] }
}

/// Append of 1 MiB to 64 MiB in 64 chunks, beside one pass over the new bytes (copied and summed) and one reading without
/// sums (contents of the last row).
fn long_append(times: &mut Vec<f64>) -> Report {
    let file = files::counted(64, MIB, &[]);
    let data = vec![b'd'; MIB];
    let mut lent = [calls::room_for(&file, 0, MIB), calls::room_for(&file, 0, MIB)];
    let [for_proved, for_plain] = &mut lent;
    let mut copy = vec![0; MIB];
    let length = file.bytes.len();
    best(
        times,
        &mut [
            (1, &mut proved_append(for_proved, length, &[], &data)),
            (1, &mut plain_append(for_plain, length, &[], &data)),
            (1, &mut || {
                black_box(calls::copied_and_summed(black_box(&data), &mut copy));
            }),
            (1, &mut proved_contents(&file.bytes, 63)),
        ],
    );
    assert!(lent[0] == lent[1]);
    let lines = vec![
        line("append of 1 MiB to 64 chunks of 1 MiB", &times[..2], data.len(), None),
        format!("{:48} {:10.3} {:10.3}   ms: one pass, contents of the last row", "", times[2] * 1e3, times[3] * 1e3),
    ];
    let name = "append of 1 MiB, of one pass and contents of the last row";
    Report { lines, goals: vec![goal(name, times[0] / (times[2] + times[3]), 1.5, false)] }
}

/// One reading with rows enough, by both; also the plain sum over the same bytes.
fn reading(kept: &mut Vec<f64>, name: &str, file: &File) -> Vec<String> {
    best(kept, &mut [(1, &mut proved_reading(file)), (1, &mut plain_reading(file)), (1, &mut summed(file))]);
    vec![line(name, &kept[..2], file.bytes.len(), Some(kept[2]))]
}

/// A line of the table: the two times, and the speeds over so many bytes.
fn line(name: &str, pair: &[f64], bytes: usize, sum: Option<f64>) -> String {
    let speed = |seconds: f64| format!("{:.2}", bytes as f64 / seconds / 1e9);
    format!(
        "{name:48} {:10.3} {:10.3} {:7.2} {:>8} {:>8} {:>8}",
        pair[0] * 1e3,
        pair[1] * 1e3,
        pair[0] / pair[1],
        speed(pair[0]),
        speed(pair[1]),
        sum.map_or("".to_string(), speed)
    )
}

/// Of a reading, the proved and the plain call: the line, and how many readings the proved one takes.
fn in_readings(report: &mut Report, name: &str, times: &[f64], bytes: usize, most: f64) {
    let readings = times[1] / times[0];
    report.lines.push(line(name, &times[1..], bytes, None));
    report.lines.push(format!("{:48} {readings:10.2}   readings of the file, {:.3} ms each", "", times[0] * 1e3));
    report.goals.push(goal(&format!("{name}, in readings"), readings, most, false));
}

fn goal(name: &str, value: f64, limit: f64, least: bool) -> String {
    let (sign, reached) = if least { ("at least", value >= limit) } else { ("at most", value <= limit) };
    let word = if reached { "reached" } else { "MISSED" };
    format!("{name:60} {value:6.2}, {sign} {limit}: {word}")
}
