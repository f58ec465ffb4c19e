//! 300,000 chunks, which are more than the index of the proved library takes (some 172,000): repeats in the index, across its
//! end and behind it, and every call behind it. And more chunks that look like a repeat than are noted at once.

use compare::both::Run;
use compare::generate::{otherwise, with_check};
use compare::hashes::{border, one_hash, Filter};
use compare::parts::every_call::{self, Case};
use compare::random::Random;
use compare::simple::{counted, put, random, random_serial, Many};
use plain::Serial;

const CHUNKS: usize = 300_000;

/// So many rows have room in the index, and with some thousands more it is left.
const ENTERED: usize = 172_000;

/// Under valgrind (tests/memory) this would take hours; tests/collisions.rs has the same on fewer chunks.
fn left_out() -> bool {
    std::env::var_os("ADS_EXACT").is_some()
}

#[test]
fn counted_serial_numbers() {
    if !left_out() {
        repeats(&counted(CHUNKS));
    }
}

#[test]
fn random_serial_numbers() {
    if !left_out() {
        repeats(&random(CHUNKS));
    }
}

/// Which row stands once more at which place.
type Repeat = (usize, usize);

const LAST: usize = CHUNKS - 1;
const LATE: usize = CHUNKS - 50_000;
const LATER: usize = LATE + 10_000;

/// In the index, across its end, behind it, in the last row; two of them, of which the first counts.
const REPEATS: [&[Repeat]; 9] = [
    &[(100, 5_000)],
    &[(10, LATE)],
    &[(LATE - 50_000, LAST)],
    &[(LAST - 1, LAST)],
    &[(0, LAST)],
    &[(10, LATE), (10, LATER)],
    &[(10, LATE), (20, LATER)],
    &[(20, LATE), (10, LATER)],
    &[(LATE + 5, LATER), (10, LATE)],
];

fn repeats(serials: &[Serial]) {
    let mut many = Many::of(serials);
    many.stops_at(CHUNKS, 0);
    many.stops(many.bytes.len(), LATE, LATE, 10);
    for repeats in REPEATS {
        repeated(&mut many, serials, repeats);
    }
    around_the_border(&mut many, serials);
    drop(many);
    every_call::run(&mut Run::new(0), &Case::new(Many::of(serials), 7, 180_000));
}

fn repeated(many: &mut Many, serials: &[Serial], repeats: &[Repeat]) {
    for &(row, again) in repeats {
        many.set(again, &otherwise(&serials[row]));
    }
    let first = repeats.iter().map(|&(_, again)| again).min().expect("one at least");
    many.stops_at(first, 9);
    for &(_, again) in repeats {
        many.set(again, &serials[again]);
    }
}

/// Some rows around the border are a row once more: the one just before, or one farther back.
fn around_the_border(many: &mut Many, serials: &[Serial]) {
    let border = border(serials);
    assert!((ENTERED..CHUNKS).contains(&border));
    many.truncate(border + 200);
    for again in (border - 50..border + 150).step_by(17).chain(border - 3..border + 4) {
        let back = if again % 2 == 0 { 1 } else { 101 };
        repeated(many, serials, &[(again - back, again)]);
    }
}

/// Of the chunks that look like a repeat so many are noted at once.
const NOTED: usize = 40_000;

/// One hash for all chunks: each looks like a repeat.
#[test]
fn more_than_are_noted_of_one_hash() {
    if !left_out() {
        full(&one_hash(NOTED + 20_625), 1);
    }
}

/// Random serial numbers fill index and filter; behind them only such as the filter covers.
#[test]
fn more_than_are_noted_by_chance() {
    if !left_out() {
        let mut serials = random(ENTERED);
        serials.extend(covered(&Filter::of(&serials), NOTED + 20_625));
        full(&serials, border(&serials));
    }
}

/// Serial numbers all of whose bits the filter has.
fn covered(filter: &Filter, count: usize) -> Vec<Serial> {
    let mut random = Random::new(0, "covered", 0);
    let mut found = Vec::new();
    while found.len() < count {
        let mut serial = random_serial(&mut random);
        for number in 0..65_536 {
            put(&mut serial[30..35], number);
            if filter.covers(&serial) {
                found.push(with_check(serial[..35].try_into().expect("35 bytes")));
            }
        }
    }
    found.truncate(count);
    found
}

/// No repeat; then one among those noted first, across, and among those noted next, and the last one of all.
fn full(serials: &[Serial], from: usize) {
    let mut many = Many::of(serials);
    let last = serials.len() - 1;
    many.stops_at(last + 1, 0);
    let noted = from + NOTED;
    for repeat in [(from + 10, noted - 5_000), (from + 10, noted + 10_000), (noted + 5, noted + 10_000), (0, last)] {
        repeated(&mut many, serials, &[repeat]);
    }
    for again in [noted - 1, noted, noted + 1] {
        repeated(&mut many, serials, &[(again - 1, again)]);
        repeated(&mut many, serials, &[(1, again)]);
    }
}
