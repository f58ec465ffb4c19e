//! Serial numbers that share slot and tag in the index of the proved library (crates/index/specs/Index.antt) are different
//! all the same: each has its row, and 9 is only for the one that is there twice, however its check is written.
//!
//! Two of them leave the index, and from there on the reading looks ahead. So a file that begins with two of them has its
//! repeats found by that: wherever they stand, with a fault around them, with a table that ends around them, in every call, and
//! in damaged files.

use std::iter::repeat_n;

use compare::both::Run;
use compare::build::{Contents, File};
use compare::generate::{self, otherwise};
use compare::hashes::{hash, one_hash, slot_and_tag};
use compare::kernels;
use compare::parts::damaged::damages;
use compare::parts::every_call::{self, Case};
use compare::random::Random;
use compare::simple::{chunk, random, Many};
use plain::Serial;

/// So many of these serial numbers, of those with a check below 100, which can be written otherwise.
fn with_two_writings(mut serials: Vec<Serial>, count: usize) -> Vec<Serial> {
    serials.retain(|serial| otherwise(serial) != *serial);
    serials.truncate(count);
    assert_eq!(serials.len(), count);
    serials
}

fn colliding(count: usize) -> Vec<Serial> {
    with_two_writings(one_hash(4 * count), count)
}

/// Two serial numbers with one hash, then any.
fn two_colliding(count: usize) -> Vec<Serial> {
    [colliding(2), with_two_writings(random(4 * count), count - 2)].concat()
}

/// Else the tests here would show nothing of the look ahead.
#[test]
fn the_hash_is_that_of_the_library() {
    for serial in one_hash(40).iter().chain(&random(1_000)) {
        assert_eq!(hash(serial), kernels::hash(serial));
    }
}

#[test]
fn one_hash_and_many_serial_numbers() {
    let serials = one_hash(400);
    assert!(serials.iter().all(|serial| slot_and_tag(hash(serial)) == slot_and_tag(hash(&serials[0]))));
    let mut many = Many::of(&serials);
    many.stops_at(400, 0);
    for again in [0, 200, 399] {
        many.push(&serials[again]);
        many.stops_at(400, 9);
        many.truncate(400);
    }
}

/// Each one with a check below 100 again under the other writing of it, behind all of them: whichever writing comes first.
#[test]
fn two_writings_of_the_check() {
    let zeros = one_hash(100);
    let spaces: Vec<Serial> = zeros.iter().map(otherwise).collect();
    assert!(zeros.iter().zip(&spaces).filter(|(zero, space)| zero != space).count() >= 25);
    for (first, again) in [(&zeros, &spaces), (&spaces, &zeros)] {
        let mut many = Many::of(first);
        many.stops_at(100, 0);
        for serial in again {
            many.push(serial);
            many.stops_at(100, 9);
            many.truncate(100);
        }
    }
}

const CHUNKS: usize = 2_000;

/// Of these the later one repeats the earlier.
const PLACES: [usize; 7] = [0, 1, 2, 3, 999, 1_998, 1_999];

/// A byte of a chunk is changed, and the number that this gives: in the first label, in the serial number's check, in the
/// last line end.
const FAULTS: [(usize, u8); 3] = [(0, 5), (Many::CHUNK - 254 + 20 + 37, 6), (Many::CHUNK - 1, 5)];

#[test]
fn repeats_behind_two_colliding_serial_numbers() {
    each_repeat(&two_colliding(CHUNKS));
}

#[test]
fn repeats_among_colliding_serial_numbers() {
    each_repeat(&colliding(CHUNKS));
}

fn each_repeat(serials: &[Serial]) {
    let mut many = Many::of(serials);
    many.stops_at(CHUNKS, 0);
    for (at, &first) in PLACES.iter().enumerate() {
        for &again in &PLACES[at + 1..] {
            for serial in [serials[first], otherwise(&serials[first])] {
                many.set(again, &serial);
                with_faults(&mut many, again);
            }
            many.set(again, &serials[again]);
        }
    }
}

/// A fault before the repeat, in it and behind it; the file also ends there, in the middle of a chunk and before it.
fn with_faults(many: &mut Many, again: usize) {
    with_tables(many, many.bytes.len(), again, 9);
    for row in again - 1..(again + 2).min(CHUNKS) {
        let (count, repeated) = (row.min(again), row > again);
        let place = many.place(row);
        for (at, number) in FAULTS {
            let was = many.bytes[place + at];
            many.bytes[place + at] ^= 0x80;
            with_tables(many, many.bytes.len(), count, if repeated { 9 } else { number });
            many.bytes[place + at] = was;
        }
        with_tables(many, place + Many::CHUNK - 1, count, if repeated { 9 } else { 4 });
        with_tables(many, place, count, if repeated { 9 } else { 0 });
    }
}

/// So many bytes stop at a row with a number; tables that end before it, at it and behind it, and one with rows enough.
fn with_tables(many: &Many, bytes: usize, row: usize, number: u8) {
    for room in [row + 1, CHUNKS] {
        many.stops(bytes, room, row, number);
    }
    many.stops(bytes, row, row, number);
    if row > 0 {
        many.stops(bytes, row - 1, row - 1, 10);
    }
}

#[test]
fn one_serial_number_a_thousand_times() {
    let two = colliding(2);
    let serial = random(1)[0];
    for (first, row) in [(&two[..0], 1), (&two[..1], 2), (&two[..], 3)] {
        let many = Many::of(&first.iter().copied().chain(repeat_n(serial, 1_000)).collect::<Vec<Serial>>());
        many.stops_at(row, 9);
    }
    let many = Many::of(&two.iter().copied().chain(repeat_n(two[1], 1_000)).collect::<Vec<Serial>>());
    many.stops_at(2, 9);
}

/// A thousand rows once more, in order, backwards, and each under the other writing of its check.
#[test]
fn every_row_once_more() {
    for serials in [two_colliding(1_000), colliding(1_000)] {
        let backwards: Vec<Serial> = serials.iter().rev().copied().collect();
        let written_otherwise: Vec<Serial> = serials.iter().map(otherwise).collect();
        for again in [&serials, &backwards, &written_otherwise] {
            let many = Many::of(&[&serials[..], again].concat());
            for room in [999, 1_000, 1_001, 2_000] {
                many.stops(many.bytes.len(), room, room.min(1_000), if room < 1_000 { 10 } else { 9 });
            }
        }
    }
}

#[test]
fn every_other_call() {
    for serials in [two_colliding(500), colliding(500)] {
        for (early, late) in [(0, 1), (1, 2), (0, 498)] {
            every_call::run(&mut Run::new(0), &Case::new(Many::of(&serials), early, late));
        }
    }
}

/// A call that names a row looks ahead as far as that row, and goes to it at once: there is none from the repeat on.
#[test]
fn rows_around_a_repeat() {
    let mut run = Run::new(0);
    for serials in [two_colliding(500), colliding(500)] {
        let mut many = Many::of(&serials);
        for (first, again) in [(0, 2), (1, 3), (2, 3), (1, 250), (249, 250), (0, 499)] {
            many.set(again, &otherwise(&serials[first]));
            for row in again - 2..again + 3 {
                assert_eq!(run.contents(&many.bytes, row), if row < again { Ok(&b""[..]) } else { Err(13) });
            }
            many.set(again, &serials[again]);
        }
    }
}

/// Chunks of every kind behind two colliding ones, some with the serial number of an earlier row; then fields damaged.
#[test]
fn damaged_files_behind_two_colliding_serial_numbers() {
    let mut run = Run::new(0);
    run.part = "collisions, damaged";
    for number in 0..400 {
        let file = generated(&mut Random::new(0, "collisions", number));
        run.read(&file.bytes, 9);
        damages(&mut run, &file, number * 50..(number + 1) * 50);
    }
}

fn generated(random: &mut Random) -> File {
    let nul = random.one_in(2);
    let mut file = generate::file(random, nul, 0);
    for serial in colliding(2) {
        file.push(&chunk(serial, Contents::Counted(Vec::new())));
    }
    let later = generate::serial(random);
    for _ in 0..random.between(1, 6) {
        let mut next = generate::chunk(random, &file, &later);
        if random.one_in(6) {
            next.closing.serial = otherwise(&random.pick(&file.rows).serial);
        }
        file.push(&next);
    }
    file
}
