//! The price statement: two chunks of few and of many units with good and bad sums, at rates of every size; files of every kind,
//! whole and damaged, at rates near the border of 18 digits and of 64 bits; and every damage of a rich file. What is right is
//! reckoned from the rows of a reading.

use std::fmt::Write;

use plain::Row;

use crate::both::Run;
use crate::build::{Contents, File};
use crate::generate;
use crate::parts::damaged::damaged;
use crate::parts::relations::rooms;
use crate::parts::rich::{self, each_damage};
use crate::random::Random;
use crate::simple::{chunk, closing, counted, MISSING};

/// The first total that has more than 18 digits.
const TOO_MUCH: u64 = 1_000_000_000_000_000_000;

/// The first rate and the second.
type Rates = (u64, u64);

pub fn run(run: &mut Run, cases: u64) {
    run.part = "prices";
    run.case = 0;
    two_chunks(run);
    every_damage(run);
    for case in 0..cases {
        run.case = case;
        generated(run, &mut Random::new(run.seed, run.part, case));
    }
}

const LENGTHS: [usize; 7] = [0, 1, 1023, 1024, 1025, 2048, 1 << 20];

const RATES: [u64; 9] = [0, 1, 7, TOO_MUCH / 2 - 1, TOO_MUCH / 2, TOO_MUCH - 1, TOO_MUCH, 1 << 63, u64::MAX];

/// Each with a good and a bad sum; the long contents once.
fn two_chunks(run: &mut Run) {
    let serials = counted(2);
    for first in 0..LENGTHS.len() * 2 {
        for second in 0..(LENGTHS.len() - 1) * 2 {
            let mut file = File::new(false, b"", &closing(MISSING));
            for (serial, which) in serials.iter().zip([first, second]) {
                let mut chunk = chunk(*serial, Contents::Counted(vec![b'x'; LENGTHS[which / 2]]));
                chunk.closing.sum_off = (which % 2) as u8;
                file.push(&chunk);
            }
            run.names = vec![format!("{} and {} bytes", LENGTHS[first / 2], LENGTHS[second / 2])];
            let few = if first / 2 == LENGTHS.len() - 1 { 4 } else { 1 };
            for rates in (0..RATES.len() * RATES.len()).step_by(few) {
                priced(run, &file.bytes, (RATES[rates / RATES.len()], RATES[rates % RATES.len()]));
            }
        }
    }
}

fn every_damage(run: &mut Run) {
    for (name, file) in rich::files() {
        run.names = vec![name.to_string()];
        each_damage(run, &file, |run, random, bytes, _, _| {
            let rates = rates(random, &file.rows);
            priced(run, bytes, rates);
        });
    }
}

/// A file of every kind of chunk, some of them with several units, whole and damaged.
fn generated(run: &mut Run, random: &mut Random) {
    let nul = random.one_in(2);
    let mut file = generate::file(random, nul, 0);
    let later = generate::serial(random);
    for _ in 0..random.below(7) {
        let mut chunk = generate::chunk(random, &file, &later);
        if let (Contents::Counted(data), true) = (&mut chunk.contents, random.one_in(2)) {
            data.resize(random.pick(&[0, 1, 1023, 1024, 1025, 3000, 70_000]), b'x');
        }
        if file.rows.iter().all(|row| !generate::same_serial(&row.serial, &chunk.closing.serial)) {
            file.push(&chunk);
        }
    }
    run.names = vec![format!("{} chunks, mark of {}, NUL {nul}", file.rows.len(), file.mark.len())];
    for _ in 0..3 {
        let rates = rates(random, &file.rows);
        let parts = priced(run, &file.bytes, rates);
        let header = 319 + 2 * file.mark.len();
        let right = parts.is_none_or(|parts| parts == [header, file.bytes.len() - header, 0]);
        run.demand(right, &format!("{parts:?} of a whole file"), &file.bytes, 0);
    }
    let bytes = damaged(run, random, &file);
    let rates = rates(random, &file.rows);
    priced(run, &bytes, rates);
}

/// Rates of every size; or such that the total of these rows is near the border of 18 digits, or of 64 bits.
fn rates(random: &mut Random, rows: &[Row]) -> Rates {
    let (rows, units) = charged(rows);
    if rows == 0 || random.one_in(3) {
        return (any_rate(random), any_rate(random));
    }
    let aim = random.pick(&[u128::from(TOO_MUCH), 1 << 64]) + random.below(5) as u128 - 2;
    let rate = match random.below(4) {
        _ if units == 0 => any_rate(random),
        0 => 0,
        1 => random.below(1000) as u64,
        2 => (u128::from(random.next()) % (aim / units + 1)).min(u128::from(u64::MAX)) as u64,
        _ => (aim / units).min(u128::from(u64::MAX)) as u64,
    };
    let fee = aim.saturating_sub(units * u128::from(rate)) / rows + random.below(2) as u128;
    (fee.min(u128::from(u64::MAX)) as u64, rate)
}

fn any_rate(random: &mut Random) -> u64 {
    match random.below(4) {
        0 => random.pick(&RATES),
        1 => random.below(1000) as u64,
        2 => random.next() >> random.below(64),
        _ => random.next(),
    }
}

/// The rows with a good sum, and the started 1,024 contents bytes of them.
fn charged(rows: &[Row]) -> (u128, u128) {
    let good = || rows.iter().filter(|row| row.good);
    (good().count() as u128, good().map(|row| units(row.bytes)).sum())
}

/// The places at which one starts.
fn units(bytes: usize) -> u128 {
    (0..bytes).step_by(1024).count() as u128
}

/// The answer, into buffers that are longer, just long enough, one byte too short, and empty; unless it is refused, with header,
/// chunk and unread bytes.
fn priced(run: &mut Run, file: &[u8], rates: Rates) -> Option<[usize; 3]> {
    let (reading, rows) = run.read(file, 9);
    let chunks: usize = rows.iter().map(|row| row.end - row.place).sum();
    let parts = [reading.stop - chunks, chunks, file.len() - reading.stop];
    let right = statement(&rows, rates).map(|text| (text.into_bytes(), parts));
    let length = right.as_ref().map_or(0, |(text, _)| text.len());
    let answer = run.price(file, rates, length + 50);
    run.demand(answer == right, &format!("price at {rates:?}: {answer:?}, not {right:?}"), file, 0);
    rooms(run, file, length, answer, |run, room| run.price(file, rates, room));
    let empty = run.price(file, rates, 0).err();
    run.demand(
        empty == Some(right.as_ref().err().copied().unwrap_or(18)),
        &format!("{empty:?} into no bytes"),
        file,
        0,
    );
    right.ok().map(|(_, parts)| parts)
}

fn statement(rows: &[Row], (fee, rate): Rates) -> Result<String, u8> {
    let mut text = String::new();
    let mut total = 0;
    for (number, row) in rows.iter().enumerate() {
        let cents = u128::from(row.good) * (u128::from(fee) + u128::from(rate) * units(row.bytes));
        writeln!(text, "{number} {} {cents}", row.bytes).expect("a String takes any text");
        total += cents;
    }
    match total < u128::from(TOO_MUCH) {
        true => Ok(text + &format!("total {total}\n")),
        false => Err(21),
    }
}
