//! Valid files of every kind, with the rows that they must give.

use crate::both::Run;
use crate::build::{filled, File, Kind};
use crate::generate::{self, same_serial};
use crate::random::Random;

pub fn run(run: &mut Run, cases: u64) {
    run.part = "valid";
    for case in 0..cases {
        run.case = case;
        let mut random = Random::new(run.seed, run.part, case);
        let random = &mut random;
        let chunks = random.pick(&[0, 1, 2, 3, 5, 8]);
        let nul = random.one_in(2);
        let file = generate::file(random, nul, chunks);
        run.names = vec![format!("{} chunks, mark of {}, NUL {nul}", file.rows.len(), file.mark.len())];
        reading(run, random, &file);
        parents(run, random, &file);
        parts(run, random, &file);
        listing(run, random, &file);
    }
}

/// Tables of no, one, few, just enough and more rows.
fn reading(run: &mut Run, random: &mut Random, file: &File) {
    let count = file.rows.len();
    for room in [0, 1, random.below(count + 1), count, count + random.between(1, 3)] {
        let (reading, rows) = run.read(&file.bytes, room);
        let taken = count.min(room);
        let stop = if taken == 0 { file.header_end } else { file.rows[taken - 1].end };
        let number = if room < count { 10 } else { 0 };
        let right = reading.count == taken
            && reading.stop == stop
            && reading.number == number
            && reading.good == file.header_good;
        run.demand(right, &format!("{reading:?} of a valid file"), &file.bytes, stop);
        for (row, right) in rows.iter().zip(&file.rows) {
            run.demand(row == right, &format!("{row:?} is not {right:?}"), &file.bytes, right.place);
        }
    }
}

fn parents(run: &mut Run, random: &mut Random, file: &File) {
    let bytes = &file.bytes;
    for (number, row) in file.rows.iter().enumerate() {
        let n = row.dependencies;
        for j in (0..n).step_by(n / 6 + 1).chain([n]) {
            let answer = run.parent(bytes, number, j);
            if j == n {
                run.demand(answer == Err(14), "there is no such dependency", bytes, row.place);
                continue;
            }
            let line = row.place + 568 + 344 * j;
            let found = file.rows.iter().position(|of| same_serial(&of.serial, &bytes[line + 25..]));
            let right = found.map(|row| plain::Parent {
                row,
                agree: filled(&file.sub_formats[row], 256) == bytes[line + 87..line + 343],
            });
            run.demand(answer == Ok(right), &format!("{answer:?} is not {right:?}"), bytes, line);
        }
    }
    let beyond = file.rows.len() + random.below(2);
    let answer = run.parent(bytes, beyond, 0);
    run.demand(answer == Err(13), "there is no such row", bytes, 0);
}

/// Contents of every row; short IDs of every MultiChunk gathered, into rooms of every kind. Of many types only some are.
fn parts(run: &mut Run, random: &mut Random, file: &File) {
    let bytes = &file.bytes;
    for (number, row) in file.rows.iter().enumerate() {
        let right = &bytes[row.contents..][..row.bytes];
        let part = run.contents(bytes, number);
        run.demand(part == Ok(right), "contents", bytes, row.contents);
        if !row.multichunk {
            let answer = run.gather(bytes, number, b"0", 8);
            run.demand(answer == Err(14), "no MultiChunk", bytes, row.place);
        }
    }
    let ids: Vec<_> = file.spans.iter().filter(|span| span.kind == Kind::ShortId).collect();
    for span in ids.iter().step_by(ids.len() / 8 + 1) {
        let row = file.rows.iter().rposition(|row| row.place < span.start).expect("it stands in a chunk");
        gather(run, random, file, row, &bytes[span.start..span.end]);
    }
    let beyond = file.rows.len() + random.below(2);
    let answer = run.contents(bytes, beyond);
    run.demand(answer == Err(13), "there is no such row", bytes, 0);
    let answer = run.gather(bytes, beyond, b"0", 0);
    run.demand(answer == Err(13), "there is no such row", bytes, 0);
}

fn gather(run: &mut Run, random: &mut Random, file: &File, row: usize, id: &[u8]) {
    let bytes = &file.bytes;
    let of = file.rows[row];
    let mut right = Vec::new();
    let inside = |span: &&crate::build::Span| span.start >= of.contents && span.start < of.contents + of.bytes;
    let spans: Vec<_> = file.spans.iter().filter(inside).collect();
    for four in spans.windows(4).filter(|four| four[0].kind == Kind::MiniLabel) {
        if &bytes[four[1].start..four[1].end] == id {
            right.extend(&bytes[four[3].start..four[3].end]);
        }
    }
    let trimmed = id.trim_ascii_end();
    let over = [id, b" "].concat();
    let mut ill = id.to_vec();
    ill[9] = random.pick(&[0, 10, 31, 127, 200]);
    for (id, declared) in [(id, true), (trimmed, true), (&over, false), (&ill, false), (b"undeclared", false)] {
        let room = match random.below(4) {
            0 => right.len().saturating_sub(1),
            1 => right.len() + random.below(20),
            _ => right.len(),
        };
        let answer = run.gather(bytes, row, id, room);
        let expected = match declared {
            false => Err(14),
            true if room < right.len() => Err(18),
            true => Ok(right.clone()),
        };
        run.demand(answer == expected, &format!("gather gave {answer:?}"), bytes, of.place);
    }
}

fn listing(run: &mut Run, random: &mut Random, file: &File) {
    let mut text = format!("header {}\nchunks {}\n", word(file.header_good), file.rows.len());
    for (number, row) in file.rows.iter().enumerate() {
        let serial = String::from_utf8_lossy(&row.serial);
        text += &format!("{number} {} {} {} {} {serial}\n", row.place, row.header, row.bytes, word(row.good));
    }
    text += &format!("end {} 0\n", file.bytes.len());
    if file.bytes.len() > 65_536 {
        text = "end 0 11\n".to_string();
    }
    let room = text.len() + random.below(3) - 1;
    let answer = run.listing(&file.bytes, room);
    let right = if room < text.len() { Err(18) } else { Ok(text.into_bytes()) };
    run.demand(answer == right, "listing", &file.bytes, 0);
}

fn word(good: bool) -> &'static str {
    if good {
        "good"
    } else {
        "bad"
    }
}
