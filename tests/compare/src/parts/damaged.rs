//! Valid files of every kind with one, two or three fields damaged at once, so that the order of the tests decides.

use std::ops::Range;

use crate::both::Run;
use crate::build::File;
use crate::damage::ways;
use crate::generate;
use crate::parts::look;
use crate::random::Random;

pub fn run(run: &mut Run, files: u64, each: u64) {
    run.part = "damaged";
    for number in 0..files {
        let mut random = Random::new(run.seed, "file to damage", number);
        let chunks = random.pick(&[1, 1, 2, 3]);
        let nul = random.one_in(2);
        let file = generate::file(&mut random, nul, chunks);
        damages(run, &file, number * each..(number + 1) * each);
    }
}

/// One file, damaged anew in each of these cases.
pub fn damages(run: &mut Run, file: &File, cases: Range<u64>) {
    for case in cases {
        run.case = case;
        let mut random = Random::new(run.seed, run.part, run.case);
        let random = &mut random;
        run.names = vec![format!("{} chunks, mark of {}, NUL {}", file.rows.len(), file.mark.len(), file.nul)];
        let mut bytes = damaged(run, random, file);
        if random.one_in(10) {
            repeat(run, random, file, &mut bytes);
        }
        let (reading, _) = run.read(&bytes, 9);
        let _ = run.read(&bytes, random.below(3));
        look(run, random, &bytes, reading.count);
        if random.one_in(4) {
            let _ = run.listing(&bytes, 1000);
        }
    }
}

/// Up to three damages, all in the same few fields now and then, from the last to the first.
pub fn damaged(run: &mut Run, random: &mut Random, file: &File) -> Vec<u8> {
    let header = file.spans.iter().filter(|span| span.end <= file.header_end).count();
    let near = if random.one_in(8) { random.below(header) } else { random.below(file.spans.len()) };
    let few = random.one_in(2);
    let mut places: Vec<usize> = (0..random.between(1, 3))
        .map(|_| match few {
            true => (near + random.below(8)).min(file.spans.len() - 1),
            false => random.below(file.spans.len()),
        })
        .collect();
    places.sort_unstable();
    places.dedup();
    let mut bytes = file.bytes.clone();
    for &place in places.iter().rev() {
        let span = file.spans[place];
        let way = random.pick(&ways(span));
        run.names.push(format!("{:?} at {}: {}", span.kind, span.start, way.name));
        (way.apply)(&mut bytes, span, random);
    }
    bytes
}

/// A chunk of the file once more behind it, whole or cut short.
fn repeat(run: &mut Run, random: &mut Random, file: &File, bytes: &mut Vec<u8>) {
    let again = file.rows[random.below(file.rows.len())];
    let cut = if random.one_in(4) { random.between(1, 300) } else { 0 };
    if random.one_in(2) {
        *bytes = file.bytes.clone();
    }
    bytes.extend(&file.bytes[again.place..again.end - cut]);
    run.names.push(format!("the chunk at {} again, without {cut} bytes", again.place));
}
