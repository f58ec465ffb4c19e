//! Power cuts of accepted appends. "A cut point is a write, a number of its bytes from none to all, and any choice of
//! 512-byte blocks, counted from the file's first byte. After it stand the old bytes, the writes before that one whole, and
//! that many first bytes of that one, in which every byte in a chosen block is zero."
//!
//! Both readings of what is left are compared. Then: the old rows and the old end, unless the bytes are the finished file.

use plain::{Reading, Row};

use crate::both::Run;
use crate::parts::appends::{good, Case};
use crate::random::Random;

/// An accepted append and what is known before it.
struct Append {
    finished: Vec<u8>,
    writes: [(usize, usize); 3],
    old: (Reading, Vec<Row>),
    new: (Reading, Vec<Row>),
    /// Row, dependency, and its answer in the old file and in the finished one.
    parents: Vec<(usize, usize, Found, Found)>,
}

type Found = Result<Option<plain::Parent>, u8>;

pub fn run(run: &mut Run, appends: u64) {
    for number in 0..appends {
        run.part = "power cuts";
        run.case = number;
        let mut random = Random::new(run.seed, run.part, number);
        let random = &mut random;
        let nul = number % 3 != 0;
        let open = number % 3 == 2;
        let mut case = good(random, nul, open, (number % 2) as usize);
        if number % 8 == 7 {
            case.given.specific = vec![0; 700];
            case.behind = case.needed();
        }
        let append = accepted(run, &case);
        for write in 0..3 {
            let (start, end) = append.writes[write];
            let long = end - start > 1300;
            for bytes in 0..=end - start {
                // of a long write every byte near its ends, and some of the others
                if long && bytes > 40 && end - start - bytes > 40 && !random.one_in(16) {
                    continue;
                }
                run.names = vec![format!("NUL {nul}, open {open}, write {}, {bytes} of its bytes", write + 1)];
                cuts(run, random, &append, write, bytes);
            }
        }
    }
}

fn accepted(run: &mut Run, case: &Case) -> Append {
    let (ends, mut finished) = match case.call(run) {
        Ok(answer) => answer,
        Err(number) => run.fail(&format!("append gave {number}"), &case.file.bytes, case.length),
    };
    finished.truncate(ends.third);
    let count = case.file.rows.len();
    let old_file = &finished[..case.length];
    let old = run.read(old_file, count + 1);
    let new = run.read(&finished, count + 1);
    let mut parents = Vec::new();
    for (row, of) in old.1.iter().enumerate() {
        for j in 0..of.dependencies {
            parents.push((row, j, run.parent(old_file, row, j), run.parent(&finished, row, j)));
        }
    }
    for (row, j, before, after) in &parents {
        let kept = match before {
            Ok(None) => matches!(after, Ok(None)) || matches!(after, Ok(Some(found)) if found.row == count),
            found => after == found,
        };
        run.demand(kept, &format!("parent of row {row}, dependency {j}: {before:?}, then {after:?}"), &finished, 0);
    }
    Append {
        writes: [(case.length, ends.first), (ends.first, ends.second), (ends.second, ends.third)],
        finished,
        old,
        new,
        parents,
    }
}

/// So many bytes of a write, with no block, all blocks, single ones and random sets of them zero.
fn cuts(run: &mut Run, random: &mut Random, append: &Append, write: usize, bytes: usize) {
    let start = append.writes[write].0;
    let cut = start + bytes;
    left(run, random, append, append.finished[..cut].to_vec());
    if bytes == 0 {
        return;
    }
    let (first, last) = (start / 512, (cut - 1) / 512);
    let zeroed = |chosen: &dyn Fn(usize) -> bool| {
        let mut file = append.finished[..cut].to_vec();
        for (place, byte) in file.iter_mut().enumerate().skip(start) {
            if chosen(place / 512) {
                *byte = 0;
            }
        }
        file
    };
    left(run, random, append, zeroed(&|_| true));
    if first == last {
        return;
    }
    let single = random.between(first, last);
    left(run, random, append, zeroed(&|block| block == single));
    left(run, random, append, zeroed(&|block| block == last));
    let some = random.next();
    left(run, random, append, zeroed(&|block| some >> (block % 64) & 1 == 1));
}

/// What a reading of the bytes left must give.
fn left(run: &mut Run, random: &mut Random, append: &Append, file: Vec<u8>) {
    let whole = file == append.finished;
    let old_end = append.old.0.stop;
    let room = append.old.1.len() + random.pick(&[1, 1, 2]);
    let (reading, rows) = run.read(&file, room);
    let (right, right_rows) = if whole { &append.new } else { &append.old };
    let same = rows == *right_rows && reading.stop == right.stop && reading.good == append.old.0.good;
    run.demand(same, &format!("{reading:?}, not {right:?}"), &file, old_end);
    let clean = reading.is_clean(file.len());
    run.demand(clean == (whole || file.len() == old_end), &format!("clean? {reading:?}"), &file, old_end);
    if !append.parents.is_empty() && random.one_in(8) {
        let (row, j, before, after) = random.pick(&append.parents);
        let answer = run.parent(&file, row, j);
        let right = if whole { after } else { before };
        run.demand(answer == right, &format!("parent {answer:?}, not {right:?}"), &file, old_end);
    }
}
