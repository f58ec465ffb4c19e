//! The cases, part by part.

pub mod ancestors;
pub mod appends;
pub mod begins;
pub mod blocks;
pub mod cuts;
pub mod damaged;
pub mod every_call;
pub mod latest;
pub mod limits;
pub mod listings;
pub mod marks;
pub mod pairs;
pub mod prices;
pub mod relation_lines;
pub mod relations;
pub mod rich;
pub mod valid;

use crate::both::Run;
use crate::random::Random;

/// Calls of each kind that only look at a file, on any bytes.
pub fn look(run: &mut Run, random: &mut Random, file: &[u8], count: usize) {
    let row = match random.below(8) {
        0 => count + random.below(3),
        1 => random.pick(&[usize::MAX, 1 << 32, 1 << 30]),
        _ => random.below(count.max(1)),
    };
    let _ = run.contents(file, row);
    let dependency = random.pick(&[0, 0, 1, 2, 4, 5, 9999, usize::MAX]);
    let _ = run.parent(file, row, dependency);
    let id = match random.below(4) {
        0 => b"0".to_vec(),
        1 => b"P1".to_vec(),
        2 => b"P2        ".to_vec(),
        _ => random.text(10),
    };
    let room = random.pick(&[0, 1, 50, 400]);
    let _ = run.gather(file, row, &id, room);
    if random.one_in(8) {
        let _ = run.relations_write(file, 50 * room);
        let _ = run.relations_check(file, row, room);
        let _ = run.relations_check_latest(file, room);
        let _ = run.ancestors(file, row, room);
        let _ = run.price(file, (random.next(), random.next() >> 40), room);
        let _ = run.pack(file, 50 * room);
        let _ = run.unpack(file, room);
    }
}
