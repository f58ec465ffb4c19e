//! The listing's own bounds: "a file of up to 65,536 bytes", "with rows enough", "A longer input prints only "end 0 11"."

use crate::both::Run;
use crate::build::{Chunk, Contents, File};
use crate::generate;
use crate::random::Random;

const LONGEST: usize = 65_536;

pub fn run(run: &mut Run) {
    run.part = "listings";
    run.case = 0;
    let mut random = Random::new(run.seed, run.part, 0);
    let random = &mut random;
    let mut file = File::new(false, b"", &generate::closing(random));
    while file.bytes.len() + 2 * 856 <= LONGEST {
        file.push(&small(random, 0));
    }
    let rest = LONGEST - file.bytes.len() - 856;
    for (room, data) in [(LONGEST - 1, rest - 1), (LONGEST, rest), (LONGEST + 1, rest + 1)] {
        run.names = vec![format!("76 chunks, {room} bytes")];
        let mut file = file.clone();
        file.push(&small(random, data));
        assert_eq!((file.rows.len(), file.bytes.len()), (76, room));
        let text = run.listing(&file.bytes, 6000);
        let lines = text.map(|text| text.iter().filter(|&&byte| byte == b'\n').count());
        let right = if room > LONGEST { 1 } else { 79 };
        run.demand(lines == Ok(right), &format!("{lines:?} lines, not {right}"), &file.bytes, 0);
    }
    for length in [0, LONGEST - 1, LONGEST, LONGEST + 1, LONGEST + 2, 1 << 20] {
        run.names = vec![format!("{length} zeros")];
        let zeros = vec![0; length];
        for room in [0, 8, 9, 27, 28, 29, 30] {
            let _ = run.listing(&zeros, room);
        }
    }
}

fn small(random: &mut Random, data: usize) -> Chunk {
    Chunk {
        sub_format: Vec::new(),
        generic: *b"BIN",
        times: generate::times(random),
        dependencies: Vec::new(),
        specific: Vec::new(),
        contents: Contents::Counted(vec![b'x'; data]),
        closing: generate::closing(random),
    }
}
