//! Begin: accepted, and every refusal, alone and several at once.

use plain::{Beginning, Serial};

use crate::both::Run;
use crate::generate;
use crate::random::Random;

/// What begin is given, with its texts.
struct Given {
    strategy: [u8; 3],
    mark: Vec<u8>,
    serial: Serial,
    recorded: [u8; 8],
    recorder: Vec<u8>,
    written: [u8; 8],
    writer: Vec<u8>,
    room: usize,
}

/// A fault and the number that it alone gives.
type Fault = (&'static str, u8, fn(&mut Given, &mut Random));

const FAULTS: &[Fault] = &[
    ("strategy", 6, |g, r| g.strategy = r.pick(&[*b"nul", *b"LLD", *b"   ", *b"UTC", [0; 3]])),
    ("mark over 999", 6, |g, r| g.mark = generate::mark_of(r, 1000)),
    ("serial number", 6, |g, r| g.serial = bad_serial(r)),
    ("recording date", 6, |g, r| g.recorded = bad_date(r)),
    ("recording agent", 6, |g, r| g.recorder = bad_text(r, 32)),
    ("writing date", 6, |g, r| g.written = bad_date(r)),
    ("writing agent", 6, |g, r| g.writer = bad_text(r, 32)),
    ("tape", 2, |g, _| (g.strategy, g.mark) = (*b"NUL", Vec::new())),
    ("mark begins MiniChunk=", 3, |g, _| {
        let length = g.mark.len().max(10);
        g.mark.resize(length, b'x');
        g.mark[..10].copy_from_slice(b"MiniChunk=");
    }),
    ("zero in the mark", 15, |g, r| {
        if g.mark.is_empty() {
            g.mark.push(b'x');
        }
        let at = r.below(g.mark.len());
        g.mark[at] = 0;
    }),
    ("room", 18, |g, r| {
        let length = 319 + 2 * g.mark.len();
        g.room = length - r.pick(&[1, 1, 2, 300, length]);
    }),
];

/// Out of form in any way.
pub fn bad_serial(random: &mut Random) -> Serial {
    let mut serial = generate::serial(random);
    match random.below(6) {
        0 => serial[0] = b'$',
        1 => serial[37] = b' ',
        2 => serial[37] = b'0' + (serial[37] - b'0' + 1) % 10,
        3 => serial[1..9].copy_from_slice(b"20230229"),
        4 => serial = [b' '; 38],
        _ => serial = [0; 38],
    }
    serial
}

pub fn bad_date(random: &mut Random) -> [u8; 8] {
    random.pick(&[
        *b"20230229",
        *b"19000229",
        *b"00000101",
        *b"20240001",
        *b"20241301",
        *b"20240100",
        *b"20240132",
        *b"2024010 ",
        [0; 8],
    ])
}

/// Over-long, if only by a space, or with a byte that is no text's.
pub fn bad_text(random: &mut Random, width: usize) -> Vec<u8> {
    if random.one_in(2) {
        let length = width + random.pick(&[1, 1, 2, 300]);
        return vec![random.pick(b" x"); length];
    }
    let length = random.between(1, width);
    let mut text = random.text(length);
    let at = random.below(text.len());
    text[at] = random.pick(&[0, 9, 10, 31, 127, 128, 255]);
    text
}

fn good(random: &mut Random) -> Given {
    let nul = random.one_in(2);
    let mut mark = generate::mark(random, nul);
    for byte in &mut mark {
        *byte = (*byte).max(1);
    }
    let closing = generate::closing(random);
    Given {
        strategy: if nul { *b"NUL" } else { *b"LLC" },
        room: 319 + 2 * mark.len() + random.pick(&[0, 0, 1, 100]),
        mark,
        serial: closing.serial,
        recorded: closing.recorded,
        recorder: closing.recorder,
        written: closing.written,
        writer: closing.writer,
    }
}

fn call(run: &mut Run, given: &Given) -> Result<Vec<u8>, u8> {
    let beginning = Beginning {
        strategy: given.strategy,
        mark: &given.mark,
        serial: given.serial,
        recorded: given.recorded,
        recorder: &given.recorder,
        written: given.written,
        writer: &given.writer,
    };
    run.begin(&beginning, given.room)
}

pub fn run(run: &mut Run, cases: u64) {
    run.part = "begin";
    for case in 0..cases {
        run.case = case;
        let mut random = Random::new(run.seed, run.part, case);
        let random = &mut random;
        let mut given = good(random);
        run.names = vec!["accepted".to_string()];
        let answer = call(run, &given);
        let Ok(file) = answer else { run.fail(&format!("begin gave {answer:?}"), b"", 0) };
        let (reading, _) = run.read(&file, 1);
        let clean = reading.count == 0 && reading.good && reading.is_clean(file.len());
        run.demand(clean && file.len() == 319 + 2 * given.mark.len(), &format!("begun, {reading:?}"), &file, 0);

        let (name, number, fault) = FAULTS[case as usize % FAULTS.len()];
        let mut one =
            Given { mark: given.mark.clone(), recorder: given.recorder.clone(), writer: given.writer.clone(), ..given };
        fault(&mut one, random);
        if number != 18 {
            one.room = 2400;
        }
        run.names = vec![name.to_string()];
        let answer = call(run, &one);
        run.demand(answer == Err(number), &format!("begin gave {answer:?}, not {number}"), b"", 0);

        run.names.clear();
        for _ in 0..random.between(2, 4) {
            let (name, _, fault) = random.pick(FAULTS);
            run.names.push(name.to_string());
            fault(&mut given, random);
        }
        let answer = call(run, &given);
        run.demand(answer.is_err(), "begin took several faults", b"", 0);
    }
}
