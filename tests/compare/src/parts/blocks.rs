//! Files in blocks: bytes of every length and files of every kind, packed and unpacked; packed files of one, two and three blocks
//! with every byte changed, cut at every byte, their blocks exchanged, doubled, lost and zeroed, and two faults at once; blocks
//! with any numbers, uses, data and sums; and any bytes. What is right is reckoned by making each block anew.

use crate::blocks::{block, packed, put_sum, unpacked, BLOCK, DATA};
use crate::both::Run;
use crate::generate;
use crate::parts::damaged::damaged;
use crate::parts::rich;
use crate::random::Random;
use crate::tally::Call;

/// So many calls at least give each number in this part.
const FLOORS: [(Call, u8, u64); 7] = [
    (Call::Pack, 0, 30_000),
    (Call::Pack, 18, 10_000),
    (Call::Unpack, 0, 40_000),
    (Call::Unpack, 18, 40_000),
    (Call::Unpack, 27, 40_000),
    (Call::Unpack, 28, 7_000),
    (Call::Unpack, 29, 30_000),
];

pub fn run(run: &mut Run, cases: u64) {
    run.part = "blocks";
    run.case = 0;
    let before = FLOORS.map(|(call, number, _)| run.tally.times(call, number));
    every_length(run);
    for length in [0, 3, 504, 505, 1000, 1008, 1009, 1511] {
        let file = any_bytes(&mut Random::new(run.seed, run.part, length as u64), length);
        run.names = vec![format!("{length} bytes")];
        every_change(run, &file);
        every_cut(run, &file);
        every_sequence(run, &file);
        two_faults(run, &file);
    }
    for (name, file) in rich::files() {
        run.names = vec![name.to_string()];
        carried(run, &file.bytes);
    }
    for case in 0..cases {
        run.case = case;
        let mut random = Random::new(run.seed, run.part, case);
        generated(run, &mut random);
        any_blocks(run, &mut random);
    }
    for ((call, number, floor), before) in FLOORS.into_iter().zip(before) {
        let times = run.tally.times(call, number) - before;
        assert!(times >= floor, "{call:?} gave {number} only {times} times");
    }
}

/// Any bytes but zero.
fn any_bytes(random: &mut Random, length: usize) -> Vec<u8> {
    (0..length).map(|_| random.between(1, 255) as u8).collect()
}

/// Up to two blocks and some more, around the ends of more blocks, and around 256 blocks.
fn every_length(run: &mut Run) {
    let around = [3, 4, 9, 255, 256, 257].map(|blocks| DATA * blocks - 2..=DATA * blocks + 2);
    for length in (0..=2 * DATA + 100).chain(around.into_iter().flatten()) {
        let random = any_bytes(&mut Random::new(run.seed, run.part, length as u64), length);
        for (name, file) in [("zeros", vec![0; length]), ("of 255", vec![255; length]), ("any", random)] {
            run.names = vec![format!("{length} bytes, {name}")];
            carried(run, &file);
        }
    }
}

/// A file packed, and unpacked from its packed file.
fn carried(run: &mut Run, file: &[u8]) {
    let blocks = packed(file);
    rooms(run, file, blocks.len() + 50, &Ok(blocks.clone()), |run, room| run.pack(file, room));
    let answer = judged(run, &blocks);
    run.demand(answer.as_deref() == Ok(file), "another file is unpacked", &blocks, 0);
}

/// Any bytes unpacked. "only packed files are accepted": a file that is given back packs to the same bytes.
fn judged(run: &mut Run, blocks: &[u8]) -> Result<Vec<u8>, u8> {
    let right = unpacked(blocks);
    rooms(run, blocks, blocks.len() + 50, &right, |run, room| run.unpack(blocks, room));
    if let Ok(file) = &right {
        let again = run.pack(file, blocks.len());
        run.demand(again.as_deref() == Ok(blocks), "it isn't packed to the same bytes", blocks, 0);
    }
    right
}

/// A call into a buffer of so many bytes, which are enough, and into ones that are just long enough, one byte too short, and
/// empty.
fn rooms(
    run: &mut Run,
    given: &[u8],
    long: usize,
    right: &Result<Vec<u8>, u8>,
    call: impl Fn(&mut Run, usize) -> Result<Vec<u8>, u8>,
) {
    let length = right.as_ref().map_or(0, Vec::len);
    for room in [long, length, length.saturating_sub(1), 0] {
        let answer = call(run, room);
        let as_asked = if room < length { answer == Err(18) } else { answer == *right };
        run.demand(as_asked, &format!("another answer into {room} bytes"), given, 0);
        if room == 0 {
            break;
        }
    }
}

/// Refused with this number.
fn refused(run: &mut Run, blocks: &[u8], number: u8) {
    let answer = judged(run, blocks).err();
    run.demand(answer == Some(number), &format!("{answer:?}, not {number}"), blocks, 0);
}

/// Every byte changed in three ways, each with the sum left and with the sum put right.
fn every_change(run: &mut Run, file: &[u8]) {
    let whole = packed(file);
    for place in 0..whole.len() {
        run.case = place as u64;
        let any = Random::new(run.seed, "a byte of a block", run.case).between(1, 255) as u8;
        let start = place / BLOCK * BLOCK;
        for change in [1, 0x80, any] {
            let mut bytes = whole.clone();
            bytes[place] ^= change;
            refused(run, &bytes, 27);
            put_sum(&mut bytes[start..start + BLOCK]);
            let _ = judged(run, &bytes);
        }
    }
}

/// Cut at every byte; and with one to 511 bytes of the first block behind the last one.
fn every_cut(run: &mut Run, file: &[u8]) {
    let whole = packed(file);
    for length in 0..whole.len() {
        run.case = length as u64;
        match length % BLOCK {
            0 if length > 0 => {
                let left = judged(run, &whole[..length]);
                let right = &file[..length / BLOCK * DATA];
                run.demand(left.as_deref() == Ok(right), "another file is left", &whole, length);
            }
            _ => refused(run, &whole[..length], 29),
        }
    }
    for more in 1..BLOCK {
        run.case = more as u64;
        refused(run, &[&whole[..], &whole[..more]].concat(), 29);
    }
}

/// The blocks of a file and one of zeros, up to four of them in every order, each any number of times.
fn every_sequence(run: &mut Run, file: &[u8]) {
    let whole = packed(file);
    let kinds: Vec<&[u8]> = whole.chunks(BLOCK).chain([&[0; BLOCK][..]]).collect();
    for count in 0..=4 {
        for sequence in 0..kinds.len().pow(count) {
            run.case = sequence as u64;
            let blocks = (0..count).map(|at| kinds[sequence / kinds.len().pow(at) % kinds.len()]);
            let _ = judged(run, &blocks.collect::<Vec<&[u8]>>().concat());
        }
    }
}

/// What can be wrong with a block, and its number.
type Fault = (u8, fn(&mut [u8]));

/// A wrong sum stands last, for the others put it right.
const FAULTS: [Fault; 9] = [
    (29, |block| block[4..6].copy_from_slice(&[255, 255])),
    (29, |block| block[4..6].copy_from_slice(&[2, 0])),
    (29, |block| block[4..6].copy_from_slice(&[1, 249])),
    (29, |block| block[4..7].copy_from_slice(&[0, 0, 1])),
    (28, |block| block[3] += 1),
    (28, |block| block[2] += 1),
    (28, |block| block[0] += 1),
    (27, |block| block[511] = block[511].wrapping_add(1)),
    (27, |block| block[510] = block[510].wrapping_add(1)),
];

/// Two faults, in one block or in two, and the last block whole or not.
fn two_faults(run: &mut Run, file: &[u8]) {
    let whole = packed(file);
    let places = 0..whole.len() / BLOCK;
    let faults: Vec<(Fault, usize)> =
        FAULTS.into_iter().flat_map(|fault| places.clone().map(move |place| (fault, place))).collect();
    run.case = 0;
    for (at, &first) in faults.iter().enumerate() {
        for &second in &faults[at..] {
            for cut in [0, 1, BLOCK - 1] {
                run.case += 1;
                both(run, &whole, [first, second], cut);
            }
        }
    }
}

/// The first wrong block decides, and in it the lower number; but of a partial block nothing is looked at.
fn both(run: &mut Run, whole: &[u8], faults: [(Fault, usize); 2], cut: usize) {
    let mut bytes = whole.to_vec();
    for ((number, make), place) in faults {
        let block = &mut bytes[place * BLOCK..][..BLOCK];
        make(block);
        if number > 27 {
            put_sum(block);
        }
    }
    bytes.truncate(whole.len() - cut);
    let partial = |place: usize| (place + 1) * BLOCK > bytes.len();
    let wrong = faults.map(|((number, _), place)| (place, if partial(place) { 29 } else { number }));
    refused(run, &bytes, wrong[0].min(wrong[1]).1);
}

/// A file of every kind, whole and damaged; and its packed file with some bytes changed.
fn generated(run: &mut Run, random: &mut Random) {
    let chunks = random.pick(&[0, 1, 2, 3, 5, 8]);
    let nul = random.one_in(2);
    let file = generate::file(random, nul, chunks);
    run.names = vec![format!("{} chunks, mark of {}, NUL {nul}", file.rows.len(), file.mark.len())];
    carried(run, &file.bytes);
    let mut blocks = packed(&file.bytes);
    for _ in 0..random.between(1, 3) {
        let place = random.below(blocks.len());
        blocks[place] = random.next() as u8;
        if !random.one_in(4) {
            let start = place / BLOCK * BLOCK;
            put_sum(&mut blocks[start..start + BLOCK]);
        }
    }
    let _ = judged(run, &blocks);
    let bytes = damaged(run, random, &file);
    carried(run, &bytes);
}

/// Some blocks, most of them with a right sum, now and then with a partial one; and any bytes.
fn any_blocks(run: &mut Run, random: &mut Random) {
    run.names = vec!["any blocks".to_string()];
    for _ in 0..8 {
        let count = random.between(1, 4) as u32;
        let mut blocks: Vec<u8> =
            (1..=count).flat_map(|number| any_block(random, number - 1, number == count)).collect();
        if random.one_in(8) {
            blocks.truncate(blocks.len() - random.below(BLOCK));
        }
        let _ = judged(run, &blocks);
    }
    let length = if random.one_in(2) { BLOCK * random.between(1, 2) } else { random.below(4 * BLOCK) };
    let bytes = random.bytes(length);
    let _ = judged(run, &bytes);
}

fn any_block(random: &mut Random, number: u32, last: bool) -> Vec<u8> {
    let number = match random.below(24) {
        0 => number + 1,
        1 => number.wrapping_sub(1),
        2 => number | 1 << random.pick(&[8, 16, 24, 31]),
        3 => number.swap_bytes(),
        _ => number,
    };
    let used = match random.below(8) {
        0 => random.pick(&[0, 1, 502, 503, 504, 505, 506, 510, 511, 512, 0xF801, 65_535]),
        _ if last => random.between(0, DATA) as u16,
        _ => DATA as u16,
    };
    let length = match random.below(8) {
        0 => random.between(0, DATA),
        _ => DATA.min(used.into()),
    };
    let mut block = block(number, used, &random.bytes(length));
    match random.below(24) {
        0 => block[511] = block[511].wrapping_add(random.pick(&[1, 255])),
        1 => block[510] = block[510].wrapping_add(random.pick(&[1, 255])),
        2 => block[510..].reverse(),
        // which leaves the sum right
        3 => block.swap(random.below(510), random.below(510)),
        _ => (),
    }
    block
}
