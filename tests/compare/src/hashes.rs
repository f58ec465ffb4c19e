//! The hash of a serial number in the proved library (crates/index/specs/Index.antt) and what is made of it; and serial numbers
//! that all have one hash.

use plain::Serial;

use crate::generate::with_check;

/// Four bytes from a place on are one number, the first byte lowest, and have a weight. Byte 31 counts twice.
#[rustfmt::skip]
const WEIGHTS: [(usize, u64); 9] = [
    (0, 48271), (4, 69621), (8, 16807), (12, 39373), (16, 62089), (20, 95353), (24, 111913), (28, 30323), (31, 84589),
];

/// Slots of the index, and words of the filter.
const SLOTS: u64 = 196_613;
const WORDS: u64 = SLOTS;

const FIRST_PRIME: u64 = 2_147_483_647;
const SECOND_PRIME: u64 = 4_294_967_291;

/// Of what slot, tag and the bits of the filter are made.
pub fn hash(serial: &Serial) -> u64 {
    let word = |at: usize| u64::from(u32::from_le_bytes(serial[at..at + 4].try_into().expect("4 bytes")));
    WEIGHTS.iter().map(|&(at, weight)| word(at) * weight).sum()
}

/// Where the search for a tag begins in the index, and the tag.
pub fn slot_and_tag(hash: u64) -> (u64, u64) {
    (square(hash, FIRST_PRIME) % SLOTS, 1 + hash % SECOND_PRIME)
}

/// The row at which the index is left for want of room: none of 512 slots from its own on is empty.
pub fn border(serials: &[Serial]) -> usize {
    let mut taken = vec![false; SLOTS as usize + 512];
    let entered = serials.iter().take_while(|serial| {
        let slot = slot_and_tag(hash(serial)).0 as usize;
        let place = (slot..slot + 512).find(|&place| !taken[place]);
        place.inspect(|&place| taken[place] = true).is_some()
    });
    entered.count()
}

fn square(hash: u64, prime: u64) -> u64 {
    (hash % prime) * (hash % prime) % prime
}

/// The filter that a reading without the index keeps of the rows before: as many words as the index has slots, and for each hash
/// two bits in each of two of them.
pub struct Filter(Vec<u32>);

impl Filter {
    pub fn of(serials: &[Serial]) -> Self {
        let mut filter = Filter(vec![0; WORDS as usize]);
        for (at, bits) in serials.iter().flat_map(|serial| entries(hash(serial))) {
            filter.0[at] |= bits;
        }
        filter
    }

    /// Whether all bits of a serial number are set.
    pub fn covers(&self, serial: &Serial) -> bool {
        entries(hash(serial)).all(|(at, bits)| self.0[at] & bits == bits)
    }
}

/// The two words, and the bits of each.
fn entries(hash: u64) -> impl Iterator<Item = (usize, u32)> {
    [FIRST_PRIME, SECOND_PRIME].into_iter().map(move |prime| {
        let number = square(hash, prime);
        ((number % WORDS) as usize, 1 << (number / WORDS % 32) | 1 << (number / (32 * WORDS) % 32))
    })
}

/// Changes of the bytes 18 to 29, the processor, that leave the hash as it is. All such changes are a lattice of 11
/// dimensions; this is a basis of it with short vectors, found by LLL (with exact fractions, and a factor of 0.99) from the
/// unit vectors of the 12 bytes with 2^60 times the byte's part in the hash behind each.
#[rustfmt::skip]
const CHANGES: [[i32; 12]; 11] = [
    [0, 0, -6, 1, 0, 0, -6, 0, 0, 0, 4, -3],
    [6, 3, -5, -5, 1, -2, 1, -2, 6, 0, -4, -2],
    [-12, -2, -3, -5, 1, -1, -3, -2, -4, 2, 2, 5],
    [1, 6, -10, 1, -7, 2, 2, 1, -3, -5, -8, -4],
    [0, -6, 0, -3, 5, -9, 0, -3, -5, 11, 0, 2],
    [3, 8, -4, 4, -4, -4, 9, -5, -6, -1, 1, 2],
    [-9, 7, -2, 3, -6, -1, 5, 6, 2, -3, 7, -5],
    [-6, 1, 2, -3, 2, -3, -5, -7, 2, 2, -7, -8],
    [-5, 1, -9, 0, 5, 4, 10, 1, 8, -4, -3, 5],
    [6, -3, 0, -6, -5, 9, 0, -7, 0, -6, 0, -9],
    [-6, 0, -3, 5, -9, 0, -3, -5, 11, 0, 2, 0],
];

/// So many serial numbers with one hash, some millions at most: each change up to twice there and back.
pub fn one_hash(count: usize) -> Vec<Serial> {
    let serials: Vec<Serial> = (0..5_usize.pow(11)).filter_map(changed).take(count).collect();
    assert!(serials.len() == count && serials.iter().all(|serial| hash(serial) == hash(&serials[0])));
    serials
}

/// The digits of a number to the base 5 say how often each change is made; none where a byte can't be printed then.
fn changed(mut number: usize) -> Option<Serial> {
    let mut processor = [79; 12];
    for change in CHANGES {
        let times = [0, 1, -1, 2, -2][number % 5];
        number /= 5;
        for (byte, by) in processor.iter_mut().zip(change) {
            *byte += times * by;
        }
    }
    let mut first = *b"#20240229123456789PROCESSOR...00042";
    for (byte, new) in first[18..30].iter_mut().zip(processor) {
        *byte = u8::try_from(new).ok().filter(|byte| (32..=126).contains(byte))?;
    }
    Some(with_check(first))
}
