//! "Carry a file in blocks of 512 bytes".

use plain::{pack, unpack};

use crate::{header, reading};

/// What a call writes into a buffer that is longer, and into one that is just as long; one that is shorter gets 18. All other
/// bytes are kept.
fn written(call: impl Fn(&mut [u8]) -> Result<usize, u8>) -> Result<Vec<u8>, u8> {
    let kept = |bytes: &[u8]| bytes.iter().all(|&byte| byte == b'?');
    let mut long = vec![b'?'; 4000];
    let answer = call(&mut long);
    let length = answer.unwrap_or(0);
    assert!(kept(&long[length..]));
    let mut exact = vec![b'?'; length];
    assert_eq!(call(&mut exact), answer);
    assert_eq!(exact, long[..length]);
    if length > 0 {
        let mut short = vec![b'?'; length - 1];
        assert_eq!(call(&mut short), Err(18));
        assert_eq!(call(&mut []), Err(18));
        assert!(kept(&short));
    }
    answer.map(|_| exact)
}

fn packed(file: &[u8]) -> Vec<u8> {
    written(|buffer| pack(file, buffer)).unwrap()
}

/// "only packed files are accepted": the file that is given back packs to the same bytes.
fn unpacked(blocks: &[u8]) -> Result<Vec<u8>, u8> {
    let file = written(|buffer| unpack(blocks, buffer));
    assert!(file.as_ref().is_ok_and(|file| packed(file) == blocks) || file.is_err());
    file
}

/// The bytes before the sum, and a right sum.
fn summed(bytes: &[u8]) -> Vec<u8> {
    let sum = bytes[..510].iter().map(|&byte| u32::from(byte)).sum::<u32>() % 65_536;
    [&bytes[..510], &[(sum / 256) as u8, (sum % 256) as u8]].concat()
}

/// A block with a right sum.
fn block(number: u32, used: u16, data: &[u8]) -> Vec<u8> {
    let mut bytes = [&number.to_be_bytes()[..], &used.to_be_bytes(), data].concat();
    bytes.resize(510, 0);
    summed(&bytes)
}

/// A block that uses 504, as all but the last do.
fn full(number: u32) -> Vec<u8> {
    block(number, 504, &[b'x'; 504])
}

/// The same with a wrong sum.
fn wrong(mut block: Vec<u8>) -> Vec<u8> {
    block[511] ^= 1;
    block
}

#[test]
fn bytes_of_255() {
    let first = [&[0, 0, 0, 0, 0x01, 0xF8][..], &[0xFF; 504], &[0xF7, 0x01]].concat();
    let second = [&[0, 0, 0, 1, 0, 1, 0xFF][..], &[0; 503], &[0x01, 0x01]].concat();
    assert_eq!(packed(&[255; 505]), [&first[..], &second].concat());
    assert_eq!(packed(&[255; 504]), first);
    assert_eq!(unpacked(&first), Ok(vec![255; 504]));
    assert_eq!(unpacked(&[first, second].concat()), Ok(vec![255; 505]));
}

/// "A file of no bytes is one block using 0."
#[test]
fn no_bytes() {
    assert_eq!(packed(b""), [0; 512]);
    assert_eq!(unpacked(&[0; 512]), Ok(vec![]));
    assert_eq!(unpacked(&[0; 1024]), Err(29));
    assert_eq!(unpacked(b""), Err(29));
}

/// "All blocks but the last use 504, and spare data bytes are zero."
#[test]
fn lengths() {
    let uses: [(usize, &[u16]); 8] = [
        (0, &[0]),
        (1, &[1]),
        (503, &[503]),
        (504, &[504]),
        (505, &[504, 1]),
        (1007, &[504, 503]),
        (1008, &[504, 504]),
        (1009, &[504, 504, 1]),
    ];
    for (length, uses) in uses {
        let counted: Vec<u8> = (0..length).map(|place| place as u8).collect();
        for file in [vec![0; length], vec![255; length], counted] {
            let mut blocks = Vec::new();
            for (number, &used) in uses.iter().enumerate() {
                blocks.extend(block(number as u32, used, &file[504 * number..][..used.into()]));
            }
            assert_eq!(packed(&file), blocks, "{length}");
            assert_eq!(unpacked(&blocks), Ok(file), "{length}");
        }
    }
}

/// "a partial block with 29": whatever it is, neither its sum nor its number is looked at
#[test]
fn partial_blocks() {
    let one = full(0);
    for length in 1..512 {
        assert_eq!(unpacked(&one[..length]), Err(29));
        assert_eq!(unpacked(&[&one[..], &full(7)[..length]].concat()), Err(29));
        assert_eq!(unpacked(&[&one[..], &wrong(full(1))[..length]].concat()), Err(29));
    }
    assert_eq!(unpacked(&[&one[..], b"x"].concat()), Err(29));
    assert_eq!(unpacked(&[&block(0, 1, b"x")[..], b"x"].concat()), Err(29));
    // a last block is whole and goes on
    assert_eq!(unpacked(&[one, block(1, 1, b"x"), vec![0]].concat()), Err(29));
}

/// "The first wrong block decides"
#[test]
fn first_wrong_block() {
    assert_eq!(unpacked(&[&wrong(full(0))[..], b"12345"].concat()), Err(27));
    assert_eq!(unpacked(&[&full(1)[..], b"12345"].concat()), Err(28));
    let spare = block(2, 1, b"xy");
    let blocks = [(wrong(full(0)), 27), (full(7), 28), (block(0, 503, &[b'x'; 503]), 29), (block(0, 505, b""), 29)];
    for (first, number) in blocks {
        for (second, third) in [(full(1), spare.clone()), (wrong(full(1)), vec![1]), (full(9), wrong(full(2)))] {
            assert_eq!(unpacked(&[first.clone(), second, third].concat()), Err(number));
        }
    }
    for (second, number) in [(wrong(full(1)), 27), (full(0), 28), (block(1, 0, b""), 29)] {
        for third in [spare.clone(), wrong(full(2)), full(0), vec![]] {
            assert_eq!(unpacked(&[full(0), second.clone(), third].concat()), Err(number));
        }
    }
    assert_eq!(unpacked(&[full(0), full(1), spare].concat()), Err(29));
}

/// "tested for its sum with 27, its number with 28, then .. with 29"
#[test]
fn order_within_a_block() {
    for used in [0, 1, 505, 65_535] {
        assert_eq!(unpacked(&wrong(block(1, used, b"xyz"))), Err(27));
        assert_eq!(unpacked(&wrong(block(0, used, b"xyz"))), Err(27));
        assert_eq!(unpacked(&block(1, used, b"xyz")), Err(28));
        assert_eq!(unpacked(&block(0, used, b"xyz")), Err(29));
    }
}

/// "the sum of the first 510 bytes modulo 65,536; numbers big-endian"
#[test]
fn sums() {
    let right = [&[0, 0, 0, 0, 0x01, 0xF8][..], &[0xFF; 504]].concat();
    for wrong in [63_233 + 256, 63_233 - 256, 63_234, 63_232, 0x01F7, 1, 0] {
        assert_eq!(unpacked(&[&right[..], &u16::to_be_bytes(wrong)].concat()), Err(27));
    }
    assert_eq!(unpacked(&[&right[..], &u16::to_be_bytes(63_233)].concat()), Ok(vec![255; 504]));
    // over all 512 bytes, and over 509
    assert_eq!(unpacked(&[&[0; 510][..], &[1, 1]].concat()), Err(27));
    let mut last = vec![0; 504];
    last[503] = 5;
    let mut bytes = packed(&last);
    assert_eq!(bytes[510..], [0, 1 + 0xF8 + 5]);
    bytes[511] -= 5;
    assert_eq!(unpacked(&bytes), Err(27));
}

/// "block number from 0 in 4 bytes": all of them are compared
#[test]
fn numbers() {
    for number in [1, 255, 256, 65_536, 1 << 24, u32::MAX] {
        assert_eq!(unpacked(&block(number, 1, b"x")), Err(28));
    }
    for number in [0, 2, 1 << 8, 1 << 16, 1 << 24, (1 << 8) + 1, (1 << 24) + 1] {
        assert_eq!(unpacked(&[full(0), block(number, 1, b"x")].concat()), Err(28));
    }
    assert_eq!(unpacked(&[full(0), block(1, 1, b"x")].concat()), Ok([&[b'x'; 504][..], b"x"].concat()));
}

/// "used bytes in 2": more than 504 in no block, fewer in the last alone
#[test]
fn uses() {
    for used in [505, 506, 510, 512, 0xF801, 65_535] {
        assert_eq!(unpacked(&block(0, used, &[0; 504])), Err(29));
        assert_eq!(unpacked(&[full(0), block(1, used, &[0; 504])].concat()), Err(29));
        assert_eq!(unpacked(&[block(0, used, &[0; 504]), full(1)].concat()), Err(29));
    }
    for used in [0, 1, 503] {
        let data = vec![b'x'; used.into()];
        assert_eq!(unpacked(&[block(0, used, &data), full(1)].concat()), Err(29));
        assert_eq!(unpacked(&[full(0), block(1, used, &data), full(2)].concat()), Err(29));
        assert_eq!(unpacked(&block(0, used, &data)), Ok(data));
    }
    assert_eq!(unpacked(&block(0, 2, b"xyz")), Err(29));
    assert_eq!(unpacked(&block(0, 4, b"xyz")), Ok(b"xyz\0".to_vec()));
}

/// "whose last of several blocks uses 0": a file of 504 bytes is one block
#[test]
fn last_of_several() {
    assert_eq!(unpacked(&[full(0), block(1, 0, b"")].concat()), Err(29));
    assert_eq!(unpacked(&[full(0), full(1), block(2, 0, b"")].concat()), Err(29));
    assert_eq!(unpacked(&full(0)), Ok(vec![b'x'; 504]));
    assert_eq!(unpacked(&[full(0), full(1)].concat()), Ok(vec![b'x'; 1008]));
}

/// "a spare byte that isn't zero": each of them
#[test]
fn spare_bytes() {
    for used in [0, 1, 250, 503] {
        for spare in used..504 {
            let mut data = vec![b'x'; used];
            data.resize(504, 0);
            data[spare] = 1;
            let one = block(0, used as u16, &data);
            assert_eq!(unpacked(&one), Err(29));
            if used > 0 {
                assert_eq!(unpacked(&[full(0), block(1, used as u16, &data)].concat()), Err(29));
            }
        }
    }
}

/// Each byte of one, two and three blocks changed: with the sum left, 27; with the sum put right, as asked.
#[test]
fn each_byte_changed() {
    for length in [200, 504, 700, 1200] {
        let file: Vec<u8> = (1..=255).cycle().take(length).collect();
        let whole = packed(&file);
        for place in 0..whole.len() {
            let mut bytes = whole.clone();
            bytes[place] ^= 0x80;
            assert_eq!(unpacked(&bytes), Err(27), "{place} of {length}");
            let (start, at) = (place / 512 * 512, place % 512);
            let again = summed(&bytes[start..]);
            bytes[start..start + 512].copy_from_slice(&again);
            let mut other = file.clone();
            let right = match at {
                0..4 => Err(28),
                4..6 => Err(29),
                510.. => Ok(other),
                _ => match other.get_mut(start / 512 * 504 + at - 6) {
                    None => Err(29),
                    Some(byte) => {
                        *byte ^= 0x80;
                        Ok(other)
                    }
                },
            };
            assert_eq!(unpacked(&bytes), right, "{place} of {length}");
        }
    }
}

/// Blocks exchanged, doubled and left out.
#[test]
fn blocks_elsewhere() {
    let last = block(2, 9, b"last ones");
    assert!(unpacked(&[full(0), full(1), last.clone()].concat()).is_ok());
    assert_eq!(unpacked(&[full(1), full(0), last.clone()].concat()), Err(28));
    assert_eq!(unpacked(&[full(0), last.clone(), full(1)].concat()), Err(28));
    assert_eq!(unpacked(&[full(0), full(0), full(1), last.clone()].concat()), Err(28));
    assert_eq!(unpacked(&[full(0), full(1), last.clone(), last.clone()].concat()), Err(29));
    assert_eq!(unpacked(&[full(0), last.clone()].concat()), Err(28));
    assert_eq!(unpacked(&[full(1), last].concat()), Err(28));
}

/// A block of zeros has a right sum. Behind the first its number is wrong, and the first of several doesn't use 0; but the only
/// one is a file of no bytes, which reads with number 0.
#[test]
fn blocks_of_zeros() {
    let zeros = vec![0; 512];
    assert_eq!(unpacked(&[zeros.clone(), full(1)].concat()), Err(29));
    assert_eq!(unpacked(&[full(0), zeros.clone()].concat()), Err(28));
    assert_eq!(unpacked(&[full(0), zeros.clone(), full(2)].concat()), Err(28));
    let begun = header("NUL", &[b'M'; 92]);
    assert_eq!((begun.len(), packed(&begun).len()), (503, 512));
    let lost = unpacked(&zeros).unwrap();
    assert_eq!(reading(&lost, 1).0, (0, 0, false, 0));
}

/// The last blocks missing: what is left is the packed file of the bytes before them.
#[test]
fn last_blocks_missing() {
    let file: Vec<u8> = (0..=255).cycle().take(2000).collect();
    let blocks = packed(&file);
    assert_eq!(blocks.len(), 4 * 512);
    for left in 1..4 {
        assert_eq!(unpacked(&blocks[..left * 512]), Ok(file[..left * 504].to_vec()));
    }
    assert_eq!(unpacked(&blocks[..0]), Err(29));
}

/// 11, 27 to 29, 18: the last one behind every block
#[test]
fn order_of_the_tests() {
    for (last, number) in [(wrong(full(1)), 27), (full(0), 28), (block(1, 0, b""), 29), (vec![0; 5], 29)] {
        for room in [0, 503, 504] {
            let mut buffer = vec![b'?'; room];
            assert_eq!(unpack(&[full(0), last.clone()].concat(), &mut buffer), Err(number));
            assert_eq!(buffer, vec![b'?'; room]);
        }
    }
    assert_eq!(unpack(&[full(0), full(1)].concat(), &mut [0; 1007]), Err(18));
    let mut long = vec![0; (1 << 30) + 1];
    assert_eq!(pack(&long, &mut []), Err(11));
    assert_eq!(pack(&long[1..], &mut []), Err(18));
    assert_eq!(unpack(&long, &mut []), Err(11));
    assert_eq!(unpack(&long[1..], &mut []), Err(29));
    assert_eq!(pack(b"x", &mut long), Err(11));
    assert_eq!(unpack(&wrong(full(0)), &mut long), Err(11));
    assert_eq!(unpack(&wrong(full(0)), &mut long[1..]), Err(27));
    assert_eq!(unpack(&full(0), &mut long), Err(11));
    assert!(long[..1024].iter().all(|&byte| byte == 0));
    assert_eq!(unpack(&full(0), &mut long[1..]), Ok(504));
    assert_eq!((long[0], &long[1..505], long[505]), (0, &[b'x'; 504][..], 0));
    assert_eq!(pack(b"x", &mut long[1..]), Ok(512));
    assert_eq!((long[0], &long[1..513], long[513]), (0, &packed(b"x")[..], 0));
}

/// 2^21 blocks of 504 bytes are the longest file whose packed file has no more than 2^30 bytes.
#[test]
fn longest_file() {
    let mut file = vec![0; 1_056_964_609];
    for place in (0..file.len()).step_by(7_654_321) {
        file[place] = place as u8;
    }
    let mut blocks = vec![0; 1 << 30];
    assert_eq!(pack(&file, &mut blocks), Err(18));
    assert_eq!(pack(&file[1..], &mut blocks), Ok(1 << 30));
    assert_eq!(blocks[(1 << 30) - 512..][..6], [0x00, 0x1F, 0xFF, 0xFF, 0x01, 0xF8]);
    let mut again = vec![0; 1_056_964_608];
    assert_eq!(unpack(&blocks, &mut again[1..]), Err(18));
    assert_eq!(unpack(&blocks, &mut again), Ok(1_056_964_608));
    assert!(again == file[1..]);
}
