//! The calls `pack` and `unpack`: a file carried "in blocks of 512 bytes: block number from 0 in 4 bytes, used bytes in 2, 504
//! data bytes, and in 2 the sum of the first 510 bytes modulo 65,536; numbers big-endian".

use crate::number::{over_limit, BLOCK_NUMBER, BLOCK_SUM, BLOCK_USE, LIMIT, ROOM};

const BLOCK: usize = 512;
const DATA: usize = 504;
const SUMMED: usize = 510;

/// Into a lent buffer; answers the packed file's length. "A file of no bytes is one block using 0."
pub fn pack(file: &[u8], buffer: &mut [u8]) -> Result<usize, u8> {
    if over_limit(&[file.len(), buffer.len()]) {
        return Err(LIMIT);
    }
    let length = BLOCK * file.len().div_ceil(DATA).max(1);
    let blocks = buffer.get_mut(..length).ok_or(ROOM)?;
    let mut parts = file.chunks(DATA);
    for (number, block) in (0..).zip(blocks.chunks_exact_mut(BLOCK)) {
        put(block, number, parts.next().unwrap_or_default());
    }
    Ok(length)
}

/// "All blocks but the last use 504, and spare data bytes are zero."
fn put(block: &mut [u8], number: u32, data: &[u8]) {
    block[..4].copy_from_slice(&number.to_be_bytes());
    block[4..6].copy_from_slice(&(data.len() as u16).to_be_bytes());
    block[6..][..data.len()].copy_from_slice(data);
    block[6 + data.len()..SUMMED].fill(0);
    let sum = sum(&block[..SUMMED]);
    block[SUMMED..].copy_from_slice(&sum.to_be_bytes());
}

/// "modulo 65,536"
fn sum(bytes: &[u8]) -> u16 {
    bytes.iter().fold(0u16, |sum, &byte| sum.wrapping_add(byte.into()))
}

/// Into a lent buffer; answers the file's length. "Unpacking a packed file returns that file, and only packed files are
/// accepted. The first wrong block decides"; 18 last.
pub fn unpack(blocks: &[u8], buffer: &mut [u8]) -> Result<usize, u8> {
    if over_limit(&[blocks.len(), buffer.len()]) {
        return Err(LIMIT);
    }
    // "A packed file without a block [..] also gets 29."
    let last = blocks.len().div_ceil(BLOCK).checked_sub(1).ok_or(BLOCK_USE)?;
    let mut length = 0;
    for (number, block) in blocks.chunks(BLOCK).enumerate() {
        length += used(block, number, number == last)?;
    }
    let file = buffer.get_mut(..length).ok_or(ROOM)?;
    for (part, block) in file.chunks_mut(DATA).zip(blocks.chunks(BLOCK)) {
        part.copy_from_slice(&block[6..][..part.len()]);
    }
    Ok(length)
}

/// "tested for its sum with 27, its number with 28, then its use, a spare byte that isn't zero or a partial block with 29"; the
/// last of several blocks doesn't use 0.
fn used(block: &[u8], number: usize, last: bool) -> Result<usize, u8> {
    if block.len() < BLOCK {
        return Err(BLOCK_USE);
    }
    if value(&block[SUMMED..]) != usize::from(sum(&block[..SUMMED])) {
        return Err(BLOCK_SUM);
    }
    if value(&block[..4]) != number {
        return Err(BLOCK_NUMBER);
    }
    let used = value(&block[4..6]);
    let least = match (number, last) {
        (_, false) => DATA,
        (0, true) => 0,
        (_, true) => 1,
    };
    if !(least..=DATA).contains(&used) || block[6 + used..SUMMED].iter().any(|&byte| byte != 0) {
        return Err(BLOCK_USE);
    }
    Ok(used)
}

/// "numbers big-endian"
fn value(bytes: &[u8]) -> usize {
    bytes.iter().fold(0, |value, &byte| value << 8 | usize::from(byte))
}
