//! Files in blocks: blocks with any number, use and data, a file's own, and what unpacking must give, by making each block anew.

pub const BLOCK: usize = 512;
pub const DATA: usize = 504;

/// A block with a right sum. Zeros fill its data.
pub fn block(number: u32, used: u16, data: &[u8]) -> Vec<u8> {
    let mut block = [&number.to_be_bytes()[..], &used.to_be_bytes(), data].concat();
    block.resize(BLOCK, 0);
    put_sum(&mut block);
    block
}

/// "in 2 the sum of the first 510 bytes modulo 65,536"
pub fn put_sum(block: &mut [u8]) {
    let sum: usize = block[..BLOCK - 2].iter().map(|&byte| usize::from(byte)).sum();
    block[BLOCK - 2] = (sum / 256) as u8;
    block[BLOCK - 1] = sum as u8;
}

/// The packed file.
pub fn packed(file: &[u8]) -> Vec<u8> {
    let mut blocks = Vec::new();
    let mut rest = file;
    for number in 0.. {
        let (data, behind) = rest.split_at(rest.len().min(DATA));
        blocks.extend(block(number, data.len() as u16, data));
        rest = behind;
        if rest.is_empty() {
            break;
        }
    }
    blocks
}

/// What unpacking must give: the file, or the number of the first block that isn't the one which its own data make.
pub fn unpacked(blocks: &[u8]) -> Result<Vec<u8>, u8> {
    let mut file = Vec::new();
    let mut rest = blocks;
    for number in 0.. {
        let (found, behind) = rest.split_at_checked(BLOCK).ok_or(29)?;
        rest = behind;
        let mut summed = found.to_vec();
        put_sum(&mut summed);
        if summed != found {
            return Err(27);
        }
        if found[..4] != u32::to_be_bytes(number) {
            return Err(28);
        }
        let used = u16::from_be_bytes([found[4], found[5]]);
        let here = match rest {
            [] => used > 0 || number == 0,
            _ => used == DATA as u16,
        };
        let data = found[6..BLOCK - 2].get(..used.into()).filter(|_| here).ok_or(29)?;
        if block(number, used, data) != found {
            return Err(29);
        }
        file.extend(data);
        if rest.is_empty() {
            break;
        }
    }
    Ok(file)
}
