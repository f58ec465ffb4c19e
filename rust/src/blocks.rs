//! A file in blocks of 512 bytes, for disks that lose single blocks. Both calls take any bytes and judge no metafile. Of the
//! safety of each the same holds as of those that read a file.
use crate::refusal::unless_refused;
use crate::{ffi, Refusal};

/// Writes the packed file of the file into the buffer and answers its length, [`packed_bytes`](crate::packed_bytes) of the
/// file's. A block has, big-endian, its number from 0 in 4 bytes, how many bytes it uses in 2, 504 data bytes, and in 2 the sum
/// of these first 510 bytes modulo 65,536. All blocks but the last use 504, and spare data bytes are zero. A file of up to
/// 1,056,964,608 bytes can be packed, for the packed file has at most 2^30.
///
/// The packed file of no bytes is 512 zeros. So a copy of one block that came back as zeros unpacks as a file of no bytes; and
/// a copy whose last blocks are missing, but not all, is itself a packed file, that of the bytes before them. Where such losses
/// must be seen, carry the length beside the copy.
///
/// ```
/// let file = std::fs::read("../samples/one-chunk.ads")?;
/// let mut blocks = vec![0; ads::packed_bytes(file.len())];
/// assert_eq!(ads::pack(&file, &mut blocks), Ok(3 * 512));
/// assert_eq!(blocks[..6], [0, 0, 0, 0, 0x01, 0xF8]);
/// # Ok::<(), std::io::Error>(())
/// ```
pub fn pack(file: &[u8], buffer: &mut [u8]) -> Result<usize, Refusal> {
    let answer = unsafe { ffi::ads_pack(file.as_ptr(), file.len(), buffer.as_mut_ptr(), buffer.len()) };
    unless_refused(answer.number, answer.length)
}

/// Writes the file of which this is the packed file into the buffer and answers its length; as many bytes as the packed file
/// has are enough. Only what [`pack`] writes is accepted. The first wrong block decides: [`Refusal::BlockSum`],
/// [`Refusal::BlockNumber`], [`Refusal::BlockUse`], in this order; the last one also for a block that isn't whole, whatever it
/// holds, and for no block at all.
///
/// The packed file of no bytes is 512 zeros. So a copy of one block that came back as zeros unpacks as a file of no bytes; and
/// a copy whose last blocks are missing, but not all, is itself a packed file, that of the bytes before them. Where such losses
/// must be seen, carry the length beside the copy. Any other block that is missing or came back as zeros is refused.
///
/// ```
/// use ads::Refusal;
///
/// let mut blocks = [0; 1024];
/// assert_eq!(ads::pack(&[b'x'; 600], &mut blocks), Ok(1024));
/// let mut file = [0; 600];
/// assert_eq!(ads::unpack(&blocks, &mut file), Ok(600));
/// assert_eq!(file, [b'x'; 600]);
///
/// assert_eq!(ads::unpack(&blocks[512..], &mut file), Err(Refusal::BlockNumber));
/// // neither of these losses is seen
/// assert_eq!(ads::unpack(&blocks[..512], &mut file), Ok(504));
/// assert_eq!(ads::unpack(&[0; 512], &mut file), Ok(0));
/// ```
pub fn unpack(blocks: &[u8], buffer: &mut [u8]) -> Result<usize, Refusal> {
    let answer = unsafe { ffi::ads_unpack(blocks.as_ptr(), blocks.len(), buffer.as_mut_ptr(), buffer.len()) };
    unless_refused(answer.number, answer.length)
}
