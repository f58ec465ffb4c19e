//! The two proved sums and the plain one over the same bytes: from sixteen starts over every short length, around the ends of
//! a block, with lanes at their bound; and chunks, read and written, whose sums end anywhere in a word.

use compare::both::Run;
use compare::kernels::{byte_sum, word_sum};
use compare::parts::appends;
use compare::random::Random;
use plain::field;

/// The bytes stand at the end of a block of the heap, so that valgrind sees a read behind them.
fn agree(bytes: &[u8], start: usize, length: usize) {
    let block: Box<[u8]> = bytes[..start + length].into();
    let part = &block[start..];
    let plain = field::sum(part);
    assert_eq!((byte_sum(part), word_sum(part)), (plain, plain), "{length} bytes from {start} on");
}

#[test]
fn every_start_and_short_length() {
    let bytes = Random::new(0, "sums", 0).bytes(15 + 600);
    for start in 0..16 {
        for length in 0..=600 {
            agree(&bytes, start, length);
        }
    }
}

/// A block is 1,024 bytes: lengths up to two words before and behind its multiples.
#[test]
fn around_the_ends_of_blocks() {
    let random = Random::new(0, "sums", 1).bytes(16 + 5 * 1024 + 16);
    let full = vec![255; random.len()];
    for start in 0..16 {
        for blocks in 1..=5 {
            for length in blocks * 1024 - 16..=blocks * 1024 + 16 {
                agree(&random, start, length);
                agree(&full, start, length);
            }
        }
    }
}

/// Bytes of 255 fill the lanes as far as they can be filled; a lane that overflowed would carry into the next one.
#[test]
fn bytes_of_255() {
    let full = vec![255; 15 + (1 << 16)];
    for start in 0..16 {
        agree(&full, start, 1 << 16);
    }
    for length in 0..=(1 << 16) {
        let part = &full[..length];
        let right = (length * 255 % 256) as u8;
        assert_eq!((byte_sum(part), word_sum(part)), (right, right), "{length} bytes");
    }
}

/// Every byte counts, whichever lane, word, half or block it is in.
#[test]
fn each_byte_changed() {
    let mut bytes = Random::new(0, "sums", 2).bytes(2 * 1024 + 13);
    let sum = field::sum(&bytes);
    for at in 0..bytes.len() {
        for change in [1, 128, 255] {
            bytes[at] = bytes[at].wrapping_add(change);
            assert_eq!(word_sum(&bytes), sum.wrapping_add(change), "byte {at}");
            bytes[at] = bytes[at].wrapping_sub(change);
        }
    }
}

/// Data of 0 to 40 bytes of 255 behind generated files, LLC and NUL: appended with the right sum, read with a good one, and
/// with a bad one where a byte is changed.
#[test]
fn chunks_that_end_anywhere_in_a_word() {
    let mut run = Run::new(0);
    for length in 0..=40 {
        for file in 0..8 {
            let mut case = appends::good(&mut Random::new(file, "sums of chunks", length), file % 2 == 1, false, 0);
            case.given.data = vec![255; length as usize];
            case.behind = case.needed();
            let (ends, mut buffer) = case.call(&mut run).expect("accepted");
            buffer.truncate(ends.third);
            let mut last = |buffer: &[u8]| run.read(buffer, case.file.rows.len() + 1).1.pop().expect("its row");
            let row = last(&buffer);
            assert!(row.good && row.bytes == case.given.data.len());
            for at in row.contents..row.contents + row.bytes {
                buffer[at] = 254;
                assert!(!last(&buffer).good, "byte {at} of {length}");
                buffer[at] = 255;
            }
        }
    }
}
