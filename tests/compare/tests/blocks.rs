//! Blocks whose numbers take three bytes, and the longest file that can be packed: 2^21 blocks of 504 bytes, whose packed file
//! has 2^30 bytes.

use compare::blocks::{put_sum, BLOCK, DATA};
use compare::both::Run;
use compare::ffi::{self, Written};
use compare::random::Random;

/// Under valgrind (tests/memory) this would take long, and shows nothing that shorter files don't.
fn left_out() -> bool {
    std::env::var_os("ADS_EXACT").is_some()
}

#[test]
fn numbers_of_three_bytes() {
    if left_out() {
        return;
    }
    let file = Random::new(0, "blocks", 0).bytes(65_537 * DATA);
    let mut run = Run::new(0);
    let mut blocks = run.pack(&file, 65_537 * BLOCK).expect("there is room");
    assert!(run.unpack(&blocks, file.len()).as_ref() == Ok(&file));
    let last = 65_536 * BLOCK;
    assert_eq!(blocks[last..][..4], [0, 1, 0, 0]);
    for number in [0, 1, 1 << 8, 1 << 24, 65_535, 65_537, 65_536 + (1 << 8), 65_536 + (1 << 24), u32::MAX] {
        let last = &mut blocks[last..];
        last[..4].copy_from_slice(&u32::to_be_bytes(number));
        put_sum(last);
        assert_eq!(run.unpack(&blocks, 0), Err(28), "{number}");
    }
}

/// Packed by both; unpacked by both over the second packed file.
#[test]
fn longest_file() {
    const LONGEST: usize = 1_056_964_608;
    if left_out() {
        return;
    }
    let mut file = vec![0; LONGEST + 1];
    for place in (0..file.len()).step_by(7_654_321) {
        file[place] = place as u8;
    }
    let mut blocks = [vec![0; 1 << 30], vec![0; 1 << 30]];
    let [proved, plain] = &mut blocks;
    assert_eq!(ffi::pack(&file, proved), Written { length: 0, number: 18 });
    assert_eq!(plain::pack(&file, plain), Err(18));
    let file = &file[1..];
    assert_eq!(ffi::pack(file, proved), Written { length: 1 << 30, number: 0 });
    assert_eq!(plain::pack(file, plain), Ok(1 << 30));
    assert!(proved == plain);
    assert_eq!(ffi::unpack(proved, plain), Written { length: LONGEST, number: 0 });
    assert!(plain[..LONGEST] == *file && plain[LONGEST..] == proved[LONGEST..]);
    assert_eq!(ffi::unpack(proved, &mut plain[..LONGEST - 1]), Written { length: 0, number: 18 });
    plain[..LONGEST].fill(7);
    assert_eq!(plain::unpack(proved, plain), Ok(LONGEST));
    assert!(plain[..LONGEST] == *file);
}
