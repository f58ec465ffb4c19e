//! "All that a chunk rests on."

use plain::{ancestors, Ancestry};

use crate::padded::other;
use crate::{depending, file, header, serial, with};

const TEST: &str = "ADS\\DATA\\TEST";

/// The chunk of a row that depends on the rows with these numbers.
fn chunk(row: u32, parents: &[u32]) -> Vec<u8> {
    let parents: Vec<_> = parents.iter().map(|&parent| (serial(100 + parent), TEST)).collect();
    depending(100 + row, TEST, &parents, b"")
}

/// A file with a row for each list of parents. A number behind the last row's is that of none.
fn family<P: AsRef<[u32]>>(parents: &[P]) -> Vec<u8> {
    let chunks: Vec<Vec<u8>> = (0..).zip(parents).map(|(row, parents)| chunk(row, parents.as_ref())).collect();
    file(&chunks)
}

/// So many rows, each with the parents that are given for its number.
fn rows(count: u32, parents: impl Fn(u32) -> Vec<u32>) -> Vec<u8> {
    family(&(0..count).map(parents).collect::<Vec<_>>())
}

/// The rows and the missing ones, into a list that is longer, and one that is just as long; one that is shorter gets 18.
fn listed(file: &[u8], row: usize) -> Result<(Vec<usize>, usize), u8> {
    let mut list = vec![7777; 70];
    let answer = ancestors(file, row, &mut list);
    let count = answer.map_or(0, |ancestry| ancestry.count);
    assert!(list[count..].iter().all(|&entry| entry == 7777));
    let Ancestry { missing, .. } = answer?;
    let mut exact = vec![7777; count];
    assert_eq!(ancestors(file, row, &mut exact), answer);
    assert_eq!(exact, list[..count]);
    if count > 0 {
        let mut short = vec![7777; count - 1];
        assert_eq!(ancestors(file, row, &mut short), Err(18));
        assert_eq!(ancestors(file, row, &mut []), Err(18));
        assert!(short.iter().all(|&entry| entry == 7777));
    }
    Ok((exact, missing))
}

fn found(rows: impl IntoIterator<Item = usize>, missing: usize) -> Result<(Vec<usize>, usize), u8> {
    Ok((rows.into_iter().collect(), missing))
}

/// "the count of those dependencies [..] that name no row": lines, not serial numbers
#[test]
fn dependencies_that_name_no_row() {
    // row 1 names a missing one twice, its parent names it too
    let bytes = family(&[&[9][..], &[0, 9, 9]]);
    assert_eq!(listed(&bytes, 1), found([0], 3));
    assert_eq!(listed(&bytes, 0), found([], 1));
    // "of k and of the listed rows": not of others, and of each row one time, by however many ways it is reached
    let bytes = family(&[&[9][..], &[9, 9], &[0], &[0, 2, 8]]);
    assert_eq!([2, 3].map(|row| listed(&bytes, row)), [found([0], 1), found([0, 2], 2)]);
    assert_eq!(listed(&family(&[&[7, 8, 9, 8, 7]]), 0), found([], 5));
    assert_eq!(listed(&family(&[&[]]), 0), found([], 0));
}

/// "If a chain from k comes back to any chunk on it, the number is 23"
#[test]
fn circles() {
    assert_eq!(listed(&family(&[&[0]]), 0), Err(23));
    for row in 0..2 {
        assert_eq!(listed(&family(&[&[1], &[0]]), row), Err(23));
    }
    // one that k only leads to: 0, 1, 2, 1; and a row behind others that names itself
    assert_eq!(listed(&family(&[&[1], &[2], &[1]]), 0), Err(23));
    assert_eq!(listed(&family(&[&[1], &[2], &[2]]), 0), Err(23));
    // the last of several dependencies, behind one that is missing, and behind ways that end
    assert_eq!(listed(&family(&[&[][..], &[0], &[0, 1], &[9, 0, 1, 2, 3]]), 3), Err(23));
    // 64 rows in a ring, both ways around
    for step in [1, 63] {
        let ring = rows(64, |row| vec![(row + step) % 64]);
        assert!((0..64).all(|row| listed(&ring, row) == Err(23)));
    }
}

/// No circle: one elsewhere, and two ways to one row.
#[test]
fn no_circles() {
    let elsewhere = family(&[&[1][..], &[], &[3, 0], &[2]]);
    assert_eq!([0, 1].map(|row| listed(&elsewhere, row)), [found([1], 0), found([], 0)]);
    assert_eq!([2, 3].map(|row| listed(&elsewhere, row)), [Err(23), Err(23)]);
    let diamond = family(&[&[1, 2][..], &[3], &[3], &[]]);
    assert_eq!(listed(&diamond, 0), found([1, 2, 3], 0));
    assert_eq!([1, 2, 3].map(|row| listed(&diamond, row)), [found([3], 0), found([3], 0), found([], 0)]);
    // one dependency twice
    assert_eq!(listed(&family(&[&[][..], &[0, 0]]), 1), found([0], 0));
    // 21 diamonds, one behind the other
    let diamonds = rows(64, |row| match row % 3 {
        0 if row == 0 => vec![],
        0 => vec![row - 2, row - 1],
        _ => vec![row / 3 * 3],
    });
    assert_eq!(listed(&diamonds, 63), found(0..63, 0));
    assert_eq!(listed(&diamonds, 62), found(0..61, 0));
}

/// "in file order": rising row numbers, whatever order the headers have; a later row as parent too
#[test]
fn order_of_the_list() {
    let bytes = family(&[&[4][..], &[], &[], &[], &[3, 1, 5], &[2]]);
    assert_eq!(listed(&bytes, 0), found([1, 2, 3, 4, 5], 0));
    assert_eq!(listed(&bytes, 4), found([1, 2, 3, 5], 0));
    assert_eq!(listed(&family(&[&[1][..], &[]]), 0), found([1], 0));
}

#[test]
fn chains() {
    let down = rows(64, |row| if row == 0 { vec![] } else { vec![row - 1] });
    let up = rows(64, |row| vec![row + 1]);
    for row in 0..64 {
        assert_eq!(listed(&down, row), found(0..row, 0));
        // the last one's parent would be row 64
        assert_eq!(listed(&up, row), found(row + 1..64, 1));
    }
}

/// There are 2^62 chains from the last row to the first.
#[test]
fn each_names_all_before() {
    let before = rows(64, |row| (0..row).collect());
    let behind = rows(64, |row| (row + 1..64).rev().collect());
    for row in 0..64 {
        assert_eq!(listed(&before, row), found(0..row, 0));
        assert_eq!(listed(&behind, row), found(row + 1..64, 0));
    }
    // the first names the last: a circle from every row
    let back = rows(64, |row| if row == 0 { vec![63] } else { (0..row).collect() });
    assert!((0..64).all(|row| listed(&back, row) == Err(23)));
}

/// As many dependencies as a header can have
#[test]
fn many_dependencies() {
    let bytes = rows(3, |row| (0..9_999).map(|number| if number % 1_000 == 7 { row + 1 } else { 500 }).collect());
    // of rows 0, 1 and 2 each names the next ten times
    assert_eq!(listed(&bytes, 0), found([1, 2], 9_989 + 9_989 + 9_999));
}

/// "more than 64 rows in the reading gives 24, after 13 and before 23": the reading's rows, not those reached
#[test]
fn more_than_64_rows() {
    let of = |count, last: &[u32]| rows(count, |row| if row + 1 == count { last.to_vec() } else { vec![] });
    assert_eq!(listed(&of(64, &[0]), 63), found([0], 0));
    assert_eq!(listed(&of(64, &[0]), 64), Err(13));
    for row in [0, 63, 64] {
        assert_eq!(listed(&of(65, &[0]), row), Err(24));
        assert_eq!(listed(&of(65, &[64]), row), Err(24));
    }
    assert_eq!(listed(&of(65, &[64]), 65), Err(13));
    assert_eq!(listed(&of(65, &[]), usize::MAX), Err(13));
    // 70 chunks, the one behind 66 rows spoiled
    let whole = of(70, &[]);
    let mut spoiled = whole.clone();
    spoiled[319 + 66 * 856] ^= 1;
    assert_eq!([66, 65, 0].map(|row| listed(&spoiled, row)), [Err(13), Err(24), Err(24)]);
    assert_eq!(listed(&whole, 66), Err(24));
    // the one behind 64
    spoiled[319 + 64 * 856] ^= 1;
    assert_eq!([64, 63].map(|row| listed(&spoiled, row)), [Err(13), found([], 0)]);
}

/// "by dependencies": by the first 35 bytes of a serial number; the sub-formats don't matter
#[test]
fn by_serial_number() {
    let parents = [(other(42), "ANOTHER NAME"), (serial(43), "")];
    let chunks = [
        depending(42, TEST, &[], b""),
        depending(43, TEST, &[(serial(42), TEST)], b""),
        depending(44, TEST, &parents, b""),
    ];
    assert_eq!(listed(&file(&chunks), 2), found([0, 1], 0));
    // the row's own serial number is written otherwise
    let padded = with(&chunks[0], "0100042001", "0100042  1");
    assert_eq!(listed(&file(&[padded, chunks[1].clone()]), 1), found([0], 0));
    let another = with(&chunks[1], "0100042001", "0200042002");
    assert_eq!(listed(&file(&[chunks[0].clone(), another]), 1), found([], 1));
}

/// "judged as by parent": rows before a fault count, a parent behind it names no row; sums aren't asked
#[test]
fn judged_as_by_parent() {
    let chunks = [chunk(0, &[1]), chunk(1, &[2]), chunk(2, &[])];
    let whole = file(&chunks);
    assert_eq!(listed(&whole, 0), found([1, 2], 0));
    let cut = &whole[..whole.len() - 1];
    assert_eq!([0, 1, 2].map(|row| listed(cut, row)), [found([1], 1), found([], 1), Err(13)]);
    // row 1 is spoiled: row 2 is behind the fault, too
    let mut spoiled = whole.clone();
    spoiled[319 + 1200] ^= 1;
    assert_eq!([0, 1, 2].map(|row| listed(&spoiled, row)), [found([], 1), Err(13), Err(13)]);
    // a serial number once more
    let again = file(&[chunks[0].clone(), chunks[1].clone(), chunks[0].clone(), chunks[2].clone()]);
    assert_eq!(listed(&again, 0), found([1], 1));
    let bad_sums = with(&whole, "Agent=RECORDER", "Agent=RECORDEN");
    let bad_sums = [&bad_sums[..319], &with(&bad_sums[319..], "Agent=WRITER", "Agent=WRITES")].concat();
    assert_eq!(listed(&bad_sums, 0), found([1, 2], 0));
    for nothing in [&b""[..], b"x", &header("LLC", b"")[..318], &header("LLC", b"")] {
        assert_eq!(listed(nothing, 0), Err(13));
    }
}

/// 11, 13, 24, 23, 18; 11 is the file's alone: the list is no byte buffer.
#[test]
fn order_of_the_tests() {
    let circle = family(&[&[0]]);
    assert_eq!(ancestors(&circle, 0, &mut []), Err(23));
    assert_eq!(ancestors(&circle, 1, &mut []), Err(13));
    assert_eq!(ancestors(&family(&[&[1][..], &[]]), 0, &mut []), Err(18));
    let long = vec![0; (1 << 30) + 1];
    assert_eq!(ancestors(&long, 0, &mut []), Err(11));
    assert_eq!(ancestors(&long[1..], 0, &mut []), Err(13));
    drop(long);
    let mut list = vec![0; (1 << 27) + 1];
    assert_eq!(ancestors(&family(&[&[1][..], &[]]), 0, &mut list), Ok(Ancestry { count: 1, missing: 0 }));
    assert_eq!(list[..2], [1, 0]);
}
