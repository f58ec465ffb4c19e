//! The two proved searches for a mark beside `windows().position()`, and the places that the one by shifts tries: marks of 1 to
//! 999 bytes over one, two and all letters, data with whole and half marks, marks around the end.

use compare::generate::{letters, with_marks};
use compare::kernels::{find, find_plain, Found};
use compare::random::Random;

const LETTERS: [usize; 3] = [1, 2, 256];

/// Lengths around which the search does something else.
const LENGTHS: [usize; 19] = [1, 2, 3, 7, 8, 9, 15, 16, 17, 31, 32, 33, 63, 64, 65, 90, 128, 250, 999];

/// How many bytes of the mark follow the last x in it, its last byte left out; all its bytes where there is none.
fn shift(mark: &[u8], x: u8) -> usize {
    let before = &mark[..mark.len() - 1];
    before.iter().rev().position(|&y| y == x).map_or(mark.len(), |behind| behind + 1)
}

/// How far on the next place is tried, where the mark doesn't stand at the start of s.
fn step(mark: &[u8], s: &[u8]) -> usize {
    let last = mark.len() - 1;
    let mut ahead = shift(mark, s[last]);
    if s[last] == mark[last] {
        let differs = mark.iter().zip(s).position(|(x, y)| x != y).expect("the mark doesn't stand here");
        ahead = ahead.max(shift(mark, s[differs]).saturating_sub(last - differs));
    }
    if ahead < 8 || mark.len() < 16 {
        let rest = &s[ahead..];
        ahead += rest.iter().position(|&y| y == mark[0]).unwrap_or(rest.len());
    }
    ahead
}

/// The places tried, from the definitions of specs/Shifts.
fn tries(mark: &[u8], s: &[u8]) -> usize {
    let (mut at, mut tried) = (0, 0);
    while s.len() - at >= mark.len() {
        tried += 1;
        if s[at..].starts_with(mark) {
            break;
        }
        at += step(mark, &s[at..]);
    }
    tried
}

/// Mark and data stand at the ends of blocks of the heap, so that valgrind sees a read behind them.
fn agree(mark: &[u8], data: &[u8]) -> Found {
    let (mark, data): (Box<[u8]>, Box<[u8]>) = (mark.into(), data.into());
    let place = data.windows(mark.len()).position(|part| *part == *mark).unwrap_or(data.len());
    let right = Found { place, tried: tries(&mark, &data) };
    let found = find(&mark, &data);
    let case = || format!("mark of {}, data of {}: {mark:?} in {data:?}", mark.len(), data.len());
    assert_eq!((found, find_plain(&mark, &data)), (right, place), "{}", case());
    found
}

#[test]
fn whole_and_half_marks() {
    for length in 1..=999 {
        for count in LETTERS {
            let mut random = Random::new(0, "searches", (length * 1000 + count) as u64);
            let mark = letters(&mut random, count, length);
            for most in [2 * length + 3, 5_001, 2 * length + 3, 5_001] {
                let bytes = random.below(most);
                agree(&mark, &with_marks(&mut random, &mark, count, bytes));
            }
        }
    }
}

/// The mark at each of the last places where it has room and beyond, where the data cut it short; also data shorter than it.
#[test]
fn around_the_end() {
    for length in LENGTHS {
        for count in LETTERS {
            let mut random = Random::new(1, "searches", (length * 1000 + count) as u64);
            let mark = letters(&mut random, count, length);
            let bytes = 2 * length + 70;
            let behind = if length > 128 { 20 } else { length };
            for at in bytes - length - 2..bytes - length + behind {
                let mut data = letters(&mut random, count, at);
                data.extend(&mark);
                data.truncate(bytes);
                agree(&mark, &data);
            }
            for bytes in [0, 1, length / 2, length - 1, length, length + 1] {
                agree(&mark, &mark.iter().cycle().take(bytes).copied().collect::<Vec<u8>>());
                agree(&mark, &letters(&mut random, count, bytes));
            }
        }
    }
}

/// The marks that make a search slow: 90 equal bytes where 88 and another stand; one byte that differs, first, second and in
/// the middle, in data of the others.
#[test]
fn hostile_marks() {
    let (a, b) = (b'A', b'B');
    for length in LENGTHS {
        let run = length.saturating_sub(1).max(2);
        let data: Vec<u8> = (1..=4_000).map(|at| if at % run == 0 { b } else { a }).collect();
        agree(&vec![a; length], &data);
        for differs in [0, 1, length / 2, length - 1] {
            let mut mark = vec![a; length];
            mark[differs.min(length - 1)] = b;
            agree(&mark, &vec![a; 4_000]);
            agree(&mark, &data);
        }
    }
}

/// "in data without a byte of the mark at most one for each whole mark length"
#[test]
fn few_places_without_a_byte_of_the_mark() {
    for length in LENGTHS {
        let mut random = Random::new(2, "searches", length as u64);
        let mark = letters(&mut random, 26, length);
        for bytes in (0..=3 * length + 2).chain([10_000]) {
            let data: Vec<u8> = (0..bytes).map(|_| random.between(b'a' as usize, b'z' as usize) as u8).collect();
            let found = agree(&mark, &data);
            assert_eq!(found.place, bytes);
            assert!(found.tried <= bytes / length, "{} places in {bytes} bytes, mark of {length}", found.tried);
            if length >= 16 {
                assert_eq!(found.tried, bytes / length);
            }
        }
    }
}

/// A mark of no bytes is at the start; one of over 999 bytes is found too. Neither is searched for by shifts.
#[test]
fn marks_without_shifts() {
    let data = letters(&mut Random::new(3, "searches", 0), 256, 3_000);
    let of = |place| Found { place, tried: 0 };
    assert_eq!((find(b"", &data), find_plain(b"", &data)), (of(0), 0));
    assert_eq!((find(b"", b""), find_plain(b"", b"")), (of(0), 0));
    for length in [1_000, 1_001, 2_000] {
        for at in [0, 1, 999, 1_000] {
            let mark = &data[at..at + length];
            assert_eq!((find(mark, &data), find_plain(mark, &data)), (of(at), at), "mark of {length} at {at}");
        }
        let other = vec![b'*'; length];
        assert_eq!((find(&other, &data), find_plain(&other, &data)), (of(3_000), 3_000));
    }
}
