//! "The price statement."

use plain::{price, Statement};

use crate::{chunk, file, header, multi, with};

/// 10^18, the first number of 19 digits.
const TOO_MUCH: u64 = 1_000_000_000_000_000_000;

/// A chunk of so many contents bytes.
fn of(random: u32, bytes: usize) -> Vec<u8> {
    chunk(b"", random, bytes + 1, &vec![b'x'; bytes])
}

/// The same with a word changed, and not its sum.
fn bad(random: u32, bytes: usize) -> Vec<u8> {
    with(&of(random, bytes), "Generic_Type=TXT", "Generic_Type=BIN")
}

/// The text, and header, chunk and unread bytes, which must add to the file's length. Into a buffer that is longer, and one that
/// is just as long; one that is shorter gets 18.
fn priced(file: &[u8], fee: u64, rate: u64) -> Result<(String, [usize; 3]), u8> {
    let mut buffer = vec![b'?'; 400];
    let answer = price(file, fee, rate, &mut buffer);
    let length = answer.map_or(0, |statement| statement.length);
    assert!(buffer[length..].iter().all(|&byte| byte == b'?'));
    let Statement { header, chunks, unread, .. } = answer?;
    assert_eq!(header + chunks + unread, file.len());
    let mut exact = vec![b'?'; length];
    assert_eq!(price(file, fee, rate, &mut exact), answer);
    let mut short = vec![b'?'; length - 1];
    assert_eq!(price(file, fee, rate, &mut short), Err(18));
    assert_eq!(price(file, fee, rate, &mut []), Err(18));
    assert!(exact == buffer[..length] && short.iter().all(|&byte| byte == b'?'));
    Ok((String::from_utf8(exact).unwrap(), [header, chunks, unread]))
}

fn answer(text: &str, parts: [usize; 3]) -> Result<(String, [usize; 3]), u8> {
    Ok((text.to_string(), parts))
}

/// "each started 1,024 contents bytes": no bytes start none
#[test]
fn started() {
    for (bytes, units) in [(0, 0), (1, 1), (1023, 1), (1024, 1), (1025, 2), (2048, 2), (2049, 3)] {
        let file = file(&[of(42, bytes)]);
        let cents = 100 + 7 * units;
        let text = format!("0 {bytes} {cents}\ntotal {cents}\n");
        assert_eq!(priced(&file, 100, 7), answer(&text, [319, 856 + bytes, 0]), "{bytes}");
        assert_eq!(priced(&file, 0, 0), answer(&format!("0 {bytes} 0\ntotal 0\n"), [319, 856 + bytes, 0]));
    }
}

/// "0 for a bad sum": the line stands there, the bytes count.
#[test]
fn bad_sums() {
    let file = file(&[of(42, 3), bad(43, 1025), of(44, 0)]);
    let chunks = 3 * 856 + 3 + 1025;
    assert_eq!(priced(&file, 100, 7), answer("0 3 107\n1 1025 0\n2 0 100\ntotal 207\n", [319, chunks, 0]));
    // the header's own sum is asked by nothing
    let (wrong, parts) = (with(&file, "Agent=RECORDER", "Agent=RECORDEN"), [319, chunks, 0]);
    assert_eq!(priced(&wrong, 1, 0), answer("0 3 1\n1 1025 0\n2 0 1\ntotal 2\n", parts));
}

/// The contents bytes of a MultiChunk: 65, 518 for its type, and 32 more for each mini-chunk.
#[test]
fn multichunk() {
    let file = file(&[multi(42, &["A"], 0, &[("A", "hello"), ("A", "")])]);
    assert_eq!(priced(&file, 0, 7), answer("0 652 7\ntotal 7\n", [319, 568 + 652 + 254, 0]));
    let long = "x".repeat(1024 - 65 - 518 - 32);
    for (data, cents) in [(long.clone(), 7), (long + "x", 14)] {
        let file = crate::file(&[multi(42, &["A"], 0, &[("A", &data)])]);
        let bytes = 615 + data.len();
        assert_eq!(priced(&file, 0, 7), answer(&format!("0 {bytes} {cents}\ntotal {cents}\n"), [319, 822 + bytes, 0]));
    }
}

/// 10^18 - 1 is taken, 10^18 isn't: by the first rate, by the second, by both, in one row and in the sum of several.
#[test]
fn eighteen_digits() {
    let nines = TOO_MUCH - 1;
    let empty = file(&[of(42, 0)]);
    let text = format!("0 0 {nines}\ntotal {nines}\n");
    assert_eq!(priced(&empty, nines, 0), answer(&text, [319, 856, 0]));
    assert_eq!(priced(&empty, TOO_MUCH, 0), Err(21));

    let two_units = file(&[of(42, 1025)]);
    let text = format!("0 1025 {nines}\ntotal {nines}\n");
    assert_eq!(priced(&two_units, 1, nines / 2), answer(&text, [319, 1881, 0]));
    assert_eq!(priced(&two_units, 2, nines / 2), Err(21));
    assert_eq!(priced(&two_units, 0, TOO_MUCH / 2), Err(21));
    let text = "0 1025 999999999999999998\ntotal 999999999999999998\n";
    assert_eq!(priced(&two_units, 0, TOO_MUCH / 2 - 1), answer(text, [319, 1881, 0]));
    let one_unit = file(&[of(42, 1)]);
    assert_eq!(priced(&one_unit, 0, nines), answer(&format!("0 1 {nines}\ntotal {nines}\n"), [319, 857, 0]));
    assert_eq!(priced(&one_unit, 0, TOO_MUCH), Err(21));
    assert_eq!(priced(&one_unit, 1, nines), Err(21));

    // 3 × 333,333,333,333,333,333
    let three = file(&[of(42, 0), bad(43, 0), of(44, 0), of(45, 0)]);
    let third = nines / 3;
    let text = format!("0 0 {third}\n1 0 0\n2 0 {third}\n3 0 {third}\ntotal {nines}\n");
    assert_eq!(priced(&three, third, u64::MAX), answer(&text, [319, 4 * 856, 0]));
    assert_eq!(priced(&three, third + 1, 0), Err(21));
    // sums and products that pass 2^64
    for (fee, rate) in [(u64::MAX, 0), (0, u64::MAX), (u64::MAX, u64::MAX), (1 << 63, 1 << 63)] {
        assert_eq!(priced(&two_units, fee, rate), Err(21), "{fee} {rate}");
    }
}

/// A rate that is charged to nothing
#[test]
fn charged_to_nothing() {
    let empty = file(&[of(42, 0), of(43, 0)]);
    assert_eq!(priced(&empty, 1, u64::MAX), answer("0 0 1\n1 0 1\ntotal 2\n", [319, 2 * 856, 0]));
    let bad_ones = file(&[bad(42, 0), bad(43, 1025)]);
    let text = "0 0 0\n1 1025 0\ntotal 0\n";
    assert_eq!(priced(&bad_ones, u64::MAX, u64::MAX), answer(text, [319, 2 * 856 + 1025, 0]));
    assert_eq!(priced(&header("LLC", b""), u64::MAX, u64::MAX), answer("total 0\n", [319, 0, 0]));
}

/// "header bytes, 319 and twice the mark, or 0 if the header isn't whole"; "unread bytes, those from the stop on"
#[test]
fn parts() {
    for begun in [header("LLC", b""), header("NUL", &[b'M'; 90]), header("LLC", &[b'M'; 999])] {
        let mark = (begun.len() - 319) / 2;
        assert_eq!(priced(&begun, 100, 7), answer("total 0\n", [319 + 2 * mark, 0, 0]));
        let short = &begun[..begun.len() - 1];
        assert_eq!(priced(short, 100, 7), answer("total 0\n", [0, 0, short.len()]));
    }
    assert_eq!(header("NUL", &[b'M'; 90]).len(), 499);
    let wrong = with(&header("NUL", &[b'M'; 90]), "Agent=RECORDER", "Agent=RECORDEN");
    assert_eq!(priced(&wrong, 100, 7), answer("total 0\n", [499, 0, 0]));
    assert_eq!(priced(b"", 100, 7), answer("total 0\n", [0, 0, 0]));
    assert_eq!(priced(&[0xC9; 64], 100, 7), answer("total 0\n", [0, 0, 64]));
    // rows before a fault count: a stray byte, a chunk cut short, a serial number once more
    let (first, text) = (of(42, 3), "0 3 107\ntotal 107\n");
    for behind in [&b"x"[..], &of(43, 3)[..858], &first] {
        let file = [&file(std::slice::from_ref(&first))[..], behind].concat();
        assert_eq!(priced(&file, 100, 7), answer(text, [319, 859, behind.len()]));
    }
}

/// A mark stands behind the contents and at a chunk's end.
#[test]
fn with_a_mark() {
    let mark = [b'M'; 90];
    let chunks = [chunk(&mark, 42, 0, b"12345"), chunk(&mark, 43, 1, b"")];
    let file = [header("NUL", &mark), chunks.concat()].concat();
    assert_eq!(priced(&file, 1, 10), answer("0 5 11\n1 0 1\ntotal 12\n", [499, 1036 + 5 + 1036, 0]));
}

/// "tested after 11", and 18 last
#[test]
fn order() {
    let one = file(&[of(42, 1)]);
    assert_eq!(price(&one, TOO_MUCH, 0, &mut []), Err(21));
    assert_eq!(price(&one, TOO_MUCH - 1, 0, &mut []), Err(18));
    let mut long = vec![0; (1 << 30) + 1];
    assert_eq!(price(&one, TOO_MUCH, 0, &mut long), Err(11));
    assert_eq!(price(&one, TOO_MUCH, 0, &mut long[1..]), Err(21));
    assert_eq!(price(&long, TOO_MUCH, 0, &mut []), Err(11));
    let zeros = Statement { length: 8, header: 0, chunks: 0, unread: 1 << 30 };
    assert_eq!(price(&long[1..], TOO_MUCH, 0, &mut [0; 8]), Ok(zeros));
    let one_row = Statement { length: 14, header: 319, chunks: 857, unread: 0 };
    assert_eq!(price(&one, 1, 0, &mut long[1..]), Ok(one_row));
    assert_eq!((&long[1..15], long[15]), (&b"0 1 1\ntotal 1\n"[..], 0));
}
