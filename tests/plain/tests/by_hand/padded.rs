//! "Older recorders pad numbers with spaces."

use plain::field::{compared, count, serial_day};
use plain::{append, listing, parent, Parent, Serial};

use crate::calls::{description, lent};
use crate::{chunk, chunk_header, closed, header, multi, reading, serial, with};

/// "leading spaces before at least one digit"
#[test]
fn counts() {
    for text in [b"  7", b" 07", b"007"] {
        assert_eq!(count(text), Some(7), "{text:?}");
    }
    for text in [b"7  ", b"0 7", b" +7", b"\t 7", b" \t7", b"   ", b"-07", b" 7 "] {
        assert_eq!(count(text), None, "{text:?}");
    }
    assert_eq!((count(b""), count(b"999999999999")), (None, Some(999_999_999_999)));
}

/// "a field of spaces only is 6, or 1 in the strategy line, where NUL with 0 in any form is 2"
#[test]
fn strategy_line() {
    let number = |strategy: &str| reading(&with(&header("LLC", b""), "LLC000", strategy), 1).0;
    for strategy in ["LLC   ", "NUL7  ", "NUL   ", "LLC0 0", "LLC +0", "LLC\t 0"] {
        assert_eq!(number(strategy), (0, 0, false, 1), "{strategy}");
    }
    for strategy in ["NUL000", "NUL 00", "NUL  0"] {
        assert_eq!(number(strategy), (0, 0, false, 2), "{strategy}");
    }
    // the header's own sum covers the strategy line
    for strategy in ["LLC  0", "LLC 00"] {
        assert_eq!(number(strategy), (0, 319, false, 0), "{strategy}");
    }
    let mark = with(&header("NUL", b"ABAB"), "NUL004", "NUL  4");
    assert_eq!(reading(&mark, 1).0, (0, 327, false, 0));
}

/// "Dates, times, random and offset hours and minutes keep all digits."
#[test]
fn all_digits() {
    for (at, text) in [(30, " 0042"), (9, " 2"), (11, " 4"), (13, " 6"), (15, " 89"), (1, " 2024229"), (5, " 229")] {
        let mut first = serial(42)[..35].to_vec();
        first[at..at + text.len()].copy_from_slice(text.as_bytes());
        let check = first.iter().map(|&byte| u32::from(byte)).sum::<u32>() % 256;
        first.extend(format!("{check:03}").bytes());
        assert_eq!(serial_day(&first.try_into().unwrap()), None, "{text}");
    }
    let file = [header("LLC", b""), chunk(b"", 42, 4, b"abc")].concat();
    for (old, new) in
        [("+0000", "+ 000"), ("+0000", "+00 0"), ("Chunk_Recording_Date=2024", "Chunk_Recording_Date=  24")]
    {
        let changed = [&file[..319], &with(&file[319..], old, new)].concat();
        assert_eq!(reading(&changed, 1).0, (0, 319, true, 6), "{new}");
    }
}

/// The serial number with spaces in front of its check.
pub fn other(random: u32) -> Serial {
    let mut other = serial(random);
    assert_eq!(&other[35..37], b"00");
    other[35..37].fill(b' ');
    other
}

/// "the two checks": the serial number's, and the checksum. "serials are compared by their first 35 bytes"
#[test]
fn checks() {
    assert_eq!(&other(42)[35..], b"  1");
    assert_eq!(serial_day(&other(42)), serial_day(&serial(42)));
    assert_eq!(compared(&other(42)), compared(&serial(42)));
    assert_eq!(serial_day(b"#20240229123456789SURVEYDESK0100042   "), None);
    assert_eq!(serial_day(b"#20240229123456789SURVEYDESK01000421  "), None);
    // data for which the sum is below 10
    let bytes = |last: u8| [&header("LLC", b"")[..], &chunk(b"", 42, 4, &[b'a', b'b', last])].concat();
    let file = (0..=255).map(bytes).find(|file| file[file.len() - 4..].starts_with(b"00")).unwrap();
    let (end, sum) = (file.len(), file[file.len() - 2]);
    for (text, good) in [([b' ', b' ', sum], true), ([b' ', b'0', sum], true), ([b' ', b'1', sum], false)] {
        let mut file = file.clone();
        file[end - 4..end - 1].copy_from_slice(&text);
        let (answer, rows) = reading(&file, 1);
        assert_eq!((answer, rows[0].good), ((1, end, true, 0), good), "{text:?}");
    }
    let mut spaces = file;
    spaces[end - 4..end - 1].fill(b' ');
    assert_eq!(reading(&spaces, 1).0, (0, 319, true, 6));
}

/// "lengths" and "counts", the mini-chunk's I12 too.
#[test]
fn lengths_and_counts() {
    let test = "ADS\\DATA\\TEST";
    let bytes = [&header("LLC", b"")[..], &chunk(b"", 42, 4, b"abc")].concat();
    for (label, digits, value) in [
        ("Header_Length", "000000000536", 536),
        ("Dependency_Length", "000000000029", 29),
        ("Dependency_Count", "0000", 0),
        ("Content_Length", "000000000004", 4),
    ] {
        let width = digits.len();
        let changed = |field: String| with(&bytes, &format!("{label}={digits}"), &format!("{label}={field}"));
        // the sum covers these fields
        let (answer, rows) = reading(&changed(format!("{value:width$}")), 1);
        assert_eq!((answer, rows[0].bytes, rows[0].good), ((1, 1178, true, 0), 3, false), "{label}");
        assert_eq!(reading(&changed(format!("{value:<width$}")), 1).0, (0, 319, true, 6), "{label}");
        assert_eq!(reading(&changed(" ".repeat(width)), 1).0, (0, 319, true, 6), "{label}");
    }
    let file = [&header("LLC", b"")[..], &multi(42, &["A"], 0, &[("A", "hello")])].concat();
    let mini = with(&file, "MiniChunk=A         000000000005hello", "MiniChunk=A                    5hello");
    for (old, new) in [
        ("Multi_Chunk_Header_Length=000000000545", "Multi_Chunk_Header_Length=         545"),
        ("Type_Count=0001", "Type_Count=   1"),
        ("SubType_Header_Length=000000000484", "SubType_Header_Length=         484"),
    ] {
        let padded = with(&mini, old, new);
        assert_eq!(reading(&padded, 1).0, (1, padded.len(), true, 0), "{new}");
    }
    let spaces = with(&file, "MiniChunk=A         000000000005hello", "MiniChunk=A                     hello");
    assert_eq!(reading(&spaces, 1).0, (0, 319, true, 6));
    // a parent named under the other writing
    let mut child = chunk_header(test, &[(other(42), test)], 0);
    child.extend(b"Chunk_Content_Length=           1\n");
    let file = [bytes, closed(child, b"", &other(43))].concat();
    assert_eq!(reading(&file, 2).0, (2, file.len(), true, 0));
    assert_eq!(parent(&file, 1, 0), Ok(Some(Parent { row: 0, agree: true })));
}

/// 9 in a reading and in append; "copies a given serial as it came", "fills its own numbers with zeros".
#[test]
fn serial_numbers() {
    let start = with(&header("LLC", b""), "LLC000", "LLC  0");
    let first = closed(
        [&chunk_header("ADS\\DATA\\TEST", &[], 0)[..], b"Chunk_Content_Length=           4\nabc"].concat(),
        b"",
        &other(42),
    );
    let file = [&start[..], &first].concat();
    let (answer, rows) = reading(&file, 1);
    assert_eq!((answer, rows[0].serial), ((1, 1178, false, 0), other(42)));
    assert_eq!(reading(&[&file[..], &chunk(b"", 42, 1, b"")].concat(), 2).0, (1, 1178, false, 9));
    let mut text = [b'?'; 100];
    let asked = b"header bad\nchunks 1\n0 319 568 3 good #20240229123456789SURVEYDESK0100042  1\nend 1178 0\n";
    assert_eq!(listing(&file, &mut text), Ok(asked.len()));
    assert_eq!(&text[..asked.len()], asked);

    let mut buffer = lent(&file, 1300);
    assert_eq!(append(&mut buffer, file.len(), &description(), &[], b"", b"", false), Err(9));
    let given = description().serial_number(other(43));
    let ends = append(&mut buffer, file.len(), &given, &[0], b"", b"xy", false).unwrap();
    let mut new = chunk_header("ADS\\DATA\\TEST", &[(other(42), "ADS\\DATA\\TEST")], 0);
    new.extend(b"Chunk_Content_Length=000000000003\nxy");
    assert_eq!(buffer[..ends.third], [file, closed(new, b"", &other(43))].concat());
}
