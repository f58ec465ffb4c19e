use plain::field::{day, is_text, offset, serial_day};

use crate::serial;

/// "The serial above is right (sum 2049); ending 002: 6."
#[test]
fn serial_number() {
    let text = b"#20240229123456789SURVEYDESK0100042001";
    assert_eq!(text[..35].iter().map(|&byte| u32::from(byte)).sum::<u32>(), 2049);
    assert_eq!(serial_day(text), Some(738_945));
    assert_eq!(serial_day(b"#20240229123456789SURVEYDESK0100042002"), None);
    assert_eq!(serial_day(b"#20240229123456789SURVEYDESK0100042257"), None);
}

/// "Random 65535 fits, 65536: 6."
#[test]
fn random() {
    assert_eq!(serial_day(&serial(65535)), Some(738_945));
    assert_eq!(serial_day(&serial(65536)), None);
}

/// The serial with these bytes at a place, and a right check.
fn changed(at: usize, bytes: &[u8]) -> [u8; 38] {
    let mut serial = serial(42);
    serial[at..at + bytes.len()].copy_from_slice(bytes);
    let check = serial[..35].iter().map(|&byte| u32::from(byte)).sum::<u32>() % 256;
    serial[35..].copy_from_slice(format!("{check:03}").as_bytes());
    serial
}

#[test]
fn parts_of_a_serial_number() {
    let good: [(usize, &[u8]); 5] = [(9, b"23"), (11, b"5959"), (15, b"999"), (18, b"~           "), (1, b"00010101")];
    for (at, bytes) in good {
        let right = if at == 1 { 1 } else { 738_945 };
        assert_eq!(serial_day(&changed(at, bytes)), Some(right), "{at} {bytes:?}");
    }
    let bad: [(usize, &[u8]); 9] = [
        (0, b"$"),
        (1, b"20230229"),
        (9, b"24"),
        (11, b"60"),
        (13, b"60"),
        (15, b"99 "),
        (18, b"\x1f"),
        (29, b"\x7f"),
        (30, b"-0001"),
    ];
    for (at, bytes) in bad {
        assert_eq!(serial_day(&changed(at, bytes)), None, "{at} {bytes:?}");
    }
}

/// "20240229 and 20000229 are dates, 20230229 and 19000229 aren't." "1 January of year 1 is 1", "31 December 9999 is
/// 3,652,059".
#[test]
fn dates() {
    for (date, number) in [
        (b"00010101", 1),
        (b"00011231", 365),
        (b"00020101", 366),
        (b"16000229", 584_082),
        (b"19700101", 719_163),
        (b"20000101", 730_120),
        (b"20000228", 730_178),
        (b"20000229", 730_179),
        (b"20000301", 730_180),
        (b"20240229", 738_945),
        (b"20240430", 739_006),
        (b"99991231", 3_652_059),
    ] {
        assert_eq!(day(date), Some(number), "{date:?}");
    }
    assert_eq!(day(b"19000228").map(|number| number + 1), day(b"19000301"));
    for date in [
        b"20230229",
        b"19000229",
        b"00000101",
        b"20240001",
        b"20241301",
        b"20240100",
        b"20240132",
        b"20240431",
        b"2024 101",
    ] {
        assert_eq!(day(date), None, "{date:?}");
    }
}

/// ""+0000      8.035" is 80,350,000,000; "-0100      0.000" is -36,000,000,000,000; N11 of one point: 6."
#[test]
fn offsets() {
    let good: [(&[u8; 16], i64); 9] = [
        (b"+0000      8.035", 80_350_000_000),
        (b"-0100      0.000", -36_000_000_000_000),
        (b"-0000          0", 0),
        (b"+0000.0000000001", 1),
        (b"-0000.9999999999", -9_999_999_999),
        (b"+000000000000059", 590_000_000_000),
        (b"+0000   8.      ", 80_000_000_000),
        (b"+0000         .5", 5_000_000_000),
        (b"+235959.99999999", 863_999_999_999_900),
    ];
    for (bytes, value) in good {
        assert_eq!(offset(bytes), Some(value), "{bytes:?}");
    }
    let bad: [&[u8; 16]; 11] = [
        b"+0000          .",
        b"+0000           ",
        b"+0000    1.2.3  ",
        b"+0000    1 2    ",
        b"+0000         60",
        b"+000099999999999",
        b"+2400          0",
        b"+0060          0",
        b" 0000          0",
        b"+0 00          0",
        b"+0000         -1",
    ];
    for bytes in bad {
        assert_eq!(offset(bytes), None, "{bytes:?}");
    }
}

/// "A text field An is n bytes from 32 to 126"
#[test]
fn texts() {
    assert!(is_text(b" ~"));
    for byte in [0, 10, 31, 127, 128, 255] {
        assert!(!is_text(&[byte]));
    }
}
