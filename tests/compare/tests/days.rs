//! "Each day's number is one above that of the day before": every date in a row against a running count, and texts that are
//! dates or not against the plain one.

use compare::kernels;
use compare::random::Random;
use plain::field;

/// Under valgrind (tests/memory) every date would take long.
fn step() -> usize {
    if std::env::var_os("ADS_EXACT").is_some() {
        97
    } else {
        1
    }
}

/// "1 January of year 1 is 1", "31 December 9999 is 3,652,059".
#[test]
fn every_date_in_a_row() {
    let mut count = 0;
    for year in 1..10_000 {
        let leap = year % 400 == 0 || year % 4 == 0 && year % 100 != 0;
        let february = if leap { 29 } else { 28 };
        for (month, days) in (1..).zip([31, february, 31, 30, 31, 30, 31, 31, 30, 31, 30, 31]) {
            for day in 1..=days {
                count += 1;
                if (year * 365 + month * 31 + day) % step() == 0 || count == 1 {
                    assert_eq!(kernels::day(&text(year, month, day)), Some(count), "{year} {month} {day}");
                }
            }
        }
    }
    assert_eq!((count, kernels::day(b"99991231")), (3_652_059, Some(3_652_059)));
}

/// A year in four digits, month and day in two each.
fn text(year: usize, month: usize, day: usize) -> [u8; 8] {
    let digits = [year / 1000, year / 100, year / 10, year, month / 10, month, day / 10, day];
    digits.map(|digit| b'0' + (digit % 10) as u8)
}

/// The date stands at the end of a block of the heap, so that valgrind sees a read behind it.
fn agree(date: &[u8]) {
    let block: Box<[u8]> = date.into();
    assert_eq!(kernels::day(&block), field::day(&block), "{:?}", date.escape_ascii().to_string());
}

/// Months 00 to 99 and days 00 to 99: of leap years and common ones, of the years 0000, 0001 and 9999.
#[test]
fn all_digits_of_some_years() {
    for year in [0, 1, 4, 100, 400, 1582, 1600, 1700, 1900, 1999, 2000, 2023, 2024, 2100, 9996, 9999] {
        for (month, day) in (0..100).flat_map(|month| (0..100).map(move |day| (month, day))).step_by(step()) {
            agree(&text(year, month, day));
        }
    }
}

#[test]
fn every_byte_at_every_place() {
    for date in [b"20240229", b"00010101", b"99991231", b"20230228"] {
        for at in 0..8 {
            for byte in 0..=255 {
                let mut changed = *date;
                changed[at] = byte;
                agree(&changed);
            }
        }
    }
}

#[test]
fn any_bytes() {
    let mut random = Random::new(0, "days", 0);
    for _ in 0..1_000_000 / step() {
        let mut date = text(random.below(10_000), random.below(14), random.below(33));
        for _ in 0..random.below(3) {
            date[random.below(8)] = random.pick(b"0123456789 /:-+\0\n\xb0\xff");
        }
        agree(&date);
    }
}

#[test]
fn cases_by_hand() {
    for (date, number) in
        [(b"00010101", 1), (b"00011231", 365), (b"16000229", 584_082), (b"19700101", 719_163), (b"20000101", 730_120)]
    {
        assert_eq!(kernels::day(date), Some(number));
    }
    for none in [&b"20230229"[..], b"19000229", b"00000101", b"00000000", b"", b"2024022", b"202402290", b"2024 229"] {
        assert_eq!(kernels::day(none), None, "{none:?}");
    }
}
