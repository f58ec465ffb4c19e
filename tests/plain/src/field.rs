//! "Text fields": the form and the value of each.

/// "Serial number, 38 bytes": "passed about as one value".
pub type Serial = [u8; 38];

/// "A number field In is n digits 0 to 9."
pub fn number(bytes: &[u8]) -> Option<usize> {
    let mut value = 0;
    for byte in bytes {
        if !byte.is_ascii_digit() {
            return None;
        }
        value = value * 10 + usize::from(byte - b'0');
    }
    Some(value)
}

/// "lengths, counts, the mark length and the two checks may have leading spaces before at least one digit"
pub fn count(bytes: &[u8]) -> Option<usize> {
    let first = bytes.iter().position(|&byte| byte != b' ')?;
    number(&bytes[first..])
}

fn number_to(bytes: &[u8], highest: usize) -> bool {
    number(bytes).is_some_and(|value| value <= highest)
}

/// "A text field An is n bytes from 32 to 126"
pub fn is_text(bytes: &[u8]) -> bool {
    bytes.iter().all(|byte| (32..=126).contains(byte))
}

/// "Date: I4 year from 1, I2 month, I2 day, Gregorian." "Reading a date shall also give its day number, where 1 January of
/// year 1 is 1."
pub fn day(bytes: &[u8]) -> Option<u32> {
    let [year, month, day] = [number(&bytes[..4])?, number(&bytes[4..6])?, number(&bytes[6..8])?];
    if year < 1 || !(1..=12).contains(&month) || !(1..=month_days(year, month)).contains(&(day as u32)) {
        return None;
    }
    let months: u32 = (1..month).map(|month| month_days(year, month)).sum();
    Some(BEFORE_YEAR[year] + months + day as u32)
}

/// The days before 1 January of each year, counted year by year.
static BEFORE_YEAR: [u32; 10_000] = {
    let mut days = [0; 10_000];
    let mut year = 2;
    while year < 10_000 {
        days[year] = days[year - 1];
        let mut month = 1;
        while month <= 12 {
            days[year] += month_days(year - 1, month);
            month += 1;
        }
        year += 1;
    }
    days
};

const fn month_days(year: usize, month: usize) -> u32 {
    match month {
        4 | 6 | 9 | 11 => 30,
        2 if year % 4 == 0 && (year % 100 != 0 || year % 400 == 0) => 29,
        2 => 28,
        _ => 31,
    }
}

/// "Offset: sign + or -, I2 hours to 23, I2 minutes to 59, N11 seconds below 60."
/// "The offset's value is signed, in units of 10^-10 second; minus zero is 0."
pub fn offset(bytes: &[u8]) -> Option<i64> {
    let hours = number(&bytes[1..3]).filter(|&hours| hours <= 23)?;
    let minutes = number(&bytes[3..5]).filter(|&minutes| minutes <= 59)?;
    let value = (hours * 3600 + minutes * 60) as i64 * 10_000_000_000 + seconds(&bytes[5..16])?;
    match bytes[0] {
        b'+' => Some(value),
        b'-' => Some(-value),
        _ => None,
    }
}

/// "N11 is 11 bytes: spaces, digits with at most one point and at least one digit, spaces."
fn seconds(bytes: &[u8]) -> Option<i64> {
    let first = bytes.iter().position(|&byte| byte != b' ')?;
    let last = bytes.iter().rposition(|&byte| byte != b' ')?;
    let core = &bytes[first..=last];
    let point = core.iter().position(|&byte| byte == b'.');
    let (whole, fraction) = match point {
        Some(at) => (&core[..at], &core[at + 1..]),
        None => (core, &core[..0]),
    };
    if whole.is_empty() && fraction.is_empty() {
        return None;
    }
    let whole = number(whole).filter(|&whole| whole < 60)? as i64;
    let scale = 10_i64.pow(10 - fraction.len() as u32);
    Some(whole * 10_000_000_000 + number(fraction)? as i64 * scale)
}

/// "Serial number, 38 bytes: "#", date, I2 hour to 23, I2 minute and I2 second to 59, I3 millisecond, A12 processor,
/// I5 random to 65535, I3 check. The check is the first 35 bytes added byte by byte, modulo 256." Gives its date's day
/// number.
pub fn serial_day(bytes: &Serial) -> Option<u32> {
    let good = bytes[0] == b'#'
        && number_to(&bytes[9..11], 23)
        && number_to(&bytes[11..13], 59)
        && number_to(&bytes[13..15], 59)
        && number_to(&bytes[15..18], 999)
        && is_text(&bytes[18..30])
        && number_to(&bytes[30..35], 65535)
        && count(&bytes[35..38]) == Some(usize::from(sum(&bytes[..35])));
    day(&bytes[1..9]).filter(|_| good)
}

/// "serials are compared by their first 35 bytes"
pub fn compared(serial: &[u8]) -> &[u8] {
    &serial[..35]
}

/// "added byte by byte, modulo 256"
pub fn sum(bytes: &[u8]) -> u8 {
    bytes.iter().fold(0u8, |sum, byte| sum.wrapping_add(*byte))
}

/// "a shorter given text is padded on the right with spaces"; an over-long one is none.
pub fn padded<const N: usize>(text: &[u8]) -> Option<[u8; N]> {
    let mut field = [b' '; N];
    field.get_mut(..text.len())?.copy_from_slice(text);
    Some(field)
}
