//! The listing of a file: the text that a program prints.

use std::fmt::Write;

use crate::chunk::Ending;
use crate::number::{over_limit, LIMIT, ROOM};
use crate::reading::{read, Row};

/// "A program reads a file of up to 65,536 bytes"
const LONGEST: usize = 65_536;
/// The smallest chunk has 856 bytes, and a file header of 319 stands before: 76 rows are enough.
const ROWS: usize = (LONGEST - 319) / 856;

/// Into a lent buffer; answers the text's length.
pub fn listing(input: &[u8], buffer: &mut [u8]) -> Result<usize, u8> {
    if over_limit(&[buffer.len()]) {
        return Err(LIMIT);
    }
    let text = text(input);
    let room = buffer.get_mut(..text.len()).ok_or(ROOM)?;
    room.copy_from_slice(text.as_bytes());
    Ok(text.len())
}

/// "The header's sum (good or bad); the count of rows; for each its row from 0, place, header bytes, contents bytes, sum
/// (good or bad), serial; then stop and number. [..] A longer input prints only "end 0 11"." No bytes: "header none".
fn text(input: &[u8]) -> String {
    if input.len() > LONGEST {
        return "end 0 11\n".to_string();
    }
    let mut rows = [BLANK; ROWS];
    let reading = read(input, &mut rows);
    let header = if input.is_empty() { "none" } else { word(reading.good) };
    let mut text = format!("header {header}\nchunks {}\n", reading.count);
    for (number, row) in rows[..reading.count].iter().enumerate() {
        let serial = String::from_utf8_lossy(&row.serial);
        let (place, header, bytes, good) = (row.place, row.header, row.bytes, word(row.good));
        writeln!(text, "{number} {place} {header} {bytes} {good} {serial}").expect("a String takes any text");
    }
    text + &format!("end {} {}\n", reading.stop, reading.number)
}

fn word(good: bool) -> &'static str {
    if good {
        "good"
    } else {
        "bad"
    }
}

const BLANK: Row = Row {
    serial: [0; 38],
    place: 0,
    header: 0,
    contents: 0,
    bytes: 0,
    end: 0,
    dependencies: 0,
    offset: 0,
    multichunk: false,
    good: false,
    ending: Ending::Counted,
};
