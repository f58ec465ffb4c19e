//! The contents of a relation chunk (`ADS\SYS\Relations`): written for a file, and checked against it. Of the safety of each
//! call the same holds as of those that read a file.
use std::fmt;

use crate::refusal::unless_refused;
use crate::{ffi, Refusal};

/// What is said of a relation line. Displayed, it is in words.
///
/// ```
/// use ads::Verdict;
///
/// assert_eq!(Verdict::from_number(2), Some(Verdict::Undeclared));
/// assert_eq!(Verdict::Undeclared.to_string(), "undeclared");
/// ```
#[repr(u32)]
#[derive(Clone, Copy, Debug, PartialEq, Eq, PartialOrd, Ord, Hash)]
pub enum Verdict {
    /// The header of a row declares just that dependency.
    Declared = 1,
    /// None does.
    Undeclared = 2,
    /// It hasn't five well-formed fields.
    Malformed = 3,
}

impl Verdict {
    /// The verdict with this number; None for numbers that [`relations_check`] doesn't write.
    pub const fn from_number(number: u32) -> Option<Verdict> {
        match number {
            1 => Some(Verdict::Declared),
            2 => Some(Verdict::Undeclared),
            3 => Some(Verdict::Malformed),
            _ => None,
        }
    }

    /// The number, as in `ads.h`.
    pub const fn number(self) -> u32 {
        self as u32
    }
}

impl fmt::Display for Verdict {
    fn fmt(&self, f: &mut fmt::Formatter<'_>) -> fmt::Result {
        f.write_str(match self {
            Verdict::Declared => "declared",
            Verdict::Undeclared => "undeclared",
            Verdict::Malformed => "malformed",
        })
    }
}

/// Writes the contents of a relation chunk for the file into the buffer and answers their length: a heading line, then a
/// line for each dependency of each row. [`relations_room`](crate::relations_room) says how many bytes are enough.
///
/// ```
/// let file = std::fs::read("../samples/two-chunks.ads")?;
/// let mut text = vec![0; ads::relations_room(1)];
/// let length = ads::relations_write(&file, &mut text)?;
/// let line = std::str::from_utf8(&text[..length])?.lines().nth(1);
/// assert!(line.is_some_and(|line| line.starts_with("ADS relation\t#20240229123456789SURVEYDESK0100043002\t")));
/// # Ok::<(), Box<dyn std::error::Error>>(())
/// ```
pub fn relations_write(file: &[u8], buffer: &mut [u8]) -> Result<usize, Refusal> {
    let answer = unsafe { ffi::ads_relations_write(file.as_ptr(), file.len(), buffer.as_mut_ptr(), buffer.len()) };
    unless_refused(answer.number, answer.length)
}

/// Writes for each relation line of the row's contents, in their order, the number of a [`Verdict`] into the list and
/// answers how many; comments get none. [`most_verdicts`](crate::most_verdicts) says how many entries are enough.
///
/// ```
/// use ads::Verdict;
///
/// let file = std::fs::read("../samples/relations.ads")?;
/// let row = ads::read_all(&file).rows[2];
/// let mut list = vec![0; ads::most_verdicts(row.bytes)];
/// let count = ads::relations_check(&file, 2, &mut list)?;
/// let verdicts: Vec<Verdict> = list[..count].iter().copied().filter_map(Verdict::from_number).collect();
/// assert_eq!(verdicts, [Verdict::Declared, Verdict::Declared, Verdict::Undeclared, Verdict::Malformed]);
/// # Ok::<(), Box<dyn std::error::Error>>(())
/// ```
pub fn relations_check(file: &[u8], row: usize, verdicts: &mut [u32]) -> Result<usize, Refusal> {
    let answer =
        unsafe { ffi::ads_relations_check(file.as_ptr(), file.len(), row, verdicts.as_mut_ptr(), verdicts.len()) };
    unless_refused(answer.number, answer.count)
}

/// What [`relations_check_latest`] answers beside the verdicts.
#[derive(Clone, Copy, Debug, PartialEq, Eq, Hash)]
pub struct Checked {
    /// The row that holds, which was checked.
    pub row: usize,
    /// Verdicts written at the start of the list.
    pub count: usize,
}

/// As [`relations_check`], of the relation chunk that holds: the one with the latest writing date, and of equal dates the later
/// row. Its sum and its heading aren't asked in choosing. [`Refusal::NoRow`] where no row is a relation chunk. As many entries as
/// [`most_verdicts`](crate::most_verdicts) says of the longest contents of any row are enough.
///
/// ```
/// use ads::Checked;
///
/// let file = std::fs::read("../samples/relations-dated.ads")?;
/// let longest = ads::read_all(&file).rows.iter().map(|row| row.bytes).max().unwrap_or(0);
/// let mut list = vec![0; ads::most_verdicts(longest)];
/// assert_eq!(ads::relations_check_latest(&file, &mut list)?, Checked { row: 4, count: 2 });
/// # Ok::<(), Box<dyn std::error::Error>>(())
/// ```
pub fn relations_check_latest(file: &[u8], verdicts: &mut [u32]) -> Result<Checked, Refusal> {
    let answer =
        unsafe { ffi::ads_relations_check_latest(file.as_ptr(), file.len(), verdicts.as_mut_ptr(), verdicts.len()) };
    unless_refused(answer.number, Checked { row: answer.row, count: answer.count })
}
