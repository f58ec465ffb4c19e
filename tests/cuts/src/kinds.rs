//! The appends that are cut, one of each kind.

use ads::{Description, Ends, Header, Refusal};

pub const BLOCK: usize = 512;

/// An accepted append: the finished file, the old file's length, the three ends; whether parents are asked for too.
pub struct Append {
    pub finished: Vec<u8>,
    pub length: usize,
    pub ends: Ends,
    pub parents: bool,
}

/// What is appended.
struct Given<'a> {
    serial: [u8; 38],
    parents: &'a [usize],
    specific: &'a [u8],
    contents: &'a [u8],
    open: bool,
}

/// A file with spaces in front of its numbers: an open chunk, and a MultiChunk that names it with zeros in its check.
const PADDED: &[u8] = include_bytes!("../../../samples/padded.ads");

/// A serial number with this random number.
fn serial(number: usize) -> [u8; 38] {
    let first = format!("#20240229123456789SURVEYDESK01{number:05}");
    let sum = first.bytes().fold(0, u8::wrapping_add);
    format!("{first}{sum:03}").into_bytes().try_into().expect("38 bytes")
}

/// The same with spaces for the zeros in front of its check.
fn spaced(number: usize) -> [u8; 38] {
    let mut serial = serial(number);
    let zeros = serial[35..37].iter().take_while(|&&digit| digit == b'0').count();
    serial[35..35 + zeros].fill(b' ');
    serial
}

fn described(serial: &[u8; 38]) -> Description {
    Description::new()
        .sub_format(b"ADS\\DATA\\TEST")
        .generic_type(b"TXT")
        .synch_type(b"GEN")
        .time_standard(b"UTC")
        .time_offset(b"+0000      8.035")
        .event_synch(b"NUL")
        .serial_number(serial)
        .recording(b"20240229", b"RECORDER")
        .writing(b"20240301", b"DESK")
}

fn begun(strategy: &[u8; 3], mark: &[u8]) -> Result<Vec<u8>, Refusal> {
    let mut file = vec![0; ads::begin_room(mark.len())];
    let serial = &serial(1);
    let (recorded, recorder, written, writer) = (b"20240229", b"RECORDER", b"20240301", b"DESK");
    ads::begin(&Header { strategy, mark, serial, recorded, recorder, written, writer }, &mut file)?;
    Ok(file)
}

fn append(file: &mut Vec<u8>, given: &Given) -> Result<Ends, Refusal> {
    let length = file.len();
    file.resize(length + 8192, 0);
    let ends =
        ads::append(file, length, described(&given.serial), given.parents, given.specific, given.contents, given.open)?;
    file.truncate(ends.third);
    Ok(ends)
}

fn cut(mut file: Vec<u8>, given: &Given, parents: bool) -> Result<Append, Refusal> {
    let length = file.len();
    let ends = append(&mut file, given)?;
    Ok(Append { finished: file, length, ends, parents })
}

/// A file with two chunks, the second with the first as its parent.
fn two_chunks(strategy: &[u8; 3], mark: &[u8]) -> Result<Vec<u8>, Refusal> {
    let mut file = begun(strategy, mark)?;
    append(&mut file, &Given { serial: serial(40), parents: &[], specific: b"", contents: b"first", open: false })?;
    append(&mut file, &Given { serial: serial(41), parents: &[0], specific: b"", contents: b"second", open: false })?;
    Ok(file)
}

/// A file with one chunk, whose parent, number 40, isn't there.
fn without_parent() -> Result<Vec<u8>, Refusal> {
    let mut file = begun(b"LLC", b"SEP")?;
    let header = file.len();
    append(&mut file, &Given { serial: serial(40), parents: &[], specific: b"", contents: b"first", open: false })?;
    let first = file.len();
    append(&mut file, &Given { serial: serial(41), parents: &[0], specific: b"", contents: b"second", open: false })?;
    file.drain(header..first);
    Ok(file)
}

pub fn kinds() -> Result<Vec<(&'static str, Append)>, Refusal> {
    let long = b"A mark of ninety bytes, as recorders write it, that is found in no data: 0123456789ABCDEFG";
    let mark: Vec<u8> = long.iter().copied().chain(std::iter::repeat(b'-')).take(90).collect();
    let zeros = [0; 700];
    let specific: Vec<u8> = (0..600).map(|i| if i % 3 == 0 { 0 } else { i as u8 }).collect();
    let plain = |contents, open| Given { serial: serial(42), parents: &[], specific: b"", contents, open };
    Ok(vec![
        ("counted", cut(two_chunks(b"LLC", b"SEP")?, &plain(b"counted data", false), false)?),
        ("counted, data of zeros", cut(two_chunks(b"LLC", b"SEP")?, &plain(&zeros, false), false)?),
        ("open", cut(two_chunks(b"NUL", b"ABAB")?, &plain(b"open data, ABA and QA", true), false)?),
        ("empty data", cut(two_chunks(b"LLC", b"SEP")?, &plain(b"", false), false)?),
        ("empty data, open", cut(two_chunks(b"NUL", b"ABAB")?, &plain(b"", true), false)?),
        ("no mark", cut(begun(b"LLC", b"")?, &plain(b"abc", false), false)?),
        ("mark of 90, counted", cut(begun(b"NUL", &mark)?, &plain(b"abc", false), false)?),
        ("mark of 90, open", cut(begun(b"NUL", &mark)?, &plain(&specific[1..3], true), false)?),
        (
            "specific data with zeros",
            cut(
                begun(b"LLC", b"\n")?,
                &Given { serial: serial(42), parents: &[], specific: &specific, contents: b"abc", open: false },
                false,
            )?,
        ),
        (
            "two parents",
            cut(
                two_chunks(b"LLC", b"SEP")?,
                &Given { serial: serial(42), parents: &[1, 0], specific: b"", contents: b"abc", open: false },
                true,
            )?,
        ),
        (
            "a parent that was missing",
            cut(
                without_parent()?,
                &Given { serial: serial(40), parents: &[0], specific: b"", contents: b"abc", open: false },
                true,
            )?,
        ),
        (
            "spaces in front of numbers",
            cut(
                PADDED.to_vec(),
                &Given { serial: spaced(44), parents: &[0], specific: b"", contents: b"abc", open: false },
                true,
            )?,
        ),
    ])
}
