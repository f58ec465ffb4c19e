//! Cases worked out by hand from the specification, and each number that a call gives.

mod ancestors;
mod blocks;
mod calls;
mod fields;
mod padded;
mod price;
mod reading;
mod relations;

use plain::{read, Ending, Reading, Row, Serial};

/// "#20240229123456789SURVEYDESK01", a random number and the check.
pub fn serial(random: u32) -> Serial {
    let first = format!("#20240229123456789SURVEYDESK01{random:05}");
    let check = first.bytes().map(u32::from).sum::<u32>() % 256;
    format!("{first}{check:03}").into_bytes().try_into().unwrap()
}

/// "mark, integrity data, mark" behind bytes that are summed.
pub fn closed(mut summed: Vec<u8>, mark: &[u8], serial: &Serial) -> Vec<u8> {
    let serial = String::from_utf8(serial.to_vec()).unwrap();
    summed.extend(mark);
    summed.extend(
        format!(
            "Chunk_Serial_Number={serial}\nChunk_Recording_Date=20240229\nChunk_Recording_Agent={:32}\n\
             Chunk_Writing_Date=20240301\nChunk_Writing_Agent={:32}\nChunk_Integrity_Checksum=",
            "RECORDER", "WRITER"
        )
        .bytes(),
    );
    let sum = summed.iter().map(|&byte| u32::from(byte)).sum::<u32>() % 256;
    summed.extend(format!("{sum:03}\n").bytes());
    summed.extend(mark);
    summed
}

pub fn header(strategy: &str, mark: &[u8]) -> Vec<u8> {
    let length = mark.len();
    let title = format!("Format_ID=Ancillary Data Standard 1.00\nSeparator_Strategy={strategy}{length:03}\n");
    closed(title.into_bytes(), mark, &serial(7))
}

/// A file of these chunks.
pub fn file(chunks: &[Vec<u8>]) -> Vec<u8> {
    [header("LLC", b""), chunks.concat()].concat()
}

pub fn times() -> String {
    format!(
        "Chunk_Time_Synch_Type=GEN\nChunk_Time_Standard={:41}\nChunk_Time_Offset=+0000      8.035\nChunk_Event_Synch={:41}\n",
        "UTC", "NUL"
    )
}

/// The header of a chunk with s bytes of specific data, which are to follow.
pub fn chunk_header(sub_format: &str, parents: &[(Serial, &str)], s: usize) -> Vec<u8> {
    let n = parents.len();
    let mut text = format!(
        "Chunk_Header_Length={:012}\nSubFormat_ID={sub_format:256}\nGeneric_Type=TXT\n{}\
         Chunk_Dependency_Length={:012}\nChunk_Dependency_Count={n:04}\n",
        536 + 344 * n + s,
        times(),
        29 + 344 * n
    );
    for (serial, sub_format) in parents {
        let serial = std::str::from_utf8(serial).unwrap();
        text += &format!("Dependency_Serial_Number={serial}\nDependency_SubFormatID={sub_format:256}\n");
    }
    text.into_bytes()
}

/// A chunk with this count in its content length line.
pub fn chunk(mark: &[u8], random: u32, count: usize, data: &[u8]) -> Vec<u8> {
    let mut bytes = chunk_header("ADS\\DATA\\TEST", &[], 0);
    bytes.extend(format!("Chunk_Content_Length={count:012}\n").bytes());
    bytes.extend(data);
    closed(bytes, mark, &serial(random))
}

/// A chunk that has these parents.
pub fn depending(random: u32, sub_format: &str, parents: &[(Serial, &str)], data: &[u8]) -> Vec<u8> {
    let mut bytes = chunk_header(sub_format, parents, 0);
    bytes.extend(format!("Chunk_Content_Length={:012}\n", data.len() + 1).bytes());
    bytes.extend(data);
    closed(bytes, b"", &serial(random))
}

/// A MultiChunk with these short IDs, these mini-chunks and so many bytes of specific data for each type.
pub fn multi(random: u32, ids: &[&str], s: usize, minis: &[(&str, &str)]) -> Vec<u8> {
    let mut text = format!(
        "Multi_Chunk_Header_Length={:012}\nMiniChunk_Type_Count={:04}\n",
        27 + (518 + s) * ids.len(),
        ids.len()
    );
    for id in ids {
        text += &format!(
            "SubType_Header_Length={:012}\nSubFormat_ID={:256}\nSubFormat_Short_ID={id:10}\n{}{}",
            484 + s,
            "ADS\\DATA\\DEPTH",
            times(),
            "?".repeat(s)
        );
    }
    for (id, data) in minis {
        text += &format!("MiniChunk={id:10}{:012}{data}", data.len());
    }
    let mut bytes = chunk_header("ADS\\SYS\\MultiChunk", &[], 0);
    bytes.extend(text.bytes());
    closed(bytes, b"", &serial(random))
}

pub const BLANK: Row = Row {
    serial: [b'?'; 38],
    place: 1,
    header: 2,
    contents: 3,
    bytes: 4,
    end: 5,
    dependencies: 6,
    offset: 7,
    multichunk: true,
    good: true,
    ending: Ending::ByMiniChunks,
};

/// Count, stop, whether the header's sum is good, number; and the table.
pub fn reading(file: &[u8], room: usize) -> ((usize, usize, bool, u8), Vec<Row>) {
    let mut rows = vec![BLANK; room];
    let Reading { count, stop, good, number } = read(file, &mut rows);
    assert!(rows[count..].iter().all(|row| *row == BLANK));
    ((count, stop, good, number), rows)
}

/// The bytes with the first place of one text replaced by another of the same length.
pub fn with(bytes: &[u8], old: &str, new: &str) -> Vec<u8> {
    assert_eq!(old.len(), new.len());
    let at = bytes.windows(old.len()).position(|part| part == old.as_bytes());
    let at = at.unwrap_or_else(|| panic!("no {old:?}"));
    let mut bytes = bytes.to_vec();
    bytes[at..at + new.len()].copy_from_slice(new.as_bytes());
    bytes
}
