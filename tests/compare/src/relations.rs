//! The contents of ADS\SYS\Relations, put together line by line.

use plain::Serial;

use crate::build::{filled, Contents, File};
use crate::generate::{same_serial, RELATIONS};
use crate::simple::{chunk, closing, MISSING};

/// The first line, without its LF.
pub const HEADING: &[u8] =
    b"ADS Metafile Master Relation Chunk Revision 1.00\tChild serial number\tChild sub-format ID\t\
    Parent serial number\tParent sub-format ID";

/// Bytes of the heading and of a line, each with its LF.
pub const HEADING_BYTES: usize = 131;
pub const LINE_BYTES: usize = 605;

/// A line without its LF.
pub fn line(child: &[u8], child_format: &[u8], parent: &[u8], parent_format: &[u8]) -> Vec<u8> {
    let (child_format, parent_format) = (filled(child_format, 256), filled(parent_format, 256));
    [b"ADS relation", child, &child_format, parent, &parent_format].join(&b'\t')
}

/// The heading and these lines, each with its LF.
pub fn text(lines: &[Vec<u8>]) -> Vec<u8> {
    let mut text = [HEADING, b"\n"].concat();
    for line in lines {
        text.extend(line);
        text.push(b'\n');
    }
    text
}

pub fn is_relations(sub_format: &[u8]) -> bool {
    filled(sub_format, 256) == filled(RELATIONS, 256)
}

/// The lines that the writer has to list for a file, by its rows.
pub fn lines_of(file: &File) -> Vec<Vec<u8>> {
    let found = |serial: &[u8]| file.rows.iter().position(|row| same_serial(&row.serial, serial));
    let mut lines = Vec::new();
    for (row, sub_format) in file.rows.iter().zip(&file.sub_formats).filter(|(_, name)| !is_relations(name)) {
        for j in 0..row.dependencies {
            let at = row.place + 568 + 344 * j;
            let (parent, name) = (&file.bytes[at + 25..at + 63], &file.bytes[at + 87..at + 343]);
            let is_one = found(parent).is_some_and(|row| is_relations(&file.sub_formats[row]));
            if !is_one && !is_relations(name) {
                lines.push(line(&row.serial, sub_format, parent, name));
            }
        }
    }
    lines
}

/// A relation chunk by itself, under LLC000, with these contents.
pub fn chunk_with(serial: Serial, dependencies: &[Serial], contents: Vec<u8>) -> Vec<u8> {
    let mut relations = chunk(serial, Contents::Counted(contents));
    relations.dependencies = dependencies.iter().map(|&serial| (serial, relations.sub_format.clone())).collect();
    relations.sub_format = RELATIONS.to_vec();
    let mut file = File::new(false, b"", &closing(MISSING));
    file.push(&relations);
    file.bytes.split_off(file.header_end)
}
