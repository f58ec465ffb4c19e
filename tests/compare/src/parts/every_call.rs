//! The calls beside read on a file of many empty chunks with two more behind them: a MultiChunk with two types, and a chunk
//! with dependencies on an early row, on late ones, on itself and on none.

use plain::{Parent, Serial};

use crate::both::{Appended, Run};
use crate::build::{Contents, File, Type};
use crate::describe::Step;
use crate::ffi::{packed_bytes, price_room, ANCESTORS_ROOM};
use crate::generate::{otherwise, with_check};
use crate::parts::appends;
use crate::random::Random;
use crate::relations::{chunk_with, HEADING_BYTES, LINE_BYTES};
use crate::simple::{chunk, closing, times, Many, MISSING};

/// The file, and rows of it.
pub struct Case {
    pub bytes: Vec<u8>,
    pub known: [Serial; 4],
    pub early: usize,
    pub late: usize,
    pub empty: usize,
    pub multi: usize,
    pub last: usize,
}

impl Case {
    pub fn new(many: Many, early: usize, late: usize) -> Self {
        let multi = many.chunks();
        let empty = multi - 1;
        let [of_multi, of_last, _] = new_serials();
        let known = [many.serial(early), otherwise(&many.serial(late)), many.serial(empty), of_multi];
        let mut bytes = many.bytes;
        bytes.extend(two_chunks(&known, of_last));
        Case { bytes, known, early, late, empty, multi, last: multi + 1 }
    }

    /// So many relation lines have the two chunks.
    pub const LINES: usize = 6;

    /// The file with a relation chunk behind it, which has this text.
    pub fn with_relations(&self, text: Vec<u8>) -> Vec<u8> {
        [&self.bytes[..], &chunk_with(MISSING, &[], text)].concat()
    }

    /// An append of one chunk more, and the buffer for it.
    pub fn append(&self, serial: Serial) -> (Vec<u8>, Appended) {
        let mut buffer = self.bytes.clone();
        buffer.resize(buffer.len() + 5_000, b'x');
        let mut given = appends::good(&mut Random::new(0, "every call", 0), false, false, 0).given;
        given.parents = vec![self.early, self.late, self.last];
        given.description.0.push(Step::SerialNumber(serial));
        (buffer, given)
    }
}

/// Those of the two chunks, and one that is in no row.
pub fn new_serials() -> [Serial; 3] {
    [*b"00001", *b"00002", *b"00003"].map(|number| {
        let first = [b"#19990101000000000SURVEYDESK01".as_slice(), &number].concat();
        with_check(first.try_into().expect("35 bytes"))
    })
}

fn two_chunks(known: &[Serial], last: Serial) -> Vec<u8> {
    let [multi, _, missing] = new_serials();
    let of = |id: &[u8; 10]| Type { sub_format: b"DEPTH".to_vec(), id: *id, times: times(), specific: Vec::new() };
    let minis = vec![(0, b"one".to_vec()), (1, b"two".to_vec()), (0, b"three".to_vec())];
    let mut file = File::new(false, b"", &closing(missing));
    file.push(&chunk(multi, Contents::Multi(vec![of(b"P1        "), of(b"P2        ")], minis)));
    let mut depending = chunk(last, Contents::Counted(b"the last one".to_vec()));
    let on = known.iter().copied().chain([last, missing]);
    depending.dependencies = on.map(|serial| (serial, depending.sub_format.clone())).collect();
    file.push(&depending);
    file.bytes.split_off(file.header_end)
}

pub fn run(run: &mut Run, case: &Case) {
    contents(run, case);
    parents(run, case);
    ancestors(run, case);
    assert_eq!(run.gather(&case.bytes, case.multi, b"P1", 8), Ok(b"onethree".to_vec()));
    assert_eq!(run.gather(&case.bytes, case.empty, b"P1", 8), Err(14));
    relations(run, case);
    price(run, case);
    blocks(run, case);
    for serial in case.known {
        assert_eq!(append(run, case, serial), Err(9));
    }
    assert_eq!(append(run, case, new_serials()[2]), Ok(true));
}

fn contents(run: &mut Run, case: &Case) {
    for row in [case.early, case.late, case.empty] {
        assert_eq!(run.contents(&case.bytes, row), Ok(&b""[..]));
    }
    assert_eq!(run.contents(&case.bytes, case.last), Ok(&b"the last one"[..]));
    assert_eq!(run.contents(&case.bytes, case.last + 1), Err(13));
}

fn parents(run: &mut Run, case: &Case) {
    let rows = [case.early, case.late, case.empty, case.multi, case.last];
    for (dependency, row) in rows.into_iter().enumerate() {
        let right = Parent { row, agree: row != case.multi };
        assert_eq!(run.parent(&case.bytes, case.last, dependency), Ok(Some(right)));
    }
    assert_eq!(run.parent(&case.bytes, case.last, 5), Ok(None));
    assert_eq!(run.parent(&case.bytes, case.last, 6), Err(14));
}

/// There are more than 64 rows.
fn ancestors(run: &mut Run, case: &Case) {
    for row in [case.early, case.empty, case.last] {
        assert_eq!(run.ancestors(&case.bytes, row, ANCESTORS_ROOM), Err(24));
    }
    assert_eq!(run.ancestors(&case.bytes, case.last + 1, ANCESTORS_ROOM), Err(13));
}

fn relations(run: &mut Run, case: &Case) {
    let text = run.relations_write(&case.bytes, HEADING_BYTES + Case::LINES * LINE_BYTES).expect("there is room");
    let file = case.with_relations(text);
    let declared = vec![1; Case::LINES];
    assert_eq!(run.relations_check(&file, case.last + 1, Case::LINES), Ok(declared.clone()));
    assert_eq!(run.relations_check_latest(&file, Case::LINES), Ok((case.last + 1, declared)));
}

/// Of the MultiChunk two units are started, of the last chunk one, and of the empty ones none.
fn price(run: &mut Run, case: &Case) {
    let total = 100 * (case.last + 1) + 7 * (2 + 1);
    let (text, parts) = run.price(&case.bytes, (100, 7), price_room(case.last + 1)).expect("there is room");
    let end = format!("\n{} 1208 114\n{} 12 107\ntotal {total}\n", case.multi, case.last);
    assert!(text.starts_with(b"0 0 100\n1 0 100\n") && text.ends_with(end.as_bytes()));
    assert_eq!(parts, [319, case.bytes.len() - 319, 0]);
}

fn blocks(run: &mut Run, case: &Case) {
    let blocks = run.pack(&case.bytes, packed_bytes(case.bytes.len())).expect("there is room");
    assert_eq!(blocks[..6], [0, 0, 0, 0, 0x01, 0xF8]);
    assert!(run.unpack(&blocks, case.bytes.len()) == Ok(case.bytes.clone()));
}

/// Whether the file grows.
fn append(run: &mut Run, case: &Case, serial: Serial) -> Result<bool, u8> {
    let (buffer, given) = case.append(serial);
    let length = case.bytes.len();
    run.append(&buffer, length, &given).map(|(ends, _)| ends.third > length)
}
