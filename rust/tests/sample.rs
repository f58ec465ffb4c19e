//! The sample of the specification, and one answer of each kind from every call.
use ads::{Ancestry, Checked, Description, Ending, Ends, Header, Parent, Refusal, Row, Statement, Verdict};

const HEADER: Header = Header {
    strategy: b"LLC",
    mark: b"",
    serial: b"#20240101000000000SURVEYDESK0100001196",
    recorded: b"20240229",
    recorder: b"RECORDER",
    written: b"20240301",
    writer: b"DESK",
};
const FIRST: &[u8; 38] = b"#20240229123456789SURVEYDESK0100042001";
const SECOND: &[u8; 38] = b"#20240229123456789SURVEYDESK0100043002";

fn described(serial: &[u8; 38]) -> Description {
    Description::new()
        .sub_format(b"ADS\\DATA\\TEST")
        .generic_type(b"TXT")
        .synch_type(b"GEN")
        .time_standard(b"UTC")
        .time_offset(b"+0000      8.035")
        .event_synch(b"NUL")
        .serial_number(serial)
        .recording(b"20240229", b"RECORDER")
        .writing(b"20240301", b"DESK")
}

/// The row of the sample's chunk.
fn first_row() -> Row {
    Row {
        serial: *FIRST,
        place: 319,
        header: 568,
        contents: 921,
        bytes: 3,
        end: 1178,
        dependencies: 0,
        offset: 80_350_000_000,
        multichunk: false,
        good: true,
        ending: Ending::Counted,
    }
}

/// A LLC000 file with one chunk of 3 bytes, and its length.
fn sample() -> ([u8; 4096], usize) {
    let mut buffer = [7; 4096];
    let length = ads::begin(&HEADER, &mut buffer).unwrap();
    assert_eq!(length, 319);
    let ends = ads::append(&mut buffer, length, described(FIRST), &[], b"", b"abc", false);
    assert_eq!(ends, Ok(Ends { first: 921, second: 924, third: 1178 }));
    assert!(buffer[1178..].iter().all(|byte| *byte == 7));
    (buffer, 1178)
}

#[test]
fn listing_of_the_sample() {
    let (buffer, length) = sample();
    let mut text = [0; ads::LISTING_ROOM];
    let n = ads::listing(&buffer[..length], &mut text).unwrap();
    let expected = "header good\nchunks 1\n\
                    0 319 568 3 good #20240229123456789SURVEYDESK0100042001\nend 1178 0\n";
    assert_eq!(std::str::from_utf8(&text[..n]), Ok(expected));
    assert_eq!(ads::listing(&buffer[..length], &mut text[..n - 1]), Err(Refusal::NoRoom));
}

#[test]
fn rows_of_the_sample() {
    let (buffer, length) = sample();
    let file = &buffer[..length];
    let kept = Row { place: 1, good: true, ..Row::default() };
    let mut rows = [kept; 2];
    let reading = ads::read(file, &mut rows);
    assert!(reading.is_clean(file) && reading.good && reading.count == 1);
    assert_eq!(rows, [first_row(), kept]);
    assert_eq!(ads::contents(file, 0), Ok(&b"abc"[..]));
    assert_eq!(ads::contents(file, 1), Err(Refusal::NoRow));

    let cut = ads::read(&file[..1000], &mut rows);
    assert_eq!((cut.count, cut.stop, cut.good, cut.refusal), (0, 319, true, Some(Refusal::Cut)));
    assert!(!cut.is_clean(&file[..1000]) && !reading.is_clean(&file[..1177]));
    assert_eq!(ads::read(file, &mut []).refusal, Some(Refusal::RowsFull));
}

#[test]
fn all_rows() {
    let (buffer, length) = sample();
    let table = ads::read_all(&buffer[..length]);
    assert_eq!(table.rows, [first_row()]);
    assert!(table.reading.is_clean(&buffer[..length]));

    let none = ads::read_all(b"");
    assert_eq!((none.rows.len(), none.rows.capacity(), none.reading.stop), (0, 0, 0));
    assert!(none.reading.refusal.is_none() && !none.reading.good && !none.reading.is_clean(b""));
    assert_eq!(ads::read_all(b"F").reading.refusal, Some(Refusal::Cut));

    // the smallest chunks, as many as a file of this length can have
    let mut file = buffer[..319].to_vec();
    for number in 0..300 {
        let first = format!("#20240229123456789SURVEYDESK01{number:05}");
        let serial = format!("{first}{:03}", first.bytes().fold(0, u8::wrapping_add));
        let length = file.len();
        file.resize(ads::append_room(length, 0, 0, 0, 0), 0);
        let description = described(serial.as_bytes().try_into().unwrap());
        let ends = ads::append(&mut file, length, description, &[], b"", b"", false).unwrap();
        assert_eq!(ends.third, file.len());
    }
    let table = ads::read_all(&file);
    assert!(table.reading.is_clean(&file));
    assert_eq!((table.rows.len(), table.rows.capacity(), ads::most_rows(file.len())), (300, 300, 301));
    assert!(table.rows.iter().all(|row| row.good && row.end - row.place == 856));
}

#[test]
fn over_the_limit() {
    // memory that is only claimed: the call refuses before it looks at a byte
    let file = vec![0; ads::MOST_BYTES + 1];
    let table = ads::read_all(&file);
    assert_eq!((table.rows.len(), table.reading.stop, table.reading.refusal), (0, 0, Some(Refusal::Limit)));
}

#[test]
fn a_chunk_with_parents() {
    let (mut buffer, length) = sample();
    let by_row = described(SECOND).master_event(FIRST);
    let ends = ads::append(&mut buffer, length, by_row, &[0], b"specific", b"", false).unwrap();
    assert_eq!(ends.third, ads::append_room(length, 0, 1, 8, 0));
    let file = &buffer[..ends.third];
    assert_eq!(ads::parent(file, 1, 0), Ok(Some(Parent { row: 0, agree: true })));
    assert_eq!(ads::parent(file, 1, 1), Err(Refusal::NoDependency));
    assert_eq!(ads::parent(file, 2, 0), Err(Refusal::NoRow));

    // the sample's serial number, in another file, is nobody's: the parent is missing
    let mut other = [0; 4096];
    let start = ads::begin(&HEADER, &mut other).unwrap();
    other[start..][..ends.third - length].copy_from_slice(&file[length..]);
    let alone = &other[..start + ends.third - length];
    assert_eq!(ads::parent(alone, 0, 0), Ok(None));
    assert_eq!(ads::contents(alone, 0), Ok(&b""[..]));
}

/// After an append the row says the way the caller chose.
#[test]
fn open_and_counted() {
    let under_nul = Header { strategy: b"NUL", mark: b"ABAB", ..HEADER };
    for (open, ending) in [(true, Ending::Found), (false, Ending::Counted)] {
        let mut buffer = [7; 4096];
        let length = ads::begin(&under_nul, &mut buffer).unwrap();
        let ends = ads::append(&mut buffer, length, described(FIRST), &[], b"", b"QA", open).unwrap();
        let table = ads::read_all(&buffer[..ends.third]);
        assert!(table.reading.is_clean(&buffer[..ends.third]));
        assert_eq!((table.rows.len(), table.rows[0].bytes, table.rows[0].ending), (1, 2, ending));
    }
}

/// Numbers with spaces in front; a serial number is one under two writings of its check.
#[test]
fn padded() {
    let file = include_bytes!("../../samples/padded.ads");
    let table = ads::read_all(file);
    assert!(table.reading.is_clean(file) && table.reading.good);
    assert_eq!(&table.rows[0].serial, b"#20240229123456789SURVEYDESK0100042  1");
    let first = ads::SERIAL_COMPARED;
    assert_eq!((first, &table.rows[0].serial[..first]), (35, &FIRST[..first]));
    assert_eq!(ads::parent(file, 1, 0), Ok(Some(Parent { row: 0, agree: true })));
    let mut buffer = [&file[..], &[0; 1000]].concat();
    let again = ads::append(&mut buffer, file.len(), described(FIRST), &[], b"", b"", false);
    assert_eq!(again, Err(Refusal::Repeated));
}

#[test]
fn refusals() {
    let (mut buffer, length) = sample();
    let before = buffer;
    let again = ads::append(&mut buffer, length, described(FIRST), &[], b"", b"abc", false);
    assert_eq!(again, Err(Refusal::Repeated));
    let open = ads::append(&mut buffer, length, described(SECOND), &[], b"", b"abc", true);
    assert_eq!(open, Err(Refusal::Open));
    let bare = ads::append(&mut buffer, length, Description::new(), &[], b"", b"", false).unwrap_err();
    assert_eq!(bare.to_string(), "a field is out of form or range (6)");
    let on_tape = Header { strategy: b"NUL", ..HEADER };
    assert_eq!(ads::begin(&on_tape, &mut buffer), Err(Refusal::Tape));
    assert_eq!(buffer, before);

    let mut gathered = [0; 16];
    assert_eq!(ads::gather(&buffer[..length], 0, b"ID", &mut gathered), Err(Refusal::NoDependency));
}

#[test]
fn numbers_of_refusals() {
    for number in 0..=u8::MAX {
        let refusal = Refusal::from_number(number);
        if number < 25 {
            assert_eq!(refusal.is_some(), (1..=24).contains(&number) && number != 22);
        } else {
            assert_eq!(refusal.is_some(), (27..=29).contains(&number));
        }
        assert!(refusal.is_none_or(|refusal| refusal.number() == number && u8::from(refusal) == number));
    }
    assert!(Refusal::Title < Refusal::Circle);
    assert!(Refusal::Circle < Refusal::BlockSum && Refusal::BlockSum < Refusal::BlockUse);
    let error: Box<dyn std::error::Error> = Refusal::NotClean.into();
    assert_eq!(error.to_string(), "the file isn't clean (12)");
}

#[test]
fn shown_as_text() {
    let row = format!("{:?}", first_row());
    assert!(row.starts_with("Row { serial: b\"#20240229123456789SURVEYDESK0100042001\", place: 319, header: 568,"));
    assert!(row.ends_with("good: true, ending: Counted }"));
    let header = format!("{:?}", Header { mark: b"*\n", ..HEADER });
    assert!(header.starts_with("Header { strategy: b\"LLC\", mark: b\"*\\n\", serial: b\"#2024"));

    let description = format!("{:?}", described(FIRST).sub_format(&[b'A'; 300]).time_standard(b"NUL"));
    assert!(description.contains("AAAA\".. of 300 bytes, generic: b\"TXT\""));
    assert!(description.contains("standard: b\"NUL\", alternate: b\"\", offset: b\"+0000      8.035\""));
    assert!(description.contains("recorded: b\"20240229\", recorder: b\"RECORDER\""));
    assert!(format!("{:?}", Description::new()).contains("subformat: b\"\", generic: unset"));
}

#[test]
fn mini_chunks() {
    let file = include_bytes!("../../samples/multichunk.ads");
    let table = ads::read_all(file);
    assert!(table.reading.is_clean(file) && table.rows.len() == 1 && table.rows[0].multichunk);
    assert_eq!(table.rows[0].ending, Ending::ByMiniChunks);

    let mut joined = [7; 8];
    assert_eq!(ads::gather(file, 0, b"P2/91", &mut joined), Ok(5));
    assert_eq!(&joined, b"12345\x07\x07\x07");
    assert_eq!(ads::gather(file, 0, b"P1/90", &mut joined), Err(Refusal::NoDependency));
    assert_eq!(ads::gather(file, 0, b"P2/91", &mut joined[..4]), Err(Refusal::NoRoom));
    assert_eq!(&joined, b"12345\x07\x07\x07");
}

#[test]
fn relations() {
    let file = include_bytes!("../../samples/relations.ads");
    let mut text = [7; 1400];
    assert_eq!(ads::relations_write(file, &mut text), Ok(ads::relations_room(2)));
    assert!(text[1341..].iter().all(|byte| *byte == 7));
    assert_eq!(ads::relations_write(file, &mut text[..1340]), Err(Refusal::NoRoom));

    let mut verdicts = [7; 6];
    assert_eq!(ads::relations_check(file, 2, &mut verdicts), Ok(4));
    assert_eq!(verdicts, [1, 1, 2, 3, 7, 7]);
    assert_eq!(ads::relations_check(file, 2, &mut verdicts[..3]), Err(Refusal::NoRoom));
    assert_eq!(ads::relations_check(file, 1, &mut verdicts), Err(Refusal::NotRelations));
    assert_eq!(ads::relations_check(file, 3, &mut verdicts), Err(Refusal::NoRow));
    let place = file.windows(13).position(|part| part == b"ADS Metafile ").unwrap();
    let mut renamed = *file;
    renamed[place] = b'a';
    assert_eq!(ads::relations_check(&renamed, 2, &mut verdicts), Err(Refusal::Heading));
    assert_eq!(verdicts, [1, 1, 2, 3, 7, 7]);
    for number in 0..9 {
        let verdict = Verdict::from_number(number);
        assert_eq!(verdict.map(Verdict::number), (1..=3).contains(&number).then_some(number));
    }
}

/// "the latest Chunk_Writing_Date, and of equal dates the later row"; a row that is named is checked, whichever holds.
#[test]
fn relations_of_the_latest() {
    let file = include_bytes!("../../samples/relations-dated.ads");
    let mut verdicts = [7; 3];
    assert_eq!(ads::relations_check_latest(file, &mut verdicts), Ok(Checked { row: 4, count: 2 }));
    assert_eq!(verdicts, [1, 1, 7]);
    assert_eq!(ads::relations_check(file, 2, &mut verdicts), Ok(1));
    assert_eq!(verdicts, [2, 1, 7]);
    assert_eq!(ads::relations_check_latest(file, &mut verdicts[..1]), Err(Refusal::NoRoom));
    // the heading of the one that holds
    let place = ads::read_all(file).rows[4].contents;
    let mut renamed = *file;
    renamed[place] = b'a';
    assert_eq!(ads::relations_check_latest(&renamed, &mut verdicts), Err(Refusal::Heading));
    for none in [&b""[..], &file[..100], include_bytes!("../../samples/two-chunks.ads")] {
        assert_eq!(ads::relations_check_latest(none, &mut verdicts), Err(Refusal::NoRow));
    }
    assert_eq!(verdicts, [2, 1, 7]);
}

/// Appended to the file that it was written for, each line of the text is declared.
#[test]
fn relations_appended() {
    let (mut buffer, length) = sample();
    let ends = ads::append(&mut buffer, length, described(SECOND), &[0], b"", b"", false).unwrap();
    let mut text = [0; ads::relations_room(1)];
    assert_eq!(ads::relations_write(&buffer[..ends.third], &mut text), Ok(text.len()));
    let serial = b"#20240229123456789SURVEYDESK0100044003";
    let relations = described(serial).sub_format(b"ADS\\SYS\\Relations");
    let ends = ads::append(&mut buffer, ends.third, relations, &[], b"", &text, false).unwrap();
    let mut verdicts = [0; 1];
    assert_eq!(ads::relations_check(&buffer[..ends.third], 2, &mut verdicts), Ok(1));
    assert_eq!(Verdict::from_number(verdicts[0]), Some(Verdict::Declared));
    let latest = ads::relations_check_latest(&buffer[..ends.third], &mut verdicts);
    assert_eq!(latest, Ok(Checked { row: 2, count: 1 }));
}

/// Chunks of 0, 1, 1,024 and 1,025 bytes, one with a bad sum, a MultiChunk, and a byte behind.
#[test]
fn price() {
    let file = include_bytes!("../../samples/damaged-04-stray-byte.ads");
    let text = b"0 0 100\n1 1 107\n2 1024 107\n3 1025 114\n4 3 0\n5 652 107\ntotal 535\n";
    let mut buffer = vec![7; ads::price_room(6)];
    let statement = Statement { length: text.len(), header: 319, chunks: 7807, unread: 1 };
    assert_eq!(ads::price(file, 100, 7, &mut buffer[..text.len() - 1]), Err(Refusal::NoRoom));
    assert!(buffer.iter().all(|byte| *byte == 7));
    assert_eq!(ads::price(file, 100, 7, &mut buffer), Ok(statement));
    assert_eq!(&buffer[..text.len()], text);
    assert!(buffer[text.len()..].iter().all(|byte| *byte == 7));
    assert_eq!(ads::price(file, 200_000_000_000_000_000, 0, &mut []), Err(Refusal::Total));
    assert_eq!(ads::price(file, 0, u64::MAX, &mut buffer), Err(Refusal::Total));

    let none = Statement { length: 8, header: 0, chunks: 0, unread: 0 };
    assert_eq!(ads::price(b"", u64::MAX, u64::MAX, &mut buffer), Ok(none));
    assert_eq!(&buffer[..8], b"total 0\n");
    assert_eq!(ads::price(&[0; 64], 1, 1, &mut buffer), Ok(Statement { unread: 64, ..none }));
}

/// The highest total.
#[test]
fn price_of_18_digits() {
    let (file, length) = sample();
    let mut buffer = vec![0; ads::price_room(1)];
    let statement = ads::price(&file[..length], 999_999_999_999_999_999, 0, &mut buffer).unwrap();
    assert_eq!(&buffer[..statement.length], b"0 3 999999999999999999\ntotal 999999999999999999\n");
    assert_eq!(ads::price(&file[..length], 999_999_999_999_999_999, 1, &mut buffer), Err(Refusal::Total));
}

/// A chain, a diamond, a missing parent that two rows name, and a row beside them.
#[test]
fn ancestors() {
    let file = include_bytes!("../../samples/ancestors.ads");
    let of: [(&[usize], usize); 6] = [(&[], 0), (&[], 0), (&[0], 0), (&[0, 2], 0), (&[0, 2], 1), (&[0, 2, 3, 4], 2)];
    for (row, (rows, missing)) in of.into_iter().enumerate() {
        let mut list = [7; ads::ANCESTORS_ROOM];
        assert_eq!(ads::ancestors(file, row, &mut list), Ok(Ancestry { count: rows.len(), missing }));
        assert_eq!(&list[..rows.len()], rows);
        assert!(list[rows.len()..].iter().all(|entry| *entry == 7));
    }
    let mut list = [7; 3];
    assert_eq!(ads::ancestors(file, 5, &mut list), Err(Refusal::NoRoom));
    assert_eq!(ads::ancestors(file, 6, &mut list), Err(Refusal::NoRow));
    assert_eq!(ads::ancestors(b"", 0, &mut list), Err(Refusal::NoRow));
    assert_eq!(list, [7; 3]);

    let circle = include_bytes!("../../samples/circle.ads");
    assert_eq!(ads::ancestors(circle, 0, &mut []), Ok(Ancestry { count: 0, missing: 0 }));
    for row in 1..4 {
        assert_eq!(ads::ancestors(circle, row, &mut list), Err(Refusal::Circle));
    }
    // rows before a fault count: row 2, the parent of row 1, stands behind it
    let cut = &circle[..ads::read_all(circle).rows[2].end - 1];
    assert_eq!(ads::ancestors(cut, 1, &mut list), Ok(Ancestry { count: 0, missing: 1 }));
    assert_eq!(list, [7; 3]);
}

/// A chain of 64 rows, then one more.
#[test]
fn ancestors_in_64_rows() {
    let mut buffer = vec![0; ads::append_room(319, 0, 1, 0, 0) + 64 * 1200];
    let mut length = ads::begin(&HEADER, &mut buffer).unwrap();
    for row in 0..65 {
        let mut serial = format!("#20240229123456789SURVEYDESK01{row:05}").into_bytes();
        let check = serial.iter().map(|byte| u32::from(*byte)).sum::<u32>() % 256;
        serial.extend(format!("{check:03}").bytes());
        let description = described(serial[..].try_into().unwrap());
        let parents: &[usize] = if row == 0 { &[] } else { &[row - 1] };
        length = ads::append(&mut buffer, length, description, parents, b"", b"", false).unwrap().third;
        if row == 63 {
            let mut list = [0; ads::ANCESTORS_ROOM];
            assert_eq!(ads::ancestors(&buffer[..length], 63, &mut list), Ok(Ancestry { count: 63, missing: 0 }));
            assert!(list.into_iter().eq(0..63));
            assert_eq!(ads::ancestors(&buffer[..length], 63, &mut list[..62]), Err(Refusal::NoRoom));
        }
    }
    assert_eq!(ads::ancestors(&buffer[..length], 0, &mut []), Err(Refusal::RowsOver64));
    assert_eq!(ads::ancestors(&buffer[..length], 65, &mut []), Err(Refusal::NoRow));
}

/// Packed and unpacked; then what is wrong with a block.
#[test]
fn blocks() {
    let (buffer, length) = sample();
    let file = &buffer[..length];
    assert_eq!(ads::packed_bytes(length), 1536);
    let mut blocks = [7; 1600];
    assert_eq!(ads::pack(file, &mut blocks[..1535]), Err(Refusal::NoRoom));
    assert_eq!(blocks, [7; 1600]);
    assert_eq!(ads::pack(file, &mut blocks), Ok(1536));
    assert_eq!(blocks[..6], [0, 0, 0, 0, 0x01, 0xF8]);
    assert_eq!((&blocks[6..510], &blocks[1024..1030]), (&file[..504], &[0, 0, 0, 2, 0, 170][..]));
    assert!(blocks[1536..].iter().all(|byte| *byte == 7));
    let blocks = &blocks[..1536];

    let mut again = [7; 1200];
    assert_eq!(ads::unpack(blocks, &mut again[..1177]), Err(Refusal::NoRoom));
    let [mut sum, mut partial] = [blocks.to_vec(), blocks.to_vec()];
    sum[600] ^= 1;
    partial.pop();
    assert_eq!(ads::unpack(&sum, &mut again), Err(Refusal::BlockSum));
    assert_eq!(ads::unpack(&blocks[512..], &mut again), Err(Refusal::BlockNumber));
    assert_eq!(ads::unpack(&[&blocks[..512], &[0; 512]].concat(), &mut again), Err(Refusal::BlockNumber));
    assert_eq!(ads::unpack(&partial, &mut again), Err(Refusal::BlockUse));
    assert_eq!(ads::unpack(&[0; 1024], &mut again), Err(Refusal::BlockUse));
    assert_eq!(ads::unpack(b"", &mut again), Err(Refusal::BlockUse));
    assert_eq!(again, [7; 1200]);
    assert_eq!(ads::unpack(blocks, &mut again), Ok(1178));
    assert!(again[..1178] == *file && again[1178..].iter().all(|byte| *byte == 7));
}

/// No bytes are a block of zeros; and what is left of a packed file without its last blocks is one.
#[test]
fn losses_that_are_not_seen() {
    let mut blocks = [7; 1536];
    assert_eq!(ads::pack(b"", &mut blocks), Ok(512));
    assert!(blocks[..512] == [0; 512] && blocks[512] == 7);
    assert_eq!(ads::unpack(&blocks[..512], &mut []), Ok(0));

    let (buffer, length) = sample();
    assert_eq!(ads::pack(&buffer[..length], &mut blocks), Ok(1536));
    let mut left = [7; 1008];
    assert_eq!(ads::unpack(&blocks[..1024], &mut left), Ok(1008));
    assert_eq!(left, buffer[..1008]);
}

/// 505 bytes of 255.
#[test]
fn blocks_by_hand() {
    let first = [&[0, 0, 0, 0, 0x01, 0xF8][..], &[0xFF; 504], &[0xF7, 0x01]].concat();
    let second = [&[0, 0, 0, 1, 0, 1, 0xFF][..], &[0; 503], &[0x01, 0x01]].concat();
    let mut blocks = [0; 2 * ads::BLOCK_BYTES];
    assert_eq!(ads::pack(&[255; ads::BLOCK_DATA + 1], &mut blocks), Ok(1024));
    assert_eq!(blocks[..], [first, second].concat());
}
