use crate::{chunk, header, multi, reading, serial, with};
use plain::Ending::{self, ByMiniChunks, Counted, Found};

/// The listing's file: LLC000 with one chunk of 3 bytes.
fn sample() -> Vec<u8> {
    [header("LLC", b""), chunk(b"", 42, 4, b"abc")].concat()
}

fn number(file: &[u8]) -> u8 {
    reading(file, 9).0 .3
}

#[test]
fn sample_listing() {
    let mut buffer = [b'?'; 200];
    let text = b"header good\nchunks 1\n0 319 568 3 good #20240229123456789SURVEYDESK0100042001\nend 1178 0\n";
    assert_eq!(plain::listing(&sample(), &mut buffer), Ok(text.len()));
    assert_eq!(&buffer[..text.len()], text);
    assert!(buffer[text.len()..].iter().all(|&byte| byte == b'?'));
    assert_eq!(plain::listing(&sample(), &mut buffer[..text.len() - 1]), Err(18));
    assert_eq!(plain::listing(&[0; 65_537], &mut buffer), Ok(9));
    assert_eq!(&buffer[..9], b"end 0 11\n");
    let text = b"header bad\nchunks 0\nend 0 1\n";
    assert_eq!(plain::listing(&[0; 65_536], &mut buffer), Ok(text.len()));
    assert_eq!(&buffer[..text.len()], text);
}

#[test]
fn row_of_a_chunk() {
    let (answer, rows) = reading(&sample(), 2);
    assert_eq!(answer, (1, 1178, true, 0));
    let row = rows[0];
    assert_eq!((row.place, row.header, row.contents, row.bytes, row.end), (319, 568, 921, 3, 1178));
    assert_eq!((row.serial, row.dependencies, row.offset), (serial(42), 0, 80_350_000_000));
    assert_eq!((row.multichunk, row.good, row.ending), (false, true, Counted));
}

/// "Begun file: 319 bytes with no mark, 499 with 90." "Empty contents, LLC000: count 1, chunk 856 bytes."
#[test]
fn smallest() {
    assert_eq!(reading(&header("LLC", b""), 0).0, (0, 319, true, 0));
    assert_eq!(reading(&header("NUL", &[b'M'; 90]), 0).0, (0, 499, true, 0));
    let file = [header("LLC", b""), chunk(b"", 42, 1, b"")].concat();
    assert_eq!(reading(&file, 1).0, (1, 319 + 856, true, 0));
}

/// "One row lent, two chunks: 1 row, 10."
#[test]
fn rows_lent() {
    let two = [sample(), chunk(b"", 43, 3, b"xy")].concat();
    assert_eq!(reading(&two, 1).0, (1, 1178, true, 10));
    assert_eq!(reading(&two, 0).0, (0, 319, true, 10));
    assert_eq!(reading(&two, 2).0, (2, 1178 + 858, true, 0));
    assert_eq!(reading(&sample(), 1).0, (1, 1178, true, 0));
    let repeated = [sample(), chunk(b"", 42, 3, b"xy")].concat();
    assert_eq!(reading(&repeated, 1).0, (1, 1178, true, 9));
    assert_eq!(reading(&repeated[..repeated.len() - 1], 1).0, (1, 1178, true, 4));
}

/// "A file of no bytes now reads with number 0, no rows, stop 0 and header sum not good [..] Its slip is "header none",
/// "chunks 0", "end 0 0", each on its line. [..] this reading doesn't count as clean". One byte is a header cut short.
#[test]
fn no_bytes_and_one() {
    for (file, number, text) in
        [(&b""[..], 0, "header none\nchunks 0\nend 0 0\n"), (b"F", 4, "header bad\nchunks 0\nend 0 4\n")]
    {
        for room in [0, 1, 4] {
            assert_eq!(reading(file, room).0, (0, 0, false, number));
        }
        assert!(!plain::read(file, &mut []).is_clean(file.len()));
        let mut buffer = [b'?'; 40];
        assert_eq!(plain::listing(file, &mut buffer), Ok(text.len()));
        assert_eq!(&buffer[..text.len()], text.as_bytes());
        assert_eq!(plain::listing(file, &mut buffer[..text.len() - 1]), Err(18));
    }
}

#[test]
fn header_numbers() {
    let file = sample();
    assert_eq!(number(&file[..64]), 4);
    for (old, new) in [("Format", "format"), ("LLC", "NIL"), ("LLC000", "LLC00 "), ("000\nChunk", "000 Chunk")] {
        assert_eq!(reading(&with(&file, old, new), 1).0, (0, 0, false, 1), "{new}");
    }
    assert_eq!(number(&with(&file, "LLC000", "NUL000")), 2);
    let mark = b"MiniChunk=";
    assert_eq!(number(&header("NUL", mark)), 3);
    assert_eq!(number(&header("NUL", mark)[..74]), 4);
    assert_eq!(number(&header("NUL", b"MiniChunk-")), 0);
    let mut ends_otherwise = header("LLC", b"AB");
    *ends_otherwise.last_mut().unwrap() = b'C';
    assert_eq!(reading(&ends_otherwise, 1).0, (0, 0, false, 5));
    assert_eq!(number(&with(&file, "Chunk_Recording_Agent=R", "Chunk_Recording_Agent=\t")), 6);
}

/// "A wrong sum doesn't stop the reading; the row says so."
#[test]
fn sums() {
    let good = sample();
    let checksum = |at: usize, text: &[u8; 3]| {
        let mut file = sample();
        file[at..at + 3].copy_from_slice(text);
        file
    };
    let bad = with(&good, "abc", "abd");
    assert_eq!(reading(&bad, 1).0, (1, 1178, true, 0));
    assert!(!reading(&bad, 1).1[0].good);
    // the header's checksum stands at 65 + 250, the chunk's 4 bytes before the end
    for (text, expected) in [(b"255", (1, 1178, false, 0)), (b"256", (0, 0, false, 6)), (b"2 5", (0, 0, false, 6))] {
        assert_eq!(reading(&checksum(315, text), 1).0, expected);
    }
    for (text, number) in [(b"255", 0), (b"256", 6), (b"999", 6)] {
        assert_eq!(reading(&checksum(1174, text), 1).0 .3, number);
    }
}

#[test]
fn chunk_numbers() {
    let file = sample();
    for (old, new, expected) in [
        ("SubFormat_ID", "Subformat_ID", 5),
        ("TXT\n", "TXT ", 5),
        ("TXT", "txt", 5),
        ("UTC", "ALT", 6),
        ("UTC", "ABC", 5),
        ("+0000", "+2400", 6),
        ("Header_Length=000000000536", "Header_Length=000000000535", 7),
        ("Header_Length=000000000536", "Header_Length=00000000053x", 6),
        ("Header_Length=000000000536", "Header_Length=999999999999", 4),
        ("Dependency_Length=000000000029", "Dependency_Length=000000000028", 7),
        ("Dependency_Count=0000", "Dependency_Count=0001", 7),
        ("Dependency_Count=0000", "Dependency_Count=000 ", 6),
        ("Content_Length=000000000004", "Content_Length=000000000000", 7),
        ("Content_Length=000000000004", "Content_Length=000000000003", 5),
        ("Content_Length=000000000004", "Content_Length=999999999999", 4),
        ("Content_Length=000000000004\n", "Content_Length=000000000000 ", 7),
        ("DESK0100042001", "DESK0100042002", 6),
    ] {
        assert_eq!(reading(&with(&file, old, new), 1).0, (0, 319, true, expected), "{new}");
    }
    // free bytes of any value, an offset under the NUL standard
    assert_eq!(number(&with(&file, "UTC  ", "UTC\n\0")), 0);
    assert_eq!(reading(&with(&file, "UTC", "NUL"), 1).1[0].offset, 0);
    assert_eq!(reading(&with(&file, "GEN", "SPE"), 1).1[0].offset, 0);
    assert_eq!(number(&with(&with(&file, "GEN", "SPE"), "8.035", "    .")), 6);
    // a file that ends right after the count's digits is 7, not 4
    let wrong = with(&file, "Length=000000000029", "Length=000000000030");
    assert_eq!(number(&wrong[..319 + 567]), 7);
    assert_eq!(number(&file[..319 + 567]), 4);
    // stray bytes
    assert_eq!(number(&[&file[..], &[b'x'; 19]].concat()), 4);
    assert_eq!(number(&[&file[..], &[b'x'; 20]].concat()), 5);
}

#[test]
fn open_and_counted() {
    let mark = b"ABAB";
    let open = |data| [header("NUL", mark), chunk(mark, 42, 0, data)].concat();
    let (answer, rows) = reading(&open(b"QA"), 1);
    assert_eq!((answer.3, rows[0].bytes, rows[0].contents), (0, 2, 327 + 602));
    assert_eq!(reading(&open(b""), 1).1[0].bytes, 0);
    // the first place, though it overlaps the mark behind the data
    assert_eq!(number(&open(b"QAB")), 5);
    // counted data are not searched
    let counted = [header("NUL", mark), chunk(mark, 42, 9, b"ABABABAB")].concat();
    assert_eq!((number(&counted), reading(&counted, 1).1[0].bytes), (0, 8));
    // the mark isn't there
    assert_eq!(number(&open(b"QA")[..327 + 602 + 5]), 4);
}

/// "Desks reading a NUL file can't see from a row whether its length was counted or came from the mark. The row says it:
/// counted, found, or by mini-chunks".
#[test]
fn endings() {
    let mark = b"ABAB";
    let under = |start: Vec<u8>, body: Vec<u8>| [start, body].concat();
    let ending = |file: &[u8]| -> Ending {
        let (answer, rows) = reading(file, 1);
        assert_eq!((answer.0, answer.3), (1, 0));
        rows[0].ending
    };
    for (count, data, right) in
        [(0, &b"QA"[..], Found), (3, b"QA", Counted), (0, b"", Found), (1, b"", Counted), (9, b"ABABABAB", Counted)]
    {
        assert_eq!(ending(&under(header("NUL", mark), chunk(mark, 42, count, data))), right, "{count} {data:?}");
    }
    // under LLC the mark is there too, and no count of 0
    assert_eq!(ending(&under(header("LLC", mark), chunk(mark, 42, 3, b"QA"))), Counted);
    assert_eq!(reading(&under(header("LLC", mark), chunk(mark, 42, 0, b"QA")), 1).0 .3, 7);
    assert_eq!(ending(&under(header("LLC", b""), multi(42, &["P1"], 0, &[("P1", "x")]))), ByMiniChunks);
    // a bad sum changes nothing
    let bad = with(&under(header("NUL", mark), chunk(mark, 42, 0, b"QA")), "QAABAB", "QCABAB");
    assert!(!reading(&bad, 1).1[0].good);
    assert_eq!(ending(&bad), Found);
}

#[test]
fn multi_chunk() {
    let file = |body: &[u8]| [&header("LLC", b"")[..], body].concat();
    let good = multi(42, &["P1", "P2"], 3, &[("P1", "one"), ("P2", ""), ("P1", "three")]);
    let (answer, rows) = reading(&file(&good), 1);
    let contents = 65 + 2 * 521 + 3 * 32 + 8;
    assert_eq!(answer, (1, 319 + 568 + contents + 254, true, 0));
    assert_eq!((rows[0].contents, rows[0].bytes), (319 + 568, contents));
    assert!(rows[0].multichunk && rows[0].good);

    assert_eq!(number(&file(&multi(42, &["P1", "P1"], 0, &[("P1", "")]))), 8);
    assert_eq!(number(&file(&multi(42, &["P1"], 0, &[("P2", "")]))), 8);
    assert_eq!(number(&file(&multi(42, &["P1"], 0, &[]))), 8);
    let none = multi(42, &["P1"], 0, &[]);
    assert_eq!(number(&file(&none[..568 + 65 + 518 + 9])), 4);
    assert_eq!(number(&file(&with(&good, "Type_Count=0002", "Type_Count=0000"))), 7);
    assert_eq!(number(&file(&with(&good, "Type_Count=0002", "Type_Count=0065"))), 7);
    assert_eq!(number(&file(&with(&good, "Type_Count=0002", "Type_Count=2   "))), 6);
    assert_eq!(number(&file(&with(&good, "000487", "000483"))), 7);
    assert_eq!(number(&file(&with(&good, "Header_Length=000000001069", "Header_Length=000000001070"))), 7);
    assert_eq!(number(&file(&with(&good, "Header_Length=000000000536", "Header_Length=000000000537"))), 7);
    let ids: Vec<String> = (0..64).map(|id| id.to_string()).collect();
    let ids: Vec<&str> = ids.iter().map(String::as_str).collect();
    assert_eq!(number(&file(&multi(42, &ids, 0, &[("63", "x")]))), 0);
}
