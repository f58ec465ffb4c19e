use plain::{append, begin, contents, gather, parent, Beginning, Description, Ends, Parent};

use crate::{chunk, chunk_header, closed, header, multi, reading, serial};

fn beginning<'a>(strategy: &[u8; 3], mark: &'a [u8]) -> Beginning<'a> {
    Beginning {
        strategy: *strategy,
        mark,
        serial: serial(7),
        recorded: *b"20240229",
        recorder: b"RECORDER",
        written: *b"20240301",
        writer: b"WRITER",
    }
}

#[test]
fn begun() {
    let mut buffer = [b'?'; 600];
    assert_eq!(begin(&beginning(b"NUL", b"AB"), &mut buffer), Ok(323));
    assert_eq!(buffer[..323], header("NUL", b"AB")[..]);
    assert!(buffer[323..].iter().all(|&byte| byte == b'?'));
    assert_eq!(begin(&beginning(b"LLC", b""), &mut buffer[..319]), Ok(319));
    assert_eq!(begin(&beginning(b"NUL", &[b'M'; 90]), &mut buffer), Ok(499));
}

/// "begin 11, 6, 2, 3, 15, 18"
#[test]
fn begin_refused() {
    let mut buffer = [b'?'; 400];
    let mut number = |given: &Beginning, room: usize| {
        let number = begin(given, &mut buffer[..room]).unwrap_err();
        assert!(buffer.iter().all(|&byte| byte == b'?'));
        number
    };
    assert_eq!(number(&beginning(b"LLC", b""), 318), 18);
    assert_eq!(number(&beginning(b"LLC", b"a\0"), 0), 15);
    assert_eq!(number(&beginning(b"LLC", b"MiniChunk=\0"), 0), 3);
    assert_eq!(number(&beginning(b"NUL", b""), 0), 2);
    assert_eq!(number(&beginning(b"nul", b""), 0), 6);
    assert_eq!(number(&beginning(b"NUL", &[0; 1000]), 0), 6);
    let given = beginning(b"NUL", b"");
    assert_eq!(number(&Beginning { serial: [b' '; 38], ..given }, 0), 6);
    assert_eq!(number(&Beginning { recorded: *b"20230229", ..given }, 0), 6);
    assert_eq!(number(&Beginning { written: *b"20240199", ..given }, 0), 6);
    assert_eq!(number(&Beginning { recorder: &[b' '; 33], ..given }, 0), 6);
    assert_eq!(number(&Beginning { writer: b"\x7f", ..given }, 0), 6);
    let long = vec![0; (1 << 30) + 1];
    assert_eq!(number(&beginning(b"nul", &long), 0), 11);
    assert_eq!(number(&beginning(b"LLC", &long[1..]), 0), 6);
}

pub fn description() -> Description<'static> {
    Description::new()
        .sub_format(b"ADS\\DATA\\TEST")
        .generic_type(*b"TXT")
        .synch_type(*b"GEN")
        .time_standard(*b"UTC")
        .time_offset(*b"+0000      8.035")
        .event_synch(*b"NUL")
        .serial_number(serial(42))
        .recording(*b"20240229", b"RECORDER")
        .writing(*b"20240301", b"WRITER")
}

/// A buffer that holds a file, with room behind it.
pub fn lent(file: &[u8], room: usize) -> Vec<u8> {
    [file, &vec![b'?'; room]].concat()
}

#[test]
fn appended() {
    let file = header("LLC", b"");
    let mut buffer = lent(&file, 860);
    let ends = append(&mut buffer, 319, &description(), &[], b"", b"abc", false);
    assert_eq!(ends, Ok(Ends { first: 921, second: 924, third: 1178 }));
    assert_eq!(buffer, [file, chunk(b"", 42, 4, b"abc"), b"?".to_vec()].concat());
}

#[test]
fn appended_with_parents() {
    let mark = b"ABAB";
    let file = [header("NUL", mark), chunk(mark, 1, 1, b""), chunk(mark, 2, 0, b"two")].concat();
    let mut buffer = lent(&file, 2000);
    let given = description();
    let ends = append(&mut buffer, file.len(), &given, &[1, 0], b"s\0", b"QA", true).unwrap();
    let test = "ADS\\DATA\\TEST";
    let mut new = chunk_header(test, &[(serial(2), test), (serial(1), test)], 2);
    new.extend(b"s\0Chunk_Content_Length=000000000000\nQA");
    let expected = [file.clone(), closed(new, mark, &serial(42))].concat();
    assert_eq!(ends.first, file.len() + 568 + 2 * 344 + 2 + 34);
    assert_eq!((ends.second, ends.third), (ends.first + 2, expected.len()));
    assert_eq!(buffer[..ends.third], expected);
    assert_eq!(reading(&expected, 3).0, (3, expected.len(), true, 0));
    assert_eq!(parent(&expected, 2, 0), Ok(Some(Parent { row: 1, agree: true })));
    assert_eq!(parent(&expected, 2, 1), Ok(Some(Parent { row: 0, agree: true })));
    assert_eq!(parent(&expected, 2, 2), Err(14));
    assert_eq!(parent(&expected, 3, 0), Err(13));
    assert_eq!(contents(&expected, 1), Ok(&b"two"[..]));
    assert_eq!(contents(&expected, 3), Err(13));
}

/// "Append tests 11, 12, 6, 17, 13, 9, 15, 16, 18"
#[test]
fn append_refused() {
    let mark = b"AB\0";
    let file = [header("NUL", mark), chunk(mark, 1, 1, b"")].concat();
    let number = |file: &[u8], length, given: &Description, parents: &[usize], data: &[u8]| {
        let mut buffer = file.to_vec();
        let refused = append(&mut buffer, length, given, parents, b"", data, true).unwrap_err();
        assert_eq!(buffer, file);
        refused
    };
    let length = file.len();
    let multi = description().sub_format(b"ADS\\SYS\\MultiChunk");
    let wrong = multi.generic_type(*b"txt");
    let taken = description().serial_number(serial(1));
    let binary = description().generic_type(*b"BIN");
    assert_eq!(number(&file, length + 1, &wrong, &[9], b"AB\0"), 11);
    assert_eq!(number(&file, length - 1, &wrong, &[9], b"AB\0"), 12);
    assert_eq!(number(&file, length, &wrong, &[9], b"AB\0"), 6);
    assert_eq!(number(&file, length, &multi.serial_number(serial(1)), &[9], b"AB\0"), 17);
    assert_eq!(number(&file, length, &taken, &[1], b"AB\0"), 13);
    assert_eq!(number(&file, length, &taken, &[0, 0], b"AB\0"), 13);
    assert_eq!(number(&file, length, &taken, &[0], b"AB\0"), 9);
    assert_eq!(number(&file, length, &binary, &[0], b"AB\0"), 15);
    let file = header("NUL", b"ABAB");
    assert_eq!(number(&file, 327, &binary, &[], b""), 16);
    assert_eq!(number(&file, 327, &description(), &[], b"QAB"), 16);
    assert_eq!(number(&file, 327, &description(), &[], b"QA"), 18);
    assert_eq!(number(&file, 327, &description().serial_number(serial(7)), &[], b""), 18);
    assert_eq!(number(&header("LLC", b"ABAB"), 327, &description(), &[], b""), 16);
    assert_eq!(number(b"", 0, &description(), &[], b""), 12);
    assert_eq!(number(&file, 327, &description().time_standard(*b"ALT"), &[], b""), 6);
    assert_eq!(number(&file, 327, &description().sub_format(&[b' '; 257]), &[], b""), 6);
}

#[test]
fn gathered() {
    let minis = [("P1", "one"), ("P2", ""), ("P1", "three")];
    let file = [header("LLC", b""), multi(42, &["P1", "P2", "P3"], 0, &minis), chunk(b"", 1, 1, b"")].concat();
    let mut buffer = [b'?'; 10];
    assert_eq!(gather(&file, 0, b"P1", &mut buffer), Ok(8));
    assert_eq!(&buffer, b"onethree??");
    assert_eq!(gather(&file, 0, b"P1        ", &mut buffer[..8]), Ok(8));
    assert_eq!(gather(&file, 0, b"P2", &mut []), Ok(0));
    assert_eq!(gather(&file, 0, b"P3", &mut []), Ok(0));
    let mut buffer = [b'?'; 10];
    assert_eq!(gather(&file, 0, b"P1", &mut buffer[..7]), Err(18));
    assert_eq!(gather(&file, 0, b"P4", &mut buffer), Err(14));
    assert_eq!(gather(&file, 0, b"P1         ", &mut buffer), Err(14));
    assert_eq!(gather(&file, 1, b"P1", &mut buffer), Err(14));
    assert_eq!(gather(&file, 2, b"P1", &mut buffer), Err(13));
    assert_eq!(&buffer, b"??????????");
}

/// "a lent byte buffer over 2^30 [..] tested first"
#[test]
fn over_the_limit() {
    let long = vec![0; (1 << 30) + 1];
    assert_eq!(reading(&long, 1).0, (0, 0, false, 11));
    assert_eq!(reading(&long[1..], 1).0, (0, 0, false, 1));
    assert_eq!(parent(&long, 0, 0), Err(11));
    assert_eq!(parent(&long[1..], 0, 0), Err(13));
    assert_eq!(contents(&long, 0), Err(11));
    assert_eq!(gather(b"", 0, &long, &mut []), Err(11));
    assert_eq!(gather(b"", 0, &long[1..], &mut []), Err(13));
    assert_eq!(append(&mut [], 0, &description(), &[], &long, b"", false), Err(11));
    assert_eq!(append(&mut [], 0, &description(), &[], b"", &long, false), Err(11));
    assert_eq!(append(&mut [], 0, &description(), &[], b"", &long[1..], false), Err(12));
    let text = description().sub_format(&long);
    assert_eq!(append(&mut [], 0, &text, &[], b"", b"", false), Err(11));
}
