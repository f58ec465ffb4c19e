//! "One row lent, two chunks: 1 row, 10. No bytes: 4, stop 0.": the cases checked by hand that are not proved together, on
//! both implementations. The second no longer holds: "A file of no bytes now reads with number 0 [..] and no longer with 4";
//! one byte does read with 4.

use compare::both::{Appended, Run};
use compare::describe::Described;
use compare::parts::appends;
use compare::random::Random;
use compare::relations::HEADING_BYTES;
use plain::Reading;

/// The file of the specification's listing: one chunk of 3 bytes.
const SAMPLE: &[u8] = include_bytes!("../../../crates/listing/stdin");
const HEADER: usize = 319;

/// The sample, and its chunk once more under another serial number.
fn two_chunks() -> Vec<u8> {
    let mut file = SAMPLE.to_vec();
    file.extend_from_slice(&SAMPLE[HEADER..]);
    let serial = file.len() - 254 + 20;
    file[serial..serial + 38].copy_from_slice(b"#20240229123456789SURVEYDESK0100043002");
    file
}

#[test]
fn one_row_lent_two_chunks() {
    let file = two_chunks();
    let (reading, rows) = Run::new(0).read(&file, 1);
    assert_eq!(reading, Reading { count: 1, stop: SAMPLE.len(), good: true, number: 10 });
    assert_eq!(rows.len(), 1);
    assert_eq!((rows[0].place, rows[0].end, rows[0].bytes), (HEADER, SAMPLE.len(), 3));
    let (reading, rows) = Run::new(0).read(&file, 2);
    assert_eq!(reading, Reading { count: 2, stop: file.len(), good: true, number: 0 });
    assert_eq!(rows[1].serial[30..], *b"00043002");
}

#[test]
fn no_bytes() {
    for room in [0, 1, 4] {
        let (reading, rows) = Run::new(0).read(&[], room);
        assert_eq!(reading, Reading { count: 0, stop: 0, good: false, number: 0 });
        assert!(rows.is_empty() && !reading.is_clean(0));
    }
    for room in 0..=30 {
        let text = b"header none\nchunks 0\nend 0 0\n";
        let answer = Run::new(0).listing(&[], room);
        assert_eq!(answer, if room < text.len() { Err(18) } else { Ok(text.to_vec()) }, "{room}");
    }
    for row in [0, 1, usize::MAX] {
        assert_eq!(Run::new(0).parent(&[], row, 0).err(), Some(13));
        assert_eq!(Run::new(0).ancestors(&[], row, 0), Err(13));
        assert_eq!(Run::new(0).contents(&[], row), Err(13));
        assert_eq!(Run::new(0).gather(&[], row, b"P2/91", 100), Err(13));
        assert_eq!(Run::new(0).relations_check(&[], row, 0), Err(13));
    }
    assert_eq!(Run::new(0).relations_check_latest(&[], 0), Err(13));
    assert_eq!(Run::new(0).relations_write(&[], HEADING_BYTES).map(|text| text.len()), Ok(HEADING_BYTES));
    assert_eq!(Run::new(0).relations_write(&[], HEADING_BYTES - 1), Err(18));
    assert_eq!(Run::new(0).price(&[], (u64::MAX, u64::MAX), 8), Ok((b"total 0\n".to_vec(), [0; 3])));
    assert_eq!(Run::new(0).price(&[], (u64::MAX, u64::MAX), 7), Err(18));
    assert_eq!(Run::new(0).pack(&[], 512), Ok(vec![0; 512]));
    assert_eq!(Run::new(0).pack(&[], 511), Err(18));
    assert_eq!(Run::new(0).unpack(&[], 512), Err(29));
    assert_eq!(Run::new(0).unpack(&[0; 512], 0), Ok(Vec::new()));
}

/// An append that is accepted is refused with 12 where no bytes are claimed for the file, whatever stands in the buffer and
/// however long it is; so is one whose fields and parents are wrong too.
#[test]
fn no_bytes_take_no_append() {
    let case = appends::good(&mut Random::new(0, "no bytes", 0), false, false, 0);
    assert!(case.call(&mut Run::new(0)).is_ok());
    let wrong = Appended { description: Described(Vec::new()), parents: vec![9], ..case.given.clone() };
    let buffer: Vec<u8> = case.file.bytes.iter().copied().cycle().take(2000).collect();
    for room in [0, 1, 2000] {
        for given in [&case.given, &wrong] {
            assert_eq!(Run::new(0).append(&buffer[..room], 0, given).err(), Some(12), "{room}");
        }
    }
}

#[test]
fn one_byte() {
    for byte in 0..=255 {
        for room in [0, 1, 4] {
            let (reading, rows) = Run::new(0).read(&[byte], room);
            assert_eq!(reading, Reading { count: 0, stop: 0, good: false, number: 4 });
            assert!(rows.is_empty() && !reading.is_clean(1));
        }
        assert_eq!(Run::new(0).listing(&[byte], 100), Ok(b"header bad\nchunks 0\nend 0 4\n".to_vec()));
    }
}
