//! 11: "a lent byte buffer over 2^30, or length over the buffer's; tested first".
//!
//! Real buffers of 2^30 bytes and one more, whose pages nobody touches, for both; and lengths claimed, for the proved
//! library alone.

use plain::Beginning;

use crate::both::Run;
use crate::ffi::{self, claimed, Table};
use crate::tally::Call;

const LIMIT: usize = 1 << 30;

pub fn run(run: &mut Run) {
    run.part = "limits";
    run.case = 0;
    real(run);
    claims(run);
}

fn real(run: &mut Run) {
    run.names = vec!["real buffers".to_string()];
    let mut long = vec![0; LIMIT + 1];
    run.read(&long, 2);
    run.read(&long[1..], 2);
    let _ = run.parent(&long, 0, 0);
    let _ = run.parent(&long[1..], 0, 0);
    let _ = run.ancestors(&long, 0, 2);
    let _ = run.ancestors(&long[1..], 0, 2);
    let _ = run.contents(&long, 0);
    let _ = run.contents(&long[1..], 0);
    let _ = run.gather(&long, 0, b"", 0);
    let _ = run.gather(&long[1..], 0, b"", 0);
    let _ = run.gather(b"", 0, &long, 0);
    let _ = run.gather(b"", 0, &long[1..], 0);
    let _ = run.relations_write(&long, 200);
    let _ = run.relations_write(&long[1..], 200);
    let _ = run.relations_check(&long, 0, 2);
    let _ = run.relations_check(&long[1..], 0, 2);
    let _ = run.relations_check_latest(&long, 2);
    let _ = run.relations_check_latest(&long[1..], 2);
    let _ = run.price(&long, (1, 1), 200);
    let _ = run.price(&long[1..], (1, 1), 200);
    let _ = run.pack(&long, 512);
    let _ = run.pack(&long[1..], 512);
    let _ = run.unpack(&long, 512);
    let _ = run.unpack(&long[1..], 512);
    let _ = run.listing(&long, 100);

    let serial = [b' '; 38];
    let given = Beginning {
        strategy: *b"LLC",
        mark: b"",
        serial,
        recorded: [0; 8],
        recorder: b"",
        written: [0; 8],
        writer: b"",
    };
    for text in [&long[..], &long[1..]] {
        let _ = run.begin(&Beginning { mark: text, ..given }, 0);
        let _ = run.begin(&Beginning { recorder: text, ..given }, 0);
        let _ = run.begin(&Beginning { writer: text, ..given }, 0);
    }

    // the buffer itself
    for length in [LIMIT, LIMIT + 1] {
        let number = if length > LIMIT { 11 } else { 6 };
        let buffer = &mut long[..length];
        let answers = [ffi::begin(&given, buffer).number, plain::begin(&given, buffer).unwrap_err()];
        both(run, Call::Begin, answers, number);
        let number = if length > LIMIT { 11 } else { 13 };
        let answers = [ffi::gather(b"", 0, b"", buffer).number, plain::gather(b"", 0, b"", buffer).unwrap_err()];
        both(run, Call::Gather, answers, number);
        let number = if length > LIMIT { 11 } else { 0 };
        let plain = |answer: Result<usize, u8>| answer.map_or_else(|number| number, |_| 0);
        let answers = [ffi::listing(b"", buffer).number, plain(plain::listing(b"", buffer))];
        both(run, Call::Listing, answers, number);
        let answers = [ffi::relations_write(b"", buffer).number, plain(plain::relations_write(b"", buffer))];
        both(run, Call::RelationsWrite, answers, number);
        let answers =
            [ffi::price(b"", 1, 1, buffer).number, plain(plain::price(b"", 1, 1, buffer).map(|priced| priced.length))];
        both(run, Call::Price, answers, number);
        let answers = [ffi::pack(b"", buffer).number, plain(plain::pack(b"", buffer))];
        both(run, Call::Pack, answers, number);
        let answers = [ffi::unpack(&[0; 512], buffer).number, plain(plain::unpack(&[0; 512], buffer))];
        both(run, Call::Unpack, answers, number);
        buffer[..200].fill(0);
        let number = if length > LIMIT { 11 } else { 12 };
        let (proved, plain) = (ffi::Description::new(), plain::Description::new());
        let answers = [
            ffi::append(buffer, 0, proved, &[], b"", b"", false).number,
            plain::append(buffer, 0, &plain, &[], b"", b"", false).unwrap_err(),
        ];
        both(run, Call::Append, answers, number);
        let text = &long[..length];
        for which in 0..5 {
            let (mut proved, mut plain) = (ffi::Description::new(), plain::Description::new());
            let (mut specific, mut data) = (&b""[..], &b""[..]);
            match which {
                0 => (proved, plain) = (proved.sub_format(text), plain.sub_format(text)),
                1 => (proved, plain) = (proved.recording([0; 8], text), plain.recording([0; 8], text)),
                2 => (proved, plain) = (proved.writing([0; 8], text), plain.writing([0; 8], text)),
                3 => specific = text,
                _ => data = text,
            }
            let answers = [
                ffi::append(&mut [], 0, proved, &[], specific, data, false).number,
                plain::append(&mut [], 0, &plain, &[], specific, data, false).unwrap_err(),
            ];
            both(run, Call::Append, answers, number);
        }
    }
    let touched = long.iter().take(1 << 16).chain(&long[LIMIT - (1 << 16)..]).any(|&byte| byte != 0);
    run.demand(!touched, "a buffer is touched", &long[..64], 0);
}

fn both(run: &mut Run, call: Call, [proved, plain]: [u8; 2], number: u8) {
    run.demand(proved == number && plain == number, &format!("{call:?}: {proved} and {plain}, not {number}"), b"", 0);
    run.tally.note(call, number);
}

/// Lengths far over the limit, too, beside pointers to few bytes.
fn claims(run: &mut Run) {
    run.names = vec!["claimed lengths".to_string()];
    for length in [LIMIT + 1, 1 << 32, 1 << 62, usize::MAX >> 1] {
        let mut table = Table::new(2);
        let reading = claimed::read(length, &mut table);
        let right = ffi::Reading { count: 0, stop: 0, good: false, number: 11 };
        run.demand(reading == right && table.untouched_from(0), &format!("{reading:?}"), b"", 0);
        run.tally.note(Call::Read, 11);
        one(run, Call::Parent, claimed::parent(length).number);
        one(run, Call::Contents, claimed::contents(length).number);

        let mut buffer = [7; 400];
        one(run, Call::Begin, claimed::begin(length, 1, 1, (&mut buffer, 400)).number);
        one(run, Call::Begin, claimed::begin(1, length, 1, (&mut buffer, 400)).number);
        one(run, Call::Begin, claimed::begin(1, 1, length, (&mut buffer, 400)).number);
        one(run, Call::Begin, claimed::begin(1, 1, 1, (&mut buffer, length)).number);
        run.demand(buffer == [7; 400], "begin touched the buffer", &buffer, 0);

        let mut buffer = [7; 8];
        one(run, Call::Gather, claimed::gather(length, 1, (&mut buffer, 8)).number);
        one(run, Call::Gather, claimed::gather(8, length, (&mut buffer, 8)).number);
        one(run, Call::Gather, claimed::gather(8, 1, (&mut buffer, length)).number);
        one(run, Call::RelationsWrite, claimed::relations_write(length, (&mut buffer, 8)).number);
        one(run, Call::RelationsWrite, claimed::relations_write(8, (&mut buffer, length)).number);
        one(run, Call::Price, claimed::price(length, (&mut buffer, 8)).number);
        one(run, Call::Price, claimed::price(8, (&mut buffer, length)).number);
        one(run, Call::Pack, claimed::pack(length, (&mut buffer, 8)).number);
        one(run, Call::Pack, claimed::pack(8, (&mut buffer, length)).number);
        one(run, Call::Unpack, claimed::unpack(length, (&mut buffer, 8)).number);
        one(run, Call::Unpack, claimed::unpack(8, (&mut buffer, length)).number);
        one(run, Call::Listing, claimed::listing(8, (&mut buffer, length)).number);

        let mut rows = [7; 2];
        one(run, Call::Ancestors, claimed::ancestors(length, &mut rows).number);
        run.demand(rows == [7; 2], "ancestors touched the list", b"", 0);

        let mut verdicts = [7; 2];
        one(run, Call::RelationsCheck, claimed::relations_check(length, &mut verdicts).number);
        one(run, Call::RelationsLatest, claimed::relations_check_latest(length, &mut verdicts).number);
        run.demand(verdicts == [7; 2], "a check touched the list", b"", 0);

        let d = ffi::Description::new();
        one(run, Call::Append, claimed::append((&mut buffer, length), 8, d, 1, 1).number);
        one(run, Call::Append, claimed::append((&mut buffer, 8), length, d, 1, 1).number);
        one(run, Call::Append, claimed::append((&mut buffer, 8), 8, d, length, 1).number);
        one(run, Call::Append, claimed::append((&mut buffer, 8), 8, d, 1, length).number);
        for text in 0..3 {
            let mut d = ffi::Description::new();
            match text {
                0 => d.subformat.given = length,
                1 => d.recorder.given = length,
                _ => d.writer.given = length,
            }
            one(run, Call::Append, claimed::append((&mut buffer, 8), 8, d, 1, 1).number);
        }
        run.demand(buffer == [7; 8], "a call touched the buffer", &buffer, 0);
    }
}

fn one(run: &mut Run, call: Call, number: u8) {
    run.demand(number == 11, &format!("{call:?} gave {number}, not 11"), b"", 0);
    run.tally.note(call, 11);
}
