//! "A call may take up to ADS_STACK_BYTES of stack": 1 MiB. Each call that reads a file is made in a thread that has no more, on
//! a file that begins with two serial numbers of one hash, so that the reading looks ahead. A call that took more would end the
//! whole process.

use std::thread;

use compare::ffi::{self, Table};
use compare::graph::{self, all_before, chain};
use compare::hashes::one_hash;
use compare::parts::every_call::{new_serials, Case};
use compare::relations::{HEADING_BYTES, LINE_BYTES};
use compare::simple::{random, Many};

const STACK_BYTES: usize = 1 << 20;

fn in_small_thread(work: impl FnOnce() + Send) {
    thread::scope(|scope| {
        let thread = thread::Builder::new().stack_size(STACK_BYTES).spawn_scoped(scope, work);
        thread.expect("a thread").join().expect("the work ends");
    });
}

fn case(chunks: usize) -> Case {
    Case::new(Many::of(&[one_hash(2), random(chunks - 2)].concat()), 1, chunks - 2)
}

#[test]
fn each_call_that_reads() {
    let case = case(2_000);
    let file = &case.bytes[..];
    let mut table = Table::new(case.last + 1);
    in_small_thread(|| assert_eq!(ffi::read(file, &mut table).count, case.last + 1));
    in_small_thread(|| assert_eq!(ffi::contents(file, case.last).number, 0));
    in_small_thread(|| assert_eq!(ffi::parent(file, case.last, 1).row, case.late));
    in_small_thread(|| assert_eq!(ffi::gather(file, case.multi, b"P1", &mut [0; 8]).length, 8));
}

/// The longest chain, and the most chains.
#[test]
fn ancestors() {
    let serials = [one_hash(2), random(62)].concat();
    for graph in [chain(64), all_before(64)] {
        let file = graph::file(&graph, &serials).bytes;
        let mut rows = [0; ffi::ANCESTORS_ROOM];
        in_small_thread(|| assert_eq!(ffi::ancestors(&file, 63, &mut rows).count, 63));
        assert!(rows.into_iter().eq(0..63));
    }
    let case = case(2_000);
    in_small_thread(|| assert_eq!(ffi::ancestors(&case.bytes, case.last, &mut []).number, 24));
}

#[test]
fn relations() {
    let case = case(2_000);
    let mut text = vec![0; HEADING_BYTES + Case::LINES * LINE_BYTES];
    in_small_thread(|| assert_eq!(ffi::relations_write(&case.bytes, &mut text).length, text.len()));
    let file = case.with_relations(text);
    let mut verdicts = [0; Case::LINES];
    in_small_thread(|| assert_eq!(ffi::relations_check(&file, case.last + 1, &mut verdicts).count, Case::LINES));
    assert_eq!(verdicts, [1; Case::LINES]);
    in_small_thread(|| {
        let answer = ffi::relations_check_latest(&file, &mut verdicts);
        assert_eq!((answer.count, answer.row), (Case::LINES, case.last + 1));
    });
}

#[test]
fn append() {
    let case = case(2_000);
    let (mut buffer, given) = case.append(new_serials()[2]);
    let (description, length) = (given.description.proved(), case.bytes.len());
    in_small_thread(|| {
        let ends = ffi::append(&mut buffer, length, description, &given.parents, b"", b"new", false);
        assert_eq!(ends.number, 0);
    });
}

#[test]
fn price() {
    let case = case(2_000);
    let mut text = vec![0; ffi::price_room(case.last + 1)];
    in_small_thread(|| assert_eq!(ffi::price(&case.bytes, 100, 7, &mut text).number, 0));
    assert!(text.starts_with(b"0 0 100\n1 0 100\n"));
}

#[test]
fn blocks() {
    let case = case(2_000);
    let mut blocks = vec![0; ffi::packed_bytes(case.bytes.len())];
    in_small_thread(|| assert_eq!(ffi::pack(&case.bytes, &mut blocks).length, blocks.len()));
    let mut file = vec![0; case.bytes.len()];
    in_small_thread(|| assert_eq!(ffi::unpack(&blocks, &mut file).length, file.len()));
    assert!(file == case.bytes);
}

/// The listing takes 65,536 bytes at most.
#[test]
fn listing() {
    let case = case(70);
    let mut text = vec![0; 10_000];
    in_small_thread(|| assert_eq!(ffi::listing(&case.bytes, &mut text).number, 0));
    assert!(text.starts_with(b"header good\nchunks 72\n"));
}
