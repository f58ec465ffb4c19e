//! Files with relations rows first, last, twice, anywhere and none: the text written for each, and the contents of each row
//! checked: as they were written, in another order, with lines changed, and appended.

use std::fmt::Debug;

use plain::Serial;

use crate::both::Run;
use crate::build::{Chunk, Contents, File};
use crate::describe::Step;
use crate::generate::{self, otherwise, same_serial, RELATIONS};
use crate::parts::appends;
use crate::random::Random;
use crate::relations::{is_relations, lines_of, text, HEADING};

pub fn run(run: &mut Run, cases: u64) {
    run.part = "relations";
    for case in 0..cases {
        run.case = case;
        let mut random = Random::new(run.seed, run.part, case);
        let random = &mut random;
        let nul = random.one_in(2);
        let start = generate::file(random, nul, 0);
        let mut chunks = chunks(random, &start);
        let file = with_chunks(&start, &chunks);
        run.names = vec![format!("{} chunks, mark of {}, NUL {nul}", chunks.len(), file.mark.len())];
        let lines = lines_of(&file);
        written(run, &file.bytes, &text(&lines));
        for chunk in chunks.iter_mut().filter(|chunk| is_relations(&chunk.sub_format)) {
            let contents = contents(random, &lines);
            chunk.contents = either(random, &file, contents);
        }
        checked(run, random, &with_chunks(&start, &chunks));
        if !file.mark.contains(&0) {
            append(run, random, file, &lines);
        }
    }
}

/// The chunks behind a file's start, relations rows without contents.
fn chunks(random: &mut Random, start: &File) -> Vec<Chunk> {
    let count = random.pick(&[0, 1, 2, 3, 4, 6, 9]);
    let last = count.max(1) - 1;
    let any = random.below(count.max(1));
    let rows = random.pick(&[vec![], vec![0], vec![last], vec![0, last], vec![any], vec![any, last]]);
    let known = [generate::serial(random), generate::serial(random)];
    let mut new_rows = known.iter();
    let mut file = start.clone();
    let mut chunks = Vec::new();
    for number in 0..count {
        let mut chunk = generate::chunk(random, &file, &known[0]);
        if rows.contains(&number) {
            chunk.sub_format = RELATIONS.to_vec();
            chunk.contents = Contents::Counted(Vec::new());
            chunk.closing.serial = *new_rows.next().expect("two at most");
        }
        depend(random, &mut chunk.dependencies, &known);
        if file.rows.iter().all(|row| !same_serial(&row.serial, &chunk.closing.serial)) {
            file.push(&chunk);
            chunks.push(chunk);
        }
    }
    chunks
}

/// Names of other sub-formats.
const ALMOST: [&[u8]; 3] = [b"ADS\\SYS\\Relations2", b"ads\\sys\\relations", b" ADS\\SYS\\Relations"];

/// Some name the sub-format, find a relations row, are written otherwise, or stand there twice.
fn depend(random: &mut Random, dependencies: &mut Vec<(Serial, Vec<u8>)>, known: &[Serial; 2]) {
    for (serial, name) in dependencies.iter_mut() {
        match random.below(8) {
            0 => *name = RELATIONS.to_vec(),
            1 => *serial = random.pick(known),
            2 => *serial = otherwise(&random.pick(known)),
            3 => *serial = otherwise(serial),
            4 => *name = random.pick(&ALMOST).to_vec(),
            _ => (),
        }
    }
    if random.one_in(4) {
        dependencies.extend(dependencies.first().cloned());
    }
}

pub fn with_chunks(start: &File, chunks: &[Chunk]) -> File {
    let mut file = start.clone();
    for chunk in chunks {
        file.push(chunk);
    }
    file
}

/// The text, into buffers that are longer, just long enough, and too short.
pub fn written(run: &mut Run, file: &[u8], text: &[u8]) {
    let length = text.len();
    for room in [length + 50, length, length - 1, 0] {
        let answer = run.relations_write(file, room);
        let right = if room < length { Err(18) } else { Ok(text.to_vec()) };
        run.demand(answer == right, &format!("{:?}, not {length}", answer.map(|text| text.len())), file, 0);
    }
}

/// Open where the mark isn't found too early, and counted.
pub fn either(random: &mut Random, file: &File, contents: Vec<u8>) -> Contents {
    let joined = [&contents[..], &file.mark].concat();
    let found = joined.windows(file.mark.len().max(1)).position(|part| part == file.mark);
    match file.nul && found == Some(contents.len()) && random.one_in(2) {
        true => Contents::Open(contents),
        false => Contents::Counted(contents),
    }
}

/// The lines in their order or another, some of them changed or repeated, with their heading.
pub fn contents(random: &mut Random, lines: &[Vec<u8>]) -> Vec<u8> {
    let mut lines = lines.to_vec();
    if random.one_in(2) {
        random.shuffle(&mut lines);
    }
    for _ in 0..random.below(5) {
        let line = if lines.is_empty() { b"ADS relation".to_vec() } else { random.pick(&lines) };
        let at = random.below(lines.len() + 1);
        lines.insert(at, changed(random, line));
    }
    let mut text = text(&lines);
    match random.below(12) {
        0 => text.clear(),
        1 => text = text.split(|&byte| byte == b'\n').collect::<Vec<&[u8]>>().join(&b"\r\n"[..]),
        2 => text = HEADING.to_vec(),
        3 => text[random.below(HEADING.len())] ^= 1,
        4 => text[HEADING.len()] = random.pick(b"\t\r \0"),
        5..=7 => drop(text.pop()),
        _ => (),
    }
    text
}

/// A relation line as it is, a comment, or with a field, a tab or a byte of it changed.
fn changed(random: &mut Random, mut line: Vec<u8>) -> Vec<u8> {
    let mut fields: Vec<Vec<u8>> = line.split(|&byte| byte == b'\t').map(<[u8]>::to_vec).collect();
    let field = random.below(fields.len());
    match random.below(12) {
        0 => return line,
        1 => return random.pick(&[&b""[..], b"a comment", b"ADS relation", b"ADS relationship", HEADING]).to_vec(),
        2 => drop(fields.remove(field)),
        3 => fields.push(fields[field].clone()),
        4 => fields[field].push(b' '),
        5 => drop(fields[field].pop()),
        6 | 7 if fields[field].len() == 38 => fields[field] = generate::serial(random).to_vec(),
        8 | 9 if fields[field].len() == 38 => {
            let serial = fields[field][..].try_into().expect("38 bytes");
            fields[field] = otherwise(serial).to_vec();
        }
        _ => {
            let at = random.below(line.len().max(1));
            line.splice(at..line.len().min(at + 1), [random.pick(b"\t\r\n \0A0\x7f\xff")]);
            return line;
        }
    }
    fields.join(&b'\t')
}

/// Every row, and some that aren't there; lists that are longer, just long enough, and too short.
fn checked(run: &mut Run, random: &mut Random, file: &File) {
    let bytes = &file.bytes;
    for (row, name) in file.sub_formats.iter().enumerate() {
        let answer = run.relations_check(bytes, row, 400);
        let refused = if is_relations(name) { 20 } else { 19 };
        run.demand(answer.as_ref().err().is_none_or(|&number| number == refused), &format!("{answer:?}"), bytes, 0);
        let count = answer.as_ref().map_or(0, Vec::len);
        rooms(run, bytes, count, answer, |run, room| run.relations_check(bytes, row, room));
    }
    let beyond = file.rows.len() + random.pick(&[0, 1, usize::MAX >> 1]);
    let answer = run.relations_check(bytes, beyond, 9);
    run.demand(answer == Err(13), &format!("{answer:?}"), bytes, 0);
}

/// The same answer into a list that is just long enough, and 18 where an entry less is lent; other refusals into none.
pub fn rooms<T: Debug + PartialEq>(
    run: &mut Run,
    file: &[u8],
    count: usize,
    answer: Result<T, u8>,
    check: impl Fn(&mut Run, usize) -> Result<T, u8>,
) {
    let exact = check(run, count);
    run.demand(exact == answer, &format!("{exact:?}, not {answer:?}"), file, 0);
    if count > 0 {
        let short = check(run, count - 1);
        run.demand(short == Err(18), &format!("{short:?}, not 18"), file, 0);
    }
}

/// The text appended as a chunk of the sub-format: each line is declared.
fn append(run: &mut Run, random: &mut Random, file: File, lines: &[Vec<u8>]) {
    let mut case = appends::good(random, file.nul, false, 0);
    let data = text(lines);
    let open = matches!(either(random, &file, data.clone()), Contents::Open(_));
    let rows = file.rows.len();
    case.given.description.0.extend([Step::SubFormat(RELATIONS.to_vec()), Step::GenericType(*b"TXT")]);
    case.given.parents = (0..rows.min(random.below(3))).collect();
    (case.given.data, case.given.open) = (data, open);
    (case.length, case.file) = (file.bytes.len(), file);
    case.behind = case.needed();
    match case.call(run) {
        Ok((ends, buffer)) => {
            let answer = run.relations_check(&buffer[..ends.third], rows, lines.len() + 2);
            let right = answer == Ok(vec![plain::DECLARED; lines.len()]);
            run.demand(right, &format!("{answer:?} of {} lines", lines.len()), &buffer, case.length);
        }
        Err(number) => run.fail(&format!("append gave {number}"), &case.file.bytes, case.length),
    }
}
