//! Append: accepted and read back, and every refusal, alone and several at once.

use crate::both::{Appended, Run};
use crate::build::{Contents, File};
use crate::describe::{Described, Step};
use crate::generate;
use crate::parts::begins::{bad_date, bad_serial, bad_text};
use crate::random::Random;

/// A case: the file, the bytes behind it, the length claimed, and what append is given.
pub struct Case {
    pub file: File,
    pub behind: usize,
    pub length: usize,
    pub given: Appended,
}

impl Case {
    /// How many bytes the new chunk takes.
    pub fn needed(&self) -> usize {
        let Appended { parents, specific, data, .. } = &self.given;
        568 + 344 * parents.len() + specific.len() + 34 + data.len() + 254 + 2 * self.file.mark.len()
    }

    fn set(&mut self, step: Step) {
        self.given.description.0.push(step);
    }

    /// The file, and behind it bytes that begin like its last chunk, if it has one.
    fn buffer(&self) -> Vec<u8> {
        let file = &self.file.bytes;
        let last = self.file.rows.last().map_or(0, |row| row.place);
        let stale = file[last..].iter().cycle().take(self.behind);
        file.iter().chain(stale).copied().collect()
    }

    pub fn call(&self, run: &mut Run) -> Result<(plain::Ends, Vec<u8>), u8> {
        run.append(&self.buffer(), self.length, &self.given)
    }
}

/// A fault and the number that it alone gives.
type Fault = (&'static str, u8, fn(&mut Case, &mut Random));

const FAULTS: &[Fault] = &[
    ("length over the buffer's", 11, |c, r| {
        c.length = c.file.bytes.len() + c.behind + r.pick(&[1, 2, 1 << 31, usize::MAX >> 1])
    }),
    ("file cut short", 12, |c, r| c.length -= r.pick(&[1, 2, 254, c.length])),
    ("stray bytes", 12, |c, r| {
        let length = r.between(1, 30);
        c.behind = c.behind.max(length);
        c.length = c.file.bytes.len() + length;
    }),
    ("file damaged", 12, |c, r| {
        // a digit or letter of the last label, which has at least 254 bytes behind its beginning
        let at = c.file.bytes.len() - c.file.mark.len() - 4 - r.between(1, 25);
        c.file.bytes[at] |= 0x80;
    }),
    ("sub-format", 6, |c, r| c.set(Step::SubFormat(bad_text(r, 256)))),
    ("generic type", 6, |c, r| c.set(Step::GenericType(r.pick(&[*b"txt", *b"UTC", *b"   "])))),
    ("synch type", 6, |c, r| c.set(Step::SynchType(r.pick(&[*b"gen", *b"UTC", *b"   "])))),
    ("standard", 6, |c, r| c.set(Step::TimeStandard(r.pick(&[*b"utc", *b"SLV", *b"   ", *b"ALT"])))),
    ("alternate standard", 6, |c, r| c.set(Step::AlternateStandard(bad_serial(r)))),
    ("offset", 6, |c, r| {
        let bad: [&[u8; 16]; 6] = [
            b" 0000          0",
            b"+2400          0",
            b"+0060          0",
            b"+0000         60",
            b"+0000          .",
            b"+0000    1 2    ",
        ];
        c.set(Step::TimeOffset(*r.pick(&bad)));
    }),
    ("event", 6, |c, r| c.set(Step::EventSynch(r.pick(&[*b"nul", *b"UTC", *b"SLV", *b"MAS"])))),
    ("slave event", 6, |c, r| c.set(Step::SlaveEvent(bad_serial(r)))),
    ("master event", 6, |c, r| c.set(Step::MasterEvent(bad_serial(r)))),
    ("serial number", 6, |c, r| c.set(Step::SerialNumber(bad_serial(r)))),
    ("recording date", 6, |c, r| c.set(Step::Recording(bad_date(r), b"R".to_vec()))),
    ("recording agent", 6, |c, r| c.set(Step::Recording(*b"20240229", bad_text(r, 32)))),
    ("writing date", 6, |c, r| c.set(Step::Writing(bad_date(r), b"W".to_vec()))),
    ("writing agent", 6, |c, r| c.set(Step::Writing(*b"20240229", bad_text(r, 32)))),
    ("a field never given", 6, |c, r| {
        let field = r.pick(&["generic", "synch", "standard", "offset", "event", "serial", "recording", "writing"]);
        c.given.description.0.retain(|step| step.field() != field);
    }),
    ("MultiChunk", 17, |c, r| {
        let mut text = generate::MULTI_CHUNK.to_vec();
        text.resize(r.pick(&[18, 18, 30, 256]), b' ');
        c.set(Step::SubFormat(text));
    }),
    ("no such parent", 13, |c, r| {
        let row = c.file.rows.len() + r.pick(&[0, 0, 1, usize::MAX >> 1]);
        let at = r.below(c.given.parents.len() + 1);
        c.given.parents.insert(at, row);
    }),
    ("parents over 16", 13, |c, _| c.given.parents = (0..17).collect()),
    ("serial number in a row", 9, |c, r| {
        let row = r.below(c.file.rows.len());
        c.set(Step::SerialNumber(c.file.rows[row].serial));
    }),
    ("serial number in a row, its check written otherwise", 9, |c, r| {
        let row = r.below(c.file.rows.len());
        c.set(Step::SerialNumber(generate::otherwise(&c.file.rows[row].serial)));
    }),
    ("parent repeated", 13, |c, r| {
        let row = r.below(c.file.rows.len());
        c.given.parents.extend([row, row]);
    }),
    ("open for BIN", 16, |c, _| {
        c.given.open = true;
        c.set(Step::GenericType(*b"BIN"));
    }),
    ("mark found early", 16, |c, r| {
        c.given.open = true;
        c.set(Step::GenericType(*b"TXT"));
        let mark = &c.file.mark;
        c.given.data = [&generate::data(r, mark)[..], mark, &generate::data(r, mark)[..]].concat();
        // the mark's own period: data that end in what makes it stand one place earlier
        let period = (1..=mark.len()).find(|&of| mark[of..] == mark[..mark.len() - of]).unwrap_or(0);
        if r.one_in(2) {
            c.given.data = mark[..period].to_vec();
        }
    }),
    ("room", 18, |c, r| {
        let needed = c.needed();
        c.behind = needed - r.pick(&[1, 1, 2, 254, needed]);
    }),
];

/// The methods that set every field, in any order, now and then one twice.
fn described(random: &mut Random) -> Described {
    let times = generate::times(random);
    let closing = generate::closing(random);
    let generic = random.pick(&[*b"BIN", *b"TXT"]);
    let mut steps = vec![
        Step::SubFormat(generate::sub_format(random)),
        Step::GenericType(generic),
        Step::SynchType(times.synch),
        Step::TimeOffset(times.offset),
        match &times.standard {
            b"ALT" => Step::AlternateStandard(times.alternate),
            word => Step::TimeStandard(*word),
        },
        match &times.event {
            b"SLV" => Step::SlaveEvent(times.linked),
            b"MAS" => Step::MasterEvent(times.linked),
            word => Step::EventSynch(*word),
        },
        Step::SerialNumber(closing.serial),
        Step::Recording(closing.recorded, closing.recorder),
        Step::Writing(closing.written, closing.writer),
    ];
    random.shuffle(&mut steps);
    let (alternate, master) = (generate::serial(random), bad_serial(random));
    let first = random.pick(&[
        Step::AlternateStandard(alternate),
        Step::MasterEvent(master),
        Step::TimeStandard(*b"UTC"),
        Step::SubFormat(b"earlier, and longer than what follows".to_vec()),
        Step::Recording(*b"20240229", vec![b'x'; 400]),
        Step::Writing([0; 8], b"earlier".to_vec()),
    ]);
    if random.one_in(2) {
        steps.insert(0, first);
    }
    // a text that is never given is empty
    if random.one_in(16) {
        steps.retain(|step| step.field() != "sub-format");
    }
    Described(steps)
}

/// A case that is accepted. The file has a row at least if asked for.
pub fn good(random: &mut Random, nul: bool, open: bool, least: usize) -> Case {
    let mut chunks = random.between(least, 3);
    if random.one_in(40) {
        chunks = 20;
    }
    let mut file = generate::file(random, nul, 0);
    while file.mark.contains(&0) {
        file = generate::file(random, nul, 0);
    }
    let later = generate::serial(random);
    while file.rows.len() < chunks {
        let chunk = generate::chunk(random, &file, &later);
        // MultiChunks of many types are left to other parts
        if !matches!(&chunk.contents, Contents::Multi(types, _) if types.len() > 4) {
            file.push(&chunk);
        }
    }
    let mut parents: Vec<usize> = (0..chunks).collect();
    random.shuffle(&mut parents);
    parents.truncate(random.between(0, chunks.min(16)));
    let mut description = described(random);
    if open {
        description.0.push(Step::GenericType(*b"TXT"));
    }
    let data = match open {
        true => generate::open_data(random, &file.mark),
        false => generate::data(random, &file.mark),
    };
    let given = Appended {
        description,
        parents,
        specific: if random.one_in(2) { Vec::new() } else { generate::data(random, &file.mark) },
        data,
        open,
    };
    let mut case = Case { behind: 0, length: file.bytes.len(), file, given };
    case.behind = case.needed() + random.pick(&[0, 0, 1, 600]);
    case
}

pub fn run(run: &mut Run, cases: u64) {
    run.part = "append";
    for number in 0..cases {
        run.case = number;
        let mut random = Random::new(run.seed, run.part, number);
        let random = &mut random;
        let nul = random.one_in(2);
        let open = nul && random.one_in(2);
        run.names = vec![format!("accepted, NUL {nul}, open {open}")];
        let case = good(random, nul, open, 0);
        accepted(run, &case);

        let (name, refusal, fault) = FAULTS[number as usize % FAULTS.len()];
        let mut case = good(random, true, open, 1);
        fault(&mut case, random);
        if ![11, 18].contains(&refusal) {
            case.behind = case.behind.max(case.needed() + 30);
        }
        run.names = vec![name.to_string()];
        refused(run, &case, refusal);

        special(run, random, number);
        let mut case = good(random, nul, open, 1);
        run.names.clear();
        for _ in 0..random.between(2, 4) {
            let (name, _, fault) = random.pick(FAULTS);
            run.names.push(name.to_string());
            if name != "file cut short" || case.length == case.file.bytes.len() {
                fault(&mut case, random);
            }
        }
        let answer = case.call(run);
        run.demand(answer.is_err(), "append took several faults", &case.file.bytes, case.length);
    }
}

fn refused(run: &mut Run, case: &Case, number: u8) {
    let answer = case.call(run).map(|(ends, _)| ends);
    run.demand(answer == Err(number), &format!("append gave {answer:?}, not {number}"), &case.file.bytes, case.length);
}

/// Refusals that need a file of their own: no file, a mark with a zero byte, open under LLC.
fn special(run: &mut Run, random: &mut Random, number: u64) {
    let mut case = good(random, number % 3 != 2, false, 0);
    let expected = match number % 3 {
        0 => {
            run.names = vec!["no file".to_string()];
            case.file = File::default();
            case.length = 0;
            12
        }
        1 => {
            run.names = vec!["zero in the mark".to_string()];
            let length = random.between(1, 20);
            let mut mark = generate::mark_of(random, length);
            mark[random.below(length)] = 0;
            case.file = File::new(true, &mark, &generate::closing(random));
            case.given.parents.clear();
            case.length = case.file.bytes.len();
            15
        }
        _ => {
            run.names = vec!["open under LLC".to_string()];
            case.given.open = true;
            case.set(Step::GenericType(*b"TXT"));
            16
        }
    };
    refused(run, &case, expected);
}

/// Accepted: the ends, the rows before and the new row, its parents and contents.
fn accepted(run: &mut Run, case: &Case) {
    let (length, given) = (case.length, &case.given);
    let (ends, bytes) = match case.call(run) {
        Ok(answer) => answer,
        Err(number) => run.fail(&format!("append gave {number}"), &case.file.bytes, length),
    };
    let first = length + case.needed() - given.data.len() - 254 - 2 * case.file.mark.len();
    let right = plain::Ends { first, second: first + given.data.len(), third: length + case.needed() };
    let finished = &bytes[..right.third];
    run.demand(ends == right, &format!("{ends:?}, not {right:?}"), finished, length);
    let count = case.file.rows.len();
    let (reading, rows) = run.read(finished, count + 2);
    let clean = reading.count == count + 1 && reading.is_clean(finished.len());
    run.demand(clean, &format!("{reading:?}"), finished, length);
    run.demand(rows[..count] == case.file.rows, "the old rows", finished, 0);
    let row = rows[count];
    let places = (row.place, row.header, row.contents, row.bytes, row.end);
    let right = (length, first - length - 34, first, given.data.len(), right.third);
    let chosen = if given.open { plain::Ending::Found } else { plain::Ending::Counted };
    let flags = row.good && !row.multichunk && row.ending == chosen && row.dependencies == given.parents.len();
    run.demand(places == right && flags, &format!("{row:?}, not {right:?}"), finished, length);
    run.demand(
        finished[first - 34 - given.specific.len()..first - 34] == given.specific,
        "specific data",
        finished,
        first,
    );
    let part = run.contents(finished, count);
    run.demand(part == Ok(&given.data), "contents", finished, first);
    for (j, &row) in given.parents.iter().enumerate() {
        let answer = run.parent(finished, count, j);
        let right = Ok(Some(plain::Parent { row, agree: true }));
        run.demand(answer == right, &format!("parent {j} is {answer:?}"), finished, length);
    }
}
