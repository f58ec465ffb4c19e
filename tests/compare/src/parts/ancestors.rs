//! Every row that a row rests on: chains, rings and rows that name all before them, of up to 66 rows; any graphs, sparse and
//! dense, with circles and without, with dependencies that are missing or stand there twice, in files of every kind, whole, cut
//! and damaged; and every damage of a rich file. What is right is reckoned by the closure of the graph.

use plain::Serial;

use crate::both::Run;
use crate::build::{Contents, File};
use crate::generate::{self, otherwise, same_serial, with_check};
use crate::graph::{all_before, chain, file, Answer, Closure, Graph};
use crate::parts::damaged::damaged;
use crate::parts::relations::rooms;
use crate::parts::rich::{self, each_damage};
use crate::random::Random;
use crate::simple::{chunk, counted, put};
use crate::tally::Call;

/// So many calls at least give each number in this part.
const FLOORS: [(u8, u64); 5] = [(0, 20_000), (13, 40_000), (18, 3_000), (23, 1_000), (24, 1_000)];

/// So many answers at least have 30 rows, and so many a missing dependency.
const MANY_ROWS: usize = 150;
const MISSING_ONES: usize = 1_500;

pub fn run(run: &mut Run, cases: u64) {
    run.part = "ancestors";
    run.case = 0;
    let before = FLOORS.map(|(number, _)| run.tally.times(Call::Ancestors, number));
    let mut answers = Vec::new();
    every_shape(run, &mut answers);
    every_damage(run);
    for case in 0..cases {
        run.case = case;
        generated(run, &mut Random::new(run.seed, run.part, case), &mut answers);
    }
    for ((number, floor), before) in FLOORS.into_iter().zip(before) {
        let times = run.tally.times(Call::Ancestors, number) - before;
        assert!(times >= floor, "ancestors gave {number} only {times} times");
    }
    let many = answers.iter().filter(|(rows, _)| *rows >= 30).count();
    let missing = answers.iter().filter(|(_, missing)| *missing > 0).count();
    assert!(many >= MANY_ROWS && missing >= MISSING_ONES, "{many} answers of many rows, {missing} with a missing one");
}

/// From so many bytes on, not every row is asked for.
const MUCH: usize = 1 << 17;

/// The counts of an answer: rows, and dependencies that name none.
type Counts = (usize, usize);

/// Chains down and up, rings, a row that names itself, all before, all behind, and all before with the first naming the last; of
/// few rows, and of about 64. Of the dense ones some rows.
fn every_shape(run: &mut Run, answers: &mut Vec<Counts>) {
    for count in [1, 2, 3, 10, 63, 64, 65, 66] {
        let mut down_to_itself = chain(count);
        down_to_itself[0].push(Some(0));
        let mut back = all_before(count);
        back[0].push(Some(count - 1));
        let shapes: [(&str, Graph); 8] = [
            ("without dependencies", vec![Vec::new(); count]),
            ("down", chain(count)),
            ("up", (0..count).map(|row| vec![Some(row + 1).filter(|&row| row < count)]).collect()),
            ("down to a row that names itself", down_to_itself),
            ("a ring", (0..count).map(|row| vec![Some((row + 1) % count)]).collect()),
            ("all before", all_before(count)),
            ("all behind", (0..count).map(|row| (row + 1..count).rev().map(Some).collect()).collect()),
            ("all before, and the first the last", back),
        ];
        for (name, graph) in shapes {
            run.names = vec![format!("{count} rows, {name}")];
            let file = file(&graph, &counted(count));
            let closure = Closure::of(&graph, count);
            for row in (0..=count).rev().step_by(1 + file.bytes.len() / MUCH) {
                asked(run, &file.bytes, &closure, row, count + 1, answers);
            }
        }
    }
}

fn every_damage(run: &mut Run) {
    for (name, file) in rich::files() {
        run.names = vec![name.to_string()];
        each_damage(run, &file, |run, random, bytes, _, _| {
            let room = random.below(4);
            for row in 0..=file.rows.len() {
                let _ = run.ancestors(bytes, row, room);
            }
        });
    }
}

fn generated(run: &mut Run, random: &mut Random, answers: &mut Vec<Counts>) {
    let graph = any_graph(random);
    let file = any_file(random, &graph);
    let (count, bytes) = (graph.len(), &file.bytes[..]);
    run.names = vec![format!("{count} rows, mark of {}, {graph:?}", file.mark.len())];
    let closure = Closure::of(&graph, count);
    for row in (0..count).rev().step_by(1 + bytes.len() / MUCH) {
        asked(run, bytes, &closure, row, 70, answers);
    }
    // behind a fault there is no row: the file cut anywhere, and a chunk's first byte changed
    let cut = random.between(file.header_end, bytes.len());
    let rows = file.rows.iter().take_while(|row| row.end <= cut).count();
    some_rows(run, random, &bytes[..cut], (&graph, rows), answers);
    let mut spoiled = bytes.to_vec();
    let rows = random.below(count);
    spoiled[file.rows[rows].place] ^= 1;
    some_rows(run, random, &spoiled, (&graph, rows), answers);
    let bytes = damaged(run, random, &file);
    for _ in 0..4 {
        let (row, room) = (random.below(count + 1), random.between(0, 70));
        let _ = run.ancestors(&bytes, row, room);
    }
}

/// Some of the first so many rows, and one behind them.
fn some_rows(
    run: &mut Run,
    random: &mut Random,
    file: &[u8],
    (graph, count): (&Graph, usize),
    answers: &mut Vec<Counts>,
) {
    let closure = Closure::of(graph, count);
    for _ in 0..count.min(4) {
        let (row, room) = (random.below(count), random.between(count, 70));
        asked(run, file, &closure, row, room, answers);
    }
    let beyond = random.pick(&[count, count, count + 1, usize::MAX >> 1]);
    asked(run, file, &closure, beyond, 70, answers);
}

/// The answer, into a list of so many entries, which are enough, one that is just long enough, and one that is too short.
fn asked(run: &mut Run, file: &[u8], closure: &Closure, row: usize, room: usize, answers: &mut Vec<Counts>) {
    let right: Answer = closure.answer(row);
    let answer = run.ancestors(file, row, room);
    run.demand(answer == right, &format!("ancestors of row {row}: {answer:?}, not {right:?}"), file, 0);
    let count = right.as_ref().map_or(0, |(rows, _)| rows.len());
    answers.extend(right.as_ref().map(|(_, missing)| (count, *missing)).ok());
    rooms(run, file, count, answer, |run, room| run.ancestors(file, row, room));
}

/// Of few rows or of about 64. Where no circle is meant, all dependencies go down in an order of the rows.
fn any_graph(random: &mut Random) -> Graph {
    let count = match random.below(16) {
        0 => random.between(60, 64),
        1 => random.between(64, 66),
        2 => random.between(13, 59),
        _ => random.between(1, 12),
    };
    let mut order: Vec<usize> = (0..count).collect();
    match random.below(4) {
        0 => (),
        1 => order.reverse(),
        _ => random.shuffle(&mut order),
    }
    let most = random.pick(&[1, 2, 3, 4, 6, count]);
    let circles = random.pick(&[0, 0, 100, 10, 3]);
    // so far back in the order a dependency goes at most
    let far = random.pick(&[2, 5, count]);
    let mut graph = vec![Vec::new(); count];
    for (place, &row) in order.iter().enumerate() {
        let parents: &mut Vec<Option<usize>> = &mut graph[row];
        for _ in 0..random.between(0, most) {
            parents.push(match random.below(10) {
                0 => None,
                1 if !parents.is_empty() => random.pick(parents),
                _ if circles > 0 && random.one_in(circles) => Some(random.below(count)),
                _ => (place > 0).then(|| order[place - random.between(1, far.min(place))]),
            });
        }
    }
    graph
}

/// Chunks of every kind, one for each row.
fn any_file(random: &mut Random, graph: &Graph) -> File {
    let nul = random.one_in(2);
    let mut file = generate::file(random, nul, 0);
    let mut serials: Vec<Serial> = Vec::new();
    while serials.len() < graph.len() {
        let serial = generate::serial(random);
        if !known(&serials, &serial) {
            serials.push(serial);
        }
    }
    for (parents, &serial) in graph.iter().zip(&serials) {
        let mut next = match random.one_in(serials.len()) {
            true => generate::chunk(random, &file, &serial),
            false => chunk(serial, Contents::Counted(generate::data(random, &file.mark))),
        };
        next.closing.serial = serial;
        let named = parents.iter().map(|parent| (named(random, &serials, *parent), b"ADS\\DATA\\TEST".to_vec()));
        next.dependencies = named.collect();
        file.push(&next);
    }
    file
}

fn known(serials: &[Serial], serial: &Serial) -> bool {
    serials.iter().any(|known| same_serial(known, serial))
}

/// The serial number of a row, its check as there or written otherwise; for none one that is much like a row's.
fn named(random: &mut Random, serials: &[Serial], parent: Option<usize>) -> Serial {
    if let Some(row) = parent {
        return if random.one_in(2) { serials[row] } else { otherwise(&serials[row]) };
    }
    let like = random.pick(serials);
    loop {
        let mut first: [u8; 35] = like[..35].try_into().expect("35 bytes");
        match random.below(3) {
            0 => first[random.between(18, 29)] = random.between(32, 126) as u8,
            1 => first[34] = b'0' + random.below(6) as u8,
            _ => put(&mut first[30..35], random.below(65_536)),
        }
        let serial = with_check(first);
        if !known(serials, &serial) {
            return serial;
        }
    }
}
