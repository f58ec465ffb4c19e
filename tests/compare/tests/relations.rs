//! Relations of files with many rows. The proved library looks rows up in windows of 52,000: one window that is just full, a
//! second one of a single row, and a third; lines in row order and in any, about rows on both sides of the borders.

use compare::both::Run;
use compare::generate::{otherwise, with_check, RELATIONS};
use compare::hashes::one_hash;
use compare::random::Random;
use compare::relations::{chunk_with, line, text, HEADING_BYTES, LINE_BYTES};
use compare::simple::{counted, random, Many, MISSING};
use plain::{Serial, DECLARED, MALFORMED, UNDECLARED};

const WINDOW: usize = 52_000;
const SIZES: [usize; 3] = [WINDOW, WINDOW + 1, 2 * WINDOW + 1];

/// The sub-format of `Many`'s chunks.
const NAME: &[u8] = b"ADS\\DATA\\TEST";

/// Under valgrind (tests/memory) this would take hours.
fn left_out() -> bool {
    std::env::var_os("ADS_EXACT").is_some()
}

/// So many rows, the last of them a relation chunk, which depends on the first. Each other one depends on one before, behind
/// or itself; some on none.
struct Rows {
    serials: Vec<Serial>,
    many: Many,
    lines: Vec<Vec<u8>>,
}

fn parent_of(row: usize, count: usize) -> usize {
    if row.is_multiple_of(10) {
        count
    } else {
        (row * 7_919 + 3) % count
    }
}

impl Rows {
    fn new(mut serials: Vec<Serial>) -> Self {
        let last = serials.pop().expect("a row");
        let count = serials.len();
        let many = Many::depending(&serials, |row| parent_of(row, count));
        let parent = |row: usize| serials.get(parent_of(row, count)).unwrap_or(&MISSING);
        let lines = (0..count).map(|row| line(&serials[row], NAME, parent(row), NAME)).collect();
        serials.push(last);
        Rows { serials, many, lines }
    }

    fn last(&self) -> usize {
        self.serials.len() - 1
    }

    /// With these lines in the relation chunk, which don't change what is written.
    fn checked(&mut self, run: &mut Run, lines: &[Vec<u8>], right: &[u32]) {
        let (last, whole) = (self.last(), text(&self.lines));
        let relations = chunk_with(self.serials[last], &self.serials[..1], text(lines));
        self.many.bytes.extend(&relations);
        let written = run.relations_write(&self.many.bytes, whole.len());
        let verdicts = run.relations_check(&self.many.bytes, last, right.len() + 1);
        let latest = run.relations_check_latest(&self.many.bytes, right.len() + 1);
        self.many.truncate(last);
        assert!(written == Ok(whole), "{} rows", last + 1);
        assert!(verdicts.as_deref() == Ok(right), "{} rows, {} lines", last + 1, lines.len());
        assert!(latest == verdicts.map(|verdicts| (last, verdicts)), "{} rows, {} lines", last + 1, lines.len());
    }

    /// Rows beside the borders of windows, the first and the last one.
    fn borders(&self) -> impl Iterator<Item = usize> + '_ {
        let near = [WINDOW, 2 * WINDOW].into_iter().flat_map(|border| border - 2..border + 2);
        [0, 1].into_iter().chain(near).chain([self.last()]).filter(|&row| row <= self.last())
    }

    /// Lines about rows at the borders, and what is to be said of them.
    fn at_borders(&self) -> Vec<(Vec<u8>, u32)> {
        let mut lines = Vec::new();
        for row in self.borders() {
            let serial = &self.serials[row];
            let first = &self.serials[0];
            let (name, parent) = match row == self.last() {
                true => (RELATIONS, first),
                false => (NAME, self.serials[..self.last()].get(parent_of(row, self.last())).unwrap_or(&MISSING)),
            };
            let declared = line(serial, name, parent, NAME);
            lines.extend([
                (declared.clone(), DECLARED),
                (line(&otherwise(serial), name, &otherwise(parent), NAME), DECLARED),
                (line(serial, name, &self.serials[row.abs_diff(1)], NAME), UNDECLARED),
                (line(serial, b"OTHER", parent, NAME), UNDECLARED),
                (line(&unknown(row), name, parent, NAME), UNDECLARED),
                ([&declared[..], b"\t"].concat(), MALFORMED),
            ]);
        }
        lines
    }
}

/// A serial number of no row.
fn unknown(row: usize) -> Serial {
    let first = format!("#19990101000000000SURVEYDESK02{:05}", row % 65_536);
    with_check(first.into_bytes().try_into().expect("35 bytes"))
}

/// The text of the file, checked in its order and in another with more lines.
fn window(serials: Vec<Serial>) {
    let mut rows = Rows::new(serials);
    let mut run = Run::new(0);
    let in_order = rows.lines.clone();
    rows.checked(&mut run, &in_order, &vec![DECLARED; in_order.len()]);
    mixed(&mut run, &mut rows);
}

/// All lines in any order, with those about the borders, one line a thousand times and children that are in no row.
fn mixed(run: &mut Run, rows: &mut Rows) {
    let mut random = Random::new(0, "mixed", rows.last() as u64);
    let mut judged: Vec<(Vec<u8>, u32)> = rows.lines.iter().map(|line| (line.clone(), DECLARED)).collect();
    judged.extend(rows.at_borders());
    judged.extend((0..1_000).map(|_| (rows.lines[rows.last() - 7].clone(), DECLARED)));
    judged.extend((0..1_000).map(|row| (line(&unknown(row), NAME, &rows.serials[row], NAME), UNDECLARED)));
    random.shuffle(&mut judged);
    let (lines, right): (Vec<Vec<u8>>, Vec<u32>) = judged.into_iter().unzip();
    rows.checked(run, &lines, &right);
}

/// Serial numbers that all have one hash.
#[test]
fn one_hash_for_all() {
    window(one_hash(3_000));
}

#[test]
fn a_window_of_rows() {
    if !left_out() {
        window(counted(SIZES[0]));
    }
}

#[test]
fn a_row_more() {
    if !left_out() {
        window(random(SIZES[1]));
    }
}

#[test]
fn three_windows() {
    if !left_out() {
        window(random(SIZES[2]));
    }
}

/// So many relations rows, and others in front of them and behind. Those in front depend on relations rows, the last of them on
/// the first one behind; those behind on the row before, one of them on none. What finds a relations row isn't listed.
#[test]
fn relations_rows() {
    for count in SIZES.into_iter().filter(|_| !left_out()) {
        let mut places = vec![0, 1, WINDOW - 1, WINDOW, WINDOW + 1, 2 * WINDOW - 1, 2 * WINDOW, count / 2, count - 1];
        places.retain(|&place| place < count);
        let first = places.len() + 1;
        let behind = first + count;
        let serials = random(behind + 4);
        let mut many = Many::depending(&serials, |row| row.wrapping_sub(1));
        for row in first..behind {
            many.rename(row, RELATIONS);
        }
        for (row, place) in places.iter().enumerate() {
            many.depend(row, &otherwise(&serials[first + place]));
        }
        many.depend(first - 1, &serials[behind]);
        many.depend(behind + 2, &MISSING);
        let listed = [
            (first - 1, &serials[behind]),
            (behind + 1, &serials[behind]),
            (behind + 2, &MISSING),
            (behind + 3, &serials[behind + 2]),
        ];
        let right = text(&listed.map(|(row, parent)| line(&serials[row], NAME, parent, NAME)));
        assert_eq!(right.len(), HEADING_BYTES + listed.len() * LINE_BYTES);
        assert_eq!(Run::new(0).relations_write(&many.bytes, right.len()), Ok(right), "{count}");
    }
}

/// So many relations rows and no other: all of one day; the first, one at a border and the last one a day later, each alone;
/// all three; and one that lies between two of them a day later still.
#[test]
fn latest_of_many() {
    for count in [3_000, WINDOW + 1].into_iter().filter(|&count| count < WINDOW || !left_out()) {
        let mut many = Many::relations(&random(count));
        let mut run = Run::new(0);
        let mut holds = |many: &Many, row| assert_eq!(run.relations_check_latest(&many.bytes, 0), Ok((row, vec![])));
        holds(&many, count - 1);
        let places = [0, count / 2, WINDOW.min(count) - 1, count - 1];
        for row in places {
            many.date(row, b"20240302");
            holds(&many, row);
            many.date(row, b"20240301");
        }
        for row in places {
            many.date(row, b"20240302");
            holds(&many, row);
        }
        many.date(1, b"20240303");
        holds(&many, 1);
        many.rename(1, b"ADS\\SYS\\Relation");
        holds(&many, count - 1);
    }
}
