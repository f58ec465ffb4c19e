//! How often each number of each call arose, each ending of a row, each verdict, and a check with spaces in front.

use plain::Row;

#[derive(Clone, Copy, Debug)]
pub enum Call {
    Begin,
    Read,
    Parent,
    Ancestors,
    Append,
    Contents,
    Gather,
    RelationsWrite,
    RelationsCheck,
    RelationsLatest,
    Price,
    Listing,
    Pack,
    Unpack,
}

/// Each call and the numbers that it can give.
const CALLS: [(&str, &[u8]); 14] = [
    ("begin", &[0, 2, 3, 6, 11, 15, 18]),
    ("read", &[0, 1, 2, 3, 4, 5, 6, 7, 8, 9, 10, 11]),
    ("parent", &[0, 11, 13, 14]),
    ("ancestors", &[0, 11, 13, 18, 23, 24]),
    ("append", &[0, 6, 9, 11, 12, 13, 15, 16, 17, 18]),
    ("contents", &[0, 11, 13]),
    ("gather", &[0, 11, 13, 14, 18]),
    ("rel. write", &[0, 11, 18]),
    ("rel. check", &[0, 11, 13, 18, 19, 20]),
    ("rel. latest", &[0, 11, 13, 18, 20]),
    ("price", &[0, 11, 18, 21]),
    ("listing", &[0, 11, 18]),
    ("pack", &[0, 11, 18]),
    ("unpack", &[0, 11, 18, 27, 28, 29]),
];

/// One more than the highest number.
const NUMBERS: usize = 30;

/// No call gives 22, 25 and 26.
fn numbers() -> impl Iterator<Item = usize> {
    (0..25).filter(|&number| number != 22).chain(27..NUMBERS)
}

#[derive(Default)]
pub struct Tally {
    times: [[u64; NUMBERS]; 14],
    endings: [u64; 3],
    verdicts: [u64; 3],
    spaced: u64,
}

impl Tally {
    pub fn note(&mut self, call: Call, number: u8) {
        self.times[call as usize][usize::from(number)] += 1;
    }

    /// A row that both read alike.
    pub fn note_row(&mut self, row: &Row) {
        self.endings[row.ending as usize] += 1;
        self.spaced += u64::from(row.serial[35] == b' ');
    }

    /// Verdicts that both gave alike.
    pub fn note_verdicts(&mut self, verdicts: &[u32]) {
        for &verdict in verdicts {
            self.verdicts[verdict as usize - 1] += 1;
        }
    }

    /// How often the call gave the number.
    pub fn times(&self, call: Call, number: u8) -> u64 {
        self.times[call as usize][usize::from(number)]
    }

    pub fn total(&self) -> u64 {
        self.times.iter().flatten().sum()
    }

    pub fn print(&self) {
        print!("{:>10}", "number");
        for (name, _) in CALLS {
            print!("{name:>12}");
        }
        println!("{:>10}", "all");
        for number in numbers() {
            print!("{number:>10}");
            for times in &self.times {
                print!("{:>12}", times[number]);
            }
            println!("{:>10}", self.times.iter().map(|times| times[number]).sum::<u64>());
        }
        print!("{:>10}", "all");
        for times in &self.times {
            print!("{:>12}", times.iter().sum::<u64>());
        }
        println!("{:>10}", self.total());
        let [counted, found, by_mini_chunks] = self.endings;
        println!("rows: {counted} counted, {found} found, {by_mini_chunks} by mini-chunks");
        let [declared, undeclared, malformed] = self.verdicts;
        println!("relation lines: {declared} declared, {undeclared} undeclared, {malformed} malformed");
        println!("rows with spaces in front of the serial number's check: {}", self.spaced);
    }

    /// Each number that a call can give arose, and no other; each number arose somewhere. So did each ending and each verdict.
    pub fn check(&self) {
        for ((name, can), times) in CALLS.iter().zip(&self.times) {
            for (number, &times) in times.iter().enumerate() {
                let can = can.contains(&(number as u8));
                assert_eq!(times > 0, can, "{name} gave number {number} {times} times");
            }
        }
        for number in numbers() {
            assert!(self.times.iter().any(|times| times[number] > 0), "no call gave number {number}");
        }
        assert!(self.endings.iter().all(|&rows| rows > 0), "an ending is missing: {:?}", self.endings);
        assert!(self.verdicts.iter().all(|&lines| lines > 0), "a verdict is missing: {:?}", self.verdicts);
        assert!(self.spaced > 0, "no row has spaces in front of its serial number's check");
        assert!(self.total() >= 200_000, "{} calls are too few", self.total());
    }
}
