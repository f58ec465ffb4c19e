//! Each call with both implementations, on the same bytes: answers, buffers and what lies behind them must be equal.

use std::fmt::{self, Debug, Formatter};
use std::hint::black_box;

use plain::{Beginning, Ending, Ends, Parent, Reading, Row};

use crate::describe::Described;
use crate::ffi::{self, Table};
use crate::tally::{Call, Tally};

/// Bytes behind each lent buffer, which no call may touch.
const BEHIND: usize = 40;
const PATTERN: u8 = 0xC9;

/// A run of the comparison, and the case that it is at.
pub struct Run {
    pub seed: u64,
    pub part: &'static str,
    pub case: u64,
    pub names: Vec<String>,
    pub tally: Tally,
}

impl Run {
    pub fn new(seed: u64) -> Self {
        Run { seed, part: "", case: 0, names: Vec::new(), tally: Tally::default() }
    }

    /// Ends the run with what is needed to find the case again. The bytes shown are those around a place.
    pub fn fail(&self, what: &str, file: &[u8], place: usize) -> ! {
        println!("DIFFERENCE in part {:?}, case {}, seed {}", self.part, self.case, self.seed);
        println!("  case: {}", self.names.join("; "));
        println!("  {what}");
        println!("  the file has {} bytes; around {place}:", file.len());
        let first = place.saturating_sub(96) / 16 * 16;
        for (line, bytes) in file[first.min(file.len())..].chunks(16).take(16).enumerate() {
            let hex: Vec<String> = bytes.iter().map(|byte| format!("{byte:02x}")).collect();
            let text: String =
                bytes.iter().map(|&byte| if (32..127).contains(&byte) { byte as char } else { '.' }).collect();
            println!("  {:8} {:48} {text}", first + 16 * line, hex.join(" "));
        }
        panic!("the implementations differ, or one from what is expected");
    }

    pub fn demand(&self, holds: bool, what: &str, file: &[u8], place: usize) {
        if !holds {
            self.fail(what, file, place);
        }
    }

    fn same<T: PartialEq + Debug>(&self, call: impl Fn() -> String, proved: T, plain: T, file: &[u8], place: usize) {
        if proved != plain {
            self.fail(&format!("{}: proved {proved:?}, plain {plain:?}", call()), file, place);
        }
    }

    /// A call of the proved library, which is lent a file to look at only.
    fn proved<T>(&self, file: &[u8], call: impl FnOnce() -> T) -> T {
        let before = (file.len() <= 1 << 17).then(|| file.to_vec());
        let answer = call();
        let kept = before.is_none_or(|before| before == *black_box(file));
        self.demand(kept, "proved: the file itself is changed", file, 0);
        answer
    }

    /// Answers the reading and the rows written.
    pub fn read(&mut self, file: &[u8], room: usize) -> (Reading, Vec<Row>) {
        let mut table = Table::new(room);
        let proved = self.proved(file, || ffi::read(file, &mut table));
        let mut rows = vec![BLANK; room];
        let plain = plain::read(file, &mut rows);
        let clean = ffi::is_clean(proved, file.len());
        self.same(|| format!("clean, read into {room} rows"), clean, plain.is_clean(file.len()), file, plain.stop);
        let proved = Reading { count: proved.count, stop: proved.stop, good: proved.good, number: proved.number };
        self.same(|| format!("read into {room} rows"), proved, plain, file, plain.stop);
        for (number, row) in rows[..plain.count].iter().enumerate() {
            self.same(|| format!("row {number}"), table.row(number), *row, file, row.place);
            self.tally.note_row(row);
        }
        self.demand(table.untouched_from(plain.count), "proved: a row past the count is written", file, plain.stop);
        self.demand(
            rows[plain.count..].iter().all(|row| *row == BLANK),
            "plain: a row past the count is written",
            file,
            0,
        );
        self.tally.note(Call::Read, plain.number);
        rows.truncate(plain.count);
        (plain, rows)
    }

    pub fn parent(&mut self, file: &[u8], row: usize, dependency: usize) -> Result<Option<Parent>, u8> {
        let proved = self.proved(file, || ffi::parent(file, row, dependency));
        let plain = plain::parent(file, row, dependency);
        let (number, found) = match plain {
            Ok(found) => (0, found),
            Err(number) => (number, None),
        };
        let as_c = ffi::ParentAnswer {
            row: found.map_or(0, |parent| parent.row),
            found: found.is_some(),
            agree: found.is_some_and(|parent| parent.agree),
            number,
        };
        self.same(|| format!("parent of row {row}, dependency {dependency}"), proved, as_c, file, 0);
        self.tally.note(Call::Parent, number);
        plain
    }

    /// Answers the rows, and how many dependencies name none.
    pub fn ancestors(&mut self, file: &[u8], row: usize, room: usize) -> Result<(Vec<usize>, usize), u8> {
        let (mut proved_missing, mut plain_missing) = (0, 0);
        let rows = self.written(
            Call::Ancestors,
            || format!("ancestors of row {row}"),
            file,
            room,
            |rows| {
                let answer = ffi::ancestors(file, row, rows);
                proved_missing = answer.missing;
                (answer.count, answer.number)
            },
            |rows| {
                let answer = plain::ancestors(file, row, rows)?;
                plain_missing = answer.missing;
                Ok(answer.count)
            },
        );
        self.same(|| format!("ancestors of row {row}: missing"), proved_missing, plain_missing, file, 0);
        Ok((rows?, plain_missing))
    }

    pub fn contents<'f>(&mut self, file: &'f [u8], row: usize) -> Result<&'f [u8], u8> {
        let proved = self.proved(file, || ffi::contents(file, row));
        let plain = plain::contents(file, row);
        let (number, part) = match plain {
            Ok(part) => (0, part),
            Err(number) => (number, &file[..0]),
        };
        self.same(|| format!("contents of row {row}: number"), proved.number, number, file, 0);
        self.same(|| format!("contents of row {row}: bytes"), proved.bytes, part.len(), file, 0);
        // where an empty part stands isn't asked
        if !part.is_empty() {
            let place = part.as_ptr() as usize - file.as_ptr() as usize;
            self.same(|| format!("contents of row {row}: place"), proved.place, place, file, place);
        }
        self.tally.note(Call::Contents, number);
        plain
    }

    /// Two buffers or lists with a pattern; a call with each; these are then compared as a whole, and those of a refusal with
    /// the pattern. Answers what the result has.
    fn written<T: Lent, A: Into<(usize, u8)>>(
        &mut self,
        call: Call,
        name: impl Fn() -> String,
        file: &[u8],
        room: usize,
        proved: impl FnOnce(&mut [T]) -> A,
        plain: impl FnOnce(&mut [T]) -> Result<usize, u8>,
    ) -> Result<Vec<T>, u8> {
        let pattern = T::from(PATTERN);
        let mut lent = [vec![pattern; room + BEHIND], vec![pattern; room + BEHIND]];
        let proved = self.proved(file, || proved(&mut lent[0][..room])).into();
        let answer = plain(&mut lent[1][..room]);
        let (length, number) = match answer {
            Ok(length) => (length, 0),
            Err(number) => (0, number),
        };
        self.same(|| format!("{} into {room}", name()), proved, (length, number), file, 0);
        if let Some(at) = (0..room + BEHIND).find(|&at| lent[0][at] != lent[1][at]) {
            let shown: Vec<u8> = lent[0].iter().map(|&each| each.try_into().unwrap_or(PATTERN)).collect();
            let what = format!("{} into {room}: at {at} are {:?} and {:?}", name(), lent[0][at], lent[1][at]);
            self.fail(&what, &shown, at);
        }
        let kept = lent[1][length..].iter().all(|&each| each == pattern);
        self.demand(kept, "what stands past the result changed", file, 0);
        self.tally.note(call, number);
        lent[0].truncate(length);
        answer.map(|_| std::mem::take(&mut lent[0]))
    }

    pub fn begin(&mut self, given: &Beginning, room: usize) -> Result<Vec<u8>, u8> {
        self.written(
            Call::Begin,
            || format!("begin {given:?}"),
            b"",
            room,
            |buffer| ffi::begin(given, buffer),
            |buffer| plain::begin(given, buffer),
        )
    }

    pub fn gather(&mut self, file: &[u8], row: usize, id: &[u8], room: usize) -> Result<Vec<u8>, u8> {
        self.written(
            Call::Gather,
            || format!("gather {:?} of row {row}", id.escape_ascii().to_string()),
            file,
            room,
            |buffer| ffi::gather(file, row, id, buffer),
            |buffer| plain::gather(file, row, id, buffer),
        )
    }

    pub fn relations_write(&mut self, file: &[u8], room: usize) -> Result<Vec<u8>, u8> {
        self.written(
            Call::RelationsWrite,
            || "relations written".to_string(),
            file,
            room,
            |buffer| ffi::relations_write(file, buffer),
            |buffer| plain::relations_write(file, buffer),
        )
    }

    pub fn relations_check(&mut self, file: &[u8], row: usize, room: usize) -> Result<Vec<u32>, u8> {
        let verdicts = self.written(
            Call::RelationsCheck,
            || format!("relations of row {row} checked"),
            file,
            room,
            |verdicts| ffi::relations_check(file, row, verdicts),
            |verdicts| plain::relations_check(file, row, verdicts),
        )?;
        self.tally.note_verdicts(&verdicts);
        Ok(verdicts)
    }

    /// Answers the row that holds and its verdicts.
    pub fn relations_check_latest(&mut self, file: &[u8], room: usize) -> Result<(usize, Vec<u32>), u8> {
        let (mut proved_row, mut plain_row) = (0, 0);
        let verdicts = self.written(
            Call::RelationsLatest,
            || "relations of the latest row checked".to_string(),
            file,
            room,
            |verdicts| {
                let answer = ffi::relations_check_latest(file, verdicts);
                proved_row = answer.row;
                (answer.count, answer.number)
            },
            |verdicts| {
                let (count, row) = plain::relations_check_latest(file, verdicts)?;
                plain_row = row;
                Ok(count)
            },
        );
        self.same(|| "the latest relations row".to_string(), proved_row, plain_row, file, 0);
        let verdicts = verdicts?;
        self.tally.note_verdicts(&verdicts);
        Ok((plain_row, verdicts))
    }

    /// Answers the text, and header, chunk and unread bytes, which add to the file's length.
    pub fn price(&mut self, file: &[u8], (fee, rate): (u64, u64), room: usize) -> Result<(Vec<u8>, [usize; 3]), u8> {
        let (mut proved_parts, mut plain_parts) = ([0; 3], [0; 3]);
        let text = self.written(
            Call::Price,
            || format!("price at {fee} and {rate}"),
            file,
            room,
            |buffer| {
                let answer = ffi::price(file, fee, rate, buffer);
                proved_parts = [answer.header, answer.chunks, answer.unread];
                (answer.length, answer.number)
            },
            |buffer| {
                let answer = plain::price(file, fee, rate, buffer)?;
                plain_parts = [answer.header, answer.chunks, answer.unread];
                Ok(answer.length)
            },
        );
        self.same(|| "header, chunk and unread bytes".to_string(), proved_parts, plain_parts, file, 0);
        let text = text?;
        let whole = proved_parts.iter().sum::<usize>() == file.len();
        self.demand(whole, &format!("{proved_parts:?} don't add to the file's length"), file, 0);
        Ok((text, proved_parts))
    }

    pub fn pack(&mut self, file: &[u8], room: usize) -> Result<Vec<u8>, u8> {
        self.written(
            Call::Pack,
            || format!("pack {} bytes", file.len()),
            file,
            room,
            |buffer| ffi::pack(file, buffer),
            |buffer| plain::pack(file, buffer),
        )
    }

    pub fn unpack(&mut self, blocks: &[u8], room: usize) -> Result<Vec<u8>, u8> {
        self.written(
            Call::Unpack,
            || format!("unpack {} bytes", blocks.len()),
            blocks,
            room,
            |buffer| ffi::unpack(blocks, buffer),
            |buffer| plain::unpack(blocks, buffer),
        )
    }

    pub fn listing(&mut self, input: &[u8], room: usize) -> Result<Vec<u8>, u8> {
        self.written(
            Call::Listing,
            || "listing".to_string(),
            input,
            room,
            |buffer| ffi::listing(input, buffer),
            |buffer| plain::listing(input, buffer),
        )
    }

    /// The file stands at the buffer's start, `length` bytes of the buffer are claimed for it. Answers the ends, and the
    /// buffer as it is after the call.
    pub fn append(&mut self, buffer: &[u8], length: usize, given: &Appended) -> Result<(Ends, Vec<u8>), u8> {
        let room = buffer.len();
        let lend = || [buffer, &[PATTERN; BEHIND]].concat();
        let (mut proved, mut plain) = (lend(), lend());
        let ends = ffi::append(
            &mut proved[..room],
            length,
            given.description.proved(),
            &given.parents,
            &given.specific,
            &given.data,
            given.open,
        );
        let answer = plain::append(
            &mut plain[..room],
            length,
            &given.description.plain(),
            &given.parents,
            &given.specific,
            &given.data,
            given.open,
        );
        let (number, as_c) = match answer {
            Ok(ends) => (0, ends),
            Err(number) => (number, Ends { first: 0, second: 0, third: 0 }),
        };
        let ffi_ends = Ends { first: ends.first, second: ends.second, third: ends.third };
        let name = || format!("append to {length} of {room} bytes, {given:?}");
        self.same(name, (ends.number, ffi_ends), (number, as_c), buffer, length);
        if let Some(at) = (0..room + BEHIND).find(|&at| proved[at] != plain[at]) {
            let what = format!("{}: byte {at} is {} and {}", name(), proved[at], plain[at]);
            self.fail(&what, &proved, at);
        }
        let before = lend();
        let old = if number == 0 { length } else { room };
        let kept = plain[..old] == before[..old] && plain[as_c.third.max(old)..] == before[as_c.third.max(old)..];
        self.demand(kept, "bytes beside the new chunk changed", &plain, length);
        self.tally.note(Call::Append, number);
        proved.truncate(room);
        answer.map(|ends| (ends, proved))
    }
}

/// What buffers and lists hold.
trait Lent: Copy + Debug + PartialEq + From<u8> + TryInto<u8> {}

impl<T: Copy + Debug + PartialEq + From<u8> + TryInto<u8>> Lent for T {}

/// What append is given beside the buffer and the file's length.
#[derive(Clone)]
pub struct Appended {
    pub description: Described,
    pub parents: Vec<usize>,
    pub specific: Vec<u8>,
    pub data: Vec<u8>,
    pub open: bool,
}

impl Debug for Appended {
    fn fmt(&self, text: &mut Formatter) -> fmt::Result {
        let (parents, specific, data) = (&self.parents, self.specific.len(), self.data.len());
        write!(text, "parents {parents:?}, {specific} and {data} bytes, open {}, {:?}", self.open, self.description)
    }
}

/// What a row holds before it is written.
pub const BLANK: Row = Row {
    serial: [PATTERN; 38],
    place: usize::MAX,
    header: 1,
    contents: 2,
    bytes: 3,
    end: 4,
    dependencies: 5,
    offset: -6,
    multichunk: true,
    good: true,
    ending: Ending::ByMiniChunks,
};
