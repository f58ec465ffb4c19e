//! "All that a chunk rests on."

use std::collections::{BTreeSet, HashMap, HashSet};

use crate::chunk::Chunk;
use crate::field::compared;
use crate::number::{over_limit, CIRCLE, LIMIT, OVER_64, ROOM, ROW};
use crate::reading::rows;

/// How many rows are listed, and "the count of those dependencies, of k and of the listed rows, that name no row".
#[derive(Clone, Copy, Debug, PartialEq, Eq)]
pub struct Ancestry {
    pub count: usize,
    pub missing: usize,
}

/// "every row that can be reached from row k by dependencies, each listed one time, in file order, k left out", into a lent list.
/// "more than 64 rows in the reading gives 24, after 13 and before 23"; 18 last.
pub fn ancestors(file: &[u8], row: usize, list: &mut [usize]) -> Result<Ancestry, u8> {
    if over_limit(&[file.len()]) {
        return Err(LIMIT);
    }
    let rows: Vec<Chunk> = rows(file).collect();
    if row >= rows.len() {
        return Err(ROW);
    }
    if rows.len() > 64 {
        return Err(OVER_64);
    }
    let mut search = Search::new(file, &rows);
    search.visit(row)?;
    let found: Vec<usize> = search.done.iter().copied().filter(|&each| each != row).collect();
    list.get_mut(..found.len()).ok_or(ROOM)?.copy_from_slice(&found);
    Ok(Ancestry { count: found.len(), missing: search.missing })
}

/// Depth first: the rows of the chain that is followed, and those whose own chains are all followed.
struct Search<'a> {
    file: &'a [u8],
    rows: &'a [Chunk<'a>],
    by_serial: HashMap<&'a [u8], usize>,
    path: HashSet<usize>,
    done: BTreeSet<usize>,
    missing: usize,
}

impl<'a> Search<'a> {
    fn new(file: &'a [u8], rows: &'a [Chunk<'a>]) -> Self {
        let by_serial = rows.iter().enumerate().map(|(row, chunk)| (compared(chunk.serial), row)).collect();
        Search { file, rows, by_serial, path: HashSet::new(), done: BTreeSet::new(), missing: 0 }
    }

    /// "If a chain from k comes back to any chunk on it, the number is 23".
    fn visit(&mut self, row: usize) -> Result<(), u8> {
        if self.done.contains(&row) {
            return Ok(());
        }
        if !self.path.insert(row) {
            return Err(CIRCLE);
        }
        let chunk = &self.rows[row];
        for (serial, _) in (0..chunk.dependencies).map(|j| chunk.dependency(self.file, j)) {
            match self.by_serial.get(compared(serial)) {
                Some(&parent) => self.visit(parent)?,
                None => self.missing += 1,
            }
        }
        self.path.remove(&row);
        self.done.insert(row);
        Ok(())
    }
}
