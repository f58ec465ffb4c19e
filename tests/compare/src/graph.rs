//! Rows that depend on each other: files with given dependencies, and what a row rests on, by the closure of its steps.

use plain::Serial;

use crate::build::{Contents, File};
use crate::simple::{chunk, closing, MISSING};

/// For each row its dependencies: the number of a row, or none.
pub type Graph = Vec<Vec<Option<usize>>>;

/// Each row names the one before.
pub fn chain(count: usize) -> Graph {
    (0..count).map(|row| row.checked_sub(1).map(Some).into_iter().collect()).collect()
}

/// Each row names all before.
pub fn all_before(count: usize) -> Graph {
    (0..count).map(|row| (0..row).map(Some).collect()).collect()
}

/// Empty chunks under LLC000 with these serial numbers.
pub fn file(graph: &Graph, serials: &[Serial]) -> File {
    let mut file = File::new(false, b"", &closing(MISSING));
    for (parents, serial) in graph.iter().zip(serials) {
        let mut chunk = chunk(*serial, Contents::Counted(Vec::new()));
        let named = parents.iter().map(|parent| parent.map_or(MISSING, |row| serials[row]));
        chunk.dependencies = named.map(|serial| (serial, chunk.sub_format.clone())).collect();
        file.push(&chunk);
    }
    file
}

/// Rows and how many dependencies name none; or the number of a refusal.
pub type Answer = Result<(Vec<usize>, usize), u8>;

/// The rows that each row reaches, as bits, and its dependencies that name none.
pub struct Closure {
    reached: Vec<u128>,
    missing: Vec<usize>,
}

impl Closure {
    /// Of the first so many rows; those behind them are none.
    pub fn of(graph: &Graph, count: usize) -> Self {
        let there = |parent: &Option<usize>| parent.filter(|&row| row < count);
        let step = |parents: &Vec<Option<usize>>| parents.iter().filter_map(there).fold(0, |rows, row| rows | 1 << row);
        let mut reached: Vec<u128> = graph[..count].iter().map(step).collect();
        for by in 0..count {
            for row in 0..count {
                if reached[row] >> by & 1 == 1 {
                    reached[row] |= reached[by];
                }
            }
        }
        let missing = |parents: &Vec<Option<usize>>| parents.iter().filter(|parent| there(parent).is_none()).count();
        Closure { reached, missing: graph[..count].iter().map(missing).collect() }
    }

    /// "every row that can be reached from row k [..], k left out, with the count of those dependencies, of k and of the listed
    /// rows, that name no row."
    pub fn answer(&self, row: usize) -> Answer {
        let count = self.reached.len();
        if row >= count {
            return Err(13);
        }
        if count > 64 {
            return Err(24);
        }
        let goes = |from: usize, to: usize| self.reached[from] >> to & 1 == 1;
        let rows: Vec<usize> = (0..count).filter(|&each| each == row || goes(row, each)).collect();
        if rows.iter().any(|&each| goes(each, each)) {
            return Err(23);
        }
        let missing = rows.iter().map(|&each| self.missing[each]).sum();
        Ok((rows.into_iter().filter(|&each| each != row).collect(), missing))
    }
}
