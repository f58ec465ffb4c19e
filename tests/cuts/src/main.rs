//! Appends cut by a loss of power. Of each kind one append is cut at every byte of each of its three writes, with several
//! choices of lost 512-byte blocks; what is left is read, and compared with what is demanded of the reading then: the old
//! rows and the old end, or, where the finished file stands, these and the new row. It prints how many cuts there were of
//! each kind, and what they left; `tests/stored.rs` holds that to the file `stdout`.
//!
//! A cut leaves the old bytes, the writes before that one whole, and the first bytes of that one, in which every byte in
//! a chosen block is zero; blocks are counted from the file's first byte.

mod kinds;

use ads::{Parent, Refusal, Row};
use kinds::{kinds, Append, BLOCK};

/// What a reading of a file gives, with the parents of all its rows.
#[derive(PartialEq)]
struct Read {
    rows: Vec<Row>,
    stop: usize,
    good: bool,
    clean: bool,
    parents: Vec<Vec<Option<Parent>>>,
}

fn read(file: &[u8], room: usize, parents: bool) -> Result<Read, Refusal> {
    let mut rows = vec![Row::default(); room];
    let reading = ads::read(file, &mut rows);
    rows.truncate(reading.count);
    let of = |(row, of): (usize, &Row)| (0..of.dependencies).map(|j| ads::parent(file, row, j)).collect();
    let parents = if parents { rows.iter().enumerate().map(of).collect::<Result<_, _>>()? } else { Vec::new() };
    Ok(Read { stop: reading.stop, good: reading.good, clean: reading.is_clean(file), rows, parents })
}

/// The blocks to lose, of those that the bytes from `from` to `to` touch: none, all, every second one, each alone.
fn choices(from: usize, to: usize) -> Vec<Vec<usize>> {
    let blocks: Vec<usize> = (from / BLOCK..to.div_ceil(BLOCK)).collect();
    let half = |odd: usize| blocks.iter().copied().filter(|block| block % 2 == odd).collect();
    let mut chosen = vec![Vec::new(), blocks.clone(), half(0), half(1)];
    chosen.extend(blocks.iter().map(|&block| vec![block]));
    chosen
}

/// Old rows that were found stay found; one that was missing is found only in the finished file, at the new row.
fn parents_kept(old: &Read, left: &Read, finished: bool) -> bool {
    old.parents.iter().zip(&left.parents).all(|(before, now)| {
        before.iter().zip(now).all(|(before, now)| match before {
            Some(_) => before == now,
            None => now.is_none() || finished && now.is_some_and(|parent| parent.row == old.rows.len()),
        })
    })
}

fn main() -> Result<(), Refusal> {
    let mut total = 0;
    for (name, append) in kinds()? {
        let Append { finished, length, ends, parents } = append;
        let room = 16;
        let old = read(&finished[..length], room, parents)?;
        let done = read(&finished, room, parents)?;
        assert!(old.clean && done.clean && done.rows.len() == old.rows.len() + 1, "{name}");
        assert!(
            done.rows.starts_with(&old.rows) && done.stop == finished.len() && parents_kept(&old, &done, true),
            "{name}"
        );
        let starts = [length, ends.first, ends.second];
        let (mut cuts, mut whole, mut none) = (0, 0, 0);
        for (write, (from, end)) in starts.into_iter().zip([ends.first, ends.second, ends.third]).enumerate() {
            for to in from..=end {
                for lost in choices(from, to) {
                    let mut left = finished[..to].to_vec();
                    for place in from..to {
                        if lost.contains(&(place / BLOCK)) {
                            left[place] = 0;
                        }
                    }
                    let now = read(&left, room, parents)?;
                    let (is_done, is_old) = (left == finished, left == finished[..length]);
                    let at = format!("{name}, write {}, up to {to}, lost {lost:?}", write + 1);
                    if is_done {
                        assert!(now == done, "{at}");
                    } else {
                        assert!(now.rows == old.rows && now.stop == length && now.good == old.good, "{at}");
                        assert!(now.clean == is_old && parents_kept(&old, &now, false), "{at}");
                    }
                    cuts += 1;
                    whole += usize::from(is_done);
                    none += usize::from(is_old);
                }
            }
        }
        println!("{name}: {cuts} cuts, {none} left the old file, {whole} the finished one");
        total += cuts;
    }
    println!("{total} cuts, each read as demanded");
    Ok(())
}
