//! The comparison of the proved library with `plain`: `cargo test --release --offline`.
//!
//! Every run makes the same calls; another seed is taken from ADS_SEED. A difference ends the run and prints part, case,
//! seed and the bytes around it. At the end stands how often each number of each call arose.

use std::time::Instant;

use compare::both::Run;
use compare::parts::{
    ancestors, appends, begins, blocks, cuts, damaged, latest, limits, listings, marks, pairs, prices, relation_lines,
    relations, rich, valid,
};

type Part = (&'static str, fn(&mut Run));

const PARTS: [Part; 16] = [
    ("valid files", |run| valid::run(run, 1500)),
    ("a rich file", rich::run),
    ("two faults", pairs::run),
    ("damaged files", |run| damaged::run(run, 400, 100)),
    ("begin", |run| begins::run(run, 2500)),
    ("append", |run| appends::run(run, 2500)),
    ("open marks", |run| marks::run(run, 3000)),
    ("power cuts", |run| cuts::run(run, 24)),
    ("relations", |run| relations::run(run, 1500)),
    ("relation lines", relation_lines::run),
    ("the latest relations", |run| latest::run(run, 1500)),
    ("prices", |run| prices::run(run, 1500)),
    ("ancestors", |run| ancestors::run(run, 400)),
    ("listings", listings::run),
    ("limits", limits::run),
    ("blocks", |run| blocks::run(run, 1500)),
];

fn main() {
    let seed = match std::env::var("ADS_SEED") {
        Ok(text) => text.parse().expect("ADS_SEED is a number"),
        Err(_) => 20_240_229,
    };
    let start = Instant::now();
    let mut run = Run::new(seed);
    for (name, part) in PARTS {
        let (calls, at) = (run.tally.total(), Instant::now());
        part(&mut run);
        println!("{name:24} {:8} calls, {:6.2} s", run.tally.total() - calls, at.elapsed().as_secs_f64());
    }
    println!("comparison with seed {seed}: how often each number of each call arose");
    run.tally.print();
    println!("{} calls, no difference, {:.1} s", run.tally.total(), start.elapsed().as_secs_f64());
    run.tally.check();
}
