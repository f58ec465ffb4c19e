//! Two faults at once in a rich file, so that the order of the tests decides: each field with the one behind it, and each
//! length with every field behind it in its chunk.

use crate::both::Run;
use crate::build::{File, Kind, Span};
use crate::damage::{own_ways, ways, Way};
use crate::parts::rich::files;
use crate::random::Random;

pub fn run(run: &mut Run) {
    run.part = "two faults in a rich file";
    run.case = 0;
    for (name, file) in files() {
        run.names = vec![name.to_string()];
        for first in 0..file.spans.len() - 1 {
            let behind = match file.spans[first].kind {
                kind if is_length(kind) => file.spans.len(),
                _ => first + 3,
            };
            for second in first + 1..behind.min(file.spans.len()) {
                if second > first + 1 && file.spans[second].kind == Kind::OwnSerial {
                    break;
                }
                pair(run, &file, file.spans[first], file.spans[second]);
            }
        }
    }
}

fn is_length(kind: Kind) -> bool {
    let lengths =
        [Kind::HeaderLength, Kind::DependencyLength, Kind::MultiLength, Kind::SubTypeLength, Kind::ContentLength];
    lengths.contains(&kind)
}

/// Every way of the first; of the second one of its own, and the file's end.
fn pair(run: &mut Run, file: &File, first: Span, second: Span) {
    for way in own_ways(first) {
        run.case += 1;
        let mut random = Random::new(run.seed, run.part, run.case);
        let own: Vec<Way> = own_ways(second).copied().collect();
        let other = if own.is_empty() { random.pick(&ways(second)) } else { random.pick(&own) };
        two(run, file, (first, *way), (second, other));
        let end = Way { name: "the file ends before it", number: None, apply: |f, s, _| f.truncate(s.start) };
        two(run, file, (first, *way), (second, end));
    }
}

fn two(run: &mut Run, file: &File, first: (Span, Way), second: (Span, Way)) {
    run.names.truncate(1);
    let mut random = Random::new(run.seed, run.part, run.case);
    let mut bytes = file.bytes.clone();
    for (span, way) in [second, first] {
        run.names.push(format!("{:?} at {}: {}", span.kind, span.start, way.name));
        (way.apply)(&mut bytes, span, &mut random);
    }
    run.read(&bytes, 5);
}
