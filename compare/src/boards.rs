//! Lists of operations on a board, through `h_board` and by the reference.

use crate::board_random::{list, shaped, words, SHAPES};
use crate::board_reference::{run as run_reference, Board, Operation, ACCEPTED, FULL};
use crate::engine::{in_threads, threads, Count, SHOWN};
use crate::harness::h_board;
use crate::lent::Lent;
use crate::random::Source;
use std::collections::BTreeMap;
use std::time::Instant;

/// How many operations are tried where no number is given.
pub const COUNT: u64 = 10_000_000;
/// How many operations a list has, about.
const LENGTH: u64 = 500;
/// How often each shape of a write is tried, from boards in different states.
const EACH_SHAPE: u64 = 100;

#[derive(Default)]
struct Seen {
    operations: u64,
    kinds: BTreeMap<&'static str, u64>,
    lists: u64,
    differ: u64,
    lines: Vec<String>,
}

fn kind(operation: &Operation, before: &Board, answer: u32) -> &'static str {
    match operation {
        Operation::Read(_) => "reads",
        Operation::Tick if !before.running() => "ticks with run clear",
        Operation::Tick if before.fill() == 0 => "ticks with run set on an empty queue",
        Operation::Tick => "ticks that took a sample",
        Operation::Write(4, bytes) if bytes.len() == 4 && answer == ACCEPTED => "samples accepted",
        Operation::Write(..) if answer == ACCEPTED => "other writes accepted",
        Operation::Write(..) if answer == FULL => "writes refused with 38",
        Operation::Write(..) => "writes refused with 39",
    }
}

impl Seen {
    /// One list of words with room for `room` answers.
    fn add(&mut self, name: &str, words: &[u32], room: usize) {
        let ops = Lent::of(words);
        let mut answers = Lent::any(room);
        let done = h_board(ops.part(), answers.part_mut());
        let expected = run_reference(words, room, |operation, before, answer| {
            *self
                .kinds
                .entry(kind(operation, before, answer))
                .or_default() += 1;
            self.operations += 1;
        });
        self.lists += 1;
        let right = 2 * done == expected.len()
            && answers.part()[..2 * done] == expected
            && answers.stays_but(2 * done)
            && ops.stays();
        if !right {
            self.differ += 1;
            let first = answers
                .part()
                .iter()
                .zip(&expected)
                .position(|(a, b)| a != b);
            self.lines.push(format!(
                "{name}: answer {first:?} of {}, {done} done",
                expected.len()
            ));
            self.lines.truncate(SHOWN);
        }
    }

    fn join(mut self, other: Seen) -> Seen {
        for (kind, count) in other.kinds {
            *self.kinds.entry(kind).or_default() += count;
        }
        self.operations += other.operations;
        self.lists += other.lists;
        self.differ += other.differ;
        self.lines.extend(other.lines);
        self
    }
}

/// Every shape of a write, each after a list of operations and before all reads.
fn shapes(seen: &mut Seen) {
    for place in 0..SHAPES {
        for length in 0..SHAPES {
            for i in 0..EACH_SHAPE {
                let mut s = Source::new(u64::MAX - i);
                let count = s.below(200) as usize;
                let mut operations = list(&mut s, count);
                operations.push(shaped(&mut s, place, length));
                operations.extend((0..SHAPES).map(Operation::Read));
                operations.push(Operation::Tick);
                let words: Vec<u32> = operations.iter().flat_map(Operation::words).collect();
                seen.add(
                    &format!("place {place} length {length} {i}"),
                    &words,
                    2 * operations.len(),
                );
            }
        }
    }
}

fn share(first: u64, count: u64) -> Seen {
    let mut seen = Seen::default();
    if first == 0 {
        shapes(&mut seen);
    }
    let mut i = first;
    while seen.operations < count / threads() as u64 {
        let mut s = Source::new(i);
        let length = 1 + s.below(2 * LENGTH) as usize;
        let operations = list(&mut s, length);
        let words = words(&mut s, &operations);
        let all = 2 * operations.len();
        let room = match s.below(16) {
            0 => s.below(all as u64 + 1) as usize,
            1 => all + s.below(20) as usize,
            _ => all + 2,
        };
        seen.add(&format!("list {i}"), &words, room);
        i += threads() as u64;
    }
    seen
}

/// Compares lists of `count` operations and a few more.
pub fn run(count: u64) -> Count {
    let begun = Instant::now();
    let shares = in_threads(|thread| share(thread, count));
    let all = shares.into_iter().fold(Seen::default(), Seen::join);
    let seconds = begun.elapsed().as_secs_f64();
    println!(
        "{} operations in {} lists, {} differ, {seconds:.1} s",
        all.operations, all.lists, all.differ
    );
    for (kind, count) in &all.kinds {
        println!("  {count:>8} {kind}");
    }
    for line in &all.lines {
        println!("  {line}");
    }
    Count {
        cases: all.operations,
        differ: all.differ,
    }
    .printed()
}
