//! What a run of calls came to: how often each outcome came up, and what differs.

use crate::engine::{in_threads, Count, SHOWN};
use crate::progress::Progress;
use crate::reference::NO_CALL;
use crate::waves::WAVES;
use std::collections::BTreeMap;
use std::time::Instant;

/// The places that waves stand at.
const PLACES: usize = 18;

#[derive(Default)]
pub struct Tried {
    outcomes: BTreeMap<u32, u64>,
    marked: BTreeMap<&'static str, u64>,
    by_wave: BTreeMap<&'static str, [u64; PLACES]>,
    differ: u64,
    lines: Vec<String>,
}

impl Tried {
    /// One call by the number that the reference gives, and what differs.
    pub fn add(&mut self, number: u32, differs: Option<String>) {
        *self.outcomes.entry(number).or_default() += 1;
        if let Some(line) = differs {
            self.differ += 1;
            self.lines.push(line);
            self.lines.truncate(SHOWN);
        }
    }

    /// One more call of a kind that is worth a line.
    pub fn mark(&mut self, kind: &'static str) {
        *self.marked.entry(kind).or_default() += 1;
    }

    pub fn mark_if(&mut self, kind: &'static str, is: bool) {
        if is {
            self.mark(kind);
        }
    }

    /// Whether one more call of this wave is of a kind; the fewest calls of any wave are worth a line.
    pub fn mark_wave(&mut self, wave: u32, kind: &'static str, is: bool) {
        self.by_wave.entry(kind).or_default()[wave as usize] += is as u64;
    }

    fn join(mut self, other: Tried) -> Tried {
        for (number, count) in other.outcomes {
            *self.outcomes.entry(number).or_default() += count;
        }
        for (kind, count) in other.marked {
            *self.marked.entry(kind).or_default() += count;
        }
        for (kind, counts) in other.by_wave {
            let all = self.by_wave.entry(kind).or_default();
            all.iter_mut().zip(counts).for_each(|(a, b)| *a += b);
        }
        self.differ += other.differ;
        self.lines.extend(other.lines);
        self
    }
}

/// Has each thread try its share of about `count` cases, and prints what came of it.
pub fn run(what: &str, count: u64, share: impl Fn(u64, &Progress) -> Tried + Sync) -> Count {
    let begun = Instant::now();
    let progress = Progress::new(what, count);
    let all = in_threads(|thread| share(thread, &progress))
        .into_iter()
        .fold(Tried::default(), Tried::join);
    drop(progress);
    let cases: u64 = all.outcomes.values().sum();
    let seconds = begun.elapsed().as_secs_f64();
    println!("{cases} {what}, {} differ, {seconds:.1} s", all.differ);
    for (number, count) in &all.outcomes {
        match *number {
            0 => println!("  {count:>8} accepted"),
            NO_CALL => println!("  {count:>8} not made"),
            number => println!("  {count:>8} refused with {number}"),
        }
    }
    for (kind, count) in &all.marked {
        println!("  {count:>8} {kind}");
    }
    for (kind, counts) in &all.by_wave {
        let least = WAVES.iter().map(|w| (counts[w.0 as usize], w.1)).min();
        let (count, wave) = least.expect("there are waves");
        println!("  {count:>8} or more of each wave {kind} ({wave})");
    }
    for line in all.lines.iter().take(SHOWN) {
        println!("  {line}");
    }
    let differ = all.differ;
    Count { cases, differ }.printed()
}

/// The first of these that holds.
pub fn first_of(faults: &[(&str, bool)]) -> Option<String> {
    faults.iter().find(|f| f.1).map(|f| f.0.to_string())
}
