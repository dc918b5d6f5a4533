//! Two functions on the same cases, in several threads.

use crate::progress::Progress;
use std::env;
use std::iter::Sum;
use std::ops::Add;
use std::sync::atomic::{AtomicU64, Ordering};
use std::sync::OnceLock;
use std::thread;
use std::time::Instant;

/// How many cases a thread takes at a time.
const CHUNK: u64 = 1 << 16;
/// How many differing cases of a function are printed.
pub const SHOWN: usize = 5;

/// How many cases were compared, and how many of them differ.
#[derive(Clone, Copy, Default)]
pub struct Count {
    pub cases: u64,
    pub differ: u64,
}

impl Add for Count {
    type Output = Count;
    fn add(self, other: Count) -> Count {
        Count {
            cases: self.cases + other.cases,
            differ: self.differ + other.differ,
        }
    }
}

impl Sum for Count {
    fn sum<I: Iterator<Item = Count>>(counts: I) -> Count {
        counts.fold(Count::default(), Count::add)
    }
}

impl Count {
    /// With the last line that every comparison prints.
    pub fn printed(self) -> Count {
        println!("{} differ in all", self.differ);
        self
    }
}

/// A result that is compared bit for bit, where one NaN counts as any other.
pub trait Answer: Copy {
    fn same(self, other: Self) -> bool;
    fn show(self) -> String;
}

impl Answer for f32 {
    fn same(self, other: f32) -> bool {
        self.to_bits() == other.to_bits() || (self.is_nan() && other.is_nan())
    }
    fn show(self) -> String {
        format!("{:08x}", self.to_bits())
    }
}

impl Answer for f64 {
    fn same(self, other: f64) -> bool {
        self.to_bits() == other.to_bits() || (self.is_nan() && other.is_nan())
    }
    fn show(self) -> String {
        format!("{:016x}", self.to_bits())
    }
}

impl Answer for usize {
    fn same(self, other: usize) -> bool {
        self == other
    }
    fn show(self) -> String {
        self.to_string()
    }
}

impl Answer for u64 {
    fn same(self, other: u64) -> bool {
        self == other
    }
    fn show(self) -> String {
        format!("{self:016x}")
    }
}

impl Answer for i32 {
    fn same(self, other: i32) -> bool {
        self == other
    }
    fn show(self) -> String {
        self.to_string()
    }
}

impl Answer for i64 {
    fn same(self, other: i64) -> bool {
        self == other
    }
    fn show(self) -> String {
        self.to_string()
    }
}

impl<A: Answer, B: Answer> Answer for (A, B) {
    fn same(self, other: (A, B)) -> bool {
        self.0.same(other.0) && self.1.same(other.1)
    }
    fn show(self) -> String {
        format!("{} {}", self.0.show(), self.1.show())
    }
}

/// Whether two runs of values are the same, NaNs counting as one; the first place where they part.
pub fn same_values(ours: &[f32], theirs: &[f32]) -> Result<(), usize> {
    let pairs = ours.iter().zip(theirs);
    match pairs.enumerate().find(|(_, (a, b))| !a.same(**b)) {
        Some((i, _)) => Err(i),
        None if ours.len() != theirs.len() => Err(ours.len().min(theirs.len())),
        None => Ok(()),
    }
}

/// How many threads compare: `COMPARE_THREADS`, or as many as the machine runs at once.
pub fn threads() -> usize {
    static COUNT: OnceLock<usize> = OnceLock::new();
    *COUNT.get_or_init(|| {
        let asked = env::var("COMPARE_THREADS").ok();
        match asked.and_then(|text| text.parse().ok()) {
            Some(count) if count > 0 => count,
            _ => thread::available_parallelism().map_or(1, usize::from),
        }
    })
}

/// What each thread's share of a work gives; the work is handed the thread's number.
pub fn in_threads<R: Send>(work: impl Fn(u64) -> R + Sync) -> Vec<R> {
    let work = &work;
    thread::scope(|scope| {
        let spawn = |t| scope.spawn(move || work(t));
        let threads: Vec<_> = (0..threads() as u64).map(spawn).collect();
        threads.into_iter().map(|t| t.join().unwrap()).collect()
    })
}

/// What is tried of one function: `count` cases, of which `case` makes number i.
pub struct Cases<C> {
    pub count: u64,
    pub case: C,
}

/// What differs: how many cases, and the lines to print of the first few.
#[derive(Default)]
struct Differing {
    count: u64,
    lines: Vec<String>,
}

/// Compares one function and prints its line.
pub fn compare<X: Answer, A: Answer>(
    name: &str,
    cases: &Cases<impl Fn(u64) -> X + Sync>,
    library: impl Fn(X) -> A + Sync,
    rust: impl Fn(X) -> A + Sync,
) -> Count {
    let begun = Instant::now();
    let next = AtomicU64::new(0);
    let progress = Progress::new(name, cases.count);
    let shares = in_threads(|_| compare_share(&next, &progress, cases, &library, &rust));
    drop(progress);
    let seconds = begun.elapsed().as_secs_f64();
    let differ: u64 = shares.iter().map(|d| d.count).sum();
    let cases = cases.count;
    println!("{name:8} {cases:>10} compared, {differ} differ, {seconds:.1} s");
    for line in shares.iter().flat_map(|d| &d.lines).take(SHOWN) {
        println!("  {name} {line}");
    }
    Count { cases, differ }
}

/// One thread's share: chunks of cases, as long as there are any left.
fn compare_share<X: Answer, A: Answer>(
    next: &AtomicU64,
    progress: &Progress,
    cases: &Cases<impl Fn(u64) -> X>,
    library: impl Fn(X) -> A,
    rust: impl Fn(X) -> A,
) -> Differing {
    let mut differing = Differing::default();
    loop {
        let first = next.fetch_add(CHUNK, Ordering::Relaxed);
        if first >= cases.count {
            return differing;
        }
        let after = cases.count.min(first + CHUNK);
        for i in first..after {
            let x = (cases.case)(i);
            let (ours, theirs) = (library(x), rust(x));
            if !ours.same(theirs) {
                differing.count += 1;
                if differing.lines.len() < SHOWN {
                    let (x, ours, theirs) = (x.show(), ours.show(), theirs.show());
                    let line = format!("{x}: library {ours}, Rust {theirs}");
                    differing.lines.push(line);
                }
            }
        }
        progress.add(after - first);
    }
}
