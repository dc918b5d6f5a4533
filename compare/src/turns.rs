//! The sides of a measurement in turn: the library, the original and, where the build was given one, an earlier
//! library. And tables of them in Markdown.

use crate::harness::Library;
use std::hint::black_box;
use std::time::Instant;

/// By how much a row may be slower than the earlier library's before it is named.
const SLOWER: f64 = 1.03;

/// The fastest rounds of each side, in nanoseconds.
#[derive(Clone, Copy)]
pub struct Times {
    pub ours: f64,
    pub theirs: f64,
    pub old: Option<f64>,
}

impl Times {
    /// Before the first round.
    pub fn none() -> Times {
        Times {
            ours: f64::INFINITY,
            theirs: f64::INFINITY,
            old: has_old().then_some(f64::INFINITY),
        }
    }

    /// A round of each side. Two libraries go twice, the second time the other way round.
    pub fn round<A, B>(
        &mut self,
        mut ours: impl FnMut(Library) -> A,
        mut theirs: impl FnMut() -> B,
    ) {
        for &library in Library::ALL {
            self.take(library, nanoseconds(|| ours(library)));
        }
        self.theirs = self.theirs.min(nanoseconds(&mut theirs));
        if has_old() {
            for &library in Library::ALL.iter().rev() {
                self.take(library, nanoseconds(|| ours(library)));
            }
        }
    }

    fn take(&mut self, library: Library, time: f64) {
        if library == Library::Own {
            self.ours = self.ours.min(time);
        } else {
            self.old = self.old.map(|old| old.min(time));
        }
    }

    /// The same for each of so many.
    pub fn per(self, count: usize) -> Times {
        let each = |time| time / count as f64;
        Times {
            ours: each(self.ours),
            theirs: each(self.theirs),
            old: self.old.map(each),
        }
    }

    /// The faster ones of two runs.
    pub fn least(self, other: Times) -> Times {
        Times {
            ours: self.ours.min(other.ours),
            theirs: self.theirs.min(other.theirs),
            old: self.old.zip(other.old).map(|(a, b)| a.min(b)),
        }
    }

    /// The library's time to the original's.
    pub fn ratio(&self) -> f64 {
        self.ours / self.theirs
    }

    /// The library's time to the earlier one's.
    pub fn to_old(&self) -> Option<f64> {
        self.old.map(|old| self.ours / old)
    }
}

/// Whether there is an earlier library.
pub fn has_old() -> bool {
    Library::ALL.len() > 1
}

fn nanoseconds<A>(mut call: impl FnMut() -> A) -> f64 {
    let begun = Instant::now();
    black_box(call());
    begun.elapsed().as_nanos() as f64
}

/// The fastest of `rounds` of each side in turn, in nanoseconds a sample.
pub fn fastest<A, B>(
    rounds: usize,
    samples: usize,
    mut ours: impl FnMut(Library) -> A,
    mut theirs: impl FnMut() -> B,
) -> Times {
    let mut times = Times::none();
    for _ in 0..rounds {
        times.round(&mut ours, &mut theirs);
    }
    times.per(samples)
}

/// The geometric mean.
pub fn mean(ratios: impl IntoIterator<Item = f64>) -> f64 {
    let logs: Vec<f64> = ratios.into_iter().map(f64::ln).collect();
    (logs.iter().sum::<f64>() / logs.len() as f64).exp()
}

/// The head of a table: names of a row, then of columns with so many cells each.
pub fn print_head(names: &[&str], cells: &[String]) {
    println!("| {} | {} |", names.join(" | "), cells.join(" | "));
    println!("{}|", "|---".repeat(names.len() + cells.len()));
}

/// A table that is printed row by row: of each column the library's time, the original's and their ratio; then, where
/// there is an earlier library, the ratio to it.
pub struct Table {
    names: usize,
    columns: Vec<String>,
    /// Nanoseconds in a unit of the table.
    unit: f64,
    rows: Vec<(String, Vec<Times>)>,
}

impl Table {
    /// Prints the head. `names` stand over what a row is called by.
    pub fn new(names: &[&str], columns: &[&str], unit: f64) -> Table {
        let mut cells = Vec::new();
        for column in columns {
            cells.extend([*column, "original", "ratio"].map(String::from));
            if has_old() {
                cells.push("to the old".to_string());
            }
        }
        print_head(names, &cells);
        Table {
            names: names.len(),
            columns: columns.iter().map(|column| column.to_string()).collect(),
            unit,
            rows: Vec::new(),
        }
    }

    /// Prints a row. Where there are several names they are parted by ` | `.
    pub fn row(&mut self, name: &str, times: Vec<Times>) {
        print!("| {name} |");
        for time in &times {
            let (ours, theirs) = (time.ours / self.unit, time.theirs / self.unit);
            print!(" {ours:.2} | {theirs:.2} | {:.2} |", time.ratio());
            if let Some(to_old) = time.to_old() {
                print!(" {to_old:.3} |");
            }
        }
        println!();
        self.rows.push((name.to_string(), times));
    }

    /// A row of geometric means.
    pub fn means(&self) {
        let of = |place: usize, ratio: fn(&Times) -> f64| {
            mean(self.rows.iter().map(|(_, times)| ratio(&times[place])))
        };
        self.last("geometric mean", of);
    }

    /// A row of the largest ratios.
    pub fn largest(&self) {
        let of = |place: usize, ratio: fn(&Times) -> f64| {
            let ratios = self.rows.iter().map(|(_, times)| ratio(&times[place]));
            ratios.fold(0.0, f64::max)
        };
        self.last("largest", of);
    }

    fn last(&self, name: &str, of: impl Fn(usize, fn(&Times) -> f64) -> f64) {
        print!("| {name} |{}", " |".repeat(self.names - 1));
        for place in 0..self.columns.len() {
            print!(" | | {:.2} |", of(place, Times::ratio));
            if has_old() {
                print!(" {:.3} |", of(place, |times| times.to_old().unwrap_or(1.0)));
            }
        }
        println!();
    }

    /// The rows that are slower than the earlier library's, where there is one.
    pub fn against_old(&self) {
        let mut cells = Vec::new();
        for (name, times) in &self.rows {
            for (column, time) in self.columns.iter().zip(times) {
                cells.push((format!("{name}, {column}"), *time));
            }
        }
        print_against_old(&cells);
    }
}

/// How many of these are slower than the earlier library's, and which.
pub fn print_against_old(cells: &[(String, Times)]) {
    let ratios: Vec<(&str, f64)> = cells
        .iter()
        .filter_map(|(name, times)| Some((name.as_str(), times.to_old()?)))
        .collect();
    if ratios.is_empty() {
        return;
    }
    let slower: Vec<_> = ratios.iter().filter(|(_, ratio)| *ratio > SLOWER).collect();
    println!(
        "To the old library: mean {:.3}, {} of {} above {SLOWER}",
        mean(ratios.iter().map(|(_, ratio)| *ratio)),
        slower.len(),
        ratios.len()
    );
    for (name, ratio) in slower {
        println!("  {ratio:.3} {name}");
    }
}
