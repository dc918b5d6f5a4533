//! Cases on standard output, for the hosts of robust/.

use crate::progress::Progress;
use std::env;
use std::io::{self, BufWriter, StdoutLock, Write};

pub type Out = BufWriter<StdoutLock<'static>>;

/// In how many equal shares `robust/run` has the cases written, by `COMPARE_SHARES`; it names them to one
/// share alone, which then shows how far all of them are.
fn shares() -> u64 {
    let asked = env::var("COMPARE_SHARES").ok();
    asked.and_then(|text| text.parse().ok()).unwrap_or(0)
}

/// Writes `count` cases from number `first` on, each by `put`.
pub fn run(
    what: &str,
    first: u64,
    count: u64,
    put: impl Fn(u64, &mut Out) -> io::Result<()>,
) -> io::Result<()> {
    let shares = shares();
    let progress = match shares {
        0 => Progress::unseen(),
        _ => Progress::new(what, count * shares),
    };
    let mut out = BufWriter::with_capacity(1 << 20, io::stdout().lock());
    for number in first..first + count {
        put(number, &mut out)?;
        progress.add(shares);
    }
    out.flush()
}
