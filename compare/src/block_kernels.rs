//! The kernels over blocks, as voices call them, against the original's det.rs value by value: all f32 patterns in their
//! order; then all that the passes without a branch cover, mixed, and blocks that have one other value among them.

use crate::engine::{in_threads, Answer, Count, SHOWN};
use crate::harness::{h_expf_block, h_sinf_block, h_tanhf_block};
use crate::progress::Progress;
use crate::random::draw_at;
use std::ops::Range;
use std::sync::atomic::{AtomicU64, Ordering};
use std::time::Instant;
use tono::det;

const PATTERNS: u64 = 1 << 32;
/// The values that a block of the sines and of the tangents holds, the most of all.
const MOST: usize = 384;
/// How many blocks a thread takes at a time.
const CHUNK: u64 = 1 << 8;
/// Values that are lent beyond a block's own, and what stands in all room before a call, which is no NaN.
const BEYOND: usize = 3;
const UNTOUCHED: u32 = 0xcb5c_1235;
/// One mixed block in so many has a value of any pattern in one place, every second time in the first.
const OTHERS: u64 = 8;

struct Kernel {
    name: &'static str,
    /// How many values a block holds.
    most: usize,
    ours: fn(&[f32], &mut [f32]) -> usize,
    theirs: fn(f32) -> f32,
    /// The patterns that are mixed, and which of them the passes without a branch cover.
    mixed: &'static [Range<u64>],
    covers: fn(f32) -> bool,
}

const KERNELS: [Kernel; 3] = [
    Kernel {
        name: "sinf",
        most: MOST,
        ours: h_sinf_block,
        theirs: det::sinf,
        // below 2^53 in size, which is more than 2^50 turns
        mixed: &[0..0x5a00_0000, 0x8000_0000..0xda00_0000],
        covers: has_sure_turns,
    },
    Kernel {
        name: "expf",
        most: 64,
        ours: h_expf_block,
        theirs: det::expf,
        // below 0 and above -80
        mixed: &[0x8000_0001..0xc2a0_0000],
        covers: |_| true,
    },
    Kernel {
        name: "tanhf",
        most: MOST,
        ours: h_tanhf_block,
        theirs: det::tanhf,
        // above 0 and below 20 in size
        mixed: &[1..0x41a0_0000, 0x8000_0001..0xc1a0_0000],
        covers: |_| true,
    },
];

/// Whether the nearest number of turns comes from a sum with 1.5 * 2^52: below 2^50, and no half.
fn has_sure_turns(x: f32) -> bool {
    const WHOLE: f64 = 1.5 * (1u64 << 52) as f64;
    let turns = f64::from(x) * 1.59154943091895335769e-01;
    let past = turns - ((turns + WHOLE) - WHOLE);
    turns.abs() < (1u64 << 50) as f64 && past.abs() < 0.5
}

/// A block: its values, how many of them, and how many the first of its two calls gets; 0 where there is one call.
struct Block {
    x: [f32; MOST],
    n: usize,
    first: usize,
}

fn greatest_divisor(a: u64, b: u64) -> u64 {
    if b == 0 {
        a
    } else {
        greatest_divisor(b, a % b)
    }
}

/// A step through so many places that comes to each of them once, and far from the one before.
fn stride(places: u64) -> u64 {
    let from = places / 1000 * 618;
    (from..places)
        .find(|step| greatest_divisor(*step, places) == 1)
        .unwrap_or(1)
}

impl Kernel {
    /// The pattern at a place of those that are mixed.
    fn mixed_at(&self, mut place: u64) -> u32 {
        for range in self.mixed {
            let count = range.end - range.start;
            if place < count {
                return (range.start + place) as u32;
            }
            place -= count;
        }
        unreachable!("a place is below the number of them all")
    }

    /// How many are mixed.
    fn places(&self) -> u64 {
        let counts = self.mixed.iter().map(|range| range.end - range.start);
        counts.sum()
    }

    /// Block number i of the patterns in their order.
    fn in_order(&self, i: u64, block: &mut Block) {
        let first = i * self.most as u64;
        block.n = (PATTERNS - first).min(self.most as u64) as usize;
        for (k, x) in block.x[..block.n].iter_mut().enumerate() {
            *x = f32::from_bits((first + k as u64) as u32);
        }
    }

    /// Block number i of the mixed patterns. In the place of one that is not covered stands 1. One block in four goes in
    /// two calls, parted anywhere.
    fn mixed(&self, i: u64, (places, stride): (u64, u64), block: &mut Block) {
        let (most, drawn) = (self.most as u64, draw_at(10, i));
        let first = i * most;
        block.n = (places - first).min(most) as usize;
        let mut place = (u128::from(first) * u128::from(stride) % u128::from(places)) as u64;
        for x in &mut block.x[..block.n] {
            let value = f32::from_bits(self.mixed_at(place));
            *x = if (self.covers)(value) { value } else { 1.0 };
            place = (place + stride) % places;
        }
        block.first = match drawn >> 3 & 3 {
            0 => (drawn >> 16) as usize % block.n,
            _ => 0,
        };
        if drawn % OTHERS == 0 {
            let place = (drawn >> 8) % block.n as u64 * (drawn >> 7 & 1);
            block.x[place as usize] = f32::from_bits((drawn >> 32) as u32);
        }
    }

    /// Calls the kernel, and counts the values that differ. In turn just these values and their room are lent, more room,
    /// more values, and, of a full block, more of both. What is not asked for must stay.
    fn differing(&self, i: u64, x: &[f32], lines: &mut Vec<String>) -> u64 {
        let n = x.len();
        let mut lent = [-1.0; MOST + BEYOND];
        lent[..n].copy_from_slice(x);
        let mut out = [f32::from_bits(UNTOUCHED); MOST + BEYOND];
        let (read, room) = match i % 4 {
            1 => (n, n + BEYOND),
            2 => (n + BEYOND, n),
            3 if n == self.most => (n + BEYOND, n + BEYOND),
            _ => (n, n),
        };
        let done = (self.ours)(&lent[..read], &mut out[..room]);
        let kept = out[n..].iter().all(|y| y.to_bits() == UNTOUCHED);
        if done != n || !kept {
            lines.push(format!(
                "block {i}: {done} of {n} done, the rest kept: {kept}"
            ));
            return n as u64;
        }
        let mut differ = 0;
        for (x, ours) in x.iter().zip(&out) {
            let theirs = (self.theirs)(*x);
            if !ours.same(theirs) {
                differ += 1;
                if lines.len() < SHOWN {
                    let (x, ours, theirs) = (x.show(), ours.show(), theirs.show());
                    lines.push(format!("{x}: library {ours}, Rust {theirs}"));
                }
            }
        }
        differ
    }

    /// One in `scale` of so many values in blocks.
    fn compare(
        &self,
        how: &str,
        values: u64,
        scale: u64,
        fill: impl Fn(u64, &mut Block) + Sync,
    ) -> Count {
        let name = format!("{} {how}", self.name);
        let blocks = values.div_ceil(self.most as u64);
        let (begun, next) = (Instant::now(), AtomicU64::new(0));
        let progress = Progress::new(&name, values.div_ceil(scale));
        let shares = in_threads(|_| {
            let (mut count, mut lines) = (Count::default(), Vec::new());
            let mut block = Block {
                x: [0.0; MOST],
                n: 0,
                first: 0,
            };
            loop {
                let first = next.fetch_add(CHUNK * scale, Ordering::Relaxed);
                if first >= blocks {
                    return (count, lines);
                }
                let before = count.cases;
                for i in (first..blocks.min(first + CHUNK * scale)).step_by(scale as usize) {
                    fill(i, &mut block);
                    count.cases += block.n as u64;
                    let (head, tail) = block.x[..block.n].split_at(block.first);
                    for part in [head, tail].into_iter().filter(|part| !part.is_empty()) {
                        count.differ += self.differing(i, part, &mut lines);
                    }
                }
                progress.add(count.cases - before);
            }
        });
        drop(progress);
        let Count { cases, differ } = shares.iter().map(|(count, _)| *count).sum();
        let seconds = begun.elapsed().as_secs_f64();
        println!("{name:8} {cases:>10} compared, {differ} differ, {seconds:.1} s");
        for line in shares.iter().flat_map(|(_, lines)| lines).take(SHOWN) {
            println!("  {name} {line}");
        }
        Count { cases, differ }
    }
}

/// Compares one block in `scale` of each kernel.
pub fn run(scale: u64) -> Count {
    let both = |kernel: &Kernel| {
        let places = kernel.places();
        let mix = (places, stride(places));
        kernel.compare("blocks", PATTERNS, scale, |i, block| {
            kernel.in_order(i, block)
        }) + kernel.compare("mixed blocks", places, scale, |i, block| {
            kernel.mixed(i, mix, block)
        })
    };
    KERNELS.iter().map(both).sum()
}
