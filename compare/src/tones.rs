//! The quarter tones: request 1's table in whole numbers, and `h_quarter` against it.

use crate::engine::{compare, Cases, Count};
use crate::harness::h_quarter;
use std::cmp::Ordering;
use std::sync::OnceLock;

/// How many numbers have a tone.
pub const TONES: u32 = 256;
/// How many patterns a q has.
const NUMBERS: u64 = 1 << 32;

/// A whole number of any size, by its digits of 32 bits from the lowest on, without zeros at the end.
#[derive(Clone, PartialEq, Eq)]
struct Whole(Vec<u32>);

impl Whole {
    fn times(&self, factor: u32) -> Whole {
        let mut carry = 0;
        let mut digits: Vec<u32> = Vec::with_capacity(self.0.len() + 1);
        for &digit in &self.0 {
            carry += digit as u64 * factor as u64;
            digits.push(carry as u32);
            carry >>= 32;
        }
        if carry > 0 {
            digits.push(carry as u32);
        }
        Whole(digits)
    }

    fn power24(x: u32) -> Whole {
        (0..24).fold(Whole(vec![1]), |power, _| power.times(x))
    }

    fn doubled(&self, times: u32) -> Whole {
        (0..times).fold(self.clone(), |number, _| number.times(2))
    }

    fn compared(&self, other: &Whole) -> Ordering {
        let size = self.0.len().cmp(&other.0.len());
        size.then_with(|| self.0.iter().rev().cmp(other.0.iter().rev()))
    }
}

/// "entry q is the f32 nearest to 440 × 2^((q − 138) / 24), judged in whole numbers by comparing 24th
/// powers of the midpoints to its neighbours". With m of 24 digits, the f32 m × 2^(e − 150) has the
/// midpoints (2m ± 1) × 2^(e − 151), and 440^24 × 2^(q − 138) lies between their 24th powers.
fn nearest(q: u32) -> f32 {
    let pitch = Whole::power24(440);
    for e in 130..142 {
        // in units of 2^(e − 151)
        let meant = pitch.doubled(q + 24 * (151 - e) - 138);
        let below = |half: u32| Whole::power24(half).compared(&meant).is_lt();
        let (mut low, mut high) = (1 << 23, 1 << 24);
        while high - low > 1 {
            let m = (low + high) / 2;
            if below(2 * m - 1) {
                low = m;
            } else {
                high = m;
            }
        }
        if low > 1 << 23 && below(2 * low - 1) && !below(2 * low + 1) {
            return f32::from_bits((e << 23) + low - (1 << 23));
        }
    }
    panic!("no f32 is nearest to quarter tone {q}")
}

/// The tone of a number; none above 255.
pub fn quarter_tone(q: u32) -> Option<f32> {
    static TABLE: OnceLock<Vec<f32>> = OnceLock::new();
    let table = TABLE.get_or_init(|| (0..TONES).map(nearest).collect());
    table.get(q as usize).copied()
}

/// Every q from 0 to 65,535, and one in `scale` of the others.
pub fn run(scale: u64) -> Count {
    let bits = |q: usize| quarter_tone(q as u32).map_or(0, f32::to_bits) as usize;
    let library = |q: usize| h_quarter(q as u32) as usize;
    let first = Cases {
        count: 1 << 16,
        case: |i| i as usize,
    };
    let all = Cases {
        count: NUMBERS.div_ceil(scale),
        case: |i| (i * scale) as usize,
    };
    let count = compare("tones", &first, library, bits) + compare("numbers", &all, library, bits);
    count.printed()
}
