//! Buffers that are lent as parts of larger ones, so that what lies around them shows a stray write.

use crate::engine::same_values;

/// How many values stand on each side.
const MARGIN: usize = 8;

/// A value of at most 32 bits.
pub trait Word: Copy {
    fn from_pattern(pattern: u32) -> Self;
    fn pattern(self) -> u32;
}

impl Word for f32 {
    fn from_pattern(pattern: u32) -> f32 {
        f32::from_bits(pattern)
    }
    fn pattern(self) -> u32 {
        self.to_bits()
    }
}

impl Word for u32 {
    fn from_pattern(pattern: u32) -> u32 {
        pattern
    }
    fn pattern(self) -> u32 {
        self
    }
}

impl Word for u8 {
    fn from_pattern(pattern: u32) -> u8 {
        pattern as u8
    }
    fn pattern(self) -> u32 {
        self as u32
    }
}

/// A pattern for each place: a finite number, so that it is compared by its value too.
fn filler<T: Word>(place: usize) -> T {
    T::from_pattern(0x4c00_0000 | (place as u32).wrapping_mul(40_503) % 0x0080_0000)
}

pub struct Lent<T> {
    whole: Vec<T>,
    was: Vec<T>,
}

impl<T: Word> Lent<T> {
    /// These values, within others.
    pub fn of(values: &[T]) -> Lent<T> {
        let mut whole: Vec<T> = (0..values.len() + 2 * MARGIN).map(filler).collect();
        whole[MARGIN..MARGIN + values.len()].copy_from_slice(values);
        let was = whole.clone();
        Lent { whole, was }
    }

    /// As many values, of any kind.
    pub fn any(len: usize) -> Lent<T> {
        let whole: Vec<T> = (0..len + 2 * MARGIN).map(filler).collect();
        let was = whole.clone();
        Lent { whole, was }
    }

    pub fn part(&self) -> &[T] {
        &self.whole[MARGIN..self.whole.len() - MARGIN]
    }

    pub fn part_mut(&mut self) -> &mut [T] {
        let end = self.whole.len() - MARGIN;
        &mut self.whole[MARGIN..end]
    }

    /// Whether everything is as it was but the part's first `free` values.
    pub fn stays_but(&self, free: usize) -> bool {
        let same = |from: usize, to: usize| {
            let pairs = self.whole[from..to].iter().zip(&self.was[from..to]);
            pairs.fold(0, |d, (a, b)| d | (a.pattern() ^ b.pattern())) == 0
        };
        same(0, MARGIN) && same(MARGIN + free, self.whole.len())
    }

    pub fn stays(&self) -> bool {
        self.stays_but(0)
    }
}

impl Lent<f32> {
    /// Whether the part holds these frames and what is around it stays; with no frames, whether all
    /// stays.
    pub fn holds(&self, frames: Option<&[f32]>) -> bool {
        match frames {
            Some(frames) => {
                same_values(self.part(), frames).is_ok() && self.stays_but(frames.len())
            }
            None => self.stays(),
        }
    }
}

const BESIDE: u64 = 0x5a5a_a5a5_0f0f_f0f0;

/// A number that is lent by its address.
pub struct LentNumber([u64; 3]);

impl LentNumber {
    pub fn of(n: u64) -> LentNumber {
        LentNumber([BESIDE, n, BESIDE])
    }

    pub fn place(&mut self) -> &mut u64 {
        &mut self.0[1]
    }

    pub fn holds(&self, n: u64) -> bool {
        self.0 == [BESIDE, n, BESIDE]
    }
}

/// Numbers that are lent as a slice.
pub struct LentNumbers(Vec<u64>);

impl LentNumbers {
    pub fn of(numbers: &[u64]) -> LentNumbers {
        let beside = [BESIDE; MARGIN];
        LentNumbers([&beside, numbers, &beside].concat())
    }

    pub fn part_mut(&mut self) -> &mut [u64] {
        let end = self.0.len() - MARGIN;
        &mut self.0[MARGIN..end]
    }

    pub fn hold(&self, numbers: &[u64]) -> bool {
        self.0 == LentNumbers::of(numbers).0
    }
}
