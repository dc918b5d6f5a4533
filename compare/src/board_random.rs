//! Lists of operations on a board: runs of samples and runs of ticks, so that the queue is often full
//! and often empty, among writes of every shape.

use crate::board_reference::Operation;
use crate::random::Source;

/// The places and the lengths of writes of every shape are below this.
pub const SHAPES: u32 = 10;

/// What most operations of a stretch are.
#[derive(Clone, Copy)]
enum Mood {
    Filling,
    Draining,
    Mixed,
}

fn sample(s: &mut Source) -> Operation {
    let bits = match s.below(4) {
        0 => s.pick(&[
            0,
            0x8000_0000,
            0x3f80_0000,
            0x7fc0_0000,
            0x7f80_0001,
            u32::MAX,
        ]),
        _ => s.number() as u32,
    };
    Operation::Write(4, bits.to_le_bytes().to_vec())
}

/// A byte for a place: mostly one that a register takes.
fn byte(s: &mut Source, place: u32) -> u8 {
    match (place, s.below(8)) {
        (_, 0) => s.number() as u8,
        (0, 1) => s.pick(&[0, 2, 4, 5, 127, 128, 255]),
        (0, _) => s.pick(&[1, 3]),
        (1, 1) => s.pick(&[1, 3, 4, 6, 130, 253, 255]),
        (1, _) => s.pick(&[0, 2]),
        (2, 1) => s.pick(&[64, 65, 127, 128, 255]),
        (2, _) => s.pick(&[0, 1, 2, 31, 62, 63]),
        _ => s.number() as u8,
    }
}

/// A write of any shape.
pub fn shaped(s: &mut Source, place: u32, length: u32) -> Operation {
    let bytes = (0..length).map(|i| byte(s, place.wrapping_add(i)));
    Operation::Write(place, bytes.collect())
}

fn any_write(s: &mut Source) -> Operation {
    let place = match s.below(40) {
        0 => s.pick(&[u32::MAX, u32::MAX - 3, 0x8000_0000, 256, 260]),
        _ => s.below(SHAPES as u64) as u32,
    };
    let length = match s.below(40) {
        0 => s.pick(&[10, 16, 64, 260]),
        _ => s.below(SHAPES as u64) as u32,
    };
    shaped(s, place, length)
}

/// A write that a register takes.
fn register(s: &mut Source) -> Operation {
    let place = s.below(3) as u32;
    let length = 1 + s.below(3 - place as u64) as u32;
    let bytes = (place..place + length).map(|p| match p {
        0 => s.pick(&[0, 1, 1, 1, 2, 3, 3, 3]),
        1 => s.pick(&[0, 2]),
        _ => s.below(64) as u8,
    });
    Operation::Write(place, bytes.collect())
}

fn operation(s: &mut Source, mood: Mood) -> Operation {
    match (mood, s.below(16)) {
        (_, 0) => any_write(s),
        (_, 1) => register(s),
        (_, 2) => Operation::Read(s.below(SHAPES as u64) as u32),
        (Mood::Filling, 3) | (Mood::Draining, 4..) => Operation::Tick,
        (Mood::Filling, 4..) | (Mood::Draining, 3) => sample(s),
        (Mood::Mixed, 3..=8) => Operation::Tick,
        (Mood::Mixed, _) => sample(s),
    }
}

/// About `length` operations.
pub fn list(s: &mut Source, length: usize) -> Vec<Operation> {
    let mut list = Vec::new();
    if s.below(4) != 0 {
        let control = s.pick(&[1, 3]);
        list.push(Operation::Write(0, vec![control, 0, s.below(64) as u8]));
    }
    while list.len() < length {
        let mood = s.pick(&[Mood::Filling, Mood::Draining, Mood::Mixed]);
        let stretch = 1 + s.below(150);
        list.extend((0..stretch).map(|_| operation(s, mood)));
    }
    list
}

/// The words of a list, sometimes with a fault: cut off, of no kind, a byte above 255, other words.
pub fn words(s: &mut Source, list: &[Operation]) -> Vec<u32> {
    let mut words: Vec<u32> = list.iter().flat_map(Operation::words).collect();
    match s.below(32) {
        0 => words.truncate(s.below(words.len() as u64 + 1) as usize),
        1 => words.push(s.pick(&[3, 4, 255, u32::MAX])),
        2 => words.extend([0, 0, 2, 1, s.pick(&[256, 257, u32::MAX])]),
        3 => words.extend([0, s.number() as u32, s.pick(&[1, 9, u32::MAX])]),
        4 => {
            let place = s.below(words.len() as u64) as usize;
            words[place] = s.pick(&[0, 1, 2, 3, 255, 256, u32::MAX]);
        }
        5 => words.extend([s.below(2) as u32]),
        _ => (),
    }
    words
}
