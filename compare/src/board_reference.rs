//! The converter's registers and lists of operations on them, from the words of the request alone.

use std::collections::VecDeque;

const QUEUE: usize = 64;
/// The answers of a write.
pub const ACCEPTED: u32 = 0;
pub const FULL: u32 = 38;
pub const INVALID: u32 = 39;

#[derive(Clone, Default)]
pub struct Board {
    control: u8,
    underrun: bool,
    mark: u8,
    queue: VecDeque<u32>,
}

impl Board {
    pub fn fill(&self) -> usize {
        self.queue.len()
    }

    pub fn running(&self) -> bool {
        self.control & 1 != 0
    }

    fn status(&self) -> u8 {
        let mut status = 0;
        if self.fill() < self.mark as usize {
            status |= 1;
        }
        if self.underrun {
            status |= 2;
        }
        if self.fill() == QUEUE {
            status |= 4;
        }
        status
    }

    pub fn read(&self, place: u32) -> u8 {
        match place {
            0 => self.control,
            1 => self.status(),
            2 => self.mark,
            3 => self.fill() as u8,
            _ => 0,
        }
    }

    pub fn interrupt(&self) -> bool {
        self.control & 2 != 0 && self.status() & 3 != 0
    }

    /// One byte of a write that is not just the sample; whether it may be written.
    fn put(&mut self, place: u64, byte: u8) -> bool {
        match place {
            0 if byte <= 3 => self.control = byte,
            1 if byte & !2 == 0 => self.underrun &= byte & 2 == 0,
            2 if byte <= 63 => self.mark = byte,
            _ => return false,
        }
        true
    }

    pub fn write(&mut self, place: u32, bytes: &[u8]) -> u32 {
        if let (4, &[a, b, c, d]) = (place, bytes) {
            if self.fill() == QUEUE {
                return FULL;
            }
            self.queue.push_back(u32::from_le_bytes([a, b, c, d]));
            return ACCEPTED;
        }
        let mut after = self.clone();
        let mut places = place as u64..;
        let whole = bytes.iter().zip(&mut places).all(|(&b, p)| after.put(p, b));
        if bytes.is_empty() || !whole {
            return INVALID;
        }
        *self = after;
        ACCEPTED
    }

    pub fn tick(&mut self) -> u32 {
        if !self.running() {
            return 0f32.to_bits();
        }
        match self.queue.pop_front() {
            Some(sample) => sample,
            None => {
                self.underrun = true;
                0f32.to_bits()
            }
        }
    }
}

#[derive(Clone)]
pub enum Operation {
    Write(u32, Vec<u8>),
    Read(u32),
    Tick,
}

impl Operation {
    pub fn words(&self) -> Vec<u32> {
        match self {
            Operation::Write(place, bytes) => {
                let mut words = vec![0, *place, bytes.len() as u32];
                words.extend(bytes.iter().map(|&b| b as u32));
                words
            }
            Operation::Read(place) => vec![1, *place],
            Operation::Tick => vec![2],
        }
    }

    /// The first operation of a list of words and how many words it has; nothing where it is cut off
    /// or is none.
    fn first(words: &[u32]) -> Option<(Operation, usize)> {
        match *words {
            [0, place, count, ref rest @ ..] => {
                let bytes = rest.get(..count as usize)?;
                let bytes: Result<Vec<u8>, _> = bytes.iter().map(|&w| w.try_into()).collect();
                Some((Operation::Write(place, bytes.ok()?), 3 + count as usize))
            }
            [1, place, ..] => Some((Operation::Read(place), 2)),
            [2, ..] => Some((Operation::Tick, 1)),
            _ => None,
        }
    }

    /// Its answer.
    pub fn done(&self, board: &mut Board) -> u32 {
        match self {
            Operation::Write(place, bytes) => board.write(*place, bytes),
            Operation::Read(place) => board.read(*place) as u32,
            Operation::Tick => board.tick(),
        }
    }
}

/// The answers of a list of words on a new board, at most `room` words; `seen` gets each operation
/// with the board before it and its answer.
pub fn run(words: &[u32], room: usize, mut seen: impl FnMut(&Operation, &Board, u32)) -> Vec<u32> {
    let mut board = Board::default();
    let mut answers = Vec::new();
    let mut at = 0;
    while answers.len() + 2 <= room {
        let Some((operation, length)) = Operation::first(&words[at..]) else {
            break;
        };
        let before = board.clone();
        let answer = operation.done(&mut board);
        seen(&operation, &before, answer);
        answers.extend([answer, board.interrupt() as u32]);
        at += length;
    }
    answers
}
