//! The replay files of crates/board_vectors: `stdin` has lists of operations on a board, `stdout` each
//! operation with the reference's answer and the interrupt line after it.

use crate::board_random::{list, shaped, SHAPES};
use crate::board_reference::{Board, Operation};
use crate::random::Source;
use std::fmt::Write as _;
use std::fs;
use std::io;
use std::path::Path;

/// How many lists of random operations there are, and how long they are, about.
const LISTS: u64 = 6;
const LENGTH: usize = 300;

fn line(operation: &Operation) -> String {
    match operation {
        Operation::Write(place, bytes) => {
            let bytes: String = bytes.iter().map(|b| format!(" {b:02x}")).collect();
            let count = bytes.len() / 3;
            format!("write {place:x} {count:x}{bytes}")
        }
        Operation::Read(place) => format!("read {place:x}"),
        Operation::Tick => "tick".to_string(),
    }
}

fn sample(x: f32) -> Operation {
    Operation::Write(4, x.to_bits().to_le_bytes().to_vec())
}

/// The session of docs/board.md: four samples, run, five ticks, underrun seen and cleared.
fn session() -> Vec<Operation> {
    let mut session: Vec<Operation> = [0.25, 0.5, 0.75, 1.0].map(sample).to_vec();
    session.extend([Operation::Read(3), Operation::Write(0, vec![3])]);
    session.extend(vec![Operation::Tick; 5]);
    session.extend([
        Operation::Read(1),
        Operation::Write(1, vec![2]),
        Operation::Read(1),
    ]);
    session
}

/// 65 samples and 65 ticks.
fn filled() -> Vec<Operation> {
    let mut filled: Vec<Operation> = (0..65).map(|i| sample(i as f32)).collect();
    filled.extend([Operation::Read(1), Operation::Read(3)]);
    filled.push(Operation::Write(0, vec![3, 0, 63]));
    filled.extend(vec![Operation::Tick; 65]);
    filled.push(Operation::Read(1));
    filled
}

/// Every shape of a write, with all reads after each.
fn shapes() -> Vec<Operation> {
    let mut s = Source::new(13);
    let mut shapes = Vec::new();
    for place in 0..SHAPES {
        for length in 0..SHAPES {
            shapes.push(shaped(&mut s, place, length));
            shapes.extend((0..4).map(Operation::Read));
        }
    }
    shapes
}

/// Writes both files.
pub fn run() -> io::Result<()> {
    let mut lists = vec![session(), filled(), shapes()];
    lists.extend((0..LISTS).map(|i| list(&mut Source::new(i), LENGTH)));
    let (mut stdin, mut stdout) = (String::new(), String::new());
    for list in &lists {
        let mut board = Board::default();
        stdin += "new\n";
        stdout += "new\n";
        for operation in list {
            let line = line(operation);
            let answer = operation.done(&mut board);
            let interrupt = board.interrupt() as u32;
            writeln!(stdin, "{line}").expect("a string takes any text");
            writeln!(stdout, "{line} {answer:016x} {interrupt:016x}")
                .expect("a string takes any text");
        }
    }
    let folder = Path::new(env!("CARGO_MANIFEST_DIR")).join("../crates/board_vectors");
    fs::write(folder.join("stdin"), &stdin)?;
    fs::write(folder.join("stdout"), &stdout)?;
    println!("{} lines", stdin.lines().count());
    Ok(())
}
