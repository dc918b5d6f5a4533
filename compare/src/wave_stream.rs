//! Calls on WAVE files for robust/wave_host.c, with what the reference answers. A case is six numbers of
//! 64 bits, low byte first: 0 for a read and 1 for a write, how many bytes are given and lent, the rate,
//! the answer, and how many bytes of what is lent change; then what is given, and the changed bytes.

use crate::random::Source;
use crate::stream::{self, Out};
use crate::wave_random::{damaged, good, wave};
use crate::wave_reference::{data_body, read, write, HEADER};
use std::io::{self, Write};

/// What the rate's place holds where no rate is read.
const NO_RATE: u32 = 0x5a5a_a5a5;

/// Room for just all, for more, for one less, for fewer, or for none.
fn room(needed: usize, s: &mut Source) -> usize {
    match s.below(8) {
        0..3 => needed,
        3..5 => needed + 1 + s.below(64) as usize,
        5 => needed.saturating_sub(1),
        6 => s.below(needed as u64 + 1) as usize,
        _ => 0,
    }
}

fn put_case(numbers: [u64; 6], given: &[u8], changed: &[u8], out: &mut Out) -> io::Result<()> {
    for n in numbers {
        out.write_all(&n.to_le_bytes())?;
    }
    out.write_all(given)?;
    out.write_all(changed)
}

fn put_read(file: &[u8], s: &mut Source, out: &mut Out) -> io::Result<()> {
    let mut rate = NO_RATE;
    let mut samples = vec![0; file.len() / 4 + 1];
    let needed = read(file, &mut rate, &mut samples);
    let mut rate = NO_RATE;
    let mut samples = vec![0; room(needed.max(3) as usize, s)];
    let answer = read(file, &mut rate, &mut samples);
    let changed = data_body(&samples[..answer.max(0) as usize]);
    let numbers = [
        0,
        file.len() as u64,
        4 * samples.len() as u64,
        u64::from(rate),
        answer as u64,
        changed.len() as u64,
    ];
    put_case(numbers, file, &changed, out)
}

fn put_write(s: &mut Source, out: &mut Out) -> io::Result<()> {
    let wave = wave(s);
    let mut file = vec![0; room(HEADER + 4 * wave.samples.len(), s)];
    let answer = write(wave.rate, &wave.samples, &mut file);
    let changed = &file[..answer.max(0) as usize];
    let given = data_body(&wave.samples);
    let numbers = [
        1,
        given.len() as u64,
        file.len() as u64,
        u64::from(wave.rate),
        answer as u64,
        changed.len() as u64,
    ];
    put_case(numbers, &given, changed, out)
}

fn put(number: u64, out: &mut Out) -> io::Result<()> {
    // other files than `compare wave-files` has
    let mut s = Source::new(!number);
    match s.below(16) {
        0 => put_write(&mut s, out),
        1 => {
            let wave = wave(&mut s);
            let file = good(&wave, &mut s);
            put_read(&file, &mut s, out)
        }
        _ => {
            let file = damaged(&mut s);
            put_read(&file, &mut s, out)
        }
    }
}

/// Writes `count` cases from number `first` on.
pub fn run(first: u64, count: u64) -> io::Result<()> {
    stream::run("calls on files", first, count, put)
}
