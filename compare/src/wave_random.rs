//! Random WAVE files: good ones with chunks of other names and in other orders, and damaged ones.

use crate::random::Source;
use crate::wave_reference::{chunk, data_body, fmt_body, form, Wave};

/// Patterns that a conversion to a number would change, and others.
pub fn pattern(s: &mut Source) -> u32 {
    let any = s.number() as u32;
    let nan = 0x7f80_0001 + s.below(0x007f_ffff) as u32;
    let sign = (s.below(2) as u32) << 31;
    s.pick(&[any, any, nan | sign, 0, 1 << 31, 0x7f80_0000, 0x7fc0_0000])
}

pub fn wave(s: &mut Source) -> Wave {
    let count = match s.below(8) {
        0 => 0,
        1 => s.below(300),
        _ => s.below(12),
    };
    let rate = match s.below(4) {
        0 => s.number() as u32,
        _ => s.rate(),
    };
    let samples = (0..count).map(|_| pattern(s)).collect();
    Wave { rate, samples }
}

/// A chunk that is skipped; its name may be near to one that is not.
fn other(s: &mut Source) -> Vec<u8> {
    let name = s.pick(&[
        b"LIST",
        b"PEAK",
        b"bext",
        b"id3 ",
        b"fmt\0",
        b"FMT ",
        b"DATA",
        b"Data",
        b"fac\xf4",
        b"\0\0\0\0",
        b"RIFF",
        b"WAVE",
        b"junk",
    ]);
    let body: Vec<u8> = (0..s.below(20)).map(|_| s.number() as u8).collect();
    chunk(name, &body)
}

fn others(s: &mut Source, chunks: &mut Vec<Vec<u8>>) {
    for _ in 0..s.below(6).saturating_sub(3) {
        chunks.push(other(s));
    }
}

/// fmt with any numbers in the fields that are not looked at.
fn fmt(rate: u32, s: &mut Source) -> Vec<u8> {
    let mut body = fmt_body(3, 1, rate, 32);
    if s.below(2) == 0 {
        for at in [8, 9, 10, 11, 12, 13, 16, 17] {
            body[at] = s.number() as u8;
        }
    }
    chunk(b"fmt ", &body)
}

/// The chunks of a good file up to data, and data.
fn chunks(wave: &Wave, s: &mut Source) -> Vec<Vec<u8>> {
    let fact = chunk(b"fact", &(wave.samples.len() as u32).to_le_bytes());
    let mut first = vec![fmt(wave.rate, s), fact];
    if s.below(4) == 0 {
        first.reverse();
    }
    let mut all = Vec::new();
    for one in first {
        others(s, &mut all);
        all.push(one);
    }
    others(s, &mut all);
    all.push(chunk(b"data", &data_body(&wave.samples)));
    all
}

/// A file that is read as `wave`.
pub fn good(wave: &Wave, s: &mut Source) -> Vec<u8> {
    let mut all = chunks(wave, s);
    if s.below(4) == 0 {
        let after = (0..s.below(20)).map(|_| s.number() as u8).collect();
        all.push(after);
    }
    form(&all)
}

/// The right size in RIFF's own header.
fn resized(mut file: Vec<u8>) -> Vec<u8> {
    if file.len() >= 8 {
        let size = (file.len() - 8) as u32;
        file[4..8].copy_from_slice(&size.to_le_bytes());
    }
    file
}

/// One fault, or two, among the chunks.
fn other_chunks(wave: &Wave, s: &mut Source) -> Vec<u8> {
    let mut all = chunks(wave, s);
    for _ in 0..1 + s.below(2) {
        let at = s.below(all.len() as u64) as usize;
        match s.below(6) {
            0 => drop(all.remove(at)),
            1 => {
                let again = all[at].clone();
                all.insert(s.below(all.len() as u64 + 1) as usize, again);
            }
            2 => {
                let to = s.below(all.len() as u64) as usize;
                all.swap(at, to);
            }
            3 => all[at][4..8].copy_from_slice(&odd_size(s).to_le_bytes()),
            4 => {
                let name = s.pick(&[*b"fmt ", *b"fact", *b"data", *b"LIST"]);
                all[at][..4].copy_from_slice(&name);
            }
            _ => {
                let most = all[at].len() as u64 - 7;
                all[at].truncate(8 + s.below(most) as usize);
            }
        }
        if all.is_empty() {
            break;
        }
    }
    form(&all)
}

/// Near what is asked, near 2^32, or so that an end in 32 bits wraps.
fn odd_size(s: &mut Source) -> u32 {
    let near = s.below(40) as u32;
    let any = s.number() as u32;
    s.pick(&[
        near,
        4,
        5,
        16,
        17,
        18,
        19,
        20,
        near.wrapping_neg(),
        0x7fff_fffc + near % 8,
        any,
    ])
}

fn flip(file: &mut [u8], s: &mut Source) {
    let most = file
        .len()
        .min(if s.below(2) == 0 { 70 } else { file.len() });
    if most > 0 {
        let at = s.below(most as u64) as usize;
        file[at] = match s.below(3) {
            0 => file[at] ^ (1 << s.below(8)),
            1 => s.pick(&[0, 1, 2, 3, 4, 16, 18, 32, 127, 128, 255]),
            _ => s.number() as u8,
        };
    }
}

/// A file with something changed; what is changed may not matter.
pub fn damaged(s: &mut Source) -> Vec<u8> {
    let wave = wave(s);
    let mut file = good(&wave, s);
    match s.below(10) {
        0 => drop(file.split_off(s.below(file.len() as u64 + 1) as usize)),
        1 => {
            file.truncate(s.below(file.len() as u64 + 1) as usize);
            file = resized(file);
        }
        2 => {
            let at = s.below(file.len() as u64 + 1) as usize;
            file.insert(at, s.number() as u8);
            if s.below(4) != 0 {
                file = resized(file);
            }
        }
        3 => {
            file.remove(s.below(file.len() as u64) as usize);
            if s.below(4) != 0 {
                file = resized(file);
            }
        }
        4..7 => file = other_chunks(&wave, s),
        7 => file = (0..s.below(80)).map(|_| s.number() as u8).collect(),
        _ => {}
    }
    for _ in 0..s.below(4).saturating_sub(1) {
        flip(&mut file, s);
    }
    file
}
