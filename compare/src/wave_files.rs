//! WAVE files through `tono_wave_write` and `tono_wave_read`, and by the reference.

use crate::engine::{threads, Count};
use crate::harness::{tono_wave_read, tono_wave_write};
use crate::lent::Lent;
use crate::progress::Progress;
use crate::random::Source;
use crate::tried::{self, first_of, Tried};
use crate::wave_random::{damaged, good, pattern, wave};
use crate::wave_reference::{parsed, read, write, written, Wave, HEADER, MOST};

/// How many files are tried where no number is given.
pub const COUNT: u64 = 1_000_000;

/// What of a read is not as the reference has it.
fn read_differs(file: &[u8], room: usize) -> Option<String> {
    let lent = Lent::of(file);
    let mut samples = Lent::<u32>::any(room);
    let mut rate = [0x5a5a_a5a5, 0x0f0f_f0f0, 0x5a5a_a5a5];
    let mut asked = samples.part().to_vec();
    let mut asked_rate = rate;
    let answer = tono_wave_read(lent.part(), &mut rate[1], samples.part_mut());
    let asked_answer = read(file, &mut asked_rate[1], &mut asked);
    first_of(&[
        ("answer", answer != asked_answer),
        ("rate", rate != asked_rate),
        ("samples", samples.part() != asked),
        ("values beside the samples", !samples.stays_but(room)),
        ("file", !lent.stays()),
    ])
}

/// What of a write is not as the reference has it.
fn write_differs(rate: u32, samples: &[u32], room: usize) -> Option<String> {
    let lent = Lent::of(samples);
    let mut file = Lent::<u8>::any(room);
    let mut asked = file.part().to_vec();
    let answer = tono_wave_write(rate, lent.part(), file.part_mut());
    let asked_answer = write(rate, samples, &mut asked);
    first_of(&[
        ("answer", answer != asked_answer),
        ("file", file.part() != asked),
        ("bytes beside the file", !file.stays_but(room)),
        ("samples", !lent.stays()),
    ])
}

/// Room for all and more, for just all, for one less, for fewer, for none.
fn rooms(count: usize, s: &mut Source) -> [(&'static str, usize); 5] {
    [
        ("more room than is needed", count + 1 + s.below(64) as usize),
        ("just the room", count),
        ("room for one less", count.saturating_sub(1)),
        ("too little room", s.below(count as u64 + 1) as usize),
        ("no room", 0),
    ]
}

fn try_file(name: &str, file: &[u8], s: &mut Source, tried: &mut Tried) {
    let asked = parsed(file);
    let count = asked.as_ref().map_or(4, |wave| wave.samples.len());
    let mut differs = None;
    for (kind, room) in rooms(count, s) {
        tried.mark(kind);
        let found = read_differs(file, room);
        differs = differs.or(found.map(|what| format!("{name}, room for {room}: {what}")));
    }
    tried.add(asked.err().unwrap_or(0), differs);
}

/// Writes samples with each kind of room, and has what is written read.
fn try_write(name: &str, wave: &Wave, s: &mut Source, tried: &mut Tried) {
    let length = HEADER + 4 * wave.samples.len();
    for (_, room) in rooms(length, s) {
        tried.mark("writes");
        let found = write_differs(wave.rate, &wave.samples, room);
        let mut ignored = vec![0; room];
        let answer = write(wave.rate, &wave.samples, &mut ignored);
        let number = if answer < 0 { -answer as u32 } else { 0 };
        tried.add(
            number,
            found.map(|what| format!("{name}, {room} bytes: {what}")),
        );
    }
    try_file(name, &written(wave), s, tried);
}

/// Every byte of a header with every value, and every truncation with the size as it was and made right.
fn try_each_byte(tried: &mut Tried) {
    let mut s = Source::new(0);
    let samples = vec![0x7fa0_0001, 0xffc0_0000, 0x3f80_0000];
    let whole = written(&Wave {
        rate: 44_100,
        samples,
    });
    for at in 0..HEADER {
        for byte in 0..=255 {
            let mut file = whole.clone();
            file[at] = byte;
            tried.mark("a byte of a header changed");
            try_file(&format!("byte {at} is {byte}"), &file, &mut s, tried);
        }
    }
    for length in 0..whole.len() {
        let mut file = whole[..length].to_vec();
        tried.mark("truncations");
        try_file(&format!("{length} bytes"), &file, &mut s, tried);
        if length >= 8 {
            file[4..8].copy_from_slice(&(length as u32 - 8).to_le_bytes());
            try_file(&format!("{length} bytes, resized"), &file, &mut s, tried);
        }
    }
}

/// As many samples as a file may have, and one more.
fn try_longest(tried: &mut Tried) {
    for count in [MOST, MOST + 1] {
        let mut samples = vec![0u32; count];
        for (i, x) in samples.iter_mut().enumerate().step_by(4099) {
            *x = i as u32;
        }
        let differs = write_differs(48_000, &samples, HEADER + 4 * count);
        tried.mark("the most samples, and one more");
        tried.add(if count > MOST { 2 } else { 0 }, differs);
        if count == MOST {
            let file = written(&Wave {
                rate: 48_000,
                samples,
            });
            tried.add(0, read_differs(&file, count));
        }
    }
}

fn any_wave(s: &mut Source) -> Wave {
    let any = s.rate();
    let rate = s.pick(&[
        0,
        7_999,
        8_000,
        192_000,
        192_001,
        u32::MAX,
        44_100,
        any,
        any,
    ]);
    let samples = (0..s.below(40)).map(|_| pattern(s)).collect();
    Wave { rate, samples }
}

fn share(first: u64, count: u64, progress: &Progress) -> Tried {
    let mut tried = Tried::default();
    if first == 0 {
        try_each_byte(&mut tried);
        try_longest(&mut tried);
    }
    for number in (first..count).step_by(threads()) {
        let mut s = Source::new(number);
        let name = format!("file {number}");
        match s.below(8) {
            0 => {
                let wave = any_wave(&mut s);
                try_write(&name, &wave, &mut s, &mut tried);
            }
            1 | 2 => {
                let wave = wave(&mut s);
                let file = good(&wave, &mut s);
                assert_eq!(parsed(&file), Ok(wave), "{name}");
                tried.mark("good files");
                try_file(&name, &file, &mut s, &mut tried);
            }
            _ => {
                let file = damaged(&mut s);
                try_file(&name, &file, &mut s, &mut tried);
            }
        }
        progress.add(1);
    }
    tried
}

/// Compares `count` files.
pub fn run(count: u64) -> Count {
    tried::run("calls on files", count, |thread, progress| {
        share(thread, count, progress)
    })
}
