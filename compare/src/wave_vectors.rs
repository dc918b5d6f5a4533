//! The replay files of crates/wave_vectors. A line `read` gives the length of a file, the room and a name;
//! a line `write` the length of the samples in bytes, the room, a rate and a name; then the bytes stand.

use crate::random::Source;
use crate::wave_random::{damaged, good, wave};
use crate::wave_reference::{
    chunk, data_body, fmt_body, form, parsed, read, write, written, Wave, HEADER,
};
use std::fs;
use std::io;
use std::path::Path;

const FOLDER: &str = concat!(env!("CARGO_MANIFEST_DIR"), "/../crates/wave_vectors");
/// Files of other programs; `waves/make` says how they were made.
const OUTSIDE: &str = concat!(env!("CARGO_MANIFEST_DIR"), "/waves");
/// What each byte that is lent holds before a call.
const POINT: u8 = b'.';
const POINTS: u32 = u32::from_le_bytes([POINT; 4]);
/// The most samples and bytes that the program lends.
const MOST_SAMPLES: usize = 32;
const MOST_BYTES: usize = 256;

#[derive(Default)]
struct Replay {
    stdin: Vec<u8>,
    stdout: String,
    cases: usize,
}

impl Replay {
    fn put(&mut self, line: &str, bytes: &[u8], answers: impl Iterator<Item = String>) {
        self.stdin.extend(format!("{line}\n").bytes());
        self.stdin.extend(bytes);
        self.stdout += line;
        for answer in answers {
            self.stdout += &format!(" {answer}");
        }
        self.stdout.push('\n');
        self.cases += 1;
    }

    fn read(&mut self, name: &str, file: &[u8], room: usize) {
        assert!(room <= MOST_SAMPLES);
        let mut samples = vec![POINTS; room];
        let mut rate = POINTS;
        let answer = read(file, &mut rate, &mut samples);
        let line = format!("read {:x} {room:x} {name}", file.len());
        let numbers = [answer as u64, u64::from(rate)];
        let lent = samples.iter().map(|&x| u64::from(x));
        let answers = numbers.into_iter().chain(lent);
        self.put(&line, file, answers.map(|n| format!("{n:016x}")));
    }

    fn write(&mut self, name: &str, wave: &Wave, room: usize) {
        assert!(room <= MOST_BYTES);
        let mut file = vec![POINT; room];
        let answer = write(wave.rate, &wave.samples, &mut file);
        let bytes = data_body(&wave.samples);
        let line = format!("write {:x} {room:x} {:x} {name}", bytes.len(), wave.rate);
        let lent = file.iter().map(|b| format!("{b:02x}"));
        let answers = [format!("{:016x}", answer as u64)].into_iter().chain(lent);
        self.put(&line, &bytes, answers);
    }

    /// A file with just the room, more and less.
    fn rooms(&mut self, name: &str, file: &[u8]) {
        let count = parsed(file).map_or(2, |wave| wave.samples.len());
        for room in [count, count + 2, count.saturating_sub(1), 0] {
            self.read(name, file, room);
        }
    }

    fn files(&mut self, folder: &Path) -> io::Result<()> {
        let mut names: Vec<_> = fs::read_dir(folder)?
            .map(|entry| Ok(entry?.file_name().to_string_lossy().into_owned()))
            .collect::<io::Result<_>>()?;
        names.sort();
        names.retain(|name| name.ends_with(".wav"));
        let samples = fs::read(folder.join("samples.f32"))?;
        for name in names {
            let file = fs::read(folder.join(&name))?;
            if let Ok(wave) = parsed(&file) {
                assert_eq!(
                    (wave.rate, data_body(&wave.samples)),
                    (44_100, samples.clone())
                );
            }
            self.rooms(&name, &file);
        }
        Ok(())
    }
}

/// Patterns that a conversion to a number would change among them.
fn some_wave() -> Wave {
    let samples = vec![
        0x7fa0_0001,
        0xff80_0001,
        0xffff_ffff,
        0x8000_0000,
        0x3f80_0000,
        1,
    ];
    Wave {
        rate: 48_000,
        samples,
    }
}

/// One file for each sentence of the card.
fn named() -> Vec<(&'static str, Vec<u8>)> {
    let wave = some_wave();
    let fmt = chunk(b"fmt ", &fmt_body(3, 1, wave.rate, 32));
    let fact = chunk(b"fact", &6u32.to_le_bytes());
    let data = chunk(b"data", &data_body(&wave.samples));
    let odd = chunk(b"LIST", b"abc");
    let even = chunk(b"LIST", b"abcd");
    let with = |tag, channels, width| chunk(b"fmt ", &fmt_body(tag, channels, wave.rate, width));
    let all = |chunks: &[&Vec<u8>]| form(&chunks.iter().map(|c| c.to_vec()).collect::<Vec<_>>());
    let long_fmt = chunk(
        b"fmt ",
        &[fmt_body(1, 2, wave.rate, 16), vec![0; 22]].concat(),
    );
    let short_fmt = chunk(b"fmt ", &fmt_body(3, 1, wave.rate, 32)[..16]);
    let past = [b"LIST".to_vec(), 100u32.to_le_bytes().to_vec()].concat();
    let wraps = [b"LIST".to_vec(), 0xffff_fff0u32.to_le_bytes().to_vec()].concat();
    vec![
        ("as written", written(&wave)),
        (
            "no samples",
            written(&Wave {
                rate: 8000,
                samples: vec![],
            }),
        ),
        (
            "any rate",
            written(&Wave {
                rate: u32::MAX,
                samples: vec![5],
            }),
        ),
        ("fact first", all(&[&fact, &fmt, &data])),
        (
            "other chunks",
            all(&[&odd, &fmt, &even, &odd, &fact, &odd, &data]),
        ),
        (
            "bytes after data",
            all(&[&fmt, &fact, &data, &b"xyz".to_vec()]),
        ),
        ("a chunk after data", all(&[&fmt, &fact, &data, &past])),
        ("tag 1", all(&[&with(1, 1, 32), &fact, &data])),
        ("two channels", all(&[&with(3, 2, 32), &fact, &data])),
        ("64 bits", all(&[&with(3, 1, 64), &fact, &data])),
        ("size before content", all(&[&long_fmt, &fact, &data])),
        ("fmt of 16", all(&[&short_fmt, &fact, &data])),
        (
            "fact of 8",
            all(&[&fmt, &chunk(b"fact", &[6, 0, 0, 0, 0, 0, 0, 0]), &data]),
        ),
        ("second fmt", all(&[&fmt, &fmt, &fact, &data])),
        (
            "second fmt of tag 1",
            all(&[&fmt, &with(1, 1, 32), &fact, &data]),
        ),
        ("second fact", all(&[&fmt, &fact, &fact, &data])),
        ("no fmt", all(&[&fact, &data])),
        ("no fact", all(&[&fmt, &data])),
        ("no data", all(&[&fmt, &fact])),
        ("no chunk", all(&[])),
        (
            "data too long",
            all(&[&fmt, &chunk(b"fact", &5u32.to_le_bytes()), &data]),
        ),
        (
            "data too short",
            all(&[&fmt, &chunk(b"fact", &7u32.to_le_bytes()), &data]),
        ),
        (
            "tag before a chunk past the end",
            all(&[&with(1, 1, 32), &fact, &past]),
        ),
        (
            "a chunk past the end before a tag",
            all(&[&past, &with(1, 1, 32)]),
        ),
        ("a size that wraps", all(&[&wraps, &fmt, &fact, &data])),
        ("tag before missing chunks", all(&[&with(1, 1, 32)])),
        ("a padding byte cut off", {
            let mut file = all(&[&fmt, &fact, &odd]);
            file.pop();
            let size = (file.len() - 8) as u32;
            file[4..8].copy_from_slice(&size.to_le_bytes());
            file
        }),
        ("a size too large", {
            let mut file = written(&wave);
            file[4] += 1;
            file
        }),
        ("RIFX", [b"RIFX", &written(&wave)[4..]].concat()),
        ("11 bytes", written(&wave)[..11].to_vec()),
        ("nothing", Vec::new()),
    ]
}

/// Writes both files.
pub fn run() -> io::Result<()> {
    let mut replay = Replay::default();
    replay.files(Path::new(OUTSIDE))?;
    for (name, file) in named() {
        replay.rooms(name, &file);
    }
    for rate in [0, 7_999, 8_000, 44_100, 192_000, 192_001, u32::MAX] {
        let wave = Wave {
            rate,
            ..some_wave()
        };
        let length = HEADER + 4 * wave.samples.len();
        for room in [length, length + 7, length - 1, 0] {
            replay.write("samples", &wave, room);
        }
    }
    replay.write(
        "no samples",
        &Wave {
            rate: 8000,
            samples: vec![],
        },
        HEADER + 3,
    );
    for number in 0..400 {
        let mut s = Source::new(number);
        let file = match number % 4 {
            0 => {
                let wave = wave(&mut s);
                good(&wave, &mut s)
            }
            _ => damaged(&mut s),
        };
        let room = parsed(&file).map_or(3, |wave| wave.samples.len());
        if room < MOST_SAMPLES {
            replay.read(&format!("random {number}"), &file, room + 1);
        }
    }
    let folder = Path::new(FOLDER);
    fs::create_dir_all(folder)?;
    fs::write(folder.join("stdin"), &replay.stdin)?;
    fs::write(folder.join("stdout"), &replay.stdout)?;
    println!(
        "{} calls on files, {} bytes",
        replay.cases,
        replay.stdin.len()
    );
    Ok(())
}
