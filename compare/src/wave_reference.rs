//! WAVE files by 02's Card 12, in plain Rust.

pub const RATE: u32 = 1;
pub const FRAMES: u32 = 2;
pub const ROOM: u32 = 23;
pub const FORMAT: u32 = 36;
pub const STRUCTURE: u32 = 37;

/// The most samples of a file that is written.
pub const MOST: usize = 16_777_216;
/// Bytes before the samples of a file that is written.
pub const HEADER: usize = 58;

#[derive(Clone, Debug, PartialEq)]
pub struct Wave {
    pub rate: u32,
    pub samples: Vec<u32>,
}

/// A chunk with its padding byte where the body's length is odd.
pub fn chunk(name: &[u8; 4], body: &[u8]) -> Vec<u8> {
    let mut bytes = name.to_vec();
    bytes.extend((body.len() as u32).to_le_bytes());
    bytes.extend(body);
    if body.len() % 2 == 1 {
        bytes.push(0);
    }
    bytes
}

/// fmt's fields in their order.
pub fn fmt_body(tag: u16, channels: u16, rate: u32, width: u16) -> Vec<u8> {
    let mut body = Vec::new();
    body.extend(tag.to_le_bytes());
    body.extend(channels.to_le_bytes());
    body.extend(rate.to_le_bytes());
    body.extend(rate.wrapping_mul(4).to_le_bytes());
    body.extend(4u16.to_le_bytes());
    body.extend(width.to_le_bytes());
    body.extend(0u16.to_le_bytes());
    body
}

/// RIFF, the length less 8, WAVE and the chunks.
pub fn form(chunks: &[Vec<u8>]) -> Vec<u8> {
    let mut body = b"WAVE".to_vec();
    for chunk in chunks {
        body.extend(chunk);
    }
    let mut bytes = b"RIFF".to_vec();
    bytes.extend((body.len() as u32).to_le_bytes());
    bytes.extend(body);
    bytes
}

pub fn data_body(samples: &[u32]) -> Vec<u8> {
    samples.iter().flat_map(|s| s.to_le_bytes()).collect()
}

/// The file that writing makes.
pub fn written(wave: &Wave) -> Vec<u8> {
    let count = (wave.samples.len() as u32).to_le_bytes();
    form(&[
        chunk(b"fmt ", &fmt_body(3, 1, wave.rate, 32)),
        chunk(b"fact", &count),
        chunk(b"data", &data_body(&wave.samples)),
    ])
}

/// What `tono_wave_write` answers, and leaves in `file`.
pub fn write(rate: u32, samples: &[u32], file: &mut [u8]) -> i64 {
    if !(8000..=192_000).contains(&rate) {
        return -i64::from(RATE);
    }
    if samples.len() > MOST {
        return -i64::from(FRAMES);
    }
    let length = HEADER + 4 * samples.len();
    if file.len() < length {
        return -i64::from(ROOM);
    }
    let samples = samples.to_vec();
    file[..length].copy_from_slice(&written(&Wave { rate, samples }));
    length as i64
}

fn u16_of(bytes: &[u8]) -> u16 {
    u16::from_le_bytes([bytes[0], bytes[1]])
}

fn u32_of(bytes: &[u8]) -> u32 {
    u32::from_le_bytes([bytes[0], bytes[1], bytes[2], bytes[3]])
}

/// The name and the body of the chunk at the start of some bytes, and how many bytes it takes; none where
/// it goes past their end.
fn first_chunk(bytes: &[u8]) -> Option<(&[u8], &[u8], usize)> {
    let name = bytes.get(..4)?;
    let size = u32_of(bytes.get(4..8)?) as usize;
    let body = bytes.get(8..8 + size)?;
    Some((name, body, 8 + size + size % 2))
}

/// What a file says, or the number of its first fault.
pub fn parsed(file: &[u8]) -> Result<Wave, u32> {
    let begun = file.len() >= 12
        && &file[..4] == b"RIFF"
        && u64::from(u32_of(&file[4..])) == file.len() as u64 - 8
        && &file[8..12] == b"WAVE";
    if !begun {
        return Err(STRUCTURE);
    }
    let mut rest = &file[12..];
    let mut rate = None;
    let mut count = None;
    loop {
        let (name, body, length) = first_chunk(rest).ok_or(STRUCTURE)?;
        match name {
            b"fmt " => {
                if rate.is_some() || body.len() != 18 {
                    return Err(STRUCTURE);
                }
                if (u16_of(body), u16_of(&body[2..]), u16_of(&body[14..])) != (3, 1, 32) {
                    return Err(FORMAT);
                }
                rate = Some(u32_of(&body[4..]));
            }
            b"fact" => {
                if count.is_some() || body.len() != 4 {
                    return Err(STRUCTURE);
                }
                count = Some(u32_of(body));
            }
            b"data" => {
                let (Some(rate), Some(count)) = (rate, count) else {
                    return Err(STRUCTURE);
                };
                if body.len() as u64 != 4 * u64::from(count) {
                    return Err(STRUCTURE);
                }
                let samples = body.chunks(4).map(u32_of).collect();
                return Ok(Wave { rate, samples });
            }
            _ => {}
        }
        rest = rest.get(length..).unwrap_or(&[]);
    }
}

/// What `tono_wave_read` answers, and leaves in `rate` and `samples`.
pub fn read(file: &[u8], rate: &mut u32, samples: &mut [u32]) -> i64 {
    let wave = match parsed(file) {
        Ok(wave) => wave,
        Err(number) => return -i64::from(number),
    };
    let count = wave.samples.len();
    if samples.len() < count {
        return -i64::from(ROOM);
    }
    *rate = wave.rate;
    samples[..count].copy_from_slice(&wave.samples);
    count as i64
}
