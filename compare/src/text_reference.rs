//! What document 01 asks of the text call and of the C call: a text score's bytes to its listing. The
//! text is split into lines and fields, as 01 gives its form; past 15 and 16 the answer is the tally's.
//! Nothing here comes from the library. Words in quotes are 01's, or 02's where it is named.

use crate::reference::{Outcome, Session, STATIONS};
use crate::score::Score;
use crate::vectors::pattern;
use crate::waves::{own_knobs, style_at, wave_at, BARS, KIT, ORGAN};
use std::fmt::Write as _;
use std::str::FromStr;

/// "16 input above 65,536 bytes"
pub const MOST_BYTES: usize = 65_536;
/// "16 n above 2,048 or notes above 256"
const MOST_FRAMES: usize = 2048;
const MOST_NOTES: usize = 256;
/// "string buffer shorter than 9,600 values": the text call has one that is long enough.
const STRING: usize = 9600;

/// What is printed for a text score, and the number that refuses it, 0 where none does.
pub struct Listing {
    pub number: u32,
    pub bytes: Vec<u8>,
    /// The session's count after it.
    pub draw: u64,
}

/// A text score that has its form.
pub struct TextScore {
    pub seed: u64,
    pub draw: u64,
    pub score: Score,
}

/// "text only, before all others: 16 input above 65,536 bytes; 15 some line not of its form, a line
/// missing or one too many; 16 n above 2,048 or notes above 256"
pub fn listing(text: &[u8]) -> Listing {
    match judged(text) {
        Err((number, draw)) => refused(number, draw),
        Ok(read) => played(&read),
    }
}

/// The score, or the number of what refuses the text and the draw of its G line, 0 where none was read.
pub fn judged(text: &[u8]) -> Result<TextScore, (u32, u64)> {
    if text.len() > MOST_BYTES {
        return Err((16, 0));
    }
    let read = read(text).ok_or((15, 0u64))?;
    if read.score.out > MOST_FRAMES || read.score.words.len() / 5 > MOST_NOTES {
        return Err((16, read.draw));
    }
    Ok(read)
}

/// The planning call of a text, on the station that its G line opens: its total, or the refusal's number.
pub fn plan(text: &[u8]) -> Result<u64, u32> {
    let read = judged(text).map_err(|(number, _)| number)?;
    let session = Session::open(read.seed, read.draw);
    match session.plan_call(&read.score.call()) {
        Some(Outcome::Accepted { draws, .. }) => Ok(draws),
        Some(Outcome::Refused(number)) => Err(number),
        None => panic!("a V line has one of the waves"),
    }
}

/// "A refused score prints one line alone: R, a tab, the number, a newline."
fn refused(number: u32, draw: u64) -> Listing {
    Listing {
        number,
        bytes: format!("R\t{number}\n").into_bytes(),
        draw,
    }
}

/// "A text score past 15 and 16 gives what a list of its one score call gives, from the session that
/// its G line opens"; "prints G with the end state and draw count, then one F line a frame, index and
/// bits"; "A NaN frame is printed as 7fc00000."
fn played(read: &TextScore) -> Listing {
    let mut session = Session::open(read.seed, read.draw);
    let frames = match session.score_call(&read.score.call()) {
        Some(Outcome::Accepted { frames, .. }) => frames,
        Some(Outcome::Refused(number)) => return refused(number, read.draw),
        None => panic!("a V line has one of the waves"),
    };
    let tally = &session.stations[0];
    let mut text = format!("G\t{:016x}\t{}\n", tally.state(), tally.draw);
    for (i, &frame) in frames.iter().enumerate() {
        writeln!(text, "F\t{i}\t{:08x}", pattern(frame)).expect("a string takes any text");
    }
    Listing {
        number: 0,
        bytes: text.into_bytes(),
        draw: tally.draw,
    }
}

/// "it gets the listing's length in bytes, or −23 with the buffer untouched. The listing stands from
/// the buffer's first byte on, and the bytes after it stay."
pub fn c_call(listing: &[u8], reply: &mut [u8]) -> i64 {
    match reply.get_mut(..listing.len()) {
        Some(start) => {
            start.copy_from_slice(listing);
            listing.len() as i64
        }
        None => -23,
    }
}

/// "Lines end in a newline, fields are parted by tabs .. In order: S rate n tempo steps-per-beat swing
/// humanize; G seed draw; E a d s r punch; V wave duty knobs .. then N step len pitch gain, none or
/// more such lines"
fn read(text: &[u8]) -> Option<TextScore> {
    // "a last line without its newline breaks the form"
    let body = text.strip_suffix(b"\n")?;
    let mut lines = body.split(|&b| b == b'\n');
    let mut next = || lines.next().map(fields);
    let [rate, n, tempo, steps_per_beat, swing, humanize] = after(b"S", &next()?)?;
    let [seed, draw] = after(b"G", &next()?)?;
    let env: [&[u8]; 5] = after(b"E", &next()?)?;
    let voice = line_v(&next()?)?;
    let mut words = Vec::new();
    for line in lines {
        words.extend(line_n(&fields(line))?);
    }
    let out = decimal::<u32>(n)? as usize;
    Some(TextScore {
        seed: hex(seed, 16)?,
        draw: decimal(draw)?,
        score: Score {
            seeds: STATIONS,
            counts: STATIONS,
            // "A text score plays on station 0, which its G line opens."
            station: 0,
            rate: decimal(rate)?,
            tempo: float(tempo)?,
            steps_per_beat: decimal(steps_per_beat)?,
            points: Vec::new(),
            swing: float(swing)?,
            humanize: float(humanize)?,
            // "a text score has 1"
            hop: 1,
            wave: voice.wave,
            style: voice.style,
            duty: voice.duty,
            knobs: voice.knobs,
            bars: voice.bars,
            env: env.map(float).into_iter().collect::<Option<_>>()?,
            words,
            // "Text pitches are numbers, never curves."
            lane: Vec::new(),
            out,
            note_buf: out,
            string: STRING,
        },
    })
}

struct Voice {
    wave: u32,
    style: u32,
    duty: f32,
    knobs: Vec<f32>,
    bars: Vec<f32>,
}

/// "V wave duty knobs (wave is the place in `SeqWave` from 0, knobs in node.rs order, none for waves
/// that have none; knobs of the sets not written are 0; 16 and above 17 break the form)"; 02, Card 8: "A V line of wave 16 carries the style, 0 to 3 in the order of
/// `KitStyle`, after duty; otherwise its form is broken .. 18 and more still break the form"; and Card 14, of
/// the organ's drawbars: "after duty on the V line, ratio before level .. A V line without the ten uses the
/// five pairs of `BARS`"
fn line_v(line: &[&[u8]]) -> Option<Voice> {
    let (first, written) = line.split_at_checked(3)?;
    let [wave, duty] = after(b"V", first)?;
    let wave = decimal(wave)?;
    wave_at(wave)?;
    let duty = float(duty)?;
    let mut voice = Voice {
        wave,
        style: 0,
        duty,
        knobs: vec![0.0; 22],
        bars: BARS.to_vec(),
    };
    let set = written.iter().map(|field| float(field));
    match (wave, written) {
        (KIT, [style]) => {
            voice.style = decimal(style)?;
            style_at(voice.style)?;
        }
        (KIT, _) => return None,
        (ORGAN, _) if written.len() == BARS.len() => voice.bars = set.collect::<Option<_>>()?,
        _ => {
            let own = own_knobs(wave);
            if written.len() != own.len() {
                return None;
            }
            for (knob, value) in voice.knobs[own].iter_mut().zip(set) {
                *knob = value?;
            }
        }
    }
    Some(voice)
}

/// "N step len pitch gain .. each of which may stop after pitch", and 02, Card 5: "A line N that stops after
/// the pitch now means gain 0.5, bits 3f000000". The note's five words.
fn line_n(line: &[&[u8]]) -> Option<[u32; 5]> {
    let half: &[u8] = b"3f000000";
    let line = match line {
        [n, step, len, pitch] => &[*n, *step, *len, *pitch, half],
        _ => line,
    };
    let [step, len, pitch, gain] = after(b"N", line)?;
    let bits = |field| hex(field, 8).map(|bits| bits as u32);
    Some([decimal(step)?, decimal(len)?, 0, bits(pitch)?, bits(gain)?])
}

fn fields(line: &[u8]) -> Vec<&[u8]> {
    line.split(|&b| b == b'\t').collect()
}

/// The fields after the line's letter, where there are as many.
fn after<'a, const K: usize>(letter: &[u8], line: &[&'a [u8]]) -> Option<[&'a [u8]; K]> {
    match line.split_first() {
        Some((first, rest)) if *first == letter => rest.try_into().ok(),
        _ => None,
    }
}

/// "decimal without leading zeros"; "A seed or draw that doesn't fit 64 bits, another number that
/// doesn't fit 32 .. breaks the form"
fn decimal<T: FromStr>(field: &[u8]) -> Option<T> {
    let digits = field.iter().all(u8::is_ascii_digit);
    let leading_zero = field.len() > 1 && field[0] == b'0';
    if !digits || leading_zero {
        return None;
    }
    std::str::from_utf8(field).ok()?.parse().ok()
}

/// "8 lowercase hexadecimal digits of the f32 bits, seeds 16"
fn hex(field: &[u8], digits: usize) -> Option<u64> {
    let lowercase = field.iter().all(|b| b"0123456789abcdef".contains(b));
    if field.len() != digits || !lowercase {
        return None;
    }
    u64::from_str_radix(std::str::from_utf8(field).ok()?, 16).ok()
}

fn float(field: &[u8]) -> Option<f32> {
    hex(field, 8).map(|bits| f32::from_bits(bits as u32))
}
