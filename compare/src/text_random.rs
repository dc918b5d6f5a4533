//! Text scores to try: good ones, and damaged copies of them.

use crate::drawbars::is_bars;
use crate::random::Source;
use crate::score::Score;
use crate::text::{Kind, Text};
use crate::text_damage::{other_style, replace_byte, BYTES, LINES};
use crate::text_reference::{listing, MOST_BYTES};
use crate::waves::{BARS, KIT, ORGAN};

impl Text {
    /// A score of the domain. Most are short; a few have as many frames or notes as a text may have,
    /// or one more.
    pub fn random(s: &mut Source) -> Text {
        let score = Score::played(s);
        Text::of_random(score, s)
    }

    /// A score of the organ; the ten numbers of `BARS` are written out in some.
    fn organ(s: &mut Source) -> Text {
        let mut score = Score::played(s);
        score.wave = ORGAN;
        let own = is_bars(&score.bars) && s.below(2) == 0;
        let mut text = Text::of_random(score, s);
        if own {
            let written = BARS.map(|x| format!("{:08x}", x.to_bits()).into());
            text.lines[3].extend(written);
        }
        text
    }

    /// A score of the drum kit.
    fn kit(s: &mut Source) -> Text {
        let mut score = Score::played(s);
        (score.wave, score.style) = (KIT, s.style(KIT));
        Text::of_random(score, s)
    }

    fn of_random(mut score: Score, s: &mut Source) -> Text {
        score.lane.clear();
        if s.below(100) == 0 {
            score.out = s.pick(&[2047, 2048, 2048, 2049]);
        }
        let notes = match s.below(400) {
            0 => s.pick(&[255, 256, 256, 257]),
            1..30 => s.below(40),
            _ => s.below(6),
        };
        if notes > 40 {
            score.out = s.below(20) as usize;
        }
        for _ in 0..notes {
            score.add_number(s);
        }
        let draw = match s.below(4) {
            0 => 0,
            1 => s.number(),
            2 => u64::MAX - s.below(1000),
            _ => s.below(100_000),
        };
        let mut text = Text::of(&score, s.number(), draw);
        for line in text.lines.iter_mut().skip(4) {
            if s.below(8) == 0 {
                line.pop();
            }
        }
        text
    }

    /// Moves the draw so that the score ends at the last draw, or passes it.
    pub fn near_the_end(&mut self, s: &mut Source) {
        self.set(1, 2, "0");
        let last = u64::MAX - listing(&self.bytes()).draw;
        let draw = s.pick(&[last, last, last.saturating_add(1), last - 1]);
        self.set(1, 2, &draw.to_string());
    }

    /// A field that isn't its line's letter.
    pub fn some_field(&self, s: &mut Source) -> Option<(usize, usize, Kind)> {
        let line = s.below(self.lines.len() as u64) as usize;
        let fields = self.lines[line].len() as u64;
        if fields < 2 {
            return None;
        }
        let field = 1 + s.below(fields - 1) as usize;
        Some((line, field, self.kind(line, field)))
    }
}

/// A good score, or a copy of one with something wrong.
pub fn text(s: &mut Source) -> Vec<u8> {
    let text = Text::random(s);
    good_or_not(text, s)
}

/// The same of a score with as many notes as fill pages of a cue sheet, or about so many; most are good.
pub fn long_text(s: &mut Source) -> Vec<u8> {
    let mut score = Score::played(s);
    score.lane.clear();
    score.words.clear();
    score.out = s.pick(&[0, 20, 500, 2048]);
    let pages = [
        59, 60, 60, 61, 61, 119, 120, 120, 121, 121, 180, 181, 240, 241, 255, 256, 256, 257,
    ];
    for _ in 0..s.pick(&pages) {
        score.add_number(s);
    }
    let draw = s.pick(&[0, 0, 99_999, u64::MAX >> 1]);
    let mut text = Text::of(&score, s.number(), draw);
    match s.below(8) {
        0 => {
            text.near_the_end(s);
            text.bytes()
        }
        1 => damaged(text, s),
        _ => text.bytes(),
    }
}

/// The same of an organ, of which half are good, and some have another count of numbers.
pub fn organ_text(s: &mut Source) -> Vec<u8> {
    let mut text = Text::organ(s);
    match s.below(8) {
        0..4 => text.bytes(),
        4 => {
            let count = s.below(24) as usize;
            text.lines[3].resize(3 + count, b"3f000000".into());
            text.bytes()
        }
        _ => good_or_not(text, s),
    }
}

/// The same of a drum kit, of which half are good, and some have another style, none or two.
pub fn kit_text(s: &mut Source) -> Vec<u8> {
    let mut text = Text::kit(s);
    match s.below(8) {
        0..4 => text.bytes(),
        4 => {
            text.lines[3].truncate(3 + s.below(2) as usize);
            text.bytes()
        }
        5 => {
            other_style(&mut text, s);
            text.bytes()
        }
        _ => good_or_not(text, s),
    }
}

fn good_or_not(mut text: Text, s: &mut Source) -> Vec<u8> {
    if s.below(8) == 0 {
        text.near_the_end(s);
    }
    match s.below(160) {
        0..40 => text.bytes(),
        40 => long(text, s),
        41..60 => {
            odd_value(&mut text, s);
            text.bytes()
        }
        _ => damaged(text, s),
    }
}

/// With one to three kinds of damage.
pub fn damaged(mut text: Text, s: &mut Source) -> Vec<u8> {
    let kinds = s.pick(&[1, 1, 1, 1, 2, 3]);
    let of_bytes = s.below(kinds + 1);
    for _ in of_bytes..kinds {
        if !text.lines.is_empty() {
            s.pick(&LINES)(&mut text, s);
        }
    }
    let mut bytes = text.bytes();
    for _ in 0..of_bytes {
        s.pick(&BYTES)(&mut bytes, s);
    }
    bytes
}

/// As many bytes as a text may have, or about so many; half of them with one that is out of place.
fn long(text: Text, s: &mut Source) -> Vec<u8> {
    let length = MOST_BYTES - 1 + s.below(3) as usize;
    let mut bytes = padded(&text.bytes(), length);
    if s.below(2) == 0 {
        replace_byte(&mut bytes, s);
    }
    bytes
}

/// A well-formed text with N lines after it, so that it has so many bytes.
pub fn padded(text: &[u8], length: usize) -> Vec<u8> {
    let note = |step: usize, len: usize| {
        let (step, len) = ("1".repeat(step), "1".repeat(len));
        format!("N\t{step}\t{len}\t00000000\t3f800000\n").into_bytes()
    };
    let mut bytes = text.to_vec();
    // digits beyond one in each number; the first notes have them, at most nine in a number
    let mut more = (length - bytes.len()) % note(1, 1).len();
    while bytes.len() < length {
        let step = more.min(9);
        let len = (more - step).min(9);
        more -= step + len;
        bytes.extend(note(1 + step, 1 + len));
    }
    bytes
}

/// A well-formed value that few scores have.
pub fn odd_value(text: &mut Text, s: &mut Source) {
    let Some((line, field, kind)) = text.some_field(s) else {
        return;
    };
    let value = match kind {
        Kind::Decimal => s.pick(&DECIMALS).to_string(),
        _ if text.lines[line][field].len() == 16 => format!("{:016x}", s.number()),
        _ => format!("{:08x}", odd_float(s)),
    };
    text.set(line, field, &value);
}

/// Both sides of each limit, and what fits no longer.
const DECIMALS: [&str; 25] = [
    "0",
    "1",
    "15",
    "16",
    "17",
    "18",
    "64",
    "65",
    "2048",
    "2049",
    "7999",
    "8000",
    "192000",
    "192001",
    "1048575",
    "1048576",
    "16777217",
    "4294967295",
    "4294967296",
    "9999999999",
    "18446744073709551615",
    "18446744073709551616",
    "18446744073709551617",
    "99999999999999999999",
    "340282366920938463463374607431768211456",
];

/// Both sides of each limit, NaNs, infinities, subnormals.
fn odd_float(s: &mut Source) -> u32 {
    let not_sized = s.not_sized().to_bits();
    let any = s.number() as u32;
    s.pick(&[
        0x0000_0000,
        0x8000_0000,
        0x0000_0001,
        0x8000_0001,
        0x3f7f_ffff,
        0x3f80_0000,
        0x3f80_0001,
        0x447a_0000,
        0x447a_0001,
        0x4780_0000,
        0x4780_0001,
        0xc780_0000,
        0xc780_0001,
        0x7f80_0000,
        0x7fc0_0000,
        not_sized,
        not_sized,
        any,
    ])
}
