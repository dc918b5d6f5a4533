//! How many draws a hit of the drum kit makes, read off render/kit.rs: which drums of which style draw, and the
//! original's own test of time where they stop. The original's generator is held to the count after each hit
//! (`reference::moved`).

use tono::dsl::KitStyle;
use tono::dsp;

/// When a drum draws.
#[derive(Clone, Copy, PartialEq, Debug)]
pub enum Drawn {
    Never,
    /// In the frames whose time is below this one.
    Before(f32),
    Always,
}

/// "let midi = crate::dsp::hz_to_midi(f[0].max(8.0)).round() as i32;"
pub fn midi(first: f32) -> i32 {
    dsp::hz_to_midi(first.max(8.0)).round() as i32
}

/// By style and drum.
pub fn drawn(style: KitStyle, midi: i32) -> Drawn {
    use KitStyle::*;
    match (style, midi) {
        (Classic, 35 | 36) => Drawn::Before(0.002),
        (Acoustic, 35 | 36) => Drawn::Before(0.018),
        (Electronic, 35 | 36) => Drawn::Before(0.003),
        (Eight08, 35 | 36) => Drawn::Before(0.004),
        (Eight08, 37) => Drawn::Before(0.003),
        // hats and toms of the 808 have no noise
        (Eight08, 42 | 44 | 46 | 41 | 43 | 45 | 47 | 48 | 50) => Drawn::Never,
        // cowbells
        (_, 56) => Drawn::Never,
        _ => Drawn::Always,
    }
}

/// The draws of a hit: "let t = i as f32 / srf;", frame by frame.
pub fn hit_draws(style: KitStyle, rate: u32, first: f32, frames: usize) -> u64 {
    let early = |end: f32| {
        let times = (0..frames).map(|i| i as f32 / rate as f32);
        times.take_while(|&t| t < end).count() as u64
    };
    match drawn(style, midi(first)) {
        Drawn::Never => 0,
        Drawn::Before(end) => early(end),
        Drawn::Always => frames as u64,
    }
}
