//! The cases: each list varies a few arguments and leaves the others as in `BASE`.

use crate::kit_cases;

#[derive(Clone, Copy)]
pub struct Groove {
    pub rate: u32,
    pub bpm: f32,
    pub steps_per_beat: u32,
    pub swing: f32,
    pub humanize: f32,
    pub n: usize,
    pub step: u32,
    pub len: u32,
    pub kind: u32,
    pub pitch: u32,
    pub gain: f32,
}

const BASE: Groove = Groove {
    rate: 44_100,
    bpm: 120.0,
    steps_per_beat: 4,
    swing: 1.0,
    humanize: 0.5,
    n: 441_000,
    step: 5,
    len: 2,
    kind: 0,
    pitch: 0x43dc_0000,
    gain: 0.8,
};

/// 0, 1 and between.
const PARTS: [f32; 5] = [0.0, 0.1, 0.5, 0.65, 1.0];
const GAINS: [f32; 8] = [0.0, -0.0, 1.0, 0.999_999_94, 1e-30, -1.0, 2.0, 65_536.0];
/// 0, -0, the least number, 20, 440, 65,536 and -65,536.
const PITCHES: [u32; 7] = [
    0,
    0x8000_0000,
    1,
    0x41a0_0000,
    0x43dc_0000,
    0x4780_0000,
    0xc780_0000,
];

impl Groove {
    pub fn line(&self) -> String {
        format!(
            "groove {:x} {:08x} {:x} {:08x} {:08x} {:x} {:x} {:x} {:x} {:08x} {:08x}",
            self.rate,
            self.bpm.to_bits(),
            self.steps_per_beat,
            self.swing.to_bits(),
            self.humanize.to_bits(),
            self.n,
            self.step,
            self.len,
            self.kind,
            self.pitch,
            self.gain.to_bits()
        )
    }
}

pub fn grooves() -> Vec<Groove> {
    let mut all = Vec::new();
    for swing in PARTS {
        for humanize in PARTS {
            for step in [0, 1, 2, 7] {
                all.push(Groove {
                    swing,
                    humanize,
                    step,
                    ..BASE
                });
            }
        }
    }
    for rate in [8_000, 11_025, 48_000, 192_000] {
        for bpm in [1.0, 60.5, 174.25, 1_000.0] {
            for steps_per_beat in [1, 3, 64] {
                all.push(Groove {
                    rate,
                    bpm,
                    steps_per_beat,
                    ..BASE
                });
            }
        }
    }
    for step in [0, 1, 1_048_574, 1_048_575] {
        for len in [0, 1, 3, 1_048_575] {
            for n in [0, 1, 27_000, 16_777_215, 16_777_216] {
                all.push(Groove {
                    step,
                    len,
                    n,
                    bpm: 1_000.0,
                    steps_per_beat: 64,
                    ..BASE
                });
            }
        }
    }
    for pitch in PITCHES {
        for humanize in [0.0, 0.3, 1.0] {
            all.push(Groove {
                pitch,
                humanize,
                ..BASE
            });
        }
    }
    // all curves have one identity
    for pitch in [0, 1, 0x43dc_0000] {
        for step in [0, 5] {
            all.push(Groove {
                kind: 1,
                pitch,
                step,
                humanize: 1.0,
                ..BASE
            });
        }
    }
    // a quarter tone has the identity of its number in the table
    for pitch in [0, 1, 137, 138, 139, 255] {
        for step in [0, 5] {
            all.push(Groove {
                kind: 2,
                pitch,
                step,
                humanize: 1.0,
                ..BASE
            });
        }
    }
    for gain in GAINS {
        for humanize in [0.0, 0.5, 1.0] {
            all.push(Groove {
                gain,
                humanize,
                ..BASE
            });
        }
    }
    // a note that humanize would start before frame 0
    for pitch in PITCHES {
        all.push(Groove {
            pitch,
            step: 0,
            humanize: 1.0,
            swing: 0.0,
            ..BASE
        });
    }
    all
}

pub const NOISE: u32 = 4;
pub const PLUCK: u32 = 6;
pub const PIANO: u32 = 7;
pub const FLUTE: u32 = 12;
pub const KIT: u32 = crate::waves::KIT;

pub struct Draws {
    pub wave: u32,
    pub rate: u32,
    pub pitch: f32,
    pub frames: usize,
    pub style: u32,
}

impl Draws {
    pub fn line(&self) -> String {
        format!(
            "draws {:x} {:x} {:08x} {:x} {:x}",
            self.wave,
            self.rate,
            self.pitch.to_bits(),
            self.frames,
            self.style
        )
    }
}

pub fn draws() -> Vec<Draws> {
    let rates = [8_000, 11_025, 22_050, 44_100, 48_000, 96_000, 192_000];
    let mut all = Vec::new();
    for rate in rates {
        for frames in [1, 100, 1_000, 100_000] {
            all.push(Draws {
                wave: PIANO,
                rate,
                pitch: 440.0,
                frames,
                style: 0,
            });
        }
        for pitch in [
            -65_536.0, -0.0, 0.0, 19.999_998, 20.0, 440.0, 17_639.9, 65_536.0,
        ] {
            all.push(Draws {
                wave: PLUCK,
                rate,
                pitch,
                frames: 100,
                style: 0,
            });
        }
    }
    for wave in [NOISE, FLUTE] {
        for frames in [1, 16_777_216] {
            all.push(Draws {
                wave,
                rate: 48_000,
                pitch: 440.0,
                frames,
                style: 0,
            });
        }
    }
    all.extend(kit_cases::draws());
    all
}
