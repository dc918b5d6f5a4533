//! Lists of score calls over the stations of one session, most of them of the drum kit, and text scores of it.

use crate::engine::Count;
use crate::grid::Grid;
use crate::kit_draws::{drawn, midi, Drawn};
use crate::long_scores::{long, long_hopped, long_mapped};
use crate::random::Source;
use crate::reference::NO_CALL;
use crate::score::Score;
use crate::score_calls::{run_lists, Lists, Played};
use crate::score_cases::note;
use crate::station_calls;
use crate::texts;
use crate::tones::quarter_tone;
use crate::tried::Tried;
use crate::waves::{style_at, KIT};

/// How many score calls are tried where no number is given; and a tenth as many texts.
pub const COUNT: u64 = 1_000_000;
/// How many calls a list has at most.
const CALLS: u64 = 16;

const STYLED: [&str; 4] = [
    "accepted of style 0 with a hit that sounds",
    "accepted of style 1 with a hit that sounds",
    "accepted of style 2 with a hit that sounds",
    "accepted of style 3 with a hit that sounds",
];

impl Score {
    /// A score of any kind on some station; seven of eight are of the drum kit, one in 24 has a style that is none.
    fn of_kit(s: &mut Source) -> Score {
        let mut score = Score::stationed(s);
        if s.below(8) > 0 && score.wave < 18 {
            score.wave = KIT;
            if score.style < 4 {
                score.style = s.below(4) as u32;
            }
            score.set_drums(s);
        }
        if s.below(24) == 0 {
            score.style = s.no_style();
        }
        score
    }

    /// Pitches that pick drums, in the place of those that are sized; a curve's own first value picks its drum.
    fn set_drums(&mut self, s: &mut Source) {
        for w in self.words.chunks_exact_mut(5) {
            let pitch = s.pitch(KIT);
            match w[2] {
                0 if f32::from_bits(w[3]).abs() <= 65536.0 => w[3] = pitch.to_bits(),
                1 => {
                    let first = self.lane.get_mut(w[3] as usize);
                    if let Some(first) = first.filter(|x| x.abs() <= 65536.0) {
                        *first = pitch;
                    }
                }
                _ => {}
            }
        }
    }

    fn first_pitch(&self, w: &[u32]) -> f32 {
        match w[2] {
            0 => f32::from_bits(w[3]),
            1 => self.lane[w[3] as usize],
            _ => quarter_tone(w[3]).expect("the call is accepted"),
        }
    }

    /// Of an accepted score of the drum kit, whether some hit of it that sounds is of a kind.
    fn hits(&self, is: impl Fn(&[u32], i32, Drawn, usize) -> bool) -> bool {
        let grid = Grid::of(&self.call());
        let style = style_at(self.style).expect("the call is accepted");
        self.words.chunks_exact(5).any(|w| {
            let sounded = grid.place(&crate::grid::bare(w));
            sounded.is_some_and(|frames| {
                let midi = midi(self.first_pitch(w));
                is(w, midi, drawn(style, midi), frames.len())
            })
        })
    }

    fn kit_kinds(&self) -> [(&'static str, bool); 9] {
        let time = |frames: usize| frames as f32 / self.rate as f32;
        let early = |how: Drawn, past: bool, frames: usize| match how {
            Drawn::Before(end) => (time(frames) > end) == past,
            _ => false,
        };
        [
            (
                "accepted with a hit that draws in every frame",
                self.hits(|_, _, how, _| how == Drawn::Always),
            ),
            (
                "accepted with a hit that never draws",
                self.hits(|_, _, how, _| how == Drawn::Never),
            ),
            (
                "accepted with a hit that draws for a while, and sounds longer",
                self.hits(|_, _, how, frames| early(how, true, frames)),
            ),
            (
                "accepted with a hit that draws for a while, and ends before",
                self.hits(|_, _, how, frames| early(how, false, frames)),
            ),
            (
                "accepted with a drum from 35 to 51",
                self.hits(|_, midi, _, _| (35..=51).contains(&midi)),
            ),
            (
                "accepted with a clap",
                self.hits(|_, midi, _, _| midi == 39),
            ),
            (
                "accepted with a hit by a curve",
                self.hits(|w, _, _, _| w[2] == 1),
            ),
            (
                "accepted with a hit by a quarter tone",
                self.hits(|w, _, _, _| w[2] == 2),
            ),
            (
                "accepted with a hit of a negative gain",
                self.hits(|w, _, _, _| f32::from_bits(w[4]) < 0.0),
            ),
        ]
    }
}

fn mark(played: &Played, tried: &mut Tried) {
    let score = played.score;
    match played.number {
        0 if score.wave == KIT => {
            tried.mark_if(STYLED[score.style as usize], score.hits(|_, _, _, _| true));
            for (kind, is) in score.kit_kinds() {
                tried.mark_if(kind, is);
            }
        }
        0 => tried.mark_if(
            "accepted of another wave with a style that is not 0",
            score.style > 0,
        ),
        22 => tried.mark_if("refused with 22 of the drum kit", score.wave == KIT),
        NO_CALL if score.style > 3 => {
            tried.mark_if("not made with style 4", score.style == 4);
            tried.mark_if("not made with style 2^32 - 1", score.style == u32::MAX);
            tried.mark_if(
                "not made with a style above 3 and of another wave",
                score.wave != KIT,
            );
            tried.mark_if(
                "not made with a style above 3 and on no station",
                score.station > 7,
            );
        }
        _ => {}
    }
}

/// A long score of each style, straight, mapped and at a hop, with a bar of drums.
fn long_ones() -> Vec<(String, Vec<Score>)> {
    let drums = [36, 38, 42, 46, 45, 39, 37, 56, 49, 51, 35, 50];
    let bar = drums.iter().enumerate().map(|(i, &midi)| {
        let pitch = crate::kits::pitch_of(midi);
        note(10 * i as u32, 4, pitch, 0.7)
    });
    let bar: Vec<u32> = bar.flatten().collect();
    let with_bar = |style: u32, mut score: Score| {
        score.style = style;
        score.words.extend(&bar);
        score
    };
    (0..4)
        .map(|style| {
            let scores = [long(KIT), long_mapped(KIT), long_hopped(KIT, 64)];
            let name = format!("a long kit of style {style}");
            (name, scores.map(|score| with_bar(style, score)).to_vec())
        })
        .collect()
}

const OF_KIT: Lists = Lists {
    what: "score calls of the drum kit",
    most: CALLS,
    random: Score::of_kit,
    session: station_calls::opened,
    long: long_ones,
    mark,
};

/// Compares `count` calls, and a tenth as many texts.
pub fn run(count: u64) -> Count {
    run_lists(&OF_KIT, count) + texts::run_kit(count.div_ceil(10))
}
