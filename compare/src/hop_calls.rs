//! Lists of score calls at hops on one session, through `tono_render_seq` and by the tally, whose original is given
//! the widened curve.

use crate::engine::Count;
use crate::long_scores::{long_hopped, longest_hopped};
use crate::reference::NO_CALL;
use crate::score::Score;
use crate::score_calls::{mark_kinds, on_station_0, run_lists, Lists, Played, CALLS};
use crate::tried::Tried;
use crate::waves::WAVES;

/// How many calls are tried where no number is given: three in four are made at a hop of the domain.
pub const COUNT: u64 = 1_500_000;

/// Of the long scores.
const HOPS: [u32; 6] = [1, 2, 3, 64, 4095, 4096];

fn mark(played: &Played, tried: &mut Tried) {
    let (score, number) = (played.score, played.number);
    if number == NO_CALL {
        return;
    }
    mark_kinds(played, tried);
    if !score.is_outside() {
        tried.mark("made at a hop from 1 to 4,096");
    }
    if number == 0 {
        let (kind, is) = score.slow_curve();
        tried.mark_wave(score.wave, kind, is);
    }
    for (kind, is) in score.hop_kinds(number) {
        if is {
            tried.mark(kind);
        }
    }
}

/// The longest score at some hops, and a long one of each wave at each of them in turn.
fn long_ones() -> Vec<(String, Vec<Score>)> {
    let longest = HOPS.map(|hop| {
        let name = format!("the longest score at hop {hop}");
        (name, vec![longest_hopped(hop)])
    });
    let long = WAVES.iter().zip(HOPS.iter().cycle());
    let long = long.map(|(&(place, name, _), &hop)| {
        let name = format!("a long {name} at hop {hop}");
        (name, vec![long_hopped(place, hop)])
    });
    longest.into_iter().chain(long).collect()
}

const HOPPED: Lists = Lists {
    what: "score calls at hops",
    most: CALLS,
    random: Score::hopped,
    session: on_station_0,
    long: long_ones,
    mark,
};

/// Compares `count` calls.
pub fn run(count: u64) -> Count {
    run_lists(&HOPPED, count)
}
