//! Lists of score calls with tempo maps on one session, through `tono_render_seq` and by the tally.

use crate::engine::Count;
use crate::long_scores::{long_mapped, longest_mapped};
use crate::reference::NO_CALL;
use crate::score::Score;
use crate::score_calls::{mark_kinds, on_station_0, run_lists, Lists, Played, CALLS};
use crate::tried::Tried;
use crate::waves::WAVES;

/// How many calls are tried where no number is given: of six in seven a call is made with points.
pub const COUNT: u64 = 1_250_000;

fn mark(played: &Played, tried: &mut Tried) {
    let (score, number) = (played.score, played.number);
    mark_kinds(played, tried);
    if number != NO_CALL && !score.points.is_empty() {
        tried.mark("made with points");
    }
    let kinds = match number {
        0 => score.map_kinds(),
        _ => score.map_faults(number),
    };
    for (kind, is) in kinds {
        if is {
            tried.mark(kind);
        }
    }
}

/// The longest mapped score, and a long one of each wave.
fn long_ones() -> Vec<(String, Vec<Score>)> {
    let longest = (
        "the longest mapped score".to_string(),
        vec![longest_mapped()],
    );
    let long =
        WAVES.map(|(place, name, _)| (format!("a long mapped {name}"), vec![long_mapped(place)]));
    [longest].into_iter().chain(long).collect()
}

const MAPPED: Lists = Lists {
    what: "mapped score calls",
    most: CALLS,
    random: Score::mapped,
    session: on_station_0,
    long: long_ones,
    mark,
};

/// Compares `count` calls.
pub fn run(count: u64) -> Count {
    run_lists(&MAPPED, count)
}
