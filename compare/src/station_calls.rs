//! Lists of score calls over several stations of one session, through a call from C and by the tallies of
//! its stations.

use crate::engine::Count;
use crate::random::Source;
use crate::reference::{Session, Tally, NO_CALL, STATIONS};
use crate::score::Score;
use crate::score_calls::{opened_at, run_lists, Lists, Played};
use crate::tried::Tried;

/// How many calls are tried where no number is given.
pub const COUNT: u64 = 1_250_000;
/// How many calls a list has at most.
const CALLS: u64 = 32;
/// One call on no station in so many has an output past the limit of the frames.
const LONG: u64 = 2000;

const ACCEPTED: [&str; STATIONS] = [
    "accepted on station 0",
    "accepted on station 1",
    "accepted on station 2",
    "accepted on station 3",
    "accepted on station 4",
    "accepted on station 5",
    "accepted on station 6",
    "accepted on station 7",
];
/// What stands behind 33.
const BEHIND: [(u32, &str); 20] = [
    (0, "refused with 33 where station 0 accepts"),
    (1, "refused with 33 where station 0 has 1"),
    (2, "refused with 33 where station 0 has 2"),
    (3, "refused with 33 where station 0 has 3"),
    (4, "refused with 33 where station 0 has 4"),
    (5, "refused with 33 where station 0 has 5"),
    (6, "refused with 33 where station 0 has 6"),
    (7, "refused with 33 where station 0 has 7"),
    (8, "refused with 33 where station 0 has 8"),
    (9, "refused with 33 where station 0 has 9"),
    (10, "refused with 33 where station 0 has 10"),
    (11, "refused with 33 where station 0 has 11"),
    (12, "refused with 33 where station 0 has 12"),
    (20, "refused with 33 where station 0 has 20"),
    (21, "refused with 33 where station 0 has 21"),
    (22, "refused with 33 where station 0 has 22"),
    (30, "refused with 33 where station 0 has 30"),
    (31, "refused with 33 where station 0 has 31"),
    (32, "refused with 33 where station 0 has 32"),
    (35, "refused with 33 where station 0 has 35"),
];

impl Score {
    /// A score of any kind on some station, or on none, and rarely a session of other lengths.
    pub fn stationed(s: &mut Source) -> Score {
        let mut score = match s.below(4) {
            0 => Score::mapped(s),
            1 => Score::hopped(s),
            _ => Score::random(s),
        };
        score.station = station(s);
        if score.station > 7 && s.below(LONG) == 0 {
            score.out = 16_777_217;
        }
        let other = s.pick(&[0, 1, 7, 7, 9, 9, 16]);
        match s.below(60) {
            0 => score.seeds = other,
            1 => score.counts = other,
            2 => (score.seeds, score.counts) = (other, other),
            3 => (score.seeds, score.counts) = (16 - other, other),
            _ => {}
        }
        score
    }
}

fn station(s: &mut Source) -> u32 {
    let above = 8 + s.below(u32::MAX as u64 - 7) as u32;
    match s.below(8) {
        0 => s.pick(&[
            8,
            8,
            9,
            15,
            16,
            256,
            65_536,
            1 << 31,
            u32::MAX,
            u32::MAX,
            above,
        ]),
        _ => s.below(STATIONS as u64) as u32,
    }
}

/// Each station at a count of its own, often near the last draw; some of one seed.
pub fn opened(scores: &[Score], s: &mut Source) -> Session {
    let mut session = Session::open(0, 0);
    let shared = s.number();
    for k in 0..STATIONS {
        session.stations[k] = Tally {
            draw: opened_at(scores, k as u32, s),
            seed: match s.below(4) {
                0 => shared,
                _ => s.number(),
            },
        };
    }
    session
}

fn mark(played: &Played, tried: &mut Tried) {
    match played.number {
        0 => mark_accepted(played, tried),
        22 => mark_22(played, tried),
        33 => mark_33(played, tried),
        NO_CALL => mark_no_call(played, tried),
        _ => {}
    }
}

/// Whether some other station than the call's has a count from which so many draws are too many, or are not.
fn another(played: &Played, draws: u64, too_many: bool) -> bool {
    let at = played.score.station as usize;
    let mut others = (0..STATIONS).filter(|&k| k != at);
    others.any(|k| played.before.counts()[k].checked_add(draws).is_none() == too_many)
}

fn mark_accepted(played: &Played, tried: &mut Tried) {
    let (score, k) = (played.score, played.score.station as usize);
    let draws = played.after.counts()[k] - played.before.counts()[k];
    tried.mark(ACCEPTED[k]);
    tried.mark_wave(score.wave, "accepted", true);
    if draws > 0 {
        tried.mark("accepted with draws");
    }
    if another(played, draws, true) {
        tried.mark("accepted where another station has 22");
    }
}

fn mark_22(played: &Played, tried: &mut Tried) {
    let planned = Tally::default().planned(&played.score.call());
    let draws = planned.and_then(Result::ok);
    let draws = draws.expect("a call from count 0 is accepted");
    if another(played, draws, false) {
        tried.mark("refused with 22 where another station accepts");
    }
    if played.before.counts()[0].checked_add(draws).is_some() {
        tried.mark("refused with 22 where station 0 accepts");
    }
}

fn mark_33(played: &Played, tried: &mut Tried) {
    let planned = played.before.stations[0].planned(&played.score.call());
    let behind = planned.expect("the call is made").err().unwrap_or(0);
    let kind = BEHIND.iter().find(|(number, _)| *number == behind);
    tried.mark(kind.expect("the number is listed").1);
    match played.score.station {
        8 => tried.mark("refused with 33 and station 8"),
        9 => tried.mark("refused with 33 and station 9"),
        u32::MAX => tried.mark("refused with 33 and station 2^32 - 1"),
        _ => tried.mark("refused with 33 and another number above 7"),
    }
}

fn mark_no_call(played: &Played, tried: &mut Tried) {
    let lengths = [played.score.seeds, played.score.counts];
    for (len, kind) in [
        (0, "not made with 0 seeds or counts"),
        (7, "not made with 7 seeds or counts"),
        (9, "not made with 9 seeds or counts"),
    ] {
        if lengths.contains(&len) {
            tried.mark(kind);
        }
    }
    if lengths != [STATIONS; 2] && lengths.iter().sum::<usize>() == 2 * STATIONS {
        tried.mark("not made with 16 seeds and counts in all, not 8 of each");
    }
    if played.score.station > 7 {
        tried.mark("not made and a station above 7");
    }
}

const STATIONED: Lists = Lists {
    what: "score calls over stations",
    most: CALLS,
    random: Score::stationed,
    session: opened,
    long: Vec::new,
    mark,
};

/// Compares `count` calls.
pub fn run(count: u64) -> Count {
    run_lists(&STATIONED, count)
}
