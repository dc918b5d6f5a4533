//! The lists of crates/score_vectors over several stations: 33 before each other refusal, counts near the last
//! draw on some stations, and a station's calls among those of others and alone.

use crate::hop_cases;
use crate::mapped_cases::slowing;
use crate::reference::{Session, Tally, STATIONS};
use crate::score::Score;
use crate::score_cases::{drawing, note, tone, usual, ABOVE_1, ABOVE_1000};

/// The draws of a call that is accepted at count 0.
pub fn planned_draws(score: &Score) -> u64 {
    let planned = Tally::default().planned(&score.call());
    planned.and_then(Result::ok).expect("the call is accepted")
}

/// Each station of a seed and at a count of its own; two have one seed.
fn opened() -> Session {
    let mut session = Session::open(0xfeed_beef_0000_0004, 4000);
    for (k, tally) in session.stations.iter_mut().enumerate().skip(1) {
        tally.seed = 0x0123_4567_89ab_cdef_u64.wrapping_mul(k as u64);
        tally.draw = 1 << (8 * k - 1);
    }
    session.stations[6].seed = session.stations[2].seed;
    session
}

fn with(station: u32, change: impl FnOnce(&mut Score)) -> Score {
    let mut score = usual();
    score.station = station;
    change(&mut score);
    score
}

/// 33 alone, with each other refusal but 2 and 22 behind it, and what makes no call. The frames of 2 do not fit
/// a line.
fn on_none() -> Vec<Score> {
    let faults: [fn(&mut Score); 21] = [
        |_| (),
        |s| s.rate = 7999,
        |s| s.tempo = ABOVE_1000,
        |s| s.steps_per_beat = 65,
        |s| s.points = vec![0; 4],
        |s| s.points = vec![1, 0, 1, 120f32.to_bits()],
        |s| s.swing = ABOVE_1,
        |s| s.knobs[21] = f32::NAN,
        |s| s.note_buf = 19,
        |s| s.string = 9599,
        |s| s.hop = 0,
        |s| s.words.push(0),
        |s| s.lane[0] = f32::NAN,
        |s| s.words[2] = 3,
        |s| s.words[0] = 1_048_576,
        |s| s.words[4] = f32::NAN.to_bits(),
        |s| s.words.extend(tone(0, 1, 256, 0.5)),
        |s| s.words[8] = 2,
        |s| s.wave = 18,
        |s| s.knobs.truncate(21),
        |s| s.points = vec![0; 3],
    ];
    let stations = [8, 9, u32::MAX, 16, 1 << 31].iter().cycle();
    let faults = faults.iter().zip(stations);
    faults.map(|(fault, &k)| with(k, fault)).collect()
}

/// 33 where every station has 22, and calls on each of them.
fn full() -> (Session, Vec<Score>) {
    let mut session = opened();
    for tally in &mut session.stations {
        tally.draw = u64::MAX;
    }
    let [noise, skipped, _] = drawing();
    let mut scores = Vec::new();
    for station in [8, 0, 7, u32::MAX] {
        scores.extend([&noise, &skipped].map(|score| Score {
            station,
            ..score.clone()
        }));
    }
    (session, scores)
}

/// Counts that noise ends at the last draw from on stations 3 and 0, passes it on station 5, and not on others.
fn near_the_end() -> (Session, Vec<Score>) {
    let [noise, skipped, silent] = drawing();
    let last = u64::MAX - planned_draws(&noise);
    let mut session = opened();
    for (k, draw) in [(0, last), (3, last), (5, last + 1), (7, 0)] {
        session.stations[k].draw = draw;
    }
    let mut scores = Vec::new();
    for station in [5, 3, 4, 3, 7, 0, 8, 0, 5, 1] {
        scores.push(Score {
            station,
            ..noise.clone()
        });
    }
    for station in [3, 5, 2] {
        scores.extend([&skipped, &silent].map(|score| Score {
            station,
            ..score.clone()
        }));
    }
    (session, scores)
}

/// Every wave on some station, with refused calls between them, on stations that exist and on one that doesn't.
fn mixed() -> Vec<Score> {
    let mut scores = Vec::new();
    for (i, wave) in (0..18).chain([4, 6, 7, 12]).enumerate() {
        let station = (5 * i as u32) % 8;
        scores.push(with(station, |s| {
            s.wave = wave;
            s.words.extend(note(2, 1, 1500.0, 1.0));
        }));
        let beside = (station + 3) % 8;
        match i % 4 {
            0 => scores.push(with(beside, |s| (s.wave, s.string) = (wave, 9599))),
            1 => scores.push(with(8 + beside, |s| s.wave = wave)),
            2 => scores.push(Score {
                wave,
                station: beside,
                ..slowing()
            }),
            _ => scores.push(with(station, |s| (s.wave, s.hop) = (wave, 4097))),
        }
    }
    let slow = hop_cases::list().into_iter().take(8).enumerate();
    scores.extend(slow.map(|(i, score)| Score {
        wave: 4,
        station: (3 * i % STATIONS) as u32,
        ..score
    }));
    scores
}

/// Lists, each on the session that it is played on. The last are the calls of one station alone, which answer
/// as they do among the others.
pub fn lists() -> Vec<(Session, Vec<Score>)> {
    let mixed = mixed();
    let alone = |station: u32| {
        let own = mixed.iter().filter(|score| score.station == station);
        (opened(), own.cloned().collect())
    };
    vec![
        (opened(), on_none()),
        full(),
        near_the_end(),
        (opened(), mixed.clone()),
        alone(2),
        alone(7),
    ]
}
