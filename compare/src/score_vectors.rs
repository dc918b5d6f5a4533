//! The replay files of crates/score_vectors. A line `open` gives a seed and a draw count of each station, from
//! which the session goes on; a line `score` is a call on it.

use crate::hop_cases;
use crate::kit_cases;
use crate::mapped_cases;
use crate::reference::{self, Session, Tally};
use crate::score::Score;
use crate::score_cases::{drawing, edges, list};
use crate::station_cases::{self, planned_draws};
use crate::voice_vectors::{hex, sample};
use std::fmt::Write as _;
use std::fs;
use std::io;
use std::path::Path;

const FOLDER: &str = concat!(env!("CARGO_MANIFEST_DIR"), "/../crates/score_vectors");
/// What the replay has in the place of the draws and in each frame before a call.
const DRAWS_BEFORE: u64 = 0x5555;
const FRAME_BEFORE: f32 = 1.0;

#[derive(Default)]
struct Replay {
    stdin: String,
    stdout: String,
}

fn plain(words: &[u32]) -> String {
    words.iter().map(|w| format!(" {w:x}")).collect()
}

fn line(score: &Score) -> String {
    format!(
        "score {:x} {:08x} {:x} {:08x} {:08x} {:x} {:08x} {:x} {:x} {:x} {:x} {:x} {:x} {:x} {:x} {:x} {:x} {:x} {:x}{}{}{}{}{}{}",
        score.rate,
        score.tempo.to_bits(),
        score.steps_per_beat,
        score.swing.to_bits(),
        score.humanize.to_bits(),
        score.wave,
        score.duty.to_bits(),
        score.out,
        score.note_buf,
        score.string,
        score.knobs.len(),
        score.env.len(),
        score.words.len(),
        score.lane.len(),
        score.points.len(),
        score.hop,
        score.station,
        score.bars.len(),
        score.style,
        hex(&score.knobs),
        hex(&score.bars),
        hex(&score.env),
        plain(&score.words),
        hex(&score.lane),
        plain(&score.points)
    )
}

fn long(numbers: &[u64]) -> String {
    numbers.iter().map(|n| format!(" {n:016x}")).collect()
}

impl Replay {
    fn put(&mut self, case: &str, answer: &str) {
        writeln!(self.stdin, "{case}").expect("a string takes any text");
        writeln!(self.stdout, "{case}{answer}").expect("a string takes any text");
    }

    /// The answer are the states of the eight generators.
    fn open(&mut self, session: Session) -> Session {
        let stations = session.stations.iter();
        let opened: String = stations
            .map(|t| format!(" {:x} {:x}", t.seed, t.draw))
            .collect();
        let states = session.stations.map(|tally| tally.state());
        self.put(&format!("open{opened}"), &long(&states));
        session
    }

    /// The answer is the number, the draws, the state of the station's generator and the eight counts after the
    /// call, and the frames.
    fn score(&mut self, session: &mut Session, score: &Score) {
        let called = session.score_call(&score.call());
        let draws = match called {
            None => DRAWS_BEFORE,
            _ => reference::made(&called),
        };
        let tally = session.named(score.station).filter(|_| called.is_some());
        let state = tally.map_or(0, Tally::state);
        let number = reference::number(&called) as u64;
        let untouched = vec![FRAME_BEFORE; score.out];
        let frames = reference::frames(&called).unwrap_or(&untouched);
        let frames: String = frames.iter().copied().map(sample).collect();
        let (told, counts) = (long(&[number, draws, state]), long(&session.counts()));
        self.put(&line(score), &format!("{told}{counts}{frames}"));
    }

    /// Each score on a session of its own, whose count at station 0 is `times` the score's place.
    fn each(&mut self, scores: &[Score], times: u64) {
        for (i, score) in scores.iter().enumerate() {
            let mut session = self.open(Session::open(i as u64, times * i as u64));
            self.score(&mut session, score);
        }
    }

    /// The scores one after the other on this session.
    fn list(&mut self, session: Session, scores: &[Score]) {
        let mut session = self.open(session);
        for score in scores {
            self.score(&mut session, score);
        }
    }

    /// A call that ends at the last draw, one that passes it by one draw, and calls after them.
    fn last_draws(&mut self) {
        let [noise, skipped, silent] = drawing();
        let last = u64::MAX - planned_draws(&noise);
        let scores = [noise.clone(), skipped, silent, noise];
        for over in [0, 1] {
            self.list(Session::open(0x1234_5678_9abc_def0, last + over), &scores);
        }
    }
}

/// Writes both files.
pub fn run() -> io::Result<()> {
    let mut replay = Replay::default();
    replay.each(&edges(), 3);
    replay.last_draws();
    replay.list(Session::open(0xfeed_beef_0000_0001, 1000), &list());
    replay.each(&mapped_cases::edges(), 5);
    let session = Session::open(0xfeed_beef_0000_0002, 2000);
    replay.list(session, &mapped_cases::list());
    replay.each(&hop_cases::edges(), 7);
    let session = Session::open(0xfeed_beef_0000_0003, 3000);
    replay.list(session, &hop_cases::list());
    for (session, scores) in station_cases::lists() {
        replay.list(session, &scores);
    }
    replay.each(&kit_cases::edges(), 11);
    for (session, scores) in kit_cases::lists() {
        replay.list(session, &scores);
    }
    let folder = Path::new(FOLDER);
    fs::create_dir_all(folder)?;
    fs::write(folder.join("stdin"), &replay.stdin)?;
    fs::write(folder.join("stdout"), &replay.stdout)?;
    let (lines, bytes) = (replay.stdin.lines(), replay.stdin.len());
    let calls = lines.filter(|line| line.starts_with("score")).count();
    println!("{calls} score calls, {bytes} bytes");
    Ok(())
}
