//! Planning calls, through a call from C and by the planning screen: the notes sorted, and their draws added down the
//! list.

use crate::engine::{threads, Count};
use crate::grid::{bare, Grid};
use crate::harness::{tono_plan, tono_planned_draws, PlanArgs};
use crate::lent::{Lent, LentNumber, LentNumbers};
use crate::progress::Progress;
use crate::random::Source;
use crate::reference::{made, number, Listed, Session, Tally, NO_CALL};
use crate::score::Score;
use crate::score_calls::resized;
use crate::score_cases::note;
use crate::text_random::text;
use crate::text_reference::plan;
use crate::tried::{self, first_of, Tried};

/// How many calls are tried where no number is given.
pub const COUNT: u64 = 1_000_000;
/// One score in so many has hundreds of notes.
const MANY: u64 = 300;
/// What a score call with its own buffers has, which a planning call has not.
const BUFFERS: [(u32, &str, &str); 2] = [
    (
        20,
        "accepted where the score call has 20",
        "refused where the score call has 20",
    ),
    (
        21,
        "accepted where the score call has 21",
        "refused where the score call has 21",
    ),
];

/// A score of any kind on some station; often longer than a score that is played, since no frame is made.
fn score(s: &mut Source) -> Score {
    let mut score = Score::stationed(s);
    let any = 1 + s.below(16_777_216) as usize;
    let last = [16_777_216, 16_777_217, usize::MAX];
    match s.below(8) {
        0 => score.out = any,
        1 => score.out = s.pick(&last),
        _ => {}
    }
    if s.below(MANY) == 0 {
        score.add_many(s);
    }
    score
}

impl Score {
    /// Hundreds of noises through the longest output.
    fn add_many(&mut self, s: &mut Source) {
        (self.wave, self.out) = (4, 16_777_216);
        for _ in 0..s.pick(&[256, 257, 400]) {
            let step = s.below(3) as u32;
            self.words.extend(note(step, 1_048_575, 440.0, 1.0));
        }
    }
}

/// The count of the named station: any, or so that the total ends at the last draw, or just passes it.
fn opened(score: &Score, s: &mut Source) -> Session {
    let mut session = Session::open(0, 0);
    for tally in &mut session.stations {
        *tally = Tally {
            seed: s.number(),
            draw: s.number(),
        };
    }
    if let Some(tally) = session.stations.get_mut(score.station as usize) {
        let from_0 = Tally::default().screen(&score.call());
        let total = from_0.and_then(Result::ok).unwrap_or(0);
        let last = u64::MAX - total;
        let near = [last, last, last.saturating_add(1), last - 1.min(last)];
        match s.below(4) {
            0 => tally.draw = 0,
            1 => tally.draw = u64::MAX - s.below(1000),
            2 => tally.draw = s.pick(&near),
            _ => {}
        }
    }
    session
}

/// What a call is lent.
struct Buffers {
    seeds: LentNumbers,
    counts: LentNumbers,
    knobs: Lent<f32>,
    bars: Lent<f32>,
    env: Lent<f32>,
    words: Lent<u32>,
    points: Lent<u32>,
    lane: Lent<f32>,
}

impl Buffers {
    fn of(score: &Score, session: &Session) -> Buffers {
        Buffers {
            seeds: LentNumbers::of(&resized(session.seeds(), score.seeds)),
            counts: LentNumbers::of(&resized(session.counts(), score.counts)),
            knobs: Lent::of(&score.knobs),
            bars: Lent::of(&score.bars),
            env: Lent::of(&score.env),
            words: Lent::of(&score.words),
            points: Lent::of(&score.points),
            lane: Lent::of(&score.lane),
        }
    }

    fn plan(&mut self, score: &Score, draws: &mut LentNumber) -> u32 {
        tono_planned_draws(PlanArgs {
            seeds: self.seeds.part_mut(),
            counts: self.counts.part_mut(),
            draws: draws.place(),
            station: score.station,
            rate: score.rate,
            tempo: score.tempo,
            steps_per_beat: score.steps_per_beat,
            points: self.points.part(),
            swing: score.swing,
            humanize: score.humanize,
            hop: score.hop,
            wave: score.wave,
            style: score.style,
            duty: score.duty,
            knobs: self.knobs.part(),
            bars: self.bars.part(),
            env: self.env.part(),
            notes: self.words.part(),
            lane: self.lane.part(),
            n: score.out,
        })
    }

    /// What of them is not as it was: the session is left too.
    fn differ(&self, score: &Score, session: &Session) -> Option<String> {
        first_of(&[
            (
                "seeds",
                !self.seeds.hold(&resized(session.seeds(), score.seeds)),
            ),
            (
                "counts",
                !self.counts.hold(&resized(session.counts(), score.counts)),
            ),
            ("knobs", !self.knobs.stays()),
            ("drawbars", !self.bars.stays()),
            ("envelope", !self.env.stays()),
            ("notes", !self.words.stays()),
            ("points", !self.points.stays()),
            ("lane", !self.lane.stays()),
        ])
    }
}

/// What the screen's list has in it, of a call that is accepted.
fn mark_accepted(score: &Score, session: &Session, tried: &mut Tried) {
    let call = score.call();
    let grid = Grid::of(&call);
    let listed = call.listed(&grid);
    let draw = |one: &&Listed| one.draws > 0;
    let total: u128 = listed.iter().map(|one| one.draws as u128).sum();
    let notes = score.words.chunks_exact(5);
    let starts: Vec<usize> = notes.map(|w| grid.start(&bare(w))).collect();
    let tied = |pair: &[&Listed]| pair[0].start == pair[1].start;
    let drawing: Vec<&Listed> = listed.iter().filter(draw).collect();
    tried.mark_wave(score.wave, "accepted", true);
    for (kind, is) in [
        ("accepted with draws", total > 0),
        ("accepted with 2^32 draws or more", total >= 1 << 32),
        (
            "accepted with notes that draw and start together",
            drawing.windows(2).any(tied),
        ),
        (
            "accepted with notes that are not listed by their starts",
            !starts.is_sorted(),
        ),
        (
            "accepted with a skipped note beside others",
            total > 0 && starts.iter().any(|&start| start >= score.out),
        ),
        (
            "accepted with a tempo map and draws",
            total > 0 && !score.points.is_empty(),
        ),
        ("accepted at a hop with draws", total > 0 && score.hop > 1),
        (
            "accepted and the total ends at draw 2^64 - 1",
            total > 0
                && session.counts()[score.station as usize] as u128 + total == u64::MAX as u128,
        ),
    ] {
        tried.mark_if(kind, is);
    }
}

fn mark(score: &Score, session: &Session, number: u32, tried: &mut Tried) {
    if number == NO_CALL || number == 33 {
        return;
    }
    if number == 0 {
        mark_accepted(score, session, tried);
    }
    let tally = session.stations[score.station as usize];
    if number == 22 {
        let draws = Tally::default().screen(&score.call());
        let draws = draws.and_then(Result::ok).expect("a total from count 0");
        let first = u64::MAX - tally.draw + 1 == draws;
        tried.mark_if("refused with 22, one draw too many", first);
    }
    let played = tally.refused(&score.call());
    for (lent, accepted, refused) in BUFFERS {
        tried.mark_if(accepted, number == 0 && played == Some(lent));
        tried.mark_if(refused, number != 0 && played == Some(lent));
    }
}

fn try_plan(case: u64, tried: &mut Tried) {
    let mut s = Source::new(case);
    let score = score(&mut s);
    let session = opened(&score, &mut s);
    let draws_before = s.number();
    let mut draws = LentNumber::of(draws_before);
    let mut buffers = Buffers::of(&score, &session);
    let ours = buffers.plan(&score, &mut draws);
    let called = session.plan_call(&score.call());
    let theirs = number(&called);
    let told = match called {
        None => draws_before,
        _ => made(&called),
    };
    let differs = first_of(&[("number", ours != theirs), ("draws", !draws.holds(told))]);
    let differs = differs.or_else(|| buffers.differ(&score, &session));
    tried.add(theirs, differs.map(|what| format!("call {case}: {what}")));
    mark(&score, &session, theirs, tried);
}

fn share(first: u64, count: u64, one: fn(u64, &mut Tried), progress: &Progress) -> Tried {
    let mut tried = Tried::default();
    for case in (first..count).step_by(threads()) {
        one(case, &mut tried);
        progress.add(1);
    }
    tried
}

/// A text through `tono_plan`, whose draws' place holds any number before.
fn try_text(case: u64, tried: &mut Tried) {
    let mut s = Source::new(case);
    let text = text(&mut s);
    let draws_before = s.number();
    let lent = Lent::of(&text);
    let mut draws = LentNumber::of(draws_before);
    let ours = tono_plan(lent.part(), draws.place());
    let (theirs, told) = match plan(&text) {
        Ok(total) => (0, total),
        Err(number) => (number, draws_before),
    };
    let differs = first_of(&[
        ("answer", ours != -(theirs as i64)),
        ("draws", !draws.holds(told)),
        ("score", !lent.stays()),
    ]);
    tried.add(theirs, differs.map(|what| format!("text {case}: {what}")));
    tried.mark_if("accepted with draws", theirs == 0 && told > 0);
}

/// `count` cases, each tried by this.
fn cases(what: &str, count: u64, one: fn(u64, &mut Tried)) -> Count {
    tried::run(what, count, |thread, progress| {
        share(thread, count, one, progress)
    })
}

/// Compares `count` calls, and a tenth as many texts.
pub fn run(count: u64) -> Count {
    let calls = cases("planning calls", count, try_plan);
    let texts = cases("plans of texts", count.div_ceil(10), try_text);
    calls + texts
}
