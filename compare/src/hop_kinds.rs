//! What a score has to do with its hop, so that a run can say how often each of these was tried.

use crate::grid::{bare, Grid};
use crate::hop_random::Curve;
use crate::reference::{place_read, refusal};
use crate::score::Score;
use crate::score_kinds::Kind;

/// What is judged before the hop, and what is judged after it.
const BEFORE: [(u32, &str); 10] = [
    (1, "refused with 1 and a hop outside 1 to 4,096"),
    (2, "refused with 2 and a hop outside 1 to 4,096"),
    (3, "refused with 3 and a hop outside 1 to 4,096"),
    (4, "refused with 4 and a hop outside 1 to 4,096"),
    (5, "refused with 5 and a hop outside 1 to 4,096"),
    (6, "refused with 6 and a hop outside 1 to 4,096"),
    (20, "refused with 20 and a hop outside 1 to 4,096"),
    (21, "refused with 21 and a hop outside 1 to 4,096"),
    (31, "refused with 31 and a hop outside 1 to 4,096"),
    (32, "refused with 32 and a hop outside 1 to 4,096"),
];
const BEHIND: [(u32, &str); 7] = [
    (7, "refused with 35 where hop 1 has 7"),
    (8, "refused with 35 where hop 1 has 8"),
    (9, "refused with 35 where hop 1 has 9"),
    (10, "refused with 35 where hop 1 has 10"),
    (11, "refused with 35 where hop 1 has 11"),
    (12, "refused with 35 where hop 1 has 12"),
    (30, "refused with 35 where hop 1 has 30"),
];

impl Score {
    /// Of an accepted score, by its wave.
    pub fn slow_curve(&self) -> Kind {
        let grid = Grid::of(&self.call());
        (
            "accepted with a curve that sounds two values or more for several frames each",
            self.hop > 1 && self.values_sounded(&grid) > 1,
        )
    }

    /// The most values that a curve sounds.
    fn values_sounded(&self, grid: &Grid) -> u64 {
        let values = |curve: Curve| {
            let frames = grid.place(&bare(curve.words))?.len();
            Some(place_read(curve.words, frames - 1, self.hop) + 1 - curve.words[3] as u64)
        };
        self.curves(grid).filter_map(values).max().unwrap_or(0)
    }

    /// Of a score with this number.
    pub fn hop_kinds(&self, number: u32) -> Vec<Kind> {
        let grid = Grid::of(&self.call());
        match number {
            0 => [&self.hops(&grid)[..], &self.lanes(&grid)].concat(),
            12 => self.passing(&grid).to_vec(),
            35 => self.faults_35(&grid),
            _ => BEFORE
                .map(|(before, kind)| (kind, number == before && self.is_outside()))
                .to_vec(),
        }
    }

    /// Whether 35 is for its hop.
    pub fn is_outside(&self) -> bool {
        !(1..=4096).contains(&self.hop)
    }

    /// Of an accepted score with a curve that sounds.
    fn hops(&self, grid: &Grid) -> [Kind; 9] {
        let (hop, values) = (self.hop, self.values_sounded(grid));
        let sounds = values > 0;
        [
            ("accepted with a curve at hop 1", sounds && hop == 1),
            ("accepted with a curve at hop 2", sounds && hop == 2),
            ("accepted with a curve at hop 3", sounds && hop == 3),
            ("accepted with a curve at hop 64", sounds && hop == 64),
            ("accepted with a curve at hop 4,095", sounds && hop == 4095),
            ("accepted with a curve at hop 4,096", sounds && hop == 4096),
            (
                "accepted with a curve that sounds two values or more at a hop of 2 to 64",
                values > 1 && (2..=64).contains(&hop),
            ),
            (
                "accepted with a curve that sounds two values or more at a hop above 64",
                values > 1 && hop > 64,
            ),
            (
                "accepted with a curve that sounds two values or more at a hop above 1 and points",
                values > 1 && hop > 1 && !self.points.is_empty(),
            ),
        ]
    }

    /// Of an accepted score at a hop above 1.
    fn lanes(&self, grid: &Grid) -> [Kind; 4] {
        let (hop, lane) = (self.hop as usize, self.lane.len() as u64);
        let some = |is: &dyn Fn(&Curve) -> bool| hop > 1 && self.curves(grid).any(|c| is(&c));
        let sounds = |c: &Curve| grid.place(&bare(c.words)).is_some();
        [
            (
                "accepted at a hop above 1 with a curve that needs the lane's last value",
                some(&|c| c.reach == lane && sounds(c)),
            ),
            (
                "accepted at a hop above 1 with a skipped curve that needs the lane's last value",
                some(&|c| c.reach == lane && !sounds(c)),
            ),
            (
                "accepted at a hop above 1 with a curve that ends with a value's last frame",
                some(&|c| c.length % hop == 0),
            ),
            (
                "accepted at a hop above 1 with a curve that ends with a later value's first frame",
                some(&|c| c.length > hop && c.length % hop == 1),
            ),
        ]
    }

    /// Of a score that is refused with 12.
    fn passing(&self, grid: &Grid) -> [Kind; 6] {
        let (hop, lane) = (self.hop, self.lane.len() as u64);
        let passing: Vec<Curve> = self.curves(grid).filter(|c| c.reach > lane).collect();
        let all = |is: &dyn Fn(&Curve) -> bool| passing.iter().all(is);
        let some = |is: &dyn Fn(&Curve) -> bool| passing.iter().any(is);
        [
            (
                "refused with 12 and a lane that is one value short at a hop above 1",
                hop > 1 && all(&|c| c.reach == lane + 1),
            ),
            (
                "refused with 12 and a lane that is one value short at hop 1",
                hop == 1 && all(&|c| c.reach == lane + 1),
            ),
            (
                "refused with 12 for skipped curves alone",
                all(&|c| grid.place(&bare(c.words)).is_none()),
            ),
            ("refused with 12 and an empty lane", lane == 0),
            (
                "refused with 12 and an offset from 2^32 - 8,192 on",
                some(&|c| c.words[3] >= u32::MAX - 8191),
            ),
            (
                "refused with 12 and a place from 2^32 on",
                some(&|c| c.reach > 1 << 32),
            ),
        ]
    }

    /// Of a score that is refused with 35.
    fn faults_35(&self, grid: &Grid) -> Vec<Kind> {
        let at_hop_1 = Score {
            hop: 1,
            ..self.clone()
        };
        let other = refusal(&at_hop_1.call(), grid);
        let mut kinds = BEHIND
            .map(|(number, kind)| (kind, other == Some(number)))
            .to_vec();
        kinds.extend([
            ("refused with 35 where hop 1 has none", other.is_none()),
            ("refused with 35 and hop 0", self.hop == 0),
            ("refused with 35 and hop 4,097", self.hop == 4097),
            ("refused with 35 and hop 2^32 - 1", self.hop == u32::MAX),
        ]);
        kinds
    }
}
