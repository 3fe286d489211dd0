//! The steps of a processor.

use crate::FINE;

pub const MOST_STEPS: usize = 16;
const TOP_SPEED: u64 = 4_000;
const TOP_POWER: u64 = 1_000_000;

/// A lawful list of steps: 2 to 16, speeds rising from 0 by gaps that divide 5,040, powers that never fall and rise ever more
/// steeply.
#[derive(Clone, Debug)]
pub struct Ladder {
    steps: Vec<(u64, u64)>,
}

/// Some rule is broken; which one does not matter to a sheet.
#[derive(Clone, Copy, Debug, PartialEq, Eq)]
pub struct Unlawful;

impl Ladder {
    /// From pairs of speed and power.
    pub fn new(steps: Vec<(u64, u64)>) -> Result<Ladder, Unlawful> {
        if !(2..=MOST_STEPS).contains(&steps.len()) || steps[0].0 != 0 {
            return Err(Unlawful);
        }
        if steps.iter().any(|&(speed, power)| speed > TOP_SPEED || power > TOP_POWER) {
            return Err(Unlawful);
        }
        let mut before = (0, 1);
        for pair in steps.windows(2) {
            let ((v, p), (w, q)) = (pair[0], pair[1]);
            if w <= v || q < p || !FINE.is_multiple_of(w - v) {
                return Err(Unlawful);
            }
            let (rise, gap) = (q - p, w - v);
            if rise * before.1 < before.0 * gap {
                return Err(Unlawful);
            }
            before = (rise, gap);
        }
        Ok(Ladder { steps })
    }

    pub fn speed(&self, step: usize) -> u64 {
        self.steps[step].0
    }

    pub fn power(&self, step: usize) -> u64 {
        self.steps[step].1
    }

    pub fn top_speed(&self) -> u64 {
        self.steps[self.steps.len() - 1].0
    }

    /// The slower of the two neighbouring steps between which the slope `rise / run` lies: the last pair if it is the top speed.
    pub fn slow_step(&self, rise: u64, run: u64) -> usize {
        let at_most = self.steps.partition_point(|&(speed, _)| speed * run <= rise);
        at_most.min(self.steps.len() - 1) - 1
    }
}
