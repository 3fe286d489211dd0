//! The sheets that are timed. All have one ladder of 16 steps.

use std::io::Write;

#[derive(Clone, Copy)]
pub enum Shape {
    /// many jobs in hand at any time, of uneven work and length
    Dense,
    /// each job alone, with a wait after it
    Idle,
    /// jobs of one work at even distances, the next one in before the last is due
    Staircase,
    /// every point of both walls stays on its chain until the last arrival, which drops them all
    Chains,
}

impl Shape {
    pub const ALL: [Shape; 4] = [Shape::Dense, Shape::Idle, Shape::Staircase, Shape::Chains];

    pub fn name(self) -> &'static str {
        match self {
            Shape::Dense => "dense",
            Shape::Idle => "idle",
            Shape::Staircase => "staircase",
            Shape::Chains => "full chains",
        }
    }

    pub fn sheet(self, jobs: usize) -> Vec<u8> {
        let mut sheet = Vec::new();
        for step in 0..16u64 {
            writeln!(sheet, "T {} {}", 60 * step, 100 + 20 * step.pow(3)).unwrap();
        }
        for (index, (arrival, deadline, work)) in self.jobs(jobs as u64).into_iter().enumerate() {
            writeln!(sheet, "J {arrival} {deadline} {work} {}", index % 64 + 1).unwrap();
        }
        sheet.extend_from_slice(b"P\n");
        sheet
    }

    /// Arrival, deadline and work of each job.
    fn jobs(self, jobs: u64) -> Vec<(u64, u64, u64)> {
        match self {
            Shape::Dense => {
                let mut dice = Dice(1);
                let (mut arrival, mut deadline) = (0, 0);
                let mut uneven = || {
                    deadline = deadline.max(arrival + 150 + dice.below(100));
                    let job = (arrival, deadline, 500 + dice.below(30_000));
                    arrival += dice.below(80);
                    job
                };
                (0..jobs).map(|_| uneven()).collect()
            }
            Shape::Idle => (0..jobs).map(|i| (700 * i + 300, 700 * i + 613, 70_000 + 331 * i)).collect(),
            Shape::Staircase => (0..jobs).map(|i| (500 * i, 500 * i + 1_250, 123_457)).collect(),
            Shape::Chains => {
                // arrivals ever closer, deadlines ever further apart: one wall bends up, the other down
                let bent = |i: u64| (501 * i - i * (i + 1) / 2, 500 * (i + 1) + (i + 1) * (i + 2) / 2, 100_000);
                (0..jobs - 1).map(bent).chain([(180_000, 190_000, 100_000)]).collect()
            }
        }
    }
}

/// Numbers that look thrown, the same on every machine.
struct Dice(u64);

impl Dice {
    fn below(&mut self, bound: u64) -> u64 {
        self.0 = self.0.wrapping_mul(6_364_136_223_846_793_005).wrapping_add(1_442_695_040_888_963_407);
        (self.0 >> 33) % bound
    }
}
