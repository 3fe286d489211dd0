//! From the path to steps and ticks.

use crate::FINE;
use crate::ladder::Ladder;
use crate::path::shortest_path;
use crate::queue::Job;

#[derive(Clone, Copy, Debug, PartialEq, Eq)]
pub struct Segment {
    pub step: usize,
    pub ticks: u64,
}

fn join(plan: &mut Vec<Segment>, step: usize, ticks: u64) {
    if ticks == 0 {
        return;
    }
    match plan.last_mut() {
        Some(last) if last.step == step => last.ticks += ticks,
        _ => plan.push(Segment { step, ticks }),
    }
}

/// The segments of the plan of least energy. Speed must not be wanting.
pub fn segments(jobs: &[Job], ladder: &Ladder) -> Vec<Segment> {
    let mut plan = Vec::with_capacity(4 * jobs.len());
    let corners = shortest_path(jobs);
    let mut arrivals = jobs.iter().map(|job| job.arrival).peekable();
    let mut deadlines = jobs.iter().map(|job| job.deadline).peekable();
    for piece in corners.windows(2) {
        let (from, to) = (piece[0], piece[1]);
        let (run, rise) = (to.time - from.time, to.work - from.work);
        let slow = ladder.slow_step(rise, run);
        let gap = ladder.speed(slow + 1) - ladder.speed(slow);
        // work is counted in gaps: a whole number of them is done at each cut
        let by = FINE / gap;
        let mut time = from.time;
        let mut done = by * from.work;
        while time < to.time {
            // the next cut: each piece ends at one
            while arrivals.next_if(|&at| at <= time).is_some() {}
            while deadlines.next_if(|&at| at <= time).is_some() {}
            let next = arrivals.peek().into_iter().chain(deadlines.peek()).copied().min().unwrap_or(to.time);
            let then = by * (from.work * run + rise * (next - from.time)) / run;
            let ticks = FINE * (next - time);
            // done and then leave out what the slow step does, which is a whole number of gaps in each unit of time
            let fast = then - done - by * ladder.speed(slow) * (next - time);
            join(&mut plan, slow, ticks - fast);
            join(&mut plan, slow + 1, fast);
            time = next;
            done = then;
        }
    }
    plan
}
