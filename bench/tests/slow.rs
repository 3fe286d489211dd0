//! The plain planner against a slow one, on small random sheets. The slow one follows the definitions: walls are summed at every
//! whole time, the path is cut at its worst breach of a wall, runs are tried in pairs, ticks are laid one by one.

use plain::{FINE, Job, Ladder, Point, shortest_path};

struct Dice(u64);

impl Dice {
    fn below(&mut self, bound: u64) -> u64 {
        self.0 ^= self.0 << 13;
        self.0 ^= self.0 >> 7;
        self.0 ^= self.0 << 17;
        self.0 % bound
    }
}

fn ceiling(jobs: &[Job], time: u64) -> u64 {
    jobs.iter().filter(|job| job.arrival < time).map(|job| job.work).sum()
}

fn floor(jobs: &[Job], time: u64) -> u64 {
    jobs.iter().filter(|job| job.deadline <= time).map(|job| job.work).sum()
}

/// Where a straight line breaks a wall worst, the path meets that wall. Puts the corners after `from`, up to `to`, at the end.
fn cut(jobs: &[Job], from: Point, to: Point, corners: &mut Vec<Point>) {
    let run = (to.time - from.time) as i64;
    let mut worst = (0, None);
    for time in from.time + 1..to.time {
        let line = from.work as i64 * run + (to.work as i64 - from.work as i64) * (time - from.time) as i64;
        for (work, bend) in [(ceiling(jobs, time), 1), (floor(jobs, time), -1)] {
            let breach = (line - work as i64 * run) * bend;
            if breach > worst.0 {
                worst = (breach, Some(Point { time, work }));
            }
        }
    }
    match worst.1 {
        Some(between) => {
            cut(jobs, from, between, corners);
            cut(jobs, between, to, corners);
        }
        None => corners.push(to),
    }
}

fn slow_path(jobs: &[Job]) -> Vec<Point> {
    let start = Point { time: 0, work: 0 };
    let mut corners = vec![start];
    if let Some(last) = jobs.last() {
        cut(jobs, start, Point { time: last.deadline, work: floor(jobs, last.deadline) }, &mut corners);
    }
    corners
}

/// Height at a whole time, as a numerator and a denominator.
fn height(corners: &[Point], time: u64) -> (u64, u64) {
    let pair = corners.windows(2).find(|pair| pair[0].time <= time && time <= pair[1].time).unwrap();
    let run = pair[1].time - pair[0].time;
    (pair[0].work * (pair[1].time - time) + pair[1].work * (time - pair[0].time), run)
}

/// Whether the slope rises (above 0), falls (below 0) or stays at a whole time inside the path.
fn turn(corners: &[Point], time: u64) -> i64 {
    let piece = |pair: &&[Point]| (pair[1].time - pair[0].time, pair[1].work - pair[0].work);
    let before = corners.windows(2).find(|pair| pair[0].time < time && time <= pair[1].time);
    let after = corners.windows(2).find(|pair| pair[0].time <= time && time < pair[1].time);
    let ((run, rise), (next_run, next_rise)) = (piece(&before.unwrap()), piece(&after.unwrap()));
    (next_rise * run) as i64 - (rise * next_run) as i64
}

/// The law that only one path keeps: between the walls, falling only on the floor at a deadline, rising only on the ceiling at an
/// arrival.
fn keeps_the_law(jobs: &[Job], corners: &[Point]) -> bool {
    let last = jobs.last().unwrap().deadline;
    let ends =
        corners[0] == Point { time: 0, work: 0 } && corners[corners.len() - 1] == Point { time: last, work: floor(jobs, last) };
    ends && (1..last).all(|time| {
        let (top, bottom) = height(corners, time);
        let between = floor(jobs, time) * bottom <= top && top <= ceiling(jobs, time) * bottom;
        let turn = turn(corners, time);
        between
            && (turn >= 0 || (top == floor(jobs, time) * bottom && jobs.iter().any(|job| job.deadline == time)))
            && (turn <= 0 || (top == ceiling(jobs, time) * bottom && jobs.iter().any(|job| job.arrival == time)))
    })
}

fn overfull(jobs: &[Job], top_speed: u64) -> bool {
    let work = |i: usize, j: usize| jobs[i..=j].iter().map(|job| job.work).sum::<u64>();
    (0..jobs.len()).any(|j| (0..=j).any(|i| work(i, j) > top_speed * (jobs[j].deadline - jobs[i].arrival)))
}

/// The step of each tick.
fn slow_ticks(jobs: &[Job], steps: &[(u64, u64)]) -> Vec<usize> {
    let corners = slow_path(jobs);
    let mut cuts: Vec<u64> = jobs.iter().flat_map(|job| [job.arrival, job.deadline]).chain([0]).collect();
    cuts.sort_unstable();
    cuts.dedup();
    let mut ticks = Vec::new();
    let mut done = 0;
    for pair in cuts.windows(2) {
        let ((low, under), (high, over)) = (height(&corners, pair[0]), height(&corners, pair[1]));
        let length = pair[1] - pair[0];
        // slope = high / over - low / under over the length
        let (rise, run) = (high * under - low * over, over * under * length);
        let slow = (0..steps.len() - 1).rev().find(|&step| steps[step].0 * run <= rise).unwrap();
        let (v, w) = (steps[slow].0, steps[slow + 1].0);
        let target = FINE * high / over / (w - v) * (w - v);
        for left in (0..FINE * length).rev() {
            let step = if done + v + w * left >= target { slow } else { slow + 1 };
            done += steps[step].0;
            ticks.push(step);
        }
        assert_eq!(done, target);
    }
    ticks
}

fn slow_text(jobs: &[Job], steps: &[(u64, u64)]) -> String {
    if overfull(jobs, steps[steps.len() - 1].0) {
        return format!("refused 32 {}\n", steps.len() + jobs.len() + 1);
    }
    let ticks = slow_ticks(jobs, steps);
    serves(jobs, steps, &ticks);
    let mut text = String::new();
    for run in ticks.chunk_by(|a, b| a == b) {
        text += &format!("{} {}\n", run[0], run.len());
    }
    text + &format!("energy {}\n", ticks.iter().map(|&step| steps[step].1).sum::<u64>())
}

/// Each job gets exactly its grains, none before its arrival and none after its deadline.
fn serves(jobs: &[Job], steps: &[(u64, u64)], ticks: &[usize]) {
    let (mut job, mut left) = (0, jobs.first().map_or(0, |job| job.work * FINE));
    for (tick, &step) in ticks.iter().enumerate() {
        let mut grains = steps[step].0;
        while grains > 0 {
            let time = tick as u64 / FINE;
            assert!(jobs[job].arrival <= time && time < jobs[job].deadline);
            let given = grains.min(left);
            grains -= given;
            left -= given;
            if left == 0 {
                job += 1;
                left = jobs.get(job).map_or(0, |job| job.work * FINE);
            }
        }
    }
    assert_eq!(job, jobs.len());
}

/// A lawful ladder, most often of low speeds.
fn steps(dice: &mut Dice) -> Vec<(u64, u64)> {
    const GAPS: [u64; 12] = [1, 1, 2, 3, 4, 5, 6, 7, 8, 9, 10, 12];
    let (mut speed, mut power, mut bend) = (0, dice.below(20), 0);
    let mut steps = vec![(speed, power)];
    for _ in 0..1 + dice.below(5) {
        let gap = GAPS[dice.below(GAPS.len() as u64) as usize];
        bend += dice.below(4);
        (speed, power) = (speed + gap, power + bend * gap);
        steps.push((speed, power));
    }
    steps
}

fn jobs(dice: &mut Dice, count: u64, longest: u64, most_work: u64) -> Vec<Job> {
    let mut jobs: Vec<Job> = Vec::new();
    let (mut arrival, mut deadline) = (0, 0);
    for _ in 0..count {
        arrival += dice.below(4) * dice.below(2);
        deadline = (deadline + dice.below(4) * dice.below(2)).max(arrival + 1 + dice.below(longest));
        jobs.push(Job { arrival, deadline, work: 1 + dice.below(most_work), account: 1 });
    }
    jobs
}

fn sheet(jobs: &[Job], steps: &[(u64, u64)]) -> String {
    let steps = steps.iter().map(|(speed, power)| format!("T {speed} {power}\n"));
    let jobs = jobs.iter().map(|j| format!("J {} {} {} {}\n", j.arrival, j.deadline, j.work, j.account));
    steps.chain(jobs).collect::<String>() + "P\n"
}

#[test]
fn texts_agree() {
    let mut dice = Dice(0x5eed);
    let (mut planned, mut refused) = (0, 0);
    for _ in 0..3_000 {
        let steps = steps(&mut dice);
        assert!(Ladder::new(steps.clone()).is_ok());
        let count = dice.below(9);
        let jobs = jobs(&mut dice, count, 12, 20);
        let expected = slow_text(&jobs, &steps);
        let mut text = Vec::new();
        let sheet = sheet(&jobs, &steps);
        plain::plan_sheet(sheet.as_bytes(), &mut text);
        assert_eq!(String::from_utf8(text).unwrap(), expected, "{sheet}");
        if expected.starts_with("refused") { refused += 1 } else { planned += 1 }
    }
    assert!(planned > 1_000 && refused > 300, "{planned} planned, {refused} refused");
}

fn check_path(jobs: &[Job]) {
    let fast = shortest_path(jobs);
    let slow = slow_path(jobs);
    assert!(keeps_the_law(jobs, &fast), "{jobs:?} {fast:?}");
    for time in 0..=jobs[jobs.len() - 1].deadline {
        let ((a, b), (c, d)) = (height(&fast, time), height(&slow, time));
        assert_eq!(a * d, c * b, "{jobs:?} {fast:?} {slow:?}");
    }
    // no corner but the ends is without a turn
    for corner in &fast[1..fast.len() - 1] {
        assert_ne!(turn(&fast, corner.time), 0, "{jobs:?} {fast:?}");
    }
}

#[test]
fn paths_agree() {
    let mut dice = Dice(7);
    for _ in 0..20_000 {
        let count = 1 + dice.below(14);
        let longest = 1 + dice.below(30);
        check_path(&jobs(&mut dice, count, longest, 9));
    }
}

#[test]
fn long_paths_agree() {
    let mut dice = Dice(11);
    for _ in 0..300 {
        let count = 1 + dice.below(256);
        let longest = 1 + dice.below(300);
        check_path(&jobs(&mut dice, count, longest, 1_000_000));
    }
}
