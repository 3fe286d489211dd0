//! The shortest path between the staircase of arrivals and the staircase of deadlines.

use crate::queue::Job;

/// A time and the work done by then.
#[derive(Clone, Copy, Debug, PartialEq, Eq)]
pub struct Point {
    pub time: u64,
    pub work: u64,
}

impl Point {
    const START: Point = Point { time: 0, work: 0 };

    /// Positive when the turn from `self` by `b` to `c` is to the left, that is, when the slope rises at `b`.
    fn turn(self, b: Point, c: Point) -> i64 {
        let to_b = (b.time as i64 - self.time as i64, b.work as i64 - self.work as i64);
        let to_c = (c.time as i64 - self.time as i64, c.work as i64 - self.work as i64);
        to_b.0 * to_c.1 - to_b.1 * to_c.0
    }
}

/// Above the path stands the ceiling, below it the floor.
#[derive(Clone, Copy, PartialEq, Eq)]
enum Wall {
    Ceiling,
    Floor,
}

/// One side of the funnel: the points of a wall that a taut string from the apex would touch.
struct Chain {
    points: Vec<Point>,
    first: usize,
    /// 1 where slopes rise along the chain (the ceiling), -1 where they fall (the floor)
    bend: i64,
}

impl Chain {
    fn new(wall: Wall, room: usize) -> Chain {
        let bend = if wall == Wall::Ceiling { 1 } else { -1 };
        Chain { points: Vec::with_capacity(room), first: 0, bend }
    }

    fn alive(&self) -> &[Point] {
        &self.points[self.first..]
    }

    /// Puts a point at the end and drops those that no longer stand out.
    fn tighten(&mut self, apex: Point, new: Point) {
        while let Some((&last, rest)) = self.alive().split_last() {
            let before = rest.last().copied().unwrap_or(apex);
            if before.turn(last, new) * self.bend > 0 {
                break;
            }
            self.points.pop();
        }
        self.points.push(new);
    }
}

struct Funnel {
    corners: Vec<Point>,
    apex: Point,
    ceiling: Chain,
    floor: Chain,
}

impl Funnel {
    fn take_in(&mut self, wall: Wall, new: Point) {
        let (own, other) = match wall {
            Wall::Ceiling => (&mut self.ceiling, &mut self.floor),
            Wall::Floor => (&mut self.floor, &mut self.ceiling),
        };
        own.tighten(self.apex, new);
        // while the new point is seen from the apex only past the other side, the string turns round that side's first point
        while own.alive().len() == 1 {
            match other.alive().first() {
                Some(&first) if self.apex.turn(first, new) * other.bend > 0 => {
                    self.corners.push(first);
                    self.apex = first;
                    other.first += 1;
                }
                _ => break,
            }
        }
    }
}

/// The corners of the path from (0, 0) to the last deadline with all work done, in order, both ends included. No corner but the
/// ends is without a turn. Without a job there is no path.
pub fn shortest_path(jobs: &[Job]) -> Vec<Point> {
    if jobs.is_empty() {
        return Vec::new();
    }
    let room = jobs.len() + 1;
    let mut funnel = Funnel {
        corners: Vec::with_capacity(2 * room),
        apex: Point::START,
        ceiling: Chain::new(Wall::Ceiling, room),
        floor: Chain::new(Wall::Floor, room),
    };
    funnel.corners.push(Point::START);

    let mut arrived = jobs.iter().peekable();
    let mut due = jobs.iter().peekable();
    let mut ceiling = 0;
    let mut floor = 0;
    while let Some(&next_due) = due.peek() {
        match arrived.peek() {
            Some(&job) if job.arrival <= next_due.deadline => {
                let time = job.arrival;
                if time > 0 {
                    funnel.take_in(Wall::Ceiling, Point { time, work: ceiling });
                }
                while let Some(job) = arrived.next_if(|job| job.arrival == time) {
                    ceiling += job.work;
                }
            }
            _ => {
                let time = next_due.deadline;
                while let Some(job) = due.next_if(|job| job.deadline == time) {
                    floor += job.work;
                }
                funnel.take_in(Wall::Floor, Point { time, work: floor });
            }
        }
    }
    // the last deadline came in as a point of the floor: what is left is the floor's side
    let Funnel { mut corners, floor, .. } = funnel;
    corners.extend_from_slice(floor.alive());
    corners
}
