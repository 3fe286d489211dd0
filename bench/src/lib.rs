//! Clock plans of least energy, from a sheet's bytes to the plan's text, in plain Rust.
//!
//! It does what the proved planner does, but was written apart from it: another parser, other structures, a sweep in linear time.
//! The two are timed side by side and compared on damaged input.

mod c;
mod ladder;
mod path;
mod plan;
mod queue;
mod record;
mod sheet;

pub use ladder::Ladder;
pub use path::{Point, shortest_path};
pub use plan::{Segment, segments};
pub use queue::{Job, Queue};
pub use record::step_at;
pub use sheet::{MOST_BYTES, OUTPUT_ROOM, Refusal, Sheet, plan_sheet, read_sheet};

/// Ticks in a unit of time, and grains in a unit of work.
pub const FINE: u64 = 5040;
