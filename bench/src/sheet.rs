//! A sheet: lines of steps, then lines of jobs, then the line that draws the plan.

use crate::ladder::{Ladder, MOST_STEPS};
use crate::plan::segments;
use crate::queue::{Job, Queue};

const LONGEST_LINE: usize = 64;
const MOST_DIGITS: usize = 10;

/// The longest sheet that is read.
pub const MOST_BYTES: usize = 32_768;

/// The least room for the text.
pub const OUTPUT_ROOM: usize = 16_384;

const NO_ROOM: u32 = 24;
const MALFORMED: u32 = 30;
const LINE_TOO_LONG: u32 = 31;
const REFUSED_BELOW: u32 = 32;
const SHEET_TOO_LONG: u32 = 33;

/// Why there is no plan: a number, and the line at fault or 0.
#[derive(Clone, Copy, Debug, PartialEq, Eq)]
pub struct Refusal {
    pub number: u32,
    pub line: usize,
}

impl Refusal {
    /// What is said when the output has not the room that a plan may need.
    pub const NO_ROOM: Refusal = Refusal { number: NO_ROOM, line: 0 };
    /// What is said of a sheet that is too long to be read.
    pub const TOO_LONG: Refusal = Refusal { number: SHEET_TOO_LONG, line: 0 };

    pub fn print(self, out: &mut Vec<u8>) {
        out.extend_from_slice(b"refused ");
        push_number(out, u64::from(self.number), b' ');
        push_number(out, self.line as u64, b'\n');
    }
}

/// A sheet that has a plan.
#[derive(Clone, Debug)]
pub struct Sheet {
    pub ladder: Ladder,
    pub queue: Queue,
}

enum Line {
    Step(u64, u64),
    Job(Job),
    Plan,
}

/// Plain decimal: up to ten digits, no needless zero.
fn number(text: &[u8]) -> Option<u64> {
    if text.is_empty() || text.len() > MOST_DIGITS || (text[0] == b'0' && text.len() > 1) {
        return None;
    }
    text.iter().try_fold(0, |value, byte| byte.is_ascii_digit().then(|| value * 10 + u64::from(byte - b'0')))
}

/// The line without its byte 10.
fn line(text: &[u8]) -> Option<Line> {
    let (&letter, rest) = text.split_first()?;
    if rest.is_empty() {
        return (letter == b'P').then_some(Line::Plan);
    }
    let mut words = rest.strip_prefix(b" ")?.split(|&byte| byte == b' ');
    let mut next = || number(words.next()?);
    let line = match letter {
        b'T' => Line::Step(next()?, next()?),
        b'J' => Line::Job(Job { arrival: next()?, deadline: next()?, work: next()?, account: next()? }),
        _ => return None,
    };
    words.next().is_none().then_some(line)
}

/// What has been read so far.
enum State {
    Steps(Vec<(u64, u64)>),
    Jobs(Sheet),
    Drawn(Sheet),
}

impl State {
    fn take(self, line: Line) -> Result<State, u32> {
        match (self, line) {
            (State::Steps(mut steps), Line::Step(speed, power)) if steps.len() < MOST_STEPS => {
                steps.push((speed, power));
                Ok(State::Steps(steps))
            }
            (State::Steps(_) | State::Jobs(_), Line::Step(..)) | (State::Drawn(_), _) => Err(MALFORMED),
            (State::Steps(steps), line) => {
                let ladder = Ladder::new(steps).map_err(|_| REFUSED_BELOW)?;
                State::Jobs(Sheet { ladder, queue: Queue::new() }).take(line)
            }
            (State::Jobs(mut sheet), Line::Job(job)) => {
                sheet.queue.enter(job).map_err(|_| REFUSED_BELOW)?;
                Ok(State::Jobs(sheet))
            }
            (State::Jobs(sheet), Line::Plan) => match sheet.queue.overfull(sheet.ladder.top_speed()) {
                Some(_) => Err(REFUSED_BELOW),
                None => Ok(State::Drawn(sheet)),
            },
        }
    }
}

pub fn read_sheet(bytes: &[u8]) -> Result<Sheet, Refusal> {
    if bytes.len() > MOST_BYTES {
        return Err(Refusal::TOO_LONG);
    }
    let mut state = State::Steps(Vec::with_capacity(MOST_STEPS));
    let mut lines = 0;
    for text in bytes.split_inclusive(|&byte| byte == b'\n') {
        lines += 1;
        let refused = |number| Refusal { number, line: lines };
        let Some(text) = text.strip_suffix(b"\n") else {
            return Err(refused(MALFORMED));
        };
        if text.len() >= LONGEST_LINE {
            return Err(refused(LINE_TOO_LONG));
        }
        let line = line(text).ok_or(refused(MALFORMED))?;
        state = state.take(line).map_err(refused)?;
    }
    match state {
        State::Drawn(sheet) => Ok(sheet),
        _ => Err(Refusal { number: MALFORMED, line: lines + 1 }),
    }
}

fn push_number(out: &mut Vec<u8>, mut value: u64, after: u8) {
    let mut digits = [0; 20];
    let mut first = digits.len();
    loop {
        first -= 1;
        digits[first] = b'0' + (value % 10) as u8;
        value /= 10;
        if value == 0 {
            break;
        }
    }
    out.extend_from_slice(&digits[first..]);
    out.push(after);
}

/// Puts the text of the sheet's plan, or of its refusal, at the end of `out`.
pub fn plan_sheet(sheet: &[u8], out: &mut Vec<u8>) {
    let sheet = match read_sheet(sheet) {
        Ok(sheet) => sheet,
        Err(refusal) => return refusal.print(out),
    };
    let mut energy = 0;
    for segment in segments(sheet.queue.jobs(), &sheet.ladder) {
        energy += sheet.ladder.power(segment.step) * segment.ticks;
        push_number(out, segment.step as u64, b' ');
        push_number(out, segment.ticks, b'\n');
    }
    out.extend_from_slice(b"energy ");
    push_number(out, energy, b'\n');
}
