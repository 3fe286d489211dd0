//! The step that a plan's record names at a tick.

const MOST_SEGMENTS: u64 = 1_024;
const MOST_TICKS: u64 = 1_008_000_000;
const STEPS: u64 = 16;

const TOO_MANY_SEGMENTS: u32 = 20;
const NO_SUCH_STEP: u32 = 21;
const EMPTY_OR_SAME: u32 = 22;
const TOO_MANY_TICKS: u32 = 23;
const ENDS: u32 = 25;
const NOT_SHORTEST: u32 = 26;
const OTHER_KIND: u32 = 27;
const LEFT_OVER: u32 = 28;
const PAST_THE_END: u32 = 29;

/// Takes a number in groups of seven bits, lowest first, off the front of the bytes.
fn number(bytes: &mut &[u8]) -> Result<u64, u32> {
    let mut value = 0;
    for place in 0..5 {
        let (&byte, rest) = bytes.split_first().ok_or(ENDS)?;
        *bytes = rest;
        value |= u64::from(byte & 0x7f) << (7 * place);
        if byte & 0x80 == 0 {
            return if byte == 0 && place > 0 { Err(NOT_SHORTEST) } else { Ok(value) };
        }
    }
    Err(NOT_SHORTEST)
}

fn look_up(record: &[u8], tick: u64) -> Result<u32, u32> {
    let (&kind, mut bytes) = record.split_first().ok_or(ENDS)?;
    if !(1..=127).contains(&kind) {
        return Err(OTHER_KIND);
    }
    let count = number(&mut bytes)?;
    if count > MOST_SEGMENTS {
        return Err(TOO_MANY_SEGMENTS);
    }
    let mut sum = 0;
    let mut before = None;
    let mut found = None;
    for _ in 0..count {
        let step = number(&mut bytes)?;
        if step >= STEPS {
            return Err(NO_SUCH_STEP);
        }
        let ticks = number(&mut bytes)?;
        if ticks == 0 || before == Some(step) {
            return Err(EMPTY_OR_SAME);
        }
        sum += ticks;
        if sum > MOST_TICKS {
            return Err(TOO_MANY_TICKS);
        }
        if found.is_none() && tick < sum {
            found = Some(step as u32);
        }
        before = Some(step);
    }
    if !bytes.is_empty() {
        return Err(LEFT_OVER);
    }
    found.ok_or(PAST_THE_END)
}

/// The step at a tick, counted from 0, or the number of the refusal. The whole record is checked first.
pub fn step_at(record: &[u8], tick: u64) -> u32 {
    look_up(record, tick).unwrap_or_else(|refused| refused)
}
