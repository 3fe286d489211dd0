//! The plain planner for C, with the signatures of the product's functions.

use std::slice;

use crate::record::step_at;
use crate::sheet::{MOST_BYTES, OUTPUT_ROOM, Refusal, plan_sheet};

/// The bytes that C hands over; none are read when there are none, whatever the pointer.
unsafe fn bytes<'a>(start: *const u8, length: usize) -> &'a [u8] {
    if length == 0 { &[] } else { unsafe { slice::from_raw_parts(start, length) } }
}

/// Writes the text from the start of `out` and answers its length; 0 if it has more bytes than `room`, and then nothing is written.
///
/// # Safety
/// `sheet` must point at `length` bytes and `out` at `room` bytes that nothing else uses.
#[unsafe(no_mangle)]
pub unsafe extern "C" fn reference_plan_sheet(sheet: *const u8, length: usize, out: *mut u8, room: usize) -> usize {
    let sheet = unsafe { bytes(sheet, length) };
    let mut text = Vec::with_capacity(OUTPUT_ROOM);
    if length <= MOST_BYTES && room < OUTPUT_ROOM {
        Refusal::NO_ROOM.print(&mut text);
    } else {
        plan_sheet(sheet, &mut text);
    }
    if text.len() > room {
        return 0;
    }
    unsafe { out.copy_from_nonoverlapping(text.as_ptr(), text.len()) };
    text.len()
}

/// The step at a tick, or the number of the refusal.
///
/// # Safety
/// `record` must point at `length` bytes.
#[unsafe(no_mangle)]
pub unsafe extern "C" fn reference_step_at(record: *const u8, length: usize, tick: u64) -> u32 {
    step_at(unsafe { bytes(record, length) }, tick)
}
