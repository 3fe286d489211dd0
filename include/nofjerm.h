/*
 * Nofjerm from C: which step of the processor a plan names at a tick (librecord.a), and the plan of a sheet as text (libsheet.a).
 * Link c/liblibc_c.a of the Rattle kit beside the second, which asks for memory.
 */
#ifndef NOFJERM_H
#define NOFJERM_H

#include <stddef.h>
#include <stdint.h>

/*
 * The step, 0 to 15, that the record of a plan names at a tick, counted from 0; or the number of a refusal:
 *   20  over 1,024 segments          25  the record ends too soon
 *   21  a step above 15              26  a number not in its shortest form, or of more than five bytes
 *   22  no ticks, or the same step   27  a kind that is not from 1 to 127
 *       again                        28  bytes left over
 *   23  more than 1,008,000,000      29  the tick is at or past the end of the plan
 *       ticks
 * The whole record is checked first. Nothing is allocated. `record` may be any `length` bytes.
 */
uint32_t nofjerm_step_at(const uint8_t *record, size_t length, uint64_t tick);

/*
 * Reads a sheet of `length` bytes, and writes to `out`, which has room for `room` bytes, what the plan program prints: the plan's segments and
 * its energy, or the line "refused NUMBER LINE"; each line ends with byte 10, and no byte 0 is added. Answers how many bytes were
 * written. Bytes of `out` behind them stay as they were. 0: nothing was written, since there was no memory, or no room even for the
 * refused line. With less than 16,384 bytes of room every sheet is refused with 24.
 */
size_t nofjerm_plan_sheet(const uint8_t *sheet, size_t length, uint8_t *out, size_t room);

#endif
