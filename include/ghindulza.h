/*
 * Ghindulza: a timed-register bench.
 *
 * Runs a trace against one of three routines - the l-exclusion lock (kind 1),
 * the plain decision (kind 2), the fast decision (kind 3) - and offers the
 * readers and writers of the trace records and a bank of timed registers.
 *
 * Every function but ghindulza_bank_fresh returns a refusal's number, 0 for
 * accepted:
 *
 *    1  fewer than 8 bytes, or fewer than the setup's 8 + n
 *    2  setup mark wrong
 *    3  kind not 1 to 3
 *    4  n, the number of processes, not 1 to 32
 *    5  number of slots or values not 1 to 8, or the zero byte not 0
 *    6  a start byte out of range
 *    7  report shorter than 4 * n
 *    8  more than 8,000,000 bytes after the setup
 *    9  fewer than 8 bytes left for a step
 *   10  step mark wrong
 *   11  process not 1 to n (outside a run: not 1 to 32)
 *   12  event not 0 (move) or 1 (crash)
 *   13  tick above 4,000,000,000 or below the last accepted one
 *   14  the process has crashed
 *   15  a move of a process that has decided
 *   16  a move at a tick not above wait start + delta
 *   17  register not 0 to 7
 *   18  wait above 65,535 and not unlimited
 *   19  buffer too short for the record
 *
 * A length of 0 may come with any pointer; lent areas never overlap. No other
 * condition rests on the caller: a lent bank, say, may hold anything.
 *
 * The records, numbers little-endian:
 *   setup  4F 53, kind, n, number of slots or values, 0, delta (2 bytes), then
 *          n start bytes: a slot from 0 in kind 1, a proposal from 1 otherwise
 *   step   4F 54, process, event, tick (4 bytes)
 */

#ifndef GHINDULZA_H
#define GHINDULZA_H

#include <stddef.h>
#include <stdint.h>

#ifdef __cplusplus
extern "C" {
#endif

/* The limits of a trace. */
#define GHINDULZA_PROCESSES 32
#define GHINDULZA_REGISTERS 8
#define GHINDULZA_STEPS 1000000
#define GHINDULZA_TOP_TICK UINT32_C(4000000000)

/* The wait and the deadline that never end. */
#define GHINDULZA_UNLIMITED UINT32_C(4294967295)

/* The answers of a write to the bank. */
#define GHINDULZA_DONE 1
#define GHINDULZA_LATE 2

/*
 * Runs a whole trace: a setup, then any number of steps. Refuses with 1 to 16.
 *
 * report   accepted: its first 4 * n numbers are written, four a process in
 *          order: place; slot (kind 1) or decided value, 0 if undecided; moves;
 *          late writes. The numbers behind them stay.
 *          refused: untouched.
 *          Places: 0 rest, 1 look, 2 put, 3 about to wait, 4 check, 5 critical,
 *          6 flag, 7 scan, 8 decided, 9 crashed.
 * record   accepted: the number of accepted steps.
 *          refused: the record that was refused; 0 for the setup and for 7 and
 *          8, 1 for the first step.
 */
uint32_t ghindulza_run(const uint8_t *trace, size_t trace_len,
                       uint32_t *report, size_t report_len,
                       uint32_t *record);

/*
 * Reads the setup at the beginning of bytes. Refuses with 1 to 6.
 *
 * fields   5 numbers: kind, n, number of slots or values, the zero byte, delta.
 * starts   32 bytes: the n start bytes, then zeros.
 * rest     2 numbers: where the bytes after the setup begin, and how many.
 *          refused: all of them 0.
 */
uint32_t ghindulza_read_setup(const uint8_t *bytes, size_t len,
                              uint32_t fields[5], uint8_t starts[32],
                              uint64_t rest[2]);

/*
 * Reads the step in the first 8 bytes; more bytes do not matter. Refuses with
 * 9 (fewer than 8 bytes, none included), 10, 11 (not 1 to 32), 12, and 13 for a
 * tick above the highest.
 *
 * fields   3 numbers: process, event, tick; refused: all 0.
 */
uint32_t ghindulza_read_step(const uint8_t *bytes, size_t len,
                             uint32_t fields[3]);

/*
 * Writes a setup of n processes, n being the number of start bytes lent.
 * Refuses with 3, 4, 5, 6, 19.
 *
 * kind     any 32-bit number: one that does not fit its byte is refused with 3,
 * size     or with 5, like any other out of range.
 * delta    every 16-bit number is a bound, so none is refused. C narrows a
 *          larger number to 16 bits before the call, without a word.
 * buffer   accepted: its first 8 + n bytes are written, no other.
 *          refused: untouched.
 * length   the record's length, 8 + n; refused: 0.
 */
uint32_t ghindulza_write_setup(uint8_t *buffer, size_t len, uint32_t kind,
                               uint32_t size, uint16_t delta,
                               const uint8_t *starts, size_t n,
                               uint64_t *length);

/*
 * Writes a step. Refuses with 11 (not 1 to 32), 12, 13 (tick above the
 * highest), 19.
 *
 * process  any 32-bit number: one that does not fit its byte is refused with
 * event    11, or with 12, like any other out of range.
 * buffer   accepted: its first 8 bytes are written, no other.
 *          refused: untouched.
 * length   the record's length, 8; refused: 0.
 */
uint32_t ghindulza_write_step(uint8_t *buffer, size_t len, uint32_t process,
                              uint32_t event, uint32_t tick,
                              uint64_t *length);

/*
 * The bank of timed registers, lent in three parts:
 *
 * values      8 numbers, one a register; 0 is the empty mark.
 * deadlines   256 numbers; that of process i and register c stands at
 *             (i - 1) * 8 + c.
 * last        the tick of the last accepted call.
 */

/* Makes a fresh bank: values 0, deadlines unlimited, last tick 0. */
void ghindulza_bank_fresh(uint32_t values[8], uint32_t deadlines[256],
                          uint32_t *last);

/*
 * Reads a register at a tick; the pair's deadline becomes tick + wait, or
 * unlimited. Refuses with 11 (not 1 to 32), 17, 13, 18, in this order; the bank
 * stays then.
 *
 * value    the register's value; refused: 0.
 */
uint32_t ghindulza_bank_read(const uint32_t values[8], uint32_t deadlines[256],
                             uint32_t *last, uint32_t process, uint32_t reg,
                             uint32_t tick, uint32_t wait, uint32_t *value);

/*
 * Writes a register at a tick: done if the tick is at most the pair's
 * deadline, otherwise late, and the value stays. The pair's deadline becomes
 * unlimited either way. Refuses with 11 (not 1 to 32), 17, 13, in this order;
 * the bank stays then.
 *
 * answer   GHINDULZA_DONE or GHINDULZA_LATE; refused: 0.
 */
uint32_t ghindulza_bank_write(uint32_t values[8], uint32_t deadlines[256],
                              uint32_t *last, uint32_t process, uint32_t reg,
                              uint32_t tick, uint32_t value, uint32_t *answer);

#ifdef __cplusplus
}
#endif

#endif
