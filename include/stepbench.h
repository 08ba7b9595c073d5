/* The step bench for programs in C: run files in, reports out.
 *
 *     (cd crates/stepbench && rt lib)       # proves it and writes crates/stepbench/out/libstepbench.a (x86-64 Linux)
 *     gcc -Iinclude YOURS.c crates/stepbench/out/libstepbench.a
 *
 * tools/example/report.c is a short program over it; tools/rack/rack.c tries every function. Each function is proved to
 * do, for all inputs, what crates/stepbench/src/lib.rt states in its `ensures`; this header tells the same in words, and
 * is not itself proved.
 *
 * Every function
 *   - is total: it takes any bytes of any length, refuses what is wrong with them by number, and ends;
 *   - keeps nothing between two calls, allocates nothing, and calls nothing outside the library but memset; two threads may
 *     call at the same time with memory of their own. It wants 64 KB of stack (measured: parse 54 KB, report 28 KB, and 3 KB
 *     more in a call in which the loader looks memset up);
 *   - writes to no memory but what it is lent. Refused, it changes no byte of it. Else it changes the first
 *     STEPBENCH_LENGTH(word) bytes of `out`, and none after them.
 * What the caller owes is what C cannot say: each pointer is to that many bytes of its own (to some address, not a null
 * pointer, where the length is 0), and nothing that is written overlaps anything else that is passed.
 */
#ifndef STEPBENCH_H
#define STEPBENCH_H

#include <stddef.h>
#include <stdint.h>

/* Of this header and the library that belongs to it. It grows when a function is added, its first number when one changes. */
#define STEPBENCH_VERSION 1001u /* 1.001 */

#ifdef __cplusplus
extern "C" {
#endif

/* The word that every function returns: bits 63 to 56 the refusal N, 0 for none; bits 55 to 32 its K; bits 31 to 0 the
 * number of bytes written, 0 where it is refused. Without a refusal K is 0. What was put in comes out, and this is proved with
 * its bounds (stepbench::answers_come_apart): N is at most 14, K at most 40,960, and the length at most the room that is
 * always enough, below. The K of stepbench_parse is a line number, of at most 16,777,215: a line further on is told as
 * that one. */
#define STEPBENCH_REFUSED(word) ((unsigned)((uint64_t)(word) >> 56))
#define STEPBENCH_K(word) ((uint32_t)((uint64_t)(word) >> 32 & 0xffffff))
#define STEPBENCH_LENGTH(word) ((size_t)((uint64_t)(word)&0xffffffff))

/* The refusals of document 01. The lowest that holds is given. K is 0 but for 7 and 8.
 *      1  the file is under 16 or over 53,264 bytes
 *      2  the form is not 1
 *      3  n is 0 or over 32
 *      4  over 1,024 calls
 *      5  over 40,960 turns
 *      6  distances and length disagree; of stepbench_write: the table's length is no multiple of 12
 *      7  a call with bad station, kind, zero byte or read values; K is the first, from 1
 *      8  a turn of 0 or over n; K is the first, from 1
 *     14  `out` is shorter than the output */
#define STEPBENCH_BAD_LENGTH 1u
#define STEPBENCH_BAD_FORM 2u
#define STEPBENCH_BAD_STATIONS 3u
#define STEPBENCH_MANY_CALLS 4u
#define STEPBENCH_MANY_TURNS 5u
#define STEPBENCH_DISAGREE 6u
#define STEPBENCH_BAD_CALL 7u
#define STEPBENCH_BAD_TURN 8u
#define STEPBENCH_SHORT 14u

/* What stepbench_parse expected where it complains: its N, which are not the refusals above but for 14 (docs/RUN-TEXT.md). */
#define STEPBENCH_EXPECTED_START 1u
#define STEPBENCH_EXPECTED_VALUE 2u
#define STEPBENCH_EXPECTED_END_OF_LINE 3u
#define STEPBENCH_EXPECTED_STATIONS 4u
#define STEPBENCH_EXPECTED_NUMBER_OF_STATIONS 5u
#define STEPBENCH_EXPECTED_STATION_OR_TURNS 6u
#define STEPBENCH_EXPECTED_KIND 7u
#define STEPBENCH_EXPECTED_STATION 8u
#define STEPBENCH_EXPECTED_NO_MORE_CALLS 9u
#define STEPBENCH_EXPECTED_NO_MORE_TURNS 10u

/* Bytes of `out` that are always enough: with them 14 is never given. */
#define STEPBENCH_REPORT_ROOM 40960u /* sheet::buffer_is_enough */
#define STEPBENCH_TEXT_ROOM 153635u  /* runtext::buffer_is_enough */
#define STEPBENCH_FILE_ROOM 53264u   /* runfile::buffer_is_enough, drafting::buffer_is_enough: 16 + 40,960 + 12 x 1,024 */

/* The report of a run file: a line for each call that took effect, in that order, and a last line. Text, with a newline
 * after each line and no zero byte at its end. Refused 1 to 8, 14. */
uint64_t stepbench_report(const uint8_t *file, size_t file_len, uint8_t *out, size_t out_len);

/* A run file as text, as docs/RUN-TEXT.md has it; parsed, it gives the same file. Refused 1 to 8, 14. */
uint64_t stepbench_print(const uint8_t *file, size_t file_len, uint8_t *out, size_t out_len);

/* A text as a run file, which then reads well. Its refusals are its own: N is what was expected, 1 to 10 of
 * docs/RUN-TEXT.md, and K the line where, from 1, up to 16,777,215; or N is 14 and K is 0. */
uint64_t stepbench_parse(const uint8_t *text, size_t text_len, uint8_t *out, size_t out_len);

/* The run file of the starting value x, n stations, a call table (records of 12 bytes, as in the file) and turns (a
 * station number a byte). Refused 3 to 8, 14. */
uint64_t stepbench_write(uint32_t x, uint32_t n, const uint8_t *table, size_t table_len, const uint8_t *turns,
                         size_t turns_len, uint8_t *out, size_t out_len);

/* Whether a run file reads well, and its numbers: starting value x, stations n, calls q, turns t. Its call table is then
 * the first 12q bytes of the file, its turns the t bytes after it. Refused 1 to 8, and then the four stay as they
 * were. The word's length is 0. */
uint64_t stepbench_read(const uint8_t *file, size_t file_len, uint32_t *x, uint32_t *n, size_t *q, size_t *t);

#ifdef __cplusplus
}
#endif

#endif
