/*
 * Zirbonnu for C: a job's text is run to its replies, all in memory.
 *
 * The text holds commands, a line each, and each line is answered by a line
 * or more; docs/SPEC.md, "The job program", says how. Each call begins with
 * no job and ends with none: nothing is kept between calls. So the replies
 * to a text are the same each time, unless a line that opens a job is refused
 * for want of memory ("no 60 ..").
 *
 * Link with libzirbonnu.a, and with liblibc_c.a of the Rattle kit, by which
 * it calls malloc, realloc and free. examples/c/run does all of it.
 *
 * What a caller owes, which nothing checks:
 *  - Each pointer is to as many bytes (or to the one size_t) as the call says,
 *    and all of them hold something. None is NULL, not even where the length
 *    is 0, and no length is above PTRDIFF_MAX.
 *  - What `text` points to is not written while the call runs. What `places`
 *    and `count` point to is neither read nor written by anyone else then,
 *    and overlaps neither with the other nor with the text.
 *  - There is stack for the call: the calls that were measured took 20 KB.
 *  - No call is made from a signal handler, or from the forked child of a
 *    process with threads. Two threads may each make calls at the same time.
 *  - malloc, realloc and free are of one allocator, and align a block to each
 *    power of two up to 16 that divides its size.
 */
#ifndef ZIRBONNU_H
#define ZIRBONNU_H

#include <stddef.h>
#include <stdint.h>

#ifdef __cplusplus
extern "C" {
#endif

/* What a call answers. */
#define ZIRBONNU_DONE 0u      /* done */
#define ZIRBONNU_TOO_SMALL 1u /* the replies have more bytes than there are places */
#define ZIRBONNU_NO_MEMORY 2u /* no memory for the session or for the replies */

/*
 * Counts the bytes of the replies to the text.
 *   ZIRBONNU_DONE       *count is how many bytes they have
 *   ZIRBONNU_NO_MEMORY  *count is left as it was
 */
uint32_t zirbonnu_measure(const uint8_t *text, size_t text_length,
                          size_t *count);

/*
 * Writes the replies to the text into the first of the places.
 *   ZIRBONNU_DONE       *count is how many bytes were written; the places
 *                       behind them keep what they held
 *   ZIRBONNU_TOO_SMALL  *count is how many places the replies need; every
 *                       place keeps what it held
 *   ZIRBONNU_NO_MEMORY  *count and every place keep what they held
 */
uint32_t zirbonnu_run(const uint8_t *text, size_t text_length,
                      uint8_t *places, size_t places_length,
                      size_t *count);

#ifdef __cplusplus
}
#endif

#endif
