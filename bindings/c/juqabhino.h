/* Juqabhino for callers in C: whether a macro call of Rust is switched on, why not, what switches it on, and what its
 * format string becomes. docs/SCRIPT.md has the language of scripts, the output and its lines.
 *
 * What a caller owes at each call; nothing checks it:
 *
 *   1. No pointer is null, not even that of no bytes.
 *   2. The bytes that are pointed to are initialised: those of the inputs, those of `room`, `*told`, `*reads`, `*number`.
 *   3. No one writes to the inputs during the call, and no one else reads or writes `room`, `*told`, `*reads` or `*number`.
 *   4. An output overlaps no input and no other output. Inputs may overlap one another, and calls may share them.
 *   5. Each length is less than 2^63, and so many bytes are there.
 *   6. The program is linked with the C library archive of the kit, `liblibc_c.a`, behind this library's `libjuqabhino_c.a`.
 *      Its `malloc`, `realloc` and `free` are of one allocator, and align a block to each power of two up to 16 that
 *      divides its size.
 *   7. No call is made from a signal handler, or from the forked child of a process with threads.
 *
 * A call keeps nothing, and frees all that it took. Calls may come from any number of threads at once, each with outputs of
 * its own. A stack of 1 MiB is enough.
 *
 * Texts are UTF-8 without a byte of 0 behind them. Other bytes are no fault of the caller: they are refused as no script or
 * no predicate. */
#ifndef JUQABHINO_H
#define JUQABHINO_H

#include <stddef.h>
#include <stdint.h>

#ifdef __cplusplus
extern "C" {
#endif

/* The statuses. */
#define JUQABHINO_OK 0         /* the output is there */
#define JUQABHINO_NONE 1       /* there is no such text: no reason, no further hint */
#define JUQABHINO_USAGE 2      /* the words ask for nothing */
#define JUQABHINO_SYNTAX 3     /* the script, or the text of options, is none */
#define JUQABHINO_NO_ROOM 5    /* the output does not fit into the room: `*told` is the length that it needs */
#define JUQABHINO_MEMORY 6     /* no memory is left */
#define JUQABHINO_ARENA_FULL 8 /* the calls of the script place more than an arena holds */
#define JUQABHINO_TOO_LONG 9   /* a text has more than JUQABHINO_MOST bytes */
#define JUQABHINO_PREDICATE 10 /* the text of the predicate is none */

/* The most bytes that a script, a text of options or a predicate has. */
#define JUQABHINO_MOST 16777216

/* What a predicate reads. */
#define JUQABHINO_FALSE 0
#define JUQABHINO_TRUE 1
#define JUQABHINO_UNKNOWN 2

/* Runs the program. `words` is empty for a run over the script, else its words with one space between two, as `run` or
 * `gen 4`. With `gen N` the script is not read, and the output is the summary of the script that is made for N.
 *
 * The output stands at the front of `room`, and `*told` is its length; behind it the room is as it was. Where the run is
 * refused, the output is the line of the refusal, as `error syntax at line 3` and a line feed, and the status says which:
 * JUQABHINO_USAGE, _SYNTAX, _MEMORY, _ARENA_FULL or _TOO_LONG.
 *
 * JUQABHINO_NO_ROOM: the output, or the line of a refusal, is longer than the room. The room is as it was, and `*told` is
 * the length that a second call needs. */
uint8_t juqabhino_run(const uint8_t *words, size_t words_len, const uint8_t *script, size_t script_len, uint8_t *room,
                      size_t room_len, size_t *told);

/* Puts into `*reads` what a predicate reads under options: JUQABHINO_FALSE, _TRUE or _UNKNOWN.
 *
 * `options` are lines of the language of scripts, as `opt unix` and `opt feature = "std"`. The whole text must be a script;
 * its items `opt` and `version` count, and no others. `predicate` is what stands behind `cfg` in a script, as
 * `all(unix, not(feature = "std"))`.
 *
 * A question is refused with JUQABHINO_SYNTAX (the options are no script), _MEMORY, _TOO_LONG or _PREDICATE. `*reads` is
 * then as it was. To be told the line of the fault, run the options as a script. */
uint8_t juqabhino_check(const uint8_t *options, size_t options_len, const uint8_t *predicate, size_t predicate_len,
                        uint8_t *reads);

/* Says why a predicate is off under options, as `std is disabled`: the text stands at the front of `room`, and `*told` is
 * its length. JUQABHINO_NONE: there is no reason to tell.
 *
 * JUQABHINO_NO_ROOM is as at juqabhino_run. Where the question is refused, as at juqabhino_check, the room is as it was and
 * `*told` is 0. */
uint8_t juqabhino_reason(const uint8_t *options, size_t options_len, const uint8_t *predicate, size_t predicate_len,
                         uint8_t *room, size_t room_len, size_t *told);

/* Says what switches a predicate on under options, as `enable std`: the text of a hint stands at the front of `room`, and
 * `*told` is its length.
 *
 * A predicate stands for a list of conjunctions, and each gives a hint or none. `*number` is the number of the one to begin
 * at, 0 for the first; it becomes the number of the conjunction whose hint was found. So begin with 0, and go on from the
 * number and one more, until JUQABHINO_NONE: there is no further hint. Numbers are below 2^64 - 1, so one more fits.
 *
 * JUQABHINO_NO_ROOM is as at juqabhino_run, and the number is as it was. Where the question is refused, as at
 * juqabhino_check, the number and the room are as they were and `*told` is 0. */
uint8_t juqabhino_hint(const uint8_t *options, size_t options_len, const uint8_t *predicate, size_t predicate_len,
                       uint64_t *number, uint8_t *room, size_t room_len, size_t *told);

#ifdef __cplusplus
}
#endif

#endif
