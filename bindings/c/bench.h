/* bench.h - the calls that are measured, by instructions (bench_once.c) and by time (bench_times.cpp). bindings/bench/c.py runs both.
 */
#ifndef BENCH_H
#define BENCH_H

#include <stdbool.h>
#include <stddef.h>
#include <stdint.h>

#ifdef __cplusplus
extern "C" {
#endif

/* The forms of a call: on a column, on one document after the other with the path's text, or with a prepared path, and a loop of loops.h
 * in its place. */
enum { BENCH_FORMS = 4 };
extern const char *const bench_forms[BENCH_FORMS];

/* A call on all rows, in each form that it has. Each returns a status above JDOC_NONE only if it fails. */
struct bench_call {
    const char *name;
    uint32_t (*forms[BENCH_FORMS])(void);
};

extern const struct bench_call bench_calls[];
extern const size_t bench_calls_len;

/* Builds the rows. False: an allocation fails. */
bool bench_start(size_t rows);

/* The sum of the lengths, counts and Booleans that the calls returned since the last call of this function. */
uint64_t bench_sum(void);

#ifdef __cplusplus
}
#endif

#endif
