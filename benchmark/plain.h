/* The interrupt queue bench in plain C: the calls of include/bench.h, with the same parameters, answers
 * and refusals, on the same lent words. */
#ifndef PLAIN_H
#define PLAIN_H

#include "../include/bench.h"

/* the calls under a prefix: plain.c is compiled under several */
#define CALLS_OF(prefix)                                                                                     \
    bench_answer prefix##_fresh(uint16_t *, size_t, uint16_t, uint16_t, uint16_t);                           \
    bench_answer prefix##_begin_enqueue(uint16_t *, size_t, uint16_t, uint16_t, uint16_t);                   \
    bench_answer prefix##_begin_dequeue(uint16_t *, size_t, uint16_t, uint16_t);                             \
    bench_answer prefix##_step(uint16_t *, size_t, uint16_t[BENCH_END_WORDS]);                               \
    bench_answer prefix##_run(uint16_t *, size_t, uint16_t, uint16_t[BENCH_END_WORDS]);                      \
    bench_answer prefix##_quiet(const uint16_t *, size_t, uint16_t);                                         \
    bench_answer prefix##_waiting(const uint16_t *, size_t, uint16_t, uint16_t[BENCH_COUNT_WORDS]);          \
    bench_answer prefix##_listing(const uint16_t *, size_t, uint16_t, uint16_t *, size_t)

CALLS_OF(plain);

#endif
