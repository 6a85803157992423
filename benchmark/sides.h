/* The sides that are compared: plain C, and the proved library through the crate `exports`. They have
 * the same calls, which a test makes through the same table of functions. */
#ifndef SIDES_H
#define SIDES_H

#include "plain.h"

struct side {
    const char *name;
    bench_answer (*fresh)(uint16_t *, size_t, uint16_t, uint16_t, uint16_t);
    bench_answer (*begin_enqueue)(uint16_t *, size_t, uint16_t, uint16_t, uint16_t);
    bench_answer (*begin_dequeue)(uint16_t *, size_t, uint16_t, uint16_t);
    bench_answer (*step)(uint16_t *, size_t, uint16_t *);
    bench_answer (*run)(uint16_t *, size_t, uint16_t, uint16_t *);
    bench_answer (*quiet)(const uint16_t *, size_t, uint16_t);
    bench_answer (*waiting)(const uint16_t *, size_t, uint16_t, uint16_t *);
    bench_answer (*listing)(const uint16_t *, size_t, uint16_t, uint16_t *, size_t);
};

#define SIDE(name, prefix)                                                                                   \
    {                                                                                                        \
        name, prefix##_fresh, prefix##_begin_enqueue, prefix##_begin_dequeue, prefix##_step, prefix##_run,   \
            prefix##_quiet, prefix##_waiting, prefix##_listing                                               \
    }

#ifdef WITHOUT_OURS /* plain C in the place of ours: shows that a test runs */
#define OUR_SIDE SIDE("C again", plain)
#else
#define OUR_SIDE SIDE("ours", exports)
#endif

#endif
