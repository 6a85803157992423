/* Times the search for every schedule of a few operations, plain C and the proved library side by side, and sees
 * that all give the same numbers and the same texts. Plain C stands at the flags that are fastest for each work.
 * usage: tries_bench RATIOS [once], which adds each work's ratios to the file RATIOS. With `once`, for an emulator, where a time says
 * nothing, each side makes each search once, and the largest is left out */
#define _DEFAULT_SOURCE
#include "tries.h"

#include <stdbool.h>
#include <stdio.h>
#include <stdlib.h>
#include <string.h>
#include <time.h>

/* tries.c as `run` compiles it once more for each choice of flags, its call renamed */
tries_call o2_tries, o3_tries, native_tries;

enum { C_SIDES = 3, OURS = C_SIDES, SIDES };

struct side {
    const char *name;
    tries_call *tries;
};

#ifdef WITHOUT_OURS /* plain C in the place of ours: shows that a test runs */
#define OUR_SIDE {"C again", plain_tries}
#else
#define OUR_SIDE {"ours", ours_tries}

/* Crate exporttries. The answer is a value and 65,536 times a code, as in bench.h: the code is 0 or a refusal, the value 1 where there are
 * more than the bound. It tells the schedules listed and their bytes, or how many there are. */
bench_answer exports_try_schedules(uint16_t levels, uint16_t queues, uint16_t nodes, const uint16_t *ops, size_t ops_len, uint32_t bound,
                                   uint8_t *room, size_t room_len, uint64_t told[2]);
bench_answer exports_count_schedules(uint16_t levels, uint16_t queues, uint16_t nodes, const uint16_t *ops, size_t ops_len,
                                     uint64_t told[1]);

static struct tried ours_tries(uint16_t levels, uint16_t queues, uint16_t nodes, const uint16_t *ops, size_t count, uint64_t bound,
                               char *room, size_t room_len)
{
    uint64_t told[2] = {0, 0};
    size_t len = TRIES_OP_WORDS * count;
    bench_answer a = room == NULL
                         ? exports_count_schedules(levels, queues, nodes, ops, len, told)
                         : exports_try_schedules(levels, queues, nodes, ops, len, (uint32_t)bound, (uint8_t *)room, room_len, told);
    return (struct tried){.refusal = bench_code(a), .more = bench_value(a), .schedules = told[0], .bytes = told[1]};
}
#endif

static const struct side sides[SIDES] = {{"-O2", o2_tries}, {"-O3", o3_tries}, {"-O3 -march=native", native_tries}, OUR_SIDE};

static unsigned most_samples = 25, least_samples = 3;
static double sample_ns = 4e6;
static const double SIDE_NS = 2e9; /* after so long no sample more is taken than the least */

enum { LISTED = 20000, LONGEST_TEXT = 202 };
static char first_room[LISTED * LONGEST_TEXT], room[LISTED * LONGEST_TEXT];

struct work {
    const char *name;
    uint16_t levels, queues, nodes, count, ops[TRIES_MOST * TRIES_OP_WORDS];
};

#define E(level, node) BENCH_ENQUEUE, level, 1, node
#define D(level) BENCH_DEQUEUE, level, 1, 0

static const struct work works[] = {
    {"E0 E1 E2", 3, 1, 4, 3, {E(0, 2), E(1, 3), E(2, 4)}},
    {"E0 E1 E2 E3", 4, 1, 5, 4, {E(0, 2), E(1, 3), E(2, 4), E(3, 5)}},
    {"E0 E1 E2 E3, L 16, N 1,024", 16, 1, 1024, 4, {E(0, 2), E(1, 3), E(2, 4), E(3, 5)}},
    {"E12 E13 E14 E15, L 16", 16, 1, 5, 4, {E(12, 2), E(13, 3), E(14, 4), E(15, 5)}},
    {"E0 E0 D0 E1 E2 E3", 4, 1, 6, 6, {E(0, 2), E(0, 3), D(0), E(1, 4), E(2, 5), E(3, 6)}},
    {"E0 E1 E2 E1 E2 D0", 3, 1, 6, 6, {E(0, 2), E(1, 3), E(2, 4), E(1, 5), E(2, 6), D(0)}},
    {"E0 E1 E2 E3 E4", 5, 1, 6, 5, {E(0, 2), E(1, 3), E(2, 4), E(3, 5), E(4, 6)}},
    {"E0 E1 E2 E3 E4 E5", 6, 1, 7, 6, {E(0, 2), E(1, 3), E(2, 4), E(3, 5), E(4, 6), E(5, 7)}}, /* the largest */
};
static size_t works_made = sizeof works / sizeof *works;

static void fail(const char *what)
{
    printf("tries_bench: %s\n", what);
    exit(1);
}

static double now_ns(void)
{
    struct timespec ts;
    clock_gettime(CLOCK_MONOTONIC, &ts);
    return 1e9 * (double)ts.tv_sec + (double)ts.tv_nsec;
}

/* Nanoseconds for one search, over several. */
static double sample(const struct work *w, const struct side *s, bool listing, unsigned reps, struct tried *r)
{
    double began = now_ns();
    for (unsigned i = 0; i < reps; i++)
        *r = s->tries(w->levels, w->queues, w->nodes, w->ops, w->count, listing ? LISTED : UINT64_MAX, listing ? room : NULL, sizeof room);
    return (now_ns() - began) / reps;
}

static bool same(const struct tried *a, const struct tried *b)
{
    return a->refusal == b->refusal && a->more == b->more && a->schedules == b->schedules && a->bytes == b->bytes;
}

/* The best ns per schedule of each side, all taking turns. */
static struct tried measure(const struct work *w, bool listing, double best[SIDES])
{
    struct tried first, r;
    unsigned reps = 1, samples = 0;
    double once;
    while ((once = sample(w, &sides[0], listing, reps, &first)) * reps < sample_ns)
        reps *= 2;
    if (first.refusal != 0 || first.schedules == 0)
        fail("a work was refused, or has no schedule");
    memcpy(first_room, room, first.bytes);
    for (int i = 0; i < SIDES; i++)
        best[i] = 1e30;
    for (double spent = 0; samples < least_samples || (samples < most_samples && spent < SIDE_NS); samples++, spent += once * reps) {
        for (int i = 0; i < SIDES; i++) {
            double x = sample(w, &sides[i], listing, reps, &r) / (double)first.schedules;
            best[i] = x < best[i] ? x : best[i];
            if (!same(&r, &first) || memcmp(room, first_room, first.bytes) != 0)
                fail("the sides do not agree");
        }
    }
    return first;
}

/* The fastest of the C sides. */
static int fastest(const double best[SIDES])
{
    int c = 0;
    for (int i = 1; i < C_SIDES; i++)
        c = best[i] < best[c] ? i : c;
    return c;
}

static void compare(bool listing, FILE *ratios)
{
    const char *what = listing ? "listed, ns per schedule" : "counted, ns per schedule", *ours = sides[OURS].name;
    printf("%-30s %9s %8s %8s %7s  %s\n", what, "schedules", "C", ours, "ratio", "the fastest C");
    for (size_t i = 0; i < works_made; i++) {
        double best[SIDES];
        unsigned long long schedules = measure(&works[i], listing, best).schedules;
        int c = fastest(best);
        double ratio = best[OURS] / best[c];
        printf("%-30s %9llu %8.1f %8.1f %7.2f  %s\n", works[i].name, schedules, best[c], best[OURS], ratio, sides[c].name);
        fflush(stdout);
        if (fprintf(ratios, "%.6f\n", ratio) < 0)
            fail("the ratio cannot be kept");
    }
}

int main(int argc, char **argv)
{
    bool once = argc == 3 && strcmp(argv[2], "once") == 0;
    FILE *ratios = argc == 2 || once ? fopen(argv[1], "a") : NULL;
    if (ratios == NULL)
        fail("usage: tries_bench RATIOS [once]");
    if (once) {
        most_samples = least_samples = 1;
        sample_ns = 0;
        works_made--;
    }
    compare(false, ratios);
    compare(true, ratios);
    printf("the numbers and texts of all sides agreed throughout; at most %d are listed\n", LISTED);
    if (fclose(ratios) != 0)
        fail("the ratios cannot be kept");
    return 0;
}
