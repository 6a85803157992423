/* Times the calls of plain C and of the proved library side by side, on the same work, and sees that
 * all gave the same answers and tables. Plain C stands at the flags that are fastest for each work.
 * usage: calls works RATIOS, which adds each work's ratio to the file RATIOS; or calls growth */
#define _DEFAULT_SOURCE
#include "sides.h"

/* plain.c as `run` compiles it once more for each choice of flags, its calls renamed */
CALLS_OF(o2);
CALLS_OF(o3);
CALLS_OF(native);

#include <stdio.h>
#include <stdlib.h>
#include <string.h>
#include <time.h>

enum { C_SIDES = 3, OURS = C_SIDES, SIDES };

static const struct side sides[SIDES] = {SIDE("-O2", o2), SIDE("-O3", o3), SIDE("-O3 -march=native", native), OUR_SIDE};

enum { SAMPLES = 25, ENOUGH = 65535, SAMPLE_NS = 4000000 };

/* The table that a repetition starts from, and the one it works on. */
static uint16_t start[BENCH_MOST_WORDS], t[BENCH_MOST_WORDS];
static size_t len;

/* What a side did: how many of what its time is told for, steps or calls, and a sum over every answer. */
struct done {
    uint64_t units, sum;
};

static void add(struct done *d, uint64_t x) { d->sum = d->sum * 31 + x; }

static void add_end(struct done *d, const uint16_t end[BENCH_END_WORDS])
{
    for (int i = 0; i < BENCH_END_WORDS; i++)
        add(d, end[i]);
    d->units += end[BENCH_END_STEPS];
}

static void fail(const char *what)
{
    printf("calls: %s\n", what);
    exit(1);
}

/* ---- preparing, by plain C */

static void sized(unsigned levels, unsigned queues, unsigned nodes)
{
    len = 4 + 13 * levels + 2 * queues + 2 * nodes;
    if (plain_fresh(start, len, (uint16_t)levels, (uint16_t)queues, (uint16_t)nodes) != 0)
        fail("no such table");
}

/* Begins an enqueue and takes some of its steps; all of them where `steps` is ENOUGH. */
static void put(unsigned level, unsigned node, unsigned steps)
{
    uint16_t end[BENCH_END_WORDS];
    if (plain_begin_enqueue(start, len, (uint16_t)level, 1, (uint16_t)node) != 0)
        fail("an enqueue was refused");
    bench_answer a = plain_run(start, len, (uint16_t)steps, end);
    if (bench_code(a) != (steps == ENOUGH ? BENCH_ENDED : 0))
        fail("an enqueue went another way");
}

static void put_all(unsigned level, unsigned from, unsigned to)
{
    for (unsigned n = from; n <= to; n++)
        put(level, n, ENOUGH);
}

/* Level 0 has stored its node and its queue, and level 1 hangs the others after that node: level 0
 * then walks along them at E10. */
static void prepare_e10(unsigned nodes)
{
    sized(2, 1, nodes);
    put(0, 2, 2);
    put_all(1, 3, nodes);
}

/* As before, then level 1 has stored its own node: level 2 looks for that node along level 0's chain,
 * at E16. */
static void prepare_e16(unsigned nodes)
{
    sized(3, 1, nodes);
    put(0, 2, 2);
    put_all(1, 3, nodes - 2);
    put(1, nodes - 1, 2);
}

/* Levels 0 and 1 have stored theirs, and level 2 hangs the others after level 1's node: level 1 then
 * walks along them at E19. */
static void prepare_e19(unsigned nodes)
{
    sized(3, 1, nodes);
    put(0, 2, 2);
    put(1, 3, 2);
    put_all(2, 4, nodes);
}

/* So many nodes are in, and nothing runs. */
static void prepare_in(unsigned nodes)
{
    sized(2, 1, nodes + 1);
    put_all(0, 2, nodes + 1);
}

/* So many nodes are in, and above each other seven enqueues have stopped after five steps. */
static void prepare_stopped(unsigned nodes)
{
    sized(8, 1, nodes + 8);
    put_all(0, 2, nodes + 1);
    for (unsigned l = 0; l < 7; l++)
        put(l, nodes + 2 + l, 5);
}

static void prepare_pairs(unsigned nodes) { sized(1, 1, nodes); }
static void prepare_nested(unsigned levels) { sized(levels, 1, levels + 1); }

/* ---- one repetition of each work */

static void restore(void) { memcpy(t, start, len * sizeof *t); }

static void finish(const struct side *s, struct done *d)
{
    uint16_t end[BENCH_END_WORDS];
    bench_answer a = s->run(t, len, ENOUGH, end);
    if (bench_code(a) != BENCH_ENDED)
        fail("a run did not end");
    add(d, a);
    add_end(d, end);
}

static void walk(const struct side *s, struct done *d)
{
    restore();
    finish(s, d);
}

static void walk_e16(const struct side *s, struct done *d)
{
    restore();
    add(d, s->begin_enqueue(t, len, 2, 1, start[2 + 2 * 3 + 2]));
    finish(s, d);
}

static void pair(const struct side *s, struct done *d)
{
    add(d, s->begin_enqueue(t, len, 0, 1, 2));
    finish(s, d);
    add(d, s->begin_dequeue(t, len, 0, 1));
    finish(s, d);
}

/* Steps until nothing runs. */
static void step_all(const struct side *s, struct done *d)
{
    uint16_t end[BENCH_END_WORDS];
    bench_answer a;
    while (bench_code(a = s->step(t, len, end)) != 9) {
        if (a != 0) {
            if (bench_code(a) != BENCH_ENDED)
                fail("a step was refused");
            add_end(d, end);
        }
    }
}

static void pair_by_step(const struct side *s, struct done *d)
{
    add(d, s->begin_enqueue(t, len, 0, 1, start[2 + 2 * start[0] + 2]));
    step_all(s, d);
    add(d, s->begin_dequeue(t, len, 0, 1));
    step_all(s, d);
}

/* Each level begins after five steps of the one below it. */
static void nest(const struct side *s, struct done *d)
{
    uint16_t end[BENCH_END_WORDS];
    restore();
    for (unsigned l = 0; l < start[0]; l++) {
        add(d, s->begin_enqueue(t, len, (uint16_t)l, 1, (uint16_t)(l + 2)));
        for (int i = 0; i < 5; i++)
            add(d, s->step(t, len, end));
    }
}

static void nested_by_step(const struct side *s, struct done *d)
{
    nest(s, d);
    step_all(s, d);
}

static void nested_by_run(const struct side *s, struct done *d)
{
    nest(s, d);
    for (unsigned l = 0; l < start[0]; l++)
        finish(s, d);
}

static void count_waiting(const struct side *s, struct done *d)
{
    uint16_t count[BENCH_COUNT_WORDS];
    if (s->waiting(t, len, 1, count) != 0)
        fail("a waiting count was refused");
    add(d, bench_count(count));
    d->units++;
}

struct work {
    const char *name;
    void (*prepare)(unsigned size);
    void (*rep)(const struct side *, struct done *);
    unsigned size;
};

/* ---- timing */

static double now_ns(void)
{
    struct timespec ts;
    clock_gettime(CLOCK_MONOTONIC, &ts);
    return 1e9 * (double)ts.tv_sec + (double)ts.tv_nsec;
}

static double sample(const struct work *w, const struct side *s, unsigned reps, struct done *d)
{
    *d = (struct done){0, 0};
    restore();
    double began = now_ns();
    for (unsigned i = 0; i < reps; i++)
        w->rep(s, d);
    return (now_ns() - began) / (double)d->units;
}

/* The best ns per unit of each side, all taking turns. */
static void measure(const struct work *w, double best[SIDES])
{
    static uint16_t left[BENCH_MOST_WORDS];
    struct done first, d;
    w->prepare(w->size);
    unsigned reps = 1;
    while (sample(w, &sides[0], reps, &first) * (double)first.units < SAMPLE_NS)
        reps *= 2;
    for (int i = 0; i < SIDES; i++)
        best[i] = 1e30;
    for (int n = 0; n < SAMPLES; n++) {
        for (int i = 0; i < SIDES; i++) {
            double x = sample(w, &sides[i], reps, &d);
            best[i] = x < best[i] ? x : best[i];
            if (i == 0 && n == 0)
                first = d, memcpy(left, t, sizeof t);
            if (d.sum != first.sum || d.units != first.units || memcmp(left, t, sizeof t) != 0)
                fail("the sides do not agree");
        }
    }
}

/* The fastest of the C sides. */
static int fastest(const double best[SIDES])
{
    int c = 0;
    for (int i = 1; i < C_SIDES; i++)
        c = best[i] < best[c] ? i : c;
    return c;
}

/* Adds a ratio to the file of ratios, which outlives this program. */
static void keep_ratio(const char *path, double ratio)
{
    FILE *file = fopen(path, "a");
    if (file == NULL || fprintf(file, "%.6f\n", ratio) < 0 || fclose(file) != 0)
        fail("the ratio cannot be kept");
}

static void compare_works(const char *unit, const struct work *works, size_t count, const char *ratios)
{
    printf("%-50s %8s %8s %7s  %s\n", unit, "C", sides[OURS].name, "ratio", "the fastest C");
    for (size_t i = 0; i < count; i++) {
        double best[SIDES];
        measure(&works[i], best);
        int c = fastest(best);
        printf("%-50s %8.2f %8.2f %7.2f  %s\n", works[i].name, best[c], best[OURS], best[OURS] / best[c], sides[c].name);
        keep_ratio(ratios, best[OURS] / best[c]);
    }
}

static void compare(const char *ratios)
{
    static const struct work steps[] = {
        {"(a) a walk at E10, 1,022 nodes", prepare_e10, walk, 1024},
        {"(a) a walk at E16, 1,020 nodes", prepare_e16, walk_e16, 1024},
        {"(a) a walk at E19, 1,021 nodes", prepare_e19, walk, 1024},
        {"(b) enqueue and dequeue at one level, by run", prepare_pairs, pair, 4},
        {"(b) the same, by step", prepare_pairs, pair_by_step, 4},
        {"(c) 16 levels nested, by step", prepare_nested, nested_by_step, 16},
        {"(c) 16 levels nested, begun by step, then by run", prepare_nested, nested_by_run, 16},
    };
    static const struct work calls[] = {
        {"(e) waiting count, 10 nodes in", prepare_in, count_waiting, 10},
        {"(e) waiting count, 100 nodes in", prepare_in, count_waiting, 100},
        {"(e) waiting count, 1,000 nodes in", prepare_in, count_waiting, 1000},
        {"(e) waiting count, 100 in, 7 enqueues stopped", prepare_stopped, count_waiting, 100},
    };
    compare_works("ns per step", steps, sizeof steps / sizeof *steps, ratios);
    compare_works("ns per call", calls, sizeof calls / sizeof *calls, ratios);
    printf("the answers and tables of all sides agreed throughout\n");
}

static void grow(const char *name, void (*prepare)(unsigned), void (*rep)(const struct side *, struct done *), const unsigned *sizes, size_t count)
{
    double first_c = 0, first_ours = 0;
    printf("%s\n", name);
    for (size_t i = 0; i < count; i++) {
        double best[SIDES];
        measure(&(struct work){name, prepare, rep, sizes[i]}, best);
        double c = best[fastest(best)], ours = best[OURS];
        if (i == 0)
            first_c = c, first_ours = ours;
        printf("  %6u %8.2f %8.2f %7.2f\n", sizes[i], c / first_c, ours / first_ours, ours / c);
    }
}

static void prepare_levels(unsigned levels) { sized(levels, 1, 4); }

static void growth(void)
{
    static const unsigned nodes[] = {4, 8, 16, 32, 64, 128, 256, 512, 1024}, levels[] = {1, 2, 4, 8, 16};
    const size_t n = sizeof nodes / sizeof *nodes, l = sizeof levels / sizeof *levels;
    printf("ns per step, as ratio to the smallest size: the fastest C, %s; then %s / C\n", sides[OURS].name, sides[OURS].name);
    grow("N, enqueue and dequeue at one level, by run", prepare_pairs, pair, nodes, n);
    grow("N, the same, by step", prepare_pairs, pair_by_step, nodes, n);
    grow("N, a walk at E10", prepare_e10, walk, nodes, n);
    grow("L, enqueue and dequeue at level 0, by run", prepare_levels, pair, levels, l);
    grow("L, the same, by step", prepare_levels, pair_by_step, levels, l);
    grow("L, all levels nested, by step", prepare_nested, nested_by_step, levels, l);
}

int main(int argc, char **argv)
{
    if (argc == 2 && strcmp(argv[1], "growth") == 0)
        growth();
    else if (argc == 3 && strcmp(argv[1], "works") == 0)
        compare(argv[2]);
    else
        fail("usage: calls works RATIOS, or calls growth");
    return 0;
}
