/* The worked runs on both sides: L 2, Q 1, N 4. Those that crates/runs proves, some refusals, and what is
 * waiting beside the run that is empty after 21 steps. */
#include "../benchmark/sides.h"

#include <stdio.h>
#include <string.h>

enum { WORDS = 40, ENOUGH = 1000 };

static const struct side plain_side = SIDE("C", plain), our_side = OUR_SIDE;

static int wrong;

#define EXPECT(truth)                                                                                        \
    do {                                                                                                     \
        if (!(truth)) {                                                                                      \
            printf("worked: line %d, %s: not so: %s\n", __LINE__, s->name, #truth);                          \
            wrong++;                                                                                         \
        }                                                                                                    \
    } while (0)

static uint16_t t[WORDS], end[BENCH_END_WORDS];

static void fresh(const struct side *s) { EXPECT(s->fresh(t, WORDS, 2, 1, 4) == 0); }

static unsigned enqueue(const struct side *s, uint16_t l, uint16_t n) { return bench_code(s->begin_enqueue(t, WORDS, l, 1, n)); }
static unsigned dequeue(const struct side *s, uint16_t l) { return bench_code(s->begin_dequeue(t, WORDS, l, 1)); }

static void steps(const struct side *s, uint16_t n) { EXPECT(s->run(t, WORDS, n, end) == n); }

/* Runs the serving operation to its end: this operation, node and steps. */
static void ends(const struct side *s, uint16_t op, uint16_t level, uint16_t node, uint16_t took)
{
    EXPECT(bench_code(s->run(t, WORDS, ENOUGH, end)) == BENCH_ENDED);
    EXPECT(end[BENCH_END_OP] == op && end[BENCH_END_LEVEL] == level && end[BENCH_END_QUEUE] == 1);
    EXPECT(end[BENCH_END_NODE] == node && end[BENCH_END_STEPS] == took);
}

static void lists(const struct side *s, unsigned count, uint16_t a, uint16_t b, uint16_t c)
{
    uint16_t room[4] = {0}, due[3] = {a, b, c};
    EXPECT(s->listing(t, WORDS, 1, room, 3) == count);
    EXPECT(memcmp(room, due, sizeof due) == 0 && room[3] == 0);
}

static void worked(const struct side *s)
{
    EXPECT(s->fresh(t, 39, 2, 1, 4) == 1 << 16);
    fresh(s);
    for (uint16_t l = 0; l < 2; l++) {
        fresh(s), enqueue(s, l, 2), ends(s, 1, l, 2, 10 + l);
    }
    fresh(s), dequeue(s, 0), ends(s, 2, 0, 0, 2);

    fresh(s), enqueue(s, 0, 2), ends(s, 1, 0, 2, 10);
    dequeue(s, 0), ends(s, 2, 0, 2, 22);
    EXPECT(t[6] == 1 && t[7] == 1);

    fresh(s), enqueue(s, 0, 2), steps(s, 6), enqueue(s, 1, 3), ends(s, 1, 1, 3, 16);
    uint16_t ended_3[WORDS];
    memcpy(ended_3, t, sizeof t);
    EXPECT(bench_code(s->run(t, WORDS, ENOUGH, end)) == BENCH_ENDED && end[BENCH_END_NODE] == 2);
    lists(s, 2, 3, 2, 0);
    memcpy(t, ended_3, sizeof t);
    dequeue(s, 1), ends(s, 2, 1, 3, 28), dequeue(s, 1), ends(s, 2, 1, 0, 2);

    fresh(s), enqueue(s, 0, 2), steps(s, 8), enqueue(s, 1, 3), ends(s, 1, 1, 3, 14);
    EXPECT(bench_code(s->run(t, WORDS, ENOUGH, end)) == BENCH_ENDED && end[BENCH_END_NODE] == 2);
    lists(s, 2, 2, 3, 0);

    fresh(s), enqueue(s, 0, 2), ends(s, 1, 0, 2, 10);
    enqueue(s, 0, 3), steps(s, 4), dequeue(s, 1), ends(s, 2, 1, 0, 21), ends(s, 1, 0, 3, 11);
    lists(s, 2, 2, 3, 0);

    fresh(s);
    EXPECT(enqueue(s, 0, 1) == 5);
    EXPECT(enqueue(s, 1, 2) == 0 && enqueue(s, 0, 3) == 6);
    EXPECT(bench_code(s->run(t, WORDS, ENOUGH, end)) == BENCH_ENDED && enqueue(s, 1, 2) == 7);
    fresh(s);
    EXPECT(dequeue(s, 0) == 0 && dequeue(s, 1) == 8);
}

static void waits(const struct side *s, uint32_t n)
{
    uint16_t count[BENCH_COUNT_WORDS];
    EXPECT(s->waiting(t, WORDS, 1, count) == 0 && bench_count(count) == n);
}

static void counted(const struct side *s)
{
    uint16_t count[BENCH_COUNT_WORDS];
    fresh(s), waits(s, 0), enqueue(s, 0, 2), ends(s, 1, 0, 2, 10), waits(s, 1);
    enqueue(s, 0, 3), steps(s, 4), waits(s, 0), dequeue(s, 1);
    EXPECT(s->waiting(t, WORDS, 1, count) == 8 << 16);
    ends(s, 2, 1, 0, 21), waits(s, 0), ends(s, 1, 0, 3, 11), waits(s, 2);
}

int main(void)
{
    worked(&plain_side), counted(&plain_side);
    worked(&our_side), counted(&our_side);
    printf("worked runs: %s\n", wrong ? "WRONG" : "as they are due, on both sides");
    return wrong != 0;
}
