/* The waiting count at its edges: each refusal, their order, a table of 16 levels, and damaged tables. No lent word may change but the
 * count's two, and by a refusal neither these. Each answer is printed, as the queue, the code, the count and the words of the table:
 * second/bench.py --waiting works them out anew. */
#include "../include/bench.h"

#include <stdio.h>
#include <stdlib.h>
#include <string.h>

enum { OP, POINT, QUEUE, FRAME_WORDS = 11, ENOUGH = 65535, RANDOM_TABLES = 5000 };

static uint16_t t[BENCH_MOST_WORDS];
static size_t len;

static void fail(const char *what)
{
    fprintf(stderr, "tests/waiting.c: %s\n", what);
    exit(1);
}

/* ---- the words of a table */

static uint16_t *head(unsigned queue) { return t + 2 * t[0] + 2 * queue; }
static uint16_t *tail(unsigned queue) { return head(queue) + 1; }
static uint16_t *next(unsigned node) { return t + 2 * t[0] + 2 * t[1 + 2 * t[0]] + 1 + 2 * node; }
static uint16_t *frame(unsigned level) { return t + len - FRAME_WORDS * (t[0] - level); }

static void fresh(unsigned levels, unsigned queues, unsigned nodes)
{
    len = BENCH_WORDS(levels, queues, nodes);
    if (exports_fresh(t, len, (uint16_t)levels, (uint16_t)queues, (uint16_t)nodes) != 0)
        fail("a fresh table was refused");
}

/* Hands a node to queue 1 and takes so many steps, fewer if it ends. */
static void put(unsigned level, unsigned node, unsigned steps)
{
    uint16_t end[BENCH_END_WORDS];
    if (exports_begin_enqueue(t, len, (uint16_t)level, 1, (uint16_t)node) != 0)
        fail("an enqueue was refused");
    exports_run(t, len, (uint16_t)steps, end);
}

/* ---- asking */

/* Prints and answers the code of a waiting count, with the count; 0 by a refusal. */
static unsigned ask(unsigned queue, uint32_t *waiting)
{
    static uint16_t before[BENCH_MOST_WORDS];
    const uint16_t as_it_was[BENCH_COUNT_WORDS] = {54321, 12345};
    uint16_t count[BENCH_COUNT_WORDS] = {54321, 12345};
    memcpy(before, t, sizeof t);
    bench_answer a = exports_waiting(t, len, (uint16_t)queue, count);
    if (memcmp(before, t, sizeof t) != 0)
        fail("a word of the table changed");
    if (bench_value(a) != 0 || (bench_code(a) != 0 && memcmp(count, as_it_was, sizeof count) != 0))
        fail("a value, or a refusal with a count");
    *waiting = bench_code(a) == 0 ? bench_count(count) : 0;
    printf("%u %u %u", queue, bench_code(a), *waiting);
    for (size_t i = 0; i < len; i++)
        printf(" %u", t[i]);
    printf("\n");
    return bench_code(a);
}

static void refused(const char *why, unsigned queue, unsigned code)
{
    uint32_t waiting;
    if (ask(queue, &waiting) != code)
        fail(why);
}

static void answered(const char *why, unsigned queue, uint32_t due)
{
    uint32_t waiting;
    if (ask(queue, &waiting) != 0 || waiting != due)
        fail(why);
}

/* ---- what is asked */

static void refusals(void)
{
    fresh(2, 2, 5);
    len--;
    refused("a table that is too short, of no queue", 0, BENCH_UNFIT);
    len++;
    frame(0)[-1] = 3;
    refused("two counts of levels, of no queue", 0, BENCH_UNFIT);
    frame(0)[-1] = 2;
    frame(0)[OP] = BENCH_DEQUEUE, frame(0)[QUEUE] = 3;
    refused("no queue, with a dequeue of it", 3, BENCH_NO_QUEUE);
    refused("queue 0", 0, BENCH_NO_QUEUE);
    frame(0)[QUEUE] = 1, frame(0)[POINT] = 99;
    *head(1) = *head(2) = 6;
    refused("a dequeue at no point, and a head that is no node", 1, BENCH_DEQUEUED);
    refused("a dequeue of another queue, and a head that is no node", 2, BENCH_DAMAGED);
    fresh(2, 2, 5);
    exports_begin_dequeue(t, len, 1, 1);
    refused("a dequeue at the highest level", 1, BENCH_DEQUEUED);
    answered("a dequeue of another queue", 2, 0);
    frame(1)[OP] = 3;
    answered("an op that is none", 1, 0);
}

/* Nodes 2 to 4 are in, and at each of 16 levels an enqueue has stopped. */
static void sixteen_levels(void)
{
    fresh(16, 1, 20);
    for (unsigned n = 2; n <= 4; n++)
        put(0, n, ENOUGH);
    answered("16 levels, none of which runs", 1, 3);
    for (unsigned l = 0; l < 16; l++)
        put(l, 5 + l, 5);
    answered("16 levels, all of which run", 1, 2);
}

static void damaged(void)
{
    fresh(1, 1, 4);
    for (unsigned n = 2; n <= 4; n++)
        put(0, n, ENOUGH);
    *next(3) = 5;
    refused("a next that is no node", 1, BENCH_DAMAGED);
    *next(3) = 4, *next(4) = 3;
    refused("a loop behind tail, walked until no step is left", 1, BENCH_DAMAGED);
    *head(1) = *tail(1) = 0;
    answered("a head and tail of 0: empty", 1, 0);
    fresh(2, 1, 2);
    *head(1) = 2, *tail(1) = 3, *next(2) = 1, *next(1) = 2; /* node 2 is in a loop with the sentinel .. */
    t[1] = 2, t[2] = t[4] = 1;                              /* .. and is linked anew, being level 0's */
    answered("the same node twice", 1, 2);
}

static unsigned below(unsigned n)
{
    static uint64_t state = 1;
    state = state * 6364136223846793005u + 1442695040888963407u;
    return (unsigned)((state >> 33) % n);
}

/* Small tables with random words: levels and ops often 0, the others mostly nodes. */
static void random_tables(void)
{
    unsigned seen[BENCH_ENDED] = {0};
    for (int i = 0; i < RANDOM_TABLES; i++) {
        unsigned levels = 1 + below(3), queues = 1 + below(2), nodes = queues + below(5);
        fresh(levels, queues, nodes);
        for (uint16_t *w = t + 1; w < t + 1 + 2 * levels; w++)
            *w = (uint16_t)below(below(2) * nodes + 1);
        for (uint16_t *w = head(1); w <= tail(queues); w++)
            *w = (uint16_t)(below(12) == 0 ? below(nodes + 2) : 1 + below(nodes));
        for (unsigned n = 1; n <= nodes; n++)
            *next(n) = (uint16_t)below(nodes + (below(8) == 0) + 1);
        frame(levels - 1)[OP] = (uint16_t)below(4), frame(levels - 1)[QUEUE] = 1;
        uint32_t waiting;
        seen[ask(1, &waiting)]++;
    }
    if (seen[0] == 0 || seen[BENCH_DEQUEUED] == 0 || seen[BENCH_DAMAGED] == 0)
        fail("some answer never came on a random table");
}

int main(void)
{
    refusals();
    sixteen_levels();
    damaged();
    random_tables();
    return 0;
}
