/* The bench called from C: an enqueue at level 0 is interrupted by another at level 1. Then both are
 * in the queue, and a dequeue takes the first. docs/CALLS.md says how to compile this; it prints what
 * calls.out has. */
#include "../include/bench.h"

#include <stdio.h>

enum { LEVELS = 2, QUEUES = 1, NODES = 4, WORDS = BENCH_WORDS(LEVELS, QUEUES, NODES), ENOUGH = 65535 };

static uint16_t table[WORDS], room[NODES], end[BENCH_END_WORDS], count[BENCH_COUNT_WORDS];

/* Runs the highest level that runs to the end of its operation. */
static void run_to_end(void)
{
    bench_answer a = exports_run(table, WORDS, ENOUGH, end);
    if (bench_code(a) == BENCH_ENDED)
        printf("%s ended at level %d: node %d, %d steps\n", end[BENCH_END_OP] == BENCH_ENQUEUE ? "enqueue" : "dequeue",
               end[BENCH_END_LEVEL], end[BENCH_END_NODE], end[BENCH_END_STEPS]);
    else
        printf("no end after %d steps: %d\n", bench_value(a), bench_code(a));
}

static void list(void)
{
    bench_answer a = exports_listing(table, WORDS, 1, room, NODES);
    exports_waiting(table, WORDS, 1, count);
    printf("queue 1 has %d of %d waiting:", bench_value(a), (int)bench_count(count));
    for (int i = 0; i < bench_value(a); i++)
        printf(" %d", room[i]);
    printf("\n");
}

int main(void)
{
    exports_fresh(table, WORDS, LEVELS, QUEUES, NODES);
    exports_begin_enqueue(table, WORDS, 0, 1, 2);
    for (int i = 0; i < 6; i++) /* E1 to E10: node 2 is linked, tail is not moved yet */
        exports_step(table, WORDS, end);
    printf("node 2 handed in again: refused, %d\n", bench_code(exports_begin_enqueue(table, WORDS, 1, 1, 2)));
    exports_begin_enqueue(table, WORDS, 1, 1, 3);
    printf("quiet: %d\n", bench_value(exports_quiet(table, WORDS, 1)));
    run_to_end();
    run_to_end();
    list();
    exports_begin_dequeue(table, WORDS, 0, 1);
    run_to_end();
    list();
    return 0;
}
