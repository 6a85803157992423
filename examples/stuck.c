/* Who is stuck: two nodes are handed in, and a reader would get none of them. Node 2 is in; the enqueue
 * of node 3 is stopped after 4 steps, before it has linked it. The waiting count says what a reader gets,
 * and only reads the table. docs/CALLS.md says how to compile this; it prints what stuck.out has. */
#include "../include/bench.h"

#include <stdio.h>

enum { LEVELS = 2, QUEUES = 1, NODES = 4, WORDS = BENCH_WORDS(LEVELS, QUEUES, NODES), ENOUGH = 65535 };

/* where words of the table stand: docs/STEPS.md */
enum { HEAD = 2 + 2 * LEVELS, TAIL, FIRST_NEXT = 3 + 2 * LEVELS + 2 * QUEUES, FIRST_USE };

static uint16_t table[WORDS], end[BENCH_END_WORDS], count[BENCH_COUNT_WORDS];

static int next(int node) { return table[FIRST_NEXT + 2 * (node - 1)]; }
static int use(int node) { return table[FIRST_USE + 2 * (node - 1)]; }

static void run(uint16_t steps)
{
    if (bench_code(exports_run(table, WORDS, steps, end)) != BENCH_ENDED)
        printf("stopped after %d steps\n", steps);
    else
        printf("%s after %d steps\n", end[BENCH_END_NODE] == 0 ? "empty" : "ended", end[BENCH_END_STEPS]);
}

/* What one could take for the number of nodes that a reader gets, and that number. */
static void show(void)
{
    printf("  handed in and not come out:");
    for (int node = QUEUES + 1; node <= NODES; node++)
        if (use(node) == 1)
            printf(" %d", node);
    printf("\n  from head to tail:");
    for (int node = table[HEAD]; node != 0; node = node == table[TAIL] ? 0 : next(node))
        if (node > QUEUES)
            printf(" %d", node);
    bench_answer a = exports_waiting(table, WORDS, 1, count);
    if (bench_code(a) == 0)
        printf("\n  waiting: %d\n", (int)bench_count(count));
    else
        printf("\n  waiting: refused, %d\n", bench_code(a));
}

int main(void)
{
    exports_fresh(table, WORDS, LEVELS, QUEUES, NODES);
    printf("enqueue of node 2 at level 0: ");
    exports_begin_enqueue(table, WORDS, 0, 1, 2);
    run(ENOUGH);
    printf("enqueue of node 3 at level 0: ");
    exports_begin_enqueue(table, WORDS, 0, 1, 3);
    run(4);
    show();
    printf("dequeue at level 1: ");
    exports_begin_dequeue(table, WORDS, 1, 1);
    run(ENOUGH);
    show();
    printf("the enqueue at level 0 goes on: ");
    run(ENOUGH);
    show();
    return 0;
}
