/* The calls of the interrupt queue bench, for C and C++. docs/CALLS.md says how to build the library
 * and how to call it, docs/STEPS.md what each call does and why it is refused. */
#ifndef BENCH_H
#define BENCH_H

#include <stddef.h>
#include <stdint.h>

#ifdef __cplusplus
extern "C" {
#endif

/* The words of a table with so many levels (1 to 16), queues (1 to 8) and nodes (queues to 1,024). */
#define BENCH_WORDS(levels, queues, nodes) (4 + 13 * (levels) + 2 * (queues) + 2 * (nodes))
#define BENCH_MOST_WORDS BENCH_WORDS(16, 8, 1024)

/* What a call answers: a value and 65,536 times a code. */
typedef uint32_t bench_answer;

static inline uint16_t bench_value(bench_answer a) { return (uint16_t)(a & 0xffffu); }
static inline uint16_t bench_code(bench_answer a) { return (uint16_t)(a >> 16); }

/* A code is 0 (done), the number of a refusal, or BENCH_ENDED. */
enum bench_codes {
    BENCH_UNFIT = 1,        /* the table is too short, or its counts are wrong */
    BENCH_SIZES = 2,        /* fresh: levels, queues or nodes outside their limits */
    BENCH_NO_LEVEL = 3,     /* no such level */
    BENCH_NO_QUEUE = 4,     /* no such queue */
    BENCH_NO_NODE = 5,      /* no such node, or a queue's sentinel */
    BENCH_BUSY = 6,         /* this level or a higher one has not ended what it does */
    BENCH_IN_USE = 7,       /* the node's use is not 0: it was handed to a queue and has not come out */
    BENCH_DEQUEUED = 8,     /* a lower level (waiting: any level) has not ended a dequeue of this queue */
    BENCH_NOTHING_RUNS = 9, /* no operation is begun */
    BENCH_DAMAGED = 10,     /* the table holds what cannot be stepped, listed or counted */
    BENCH_UNQUIET = 11,     /* listing: an operation of this queue has not ended */
    BENCH_NO_ROOM = 12,     /* listing: the room is too short */
    BENCH_ENDED = 20        /* no refusal: an operation ended */
};

/* The words of an operation's end: its op, level, queue, node (0: a dequeue that was empty), and steps. */
enum bench_end { BENCH_END_OP, BENCH_END_LEVEL, BENCH_END_QUEUE, BENCH_END_NODE, BENCH_END_STEPS, BENCH_END_WORDS };
enum bench_op { BENCH_ENQUEUE = 1, BENCH_DEQUEUE = 2 };

/* The words of a waiting count, the low one first, and the number that they are. */
enum bench_count_words { BENCH_COUNT_LOW, BENCH_COUNT_HIGH, BENCH_COUNT_WORDS };

static inline uint32_t bench_count(const uint16_t count[BENCH_COUNT_WORDS])
{
    return count[BENCH_COUNT_LOW] | (uint32_t)count[BENCH_COUNT_HIGH] << 16;
}

/* Each call is lent a table, t, and its number of words, len. Above each stand its refusals, in their
 * order: the first that holds is answered, and all that was lent is as it was. */

/* 2, 1. Makes a fresh table in the first BENCH_WORDS(levels, queues, nodes) words. */
bench_answer exports_fresh(uint16_t *t, size_t len, uint16_t levels, uint16_t queues, uint16_t nodes);

/* 1, 3, 4, 5, 6, 7. */
bench_answer exports_begin_enqueue(uint16_t *t, size_t len, uint16_t level, uint16_t queue, uint16_t node);

/* 1, 3, 4, 6, 8. */
bench_answer exports_begin_dequeue(uint16_t *t, size_t len, uint16_t level, uint16_t queue);

/* 1, 9, 10. One step of the highest level that runs. Code 0: it goes on. BENCH_ENDED: it ended its
 * operation, which is in `end`; with any other code `end` is as it was. */
bench_answer exports_step(uint16_t *t, size_t len, uint16_t end[BENCH_END_WORDS]);

/* 1. Steps until an operation ends or the budget is spent. The value is the number of steps taken, the
 * code why it stopped: BENCH_ENDED as above, 0 the budget is spent, 9 nothing runs, 10 the next step
 * is refused. The steps taken stand. */
bench_answer exports_run(uint16_t *t, size_t len, uint16_t budget, uint16_t end[BENCH_END_WORDS]);

/* 1, 4. The value is 1 if no operation of this queue runs, else 0. */
bench_answer exports_quiet(const uint16_t *t, size_t len, uint16_t queue);

/* 1, 4, 8, 10. How many nodes dequeues of this queue would return, begun now, one after another and
 * uninterrupted, at one more level on top of a copy of the table, until one says empty. Code 0: the
 * number is in `count`; with any other code `count` is as it was. 10: they met what cannot be stepped,
 * or took (levels + 3) * (nodes + 7) * (nodes + 1) steps and none had said empty. */
bench_answer exports_waiting(const uint16_t *t, size_t len, uint16_t queue, uint16_t count[BENCH_COUNT_WORDS]);

/* 1, 4, 11, 10, 12. Writes the queue's nodes, the first to come out first, to the front of the room;
 * the value is how many they are. */
bench_answer exports_listing(const uint16_t *t, size_t len, uint16_t queue, uint16_t *room, size_t room_len);

#ifdef __cplusplus
}
#endif

#endif
