/* Every schedule of a few operations, in plain C. */
#ifndef TRIES_H
#define TRIES_H

#include "plain.h"

enum { TRIES_MOST = 6, TRIES_OP_WORDS = 4 }; /* an operation is op, level, queue and node (0 for a dequeue) */

/* What came of it: 0 or a refusal, 14, 2 or 12 (10 were the step table broken); how many schedules, the bytes of
 * their texts, and whether there are more than the bound. */
struct tried {
    unsigned refusal, more;
    uint64_t schedules;
    size_t bytes;
};

/* Lists at most `bound` schedules, their texts one after another in the room; without a room (NULL) counts them.
 * It writes as it searches: where it answers 12, the room has the texts that fit. */
typedef struct tried tries_call(uint16_t levels, uint16_t queues, uint16_t nodes, const uint16_t *ops, size_t count, uint64_t bound,
                                char *room, size_t room_len);

tries_call plain_tries;

#endif
