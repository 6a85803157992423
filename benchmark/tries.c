#include "plain.c" /* not its calls: the search steps a table that it made itself, with no need to measure it at each step */
#include "tries.h"

#include <stdlib.h>

/* No operation takes more of its own steps: at most 6 nodes and 8 sentinels have a part in it, and in a table
 * of 14 nodes an enqueue at level l takes at most (l + 2) * (14 + 6), a dequeue (l + 1) * (14 + 6) + 15. */
enum { MOST_STEPS = (MAX_LEVELS - 1 + 2) * (6 + MAX_QUEUES + 6) };

/* The moments from the begin of an operation until nothing runs, at most: all that have begun may still run. */
static size_t most_moments(size_t begun) { return begun * MOST_STEPS + 1; }

enum { MOST_LINE = 20, MOST_STEPS_LINE = 8 }; /* "E 65535 65535 65535\n" and "S 65535\n" */
enum { MOST_TEXT = MOST_LINE + 3 + TRIES_MOST * MOST_LINE + (TRIES_MOST + 1) * MOST_STEPS_LINE };

struct line {
    char bytes[MOST_LINE];
    size_t len;
};

struct search {
    const uint16_t *ops;
    unsigned levels, queues, nodes, count;
    size_t words;
    uint16_t *free;                    /* where the next moment is saved: the steps taken, and the table */
    unsigned steps[TRIES_MOST + 1];    /* before each operation, and after the last */
    struct line sizes, op[TRIES_MOST]; /* the lines that all texts have */
    uint64_t bound;
    char *room;
    size_t room_len;
    struct tried tried;
    bool closed;
};

/* ---- texts */

static char *put_number(char *at, unsigned x)
{
    char digits[5];
    int n = 0;
    do
        digits[n++] = (char)('0' + x % 10);
    while ((x /= 10) != 0);
    while (n > 0)
        *at++ = digits[--n];
    return at;
}

/* A letter (or the 3 of a text's first line) and numbers, each after a byte; then a line's end. */
static void make_line(struct line *line, char letter, char between, const uint16_t *numbers, int count)
{
    char *at = line->bytes;
    *at++ = letter;
    for (int i = 0; i < count; i++) {
        *at++ = between;
        at = put_number(at, numbers[i]);
    }
    *at++ = '\n';
    line->len = (size_t)(at - line->bytes);
}

static char *put(char *at, const struct line *line)
{
    memcpy(at, line->bytes, line->len);
    return at + line->len;
}

static char *put_steps(char *at, unsigned steps)
{
    if (steps == 0)
        return at;
    memcpy(at, "S ", 2);
    at = put_number(at + 2, steps);
    *at++ = '\n';
    return at;
}

static char *put_text(const struct search *s, char *at)
{
    unsigned events = s->count;
    for (unsigned i = 0; i <= s->count; i++)
        events += s->steps[i] != 0;
    at = put_number(put(at, &s->sizes), events);
    *at++ = '\n';
    for (unsigned i = 0; i < s->count; i++)
        at = put(put_steps(at, s->steps[i]), &s->op[i]);
    return put_steps(at, s->steps[s->count]);
}

static void close_with(struct search *s, unsigned refusal)
{
    s->tried.refusal = refusal;
    s->closed = true;
}

static void tell(struct search *s)
{
    struct tried *r = &s->tried;
    if (r->schedules == s->bound) {
        r->more = 1;
        s->closed = true;
        return;
    }
    if (s->room != NULL) {
        char *at = s->room + r->bytes;
        size_t left = s->room_len - r->bytes, len;
        if (left >= MOST_TEXT) {
            len = (size_t)(put_text(s, at) - at);
        } else {
            char text[MOST_TEXT];
            len = (size_t)(put_text(s, text) - text);
            if (left < len) {
                close_with(s, 12);
                return;
            }
            memcpy(at, text, len);
        }
        r->bytes += len;
    }
    r->schedules++;
}

/* ---- the search */

/* Whether an operation may begin over level `top`, the highest that runs, or -1. */
static bool may_begin(const struct table *t, const uint16_t *op, int top)
{
    unsigned level = op[1], queue = op[2], node = op[3];
    if ((int)level <= top || level >= t->levels || !is_queue(t, queue))
        return false;
    if (op[0] == ENQUEUE)
        return node > t->queues && node <= t->nodes && t->node[2 * node + 1] == 0;
    for (int l = 0; l <= top; l++)
        if (t->frame[FRAME_WORDS * l + OP] == DEQUEUE && t->frame[FRAME_WORDS * l + QUEUE] == queue)
            return false;
    return op[0] == DEQUEUE && node == 0;
}

static void begin_next(const struct search *s, uint16_t *words, const uint16_t *op)
{
    if (op[0] == ENQUEUE)
        plain_begin_enqueue(words, s->words, op[1], op[2], op[3]);
    else
        plain_begin_dequeue(words, s->words, op[1], op[2]);
}

/* All have begun, so nothing is to choose: steps until nothing runs, and one schedule. */
static void finish(struct search *s, const struct table *t)
{
    uint16_t end[BENCH_END_WORDS];
    unsigned taken = 0, code;
    for (int l = serving(t); l >= 0; l = serving(t)) {
        do {
            code = step_frame(t, (unsigned)l, t->frame + FRAME_WORDS * l, end);
            taken++;
        } while (code == 0);
        if (code != BENCH_ENDED) {
            close_with(s, code);
            return;
        }
    }
    s->steps[s->count] = taken;
    tell(s);
}

/* All schedules from this table on, in which i operations have begun.
 *
 * At each moment until nothing runs it asks whether the next may begin. Where it may, the steps taken and the table are saved. Schedules
 * that go on with a step are listed first, so these moments are gone through from the last; at each the operation begins, and the search
 * goes on, in the table saved there. Where there is none the schedule does not end. */
static void explore(struct search *s, uint16_t *words, unsigned i)
{
    struct table t;
    lay_out(&t, words, s->levels, s->queues, s->nodes);
    if (i == s->count) {
        finish(s, &t);
        return;
    }
    const uint16_t *op = s->ops + TRIES_OP_WORDS * i;
    uint16_t *const saved = s->free, end[BENCH_END_WORDS];
    int l = serving(&t);
    for (uint16_t taken = 0;; taken++) {
        if (may_begin(&t, op, l)) {
            *s->free = taken;
            memcpy(s->free + 1, words, s->words * sizeof *words);
            s->free += 1 + s->words;
        }
        if (l < 0)
            break;
        unsigned code = step_frame(&t, (unsigned)l, t.frame + FRAME_WORDS * l, end);
        if (code == BENCH_ENDED) {
            l = serving(&t);
        } else if (code != 0) {
            close_with(s, code);
            return;
        }
    }
    for (uint16_t *moment = s->free; moment > saved && !s->closed;) {
        s->free = moment;
        moment -= 1 + s->words;
        s->steps[i] = *moment;
        begin_next(s, moment + 1, op);
        explore(s, moment + 1, i + 1);
    }
    s->free = saved;
}

struct tried plain_tries(uint16_t levels, uint16_t queues, uint16_t nodes, const uint16_t *ops, size_t count, uint64_t bound, char *room,
                         size_t room_len)
{
    if (count > TRIES_MOST)
        return (struct tried){.refusal = 14};
    if (!in_limits(levels, queues, nodes))
        return (struct tried){.refusal = 2};
    struct search s = {.ops = ops, .levels = levels, .queues = queues, .nodes = nodes, .count = (unsigned)count,
                       .words = words_of(levels, queues, nodes), .bound = bound, .room = room, .room_len = room_len};
    make_line(&s.sizes, '3', '\n', (const uint16_t[]){levels, queues, nodes}, 3);
    size_t tables = 1;
    for (unsigned i = 0; i < count; i++) {
        const uint16_t *op = ops + TRIES_OP_WORDS * i;
        make_line(&s.op[i], op[0] == ENQUEUE ? 'E' : 'D', ' ', op + 1, op[0] == ENQUEUE ? 3 : 2);
        tables += most_moments(i);
    }
    uint16_t *words = malloc(tables * (1 + s.words) * sizeof *words);
    if (words == NULL)
        abort();
    plain_fresh(words, s.words, levels, queues, nodes);
    s.free = words + s.words;
    explore(&s, words, 0);
    free(words);
    return s.tried;
}
