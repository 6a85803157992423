#include "plain.h"

#include <stdbool.h>
#include <string.h>

enum { MAX_LEVELS = 16, MAX_QUEUES = 8, MAX_NODES = 1024 };

enum { OP, POINT, QUEUE, NODE, K, P, C, A, R, M, STEPS, FRAME_WORDS };

enum { ENQUEUE = 1, DEQUEUE = 2 };

enum {
    E1 = 1, E2, E3, E4, E5, E6, E7, E8, E9, E10, E11, E12, E13, E14, E15, E16, E17, E18, E19, E20, E21,
    E22, E23, E24, E25, E26, E27, E28, E29,
    D1 = 31, D2, D3, D4, D5, D6, D7
};

/* A table that was measured: its counts, and where its sections start. Queues and nodes count from 1,
 * so their sections are pointed to one entry early (which is still inside the table). */
struct table {
    unsigned levels, queues, nodes;
    uint16_t *level; /* level[2l] node, level[2l + 1] queue */
    uint16_t *queue; /* queue[2q] head, queue[2q + 1] tail */
    uint16_t *node;  /* node[2n] next, node[2n + 1] use */
    uint16_t *frame; /* frame[11l]: the 11 words of level l */
};

static bench_answer refused(unsigned number) { return (bench_answer)number << 16; }
static bench_answer answered(unsigned value) { return (bench_answer)value; }

static bool within(unsigned from, unsigned to, unsigned x) { return x - from <= to - from; }

static bool in_limits(unsigned levels, unsigned queues, unsigned nodes)
{
    return within(1, MAX_LEVELS, levels) && within(1, MAX_QUEUES, queues) && queues <= nodes && nodes <= MAX_NODES;
}

static size_t words_of(unsigned levels, unsigned queues, unsigned nodes)
{
    return 4 + 13 * (size_t)levels + 2 * (size_t)queues + 2 * (size_t)nodes;
}

static void lay_out(struct table *s, uint16_t *t, unsigned levels, unsigned queues, unsigned nodes)
{
    s->levels = levels;
    s->queues = queues;
    s->nodes = nodes;
    s->level = t + 1;
    s->queue = s->level + 2 * levels + 1 - 2;
    s->node = s->queue + 2 + 2 * queues + 1 - 2;
    s->frame = s->node + 2 + 2 * nodes + 1;
}

/* Whether the words are a table: refusal 1 where not. */
static bool measure(struct table *s, const uint16_t *t, size_t len)
{
    if (len < words_of(1, 1, 1))
        return false;
    unsigned levels = t[0];
    if (!within(1, MAX_LEVELS, levels) || len < words_of(levels, 1, 1))
        return false;
    unsigned queues = t[1 + 2 * levels];
    if (!within(1, MAX_QUEUES, queues) || len < words_of(levels, queues, queues))
        return false;
    unsigned nodes = t[2 + 2 * levels + 2 * queues];
    if (!in_limits(levels, queues, nodes) || len < words_of(levels, queues, nodes))
        return false;
    lay_out(s, (uint16_t *)t, levels, queues, nodes);
    return s->frame[-1] == levels;
}

static bool is_queue(const struct table *s, unsigned q) { return within(1, s->queues, q); }
static bool is_node(const struct table *s, unsigned n) { return within(1, s->nodes, n); }

/* The highest level whose op is not 0, or -1. */
static int serving(const struct table *s)
{
    int l = (int)s->levels - 1;
    while (l >= 0 && s->frame[FRAME_WORDS * l + OP] == 0)
        l--;
    return l;
}

bench_answer plain_fresh(uint16_t *t, size_t len, uint16_t levels, uint16_t queues, uint16_t nodes)
{
    if (!in_limits(levels, queues, nodes))
        return refused(2);
    if (len < words_of(levels, queues, nodes))
        return refused(1);
    struct table s;
    lay_out(&s, t, levels, queues, nodes);
    memset(t, 0, words_of(levels, queues, nodes) * sizeof *t);
    s.level[-1] = levels;
    s.queue[2 - 1] = queues;
    s.node[2 - 1] = nodes;
    s.frame[-1] = levels;
    for (unsigned q = 1; q <= queues; q++)
        s.queue[2 * q] = s.queue[2 * q + 1] = (uint16_t)q;
    return answered(0);
}

static void begin(const struct table *s, unsigned level, unsigned op, unsigned point, unsigned queue, unsigned node)
{
    uint16_t *f = s->frame + FRAME_WORDS * level;
    memset(f, 0, FRAME_WORDS * sizeof *f);
    f[OP] = (uint16_t)op;
    f[POINT] = (uint16_t)point;
    f[QUEUE] = (uint16_t)queue;
    f[NODE] = (uint16_t)node;
}

bench_answer plain_begin_enqueue(uint16_t *t, size_t len, uint16_t level, uint16_t queue, uint16_t node)
{
    struct table s;
    if (!measure(&s, t, len))
        return refused(1);
    if (level >= s.levels)
        return refused(3);
    if (!is_queue(&s, queue))
        return refused(4);
    if (node <= s.queues || node > s.nodes)
        return refused(5);
    if (serving(&s) >= (int)level)
        return refused(6);
    if (s.node[2 * node + 1] != 0)
        return refused(7);
    begin(&s, level, ENQUEUE, E1, queue, node);
    s.node[2 * node + 1] = queue;
    return answered(0);
}

/* Some level below `level` has a dequeue of this queue. */
static bool is_dequeued(const struct table *s, unsigned level, unsigned queue)
{
    const uint16_t *f = s->frame;
    for (unsigned l = 0; l < level; l++, f += FRAME_WORDS)
        if (f[OP] == DEQUEUE && f[QUEUE] == queue)
            return true;
    return false;
}

bench_answer plain_begin_dequeue(uint16_t *t, size_t len, uint16_t level, uint16_t queue)
{
    struct table s;
    if (!measure(&s, t, len))
        return refused(1);
    if (level >= s.levels)
        return refused(3);
    if (!is_queue(&s, queue))
        return refused(4);
    if (serving(&s) >= (int)level)
        return refused(6);
    if (is_dequeued(&s, level, queue))
        return refused(8);
    begin(&s, level, DEQUEUE, D1, queue, 0);
    return answered(0);
}

/* Below k (or m): if it is 0 go to `bottom`, else take 1 from it and go to `again`. */
static inline void below(uint16_t *restrict f, unsigned word, unsigned bottom, unsigned again)
{
    if (f[word] == 0) {
        f[POINT] = (uint16_t)bottom;
    } else {
        f[word]--;
        f[POINT] = (uint16_t)again;
    }
}

/* c becomes its next and the point stays, or `then` where the next is 0. */
static inline void walk(uint16_t *restrict f, unsigned next, unsigned then)
{
    if (next != 0)
        f[C] = (uint16_t)next;
    else
        f[POINT] = (uint16_t)then;
}

static inline void count_step(uint16_t *restrict f)
{
    if (f[STEPS] != UINT16_MAX)
        f[STEPS]++;
}

static inline unsigned ends(uint16_t *restrict f, unsigned l, unsigned node, uint16_t *restrict end)
{
    count_step(f);
    end[BENCH_END_OP] = f[OP];
    end[BENCH_END_LEVEL] = (uint16_t)l;
    end[BENCH_END_QUEUE] = f[QUEUE];
    end[BENCH_END_NODE] = (uint16_t)node;
    end[BENCH_END_STEPS] = f[STEPS];
    memset(f, 0, FRAME_WORDS * sizeof *f);
    return BENCH_ENDED;
}

/* One step of the frame f of level l: 0 for going on, BENCH_ENDED, or 10. */
static inline unsigned step_frame(const struct table *s, unsigned l, uint16_t *restrict f, uint16_t *restrict end)
{
    uint16_t *const restrict level = s->level;
    uint16_t *const restrict node = s->node;
    unsigned q = f[QUEUE], point = f[POINT], x;
    if (f[OP] > DEQUEUE || (f[OP] == ENQUEUE && point > E29) || !is_queue(s, q))
        return 10;
    uint16_t *const restrict head = s->queue + 2 * q, *const restrict tail = head + 1;

    switch (point) {
    case E1: level[2 * l] = f[NODE]; f[POINT] = E2; break;
    case E2: level[2 * l + 1] = (uint16_t)q; f[K] = (uint16_t)l; below(f, K, E7, E3); break;
    case E3:
        if (f[K] >= s->levels) return 10;
        if (level[2 * f[K] + 1] == q) f[POINT] = E4; else below(f, K, E7, E3);
        break;
    case E4:
        if (f[K] >= s->levels) return 10;
        f[P] = level[2 * f[K]]; f[POINT] = E5;
        break;
    case E5:
        if (*tail == f[P]) f[POINT] = E6;
        else { f[M] = f[K]; below(f, M, E15, E13); }
        break;
    case E6:
        if (f[K] >= s->levels) return 10;
        level[2 * f[K] + 1] = 0; below(f, K, E7, E3);
        break;
    case E7: f[C] = *tail; f[POINT] = E8; break;
    case E8:
        if (!is_node(s, f[C])) return 10;
        walk(f, node[2 * f[C]], E9);
        break;
    case E9:
        if (!is_node(s, f[C])) return 10;
        node[2 * f[C]] = f[NODE]; f[C] = f[NODE]; f[POINT] = E10;
        break;
    case E10:
        if (!is_node(s, f[C])) return 10;
        walk(f, node[2 * f[C]], E11);
        break;
    case E11: level[2 * l] = f[C]; f[POINT] = E12; break;
    case E12: *tail = f[C]; f[POINT] = E28; break;
    case E13:
        if (f[M] >= s->levels) return 10;
        if (level[2 * f[M] + 1] == q) f[POINT] = E14; else below(f, M, E15, E13);
        break;
    case E14:
        if (f[M] >= s->levels) return 10;
        f[C] = level[2 * f[M]];
        if (f[C] == 0) below(f, M, E15, E13); else f[POINT] = E16;
        break;
    case E15: f[C] = *tail; f[M] = (uint16_t)s->levels; f[POINT] = E16; break;
    case E16:
        if (!is_node(s, f[C])) return 10;
        x = node[2 * f[C]];
        if (x == f[P]) { f[A] = f[C]; f[POINT] = E21; }
        else if (x != 0) f[C] = (uint16_t)x;
        else if (f[M] == s->levels) f[POINT] = E17;
        else below(f, M, E15, E13);
        break;
    case E17:
        if (!is_node(s, f[P])) return 10;
        f[R] = node[2 * f[P]]; f[POINT] = E18;
        break;
    case E18:
        if (!is_node(s, f[P])) return 10;
        node[2 * f[P]] = f[NODE]; f[C] = f[NODE]; f[POINT] = E19;
        break;
    case E19:
        if (!is_node(s, f[C])) return 10;
        walk(f, node[2 * f[C]], E20);
        break;
    case E20:
        if (!is_node(s, f[C])) return 10;
        node[2 * f[C]] = f[R]; f[POINT] = E28;
        break;
    case E21:
        if (!is_node(s, f[A])) return 10;
        f[R] = node[2 * f[A]]; f[POINT] = E22;
        break;
    case E22:
        if (!is_node(s, f[A])) return 10;
        node[2 * f[A]] = f[NODE]; f[C] = f[NODE]; f[POINT] = E23;
        break;
    case E23:
        if (!is_node(s, f[C])) return 10;
        walk(f, node[2 * f[C]], E24);
        break;
    case E24:
        if (!is_node(s, f[C])) return 10;
        node[2 * f[C]] = f[R]; f[POINT] = E25;
        break;
    case E25: f[POINT] = *tail == f[A] ? E26 : E28; break;
    case E26: level[2 * l] = f[C]; f[POINT] = E27; break;
    case E27: *tail = f[C]; f[POINT] = E28; break;
    case E28: level[2 * l + 1] = 0; f[POINT] = E29; break;
    case E29:
        level[2 * l] = 0;
        if (f[OP] == ENQUEUE) return ends(f, l, f[NODE], end);
        f[POINT] = D1;
        break;
    case D1: f[C] = *head; f[POINT] = D2; break;
    case D2:
        if (*tail == f[C]) return ends(f, l, 0, end);
        f[POINT] = D3;
        break;
    case D3:
        if (!is_node(s, f[C])) return 10;
        if (node[2 * f[C]] == 0) return ends(f, l, 0, end);
        f[POINT] = D4;
        break;
    case D4:
        if (!is_node(s, f[C])) return 10;
        f[R] = node[2 * f[C]]; f[POINT] = D5;
        break;
    case D5: *head = f[R]; f[POINT] = f[C] == q ? D6 : D7; break;
    case D6:
        if (!is_node(s, f[C])) return 10;
        node[2 * f[C]] = 0; f[NODE] = (uint16_t)q; f[POINT] = E1;
        break;
    case D7:
        if (!is_node(s, f[C])) return 10;
        node[2 * f[C]] = 0; node[2 * f[C] + 1] = 0;
        return ends(f, l, f[C], end);
    default: return 10;
    }
    count_step(f);
    return 0;
}

bench_answer plain_step(uint16_t *t, size_t len, uint16_t end[BENCH_END_WORDS])
{
    struct table s;
    if (!measure(&s, t, len))
        return refused(1);
    int l = serving(&s);
    if (l < 0)
        return refused(9);
    return (bench_answer)step_frame(&s, (unsigned)l, s.frame + FRAME_WORDS * l, end) << 16;
}

/* A step alters no op word but that of the level it ends, and a run stops there, so one level is
 * served throughout. */
bench_answer plain_run(uint16_t *t, size_t len, uint16_t budget, uint16_t end[BENCH_END_WORDS])
{
    struct table s;
    if (!measure(&s, t, len))
        return refused(1);
    if (budget == 0)
        return answered(0);
    int l = serving(&s);
    if (l < 0)
        return refused(9);
    uint16_t *f = s.frame + FRAME_WORDS * l;
    for (unsigned taken = 0; taken < budget; taken++) {
        unsigned code = step_frame(&s, (unsigned)l, f, end);
        if (code != 0)
            return (bench_answer)code << 16 | (taken + (code == BENCH_ENDED));
    }
    return answered(budget);
}

/* No frame with op not 0 has this queue. */
static bool is_quiet(const struct table *s, unsigned queue)
{
    const uint16_t *f = s->frame;
    for (unsigned l = 0; l < s->levels; l++, f += FRAME_WORDS)
        if (f[OP] != 0 && f[QUEUE] == queue)
            return false;
    return true;
}

bench_answer plain_quiet(const uint16_t *t, size_t len, uint16_t queue)
{
    struct table s;
    if (!measure(&s, t, len))
        return refused(1);
    if (!is_queue(&s, queue))
        return refused(4);
    return answered(is_quiet(&s, queue));
}

/* Copies the levels, queues and nodes of the table s, with one more level on top. The frames are left
 * out: no step looks at those below the level that is served. */
static void copy_taller(struct table *copy, uint16_t *words, const struct table *s)
{
    lay_out(copy, words, s->levels + 1, s->queues, s->nodes);
    memcpy(copy->level, s->level, 2 * s->levels * sizeof *words);
    memset(copy->level + 2 * s->levels, 0, 2 * sizeof *words);
    memcpy(copy->queue + 2, s->queue + 2, (2 * s->queues + 1 + 2 * s->nodes) * sizeof *words);
}

/* Counts the nodes that dequeues at level l return, begun one after another, until one says empty: 0, or
 * 10 where a step is refused or so many steps are not enough. The level's frame stands apart. */
static unsigned drain(const struct table *s, unsigned l, unsigned queue, unsigned steps, uint32_t *count)
{
    uint16_t end[BENCH_END_WORDS];
    for (*count = 0;; ++*count) {
        uint16_t f[FRAME_WORDS] = {[OP] = DEQUEUE, [POINT] = D1, [QUEUE] = (uint16_t)queue};
        unsigned code = 0;
        while (code == 0) {
            if (steps-- == 0)
                return 10;
            code = step_frame(s, l, f, end);
        }
        if (code != BENCH_ENDED)
            return code;
        if (end[BENCH_END_NODE] == 0)
            return 0;
    }
}

bench_answer plain_waiting(const uint16_t *t, size_t len, uint16_t queue, uint16_t count[BENCH_COUNT_WORDS])
{
    struct table s, copy;
    if (!measure(&s, t, len))
        return refused(1);
    if (!is_queue(&s, queue))
        return refused(4);
    if (is_dequeued(&s, s.levels, queue))
        return refused(8);
    uint16_t words[BENCH_WORDS(MAX_LEVELS + 1, MAX_QUEUES, MAX_NODES)];
    copy_taller(&copy, words, &s);
    uint32_t returned;
    unsigned code = drain(&copy, s.levels, queue, (s.levels + 3) * (s.nodes + 7) * (s.nodes + 1), &returned);
    if (code != 0)
        return refused(code);
    count[BENCH_COUNT_LOW] = (uint16_t)returned;
    count[BENCH_COUNT_HIGH] = (uint16_t)(returned >> 16);
    return answered(0);
}

bench_answer plain_listing(const uint16_t *t, size_t len, uint16_t queue, uint16_t *room, size_t room_len)
{
    struct table s;
    if (!measure(&s, t, len))
        return refused(1);
    if (!is_queue(&s, queue))
        return refused(4);
    if (!is_quiet(&s, queue))
        return refused(11);
    unsigned head = s.queue[2 * queue], met = 0, count = 0, n;
    if (head == 0)
        return refused(10);
    for (n = head; n != 0; n = s.node[2 * n]) {
        if (n > s.nodes || ++met > s.nodes)
            return refused(10);
        count += n != queue;
    }
    if (room_len < count)
        return refused(12);
    for (n = head; n != 0; n = s.node[2 * n])
        if (n != queue)
            *room++ = (uint16_t)n;
    return answered(count);
}
