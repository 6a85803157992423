/* Every call, on the same random and damaged tables, on both sides: each answer and every lent word
 * afterwards must agree. usage: random SEED TABLES */
#define _DEFAULT_SOURCE
#include "../benchmark/sides.h"

#include <stdbool.h>
#include <stdio.h>
#include <stdlib.h>
#include <string.h>
#include <sys/mman.h>
#include <unistd.h>

static const struct side plain_side = SIDE("C", plain), our_side = OUR_SIDE;

enum { SLACK = 16, ROOM = 1024 + SLACK, BUFFER = BENCH_MOST_WORDS + SLACK, FRAME_WORDS = 11 };

enum kind { FRESH, ENQUEUE, DEQUEUE, STEP, RUN, QUIET, WAITING, LISTING, KINDS };
static const char *const kind_names[KINDS] = {"fresh", "enqueue", "dequeue", "step", "run", "quiet", "waiting", "listing"};

/* What a call may be given: numbers by the order of its parameters, and the room of a listing. */
struct call {
    enum kind kind;
    uint16_t x[3];
    size_t room;
};

/* All that a call is lent. */
struct lent {
    uint16_t table[BUFFER], room[ROOM], end[BENCH_END_WORDS], count[BENCH_COUNT_WORDS];
};

/* The table that is being tried: its words, how many are lent, and the sizes that it was made with. */
static struct lent now;
static size_t len;
static unsigned L, Q, N;

static uint64_t state;

static uint32_t random32(void)
{
    uint64_t z = state += 0x9e3779b97f4a7c15u;
    z = (z ^ z >> 30) * 0xbf58476d1ce4e5b9u;
    z = (z ^ z >> 27) * 0x94d049bb133111ebu;
    return (uint32_t)(z >> 32);
}
static unsigned below(unsigned n) { return (unsigned)((uint64_t)random32() * n >> 32); }
static unsigned from_to(unsigned a, unsigned b) { return a + below(b - a + 1); }
static bool once_in(unsigned n) { return below(n) == 0; }

/* ---- where the words of a table stand, worked out here anew */
static size_t words(void) { return 4 + 13 * L + 2 * Q + 2 * N; }
static size_t frame_at(unsigned l) { return 4 + 2 * L + 2 * Q + 2 * N + FRAME_WORDS * l; }
static size_t next_at(unsigned n) { return 3 + 2 * L + 2 * Q + 2 * (n - 1); }

/* A number that some test is likely to turn on. */
static uint16_t near_number(void)
{
    switch (below(10)) {
    case 0: return (uint16_t)random32();
    case 1: return (uint16_t)from_to(N - 1, N + 2);
    case 2: return (uint16_t)from_to(Q - 1, Q + 2);
    case 3: return (uint16_t)from_to(L - 1, L + 1);
    case 4: return (uint16_t)from_to(65533, 65535);
    case 5: return 0;
    case 6: return (uint16_t)from_to(0, 38);
    default: return (uint16_t)from_to(0, N);
    }
}

static void choose_sizes(void)
{
    switch (below(12)) {
    case 0: L = from_to(1, 16), Q = from_to(1, 8), N = from_to(Q, 1024); break;
    case 1: L = from_to(1, 16), Q = from_to(1, 8), N = from_to(Q, Q + 12); break;
    case 2: L = 16, Q = 8, N = from_to(1023, 1024); break;
    default: L = from_to(1, 4), Q = from_to(1, 3), N = from_to(Q, Q + 7);
    }
}

static void random_history(void)
{
    for (unsigned i = below(once_in(20) ? 200 : 20); i > 0; i--) {
        uint16_t l = (uint16_t)below(L), q = (uint16_t)from_to(1, Q), n = (uint16_t)from_to(1, N);
        switch (below(4)) {
        case 0: plain_begin_enqueue(now.table, len, l, q, n); break;
        case 1: plain_begin_dequeue(now.table, len, l, q); break;
        default: plain_run(now.table, len, (uint16_t)from_to(1, 25), now.end);
        }
    }
}

/* A frame of random words, each more often sound than not. */
static void random_frame(unsigned l)
{
    uint16_t *f = now.table + frame_at(l);
    for (int i = 0; i < FRAME_WORDS; i++)
        f[i] = (uint16_t)(once_in(6) ? near_number() : from_to(0, N));
    f[0] = (uint16_t)(once_in(8) ? near_number() : from_to(1, 2));
    f[1] = (uint16_t)(once_in(16) ? near_number() : from_to(0, 38));
    f[2] = (uint16_t)(once_in(16) ? near_number() : from_to(1, Q));
    if (!once_in(4))
        f[4] = (uint16_t)below(L);
    if (!once_in(4))
        f[9] = (uint16_t)from_to(0, L);
    f[10] = (uint16_t)(once_in(3) ? from_to(65533, 65535) : below(100));
}

static void damage(void)
{
    size_t at;
    switch (below(9)) {
    case 0: /* too short, by a little or by much */
        len = once_in(3) ? below((unsigned)words()) : words() - from_to(1, 3);
        break;
    case 1: /* a count that is off */
        at = (size_t[]){0, 1 + 2 * L, 2 + 2 * L + 2 * Q, 3 + 2 * L + 2 * Q + 2 * N}[below(4)];
        now.table[at] = once_in(2) ? near_number() : (uint16_t)(now.table[at] + from_to(0, 2) - 1);
        break;
    case 2: /* chains with branches and loops */
        for (unsigned i = below(N) + 1; i > 0; i--)
            now.table[next_at(from_to(1, N))] = once_in(20) ? near_number() : (uint16_t)from_to(0, N);
        break;
    case 3: /* any words */
        for (unsigned i = from_to(1, 6); i > 0; i--)
            now.table[below((unsigned)words())] = near_number();
        break;
    case 4: /* uses */
        for (unsigned i = below(N) + 1; i > 0; i--)
            now.table[next_at(from_to(1, N)) + 1] = once_in(5) ? near_number() : (uint16_t)from_to(0, Q);
        break;
    case 5: /* heads, tails and levels' words */
        for (unsigned i = below(2 * L + 2 * Q) + 1; i > 0; i--)
            now.table[1 + below(2 * L + 2 * Q)] = once_in(5) ? near_number() : (uint16_t)from_to(0, N);
        if (!once_in(4))
            now.table[1 + 2 * L] = (uint16_t)Q;
        break;
    default: /* frames */
        for (unsigned i = from_to(1, 2); i > 0; i--)
            random_frame(below(L));
    }
}

static void random_table(void)
{
    for (size_t i = 0; i < BUFFER; i++)
        now.table[i] = (uint16_t)random32();
    choose_sizes();
    len = words() + (once_in(2) ? 0 : below(SLACK));
    if (once_in(50)) { /* any words at all */
        len = below(once_in(2) ? 8 : 120);
        for (size_t i = 0; i < len; i++)
            now.table[i] = near_number();
        return;
    }
    plain_fresh(now.table, len, (uint16_t)L, (uint16_t)Q, (uint16_t)N);
    random_history();
    if (!once_in(4))
        for (unsigned i = once_in(3) ? from_to(2, 3) : 1; i > 0; i--)
            damage();
}

static uint16_t mostly(unsigned from, unsigned to) { return once_in(8) ? near_number() : (uint16_t)from_to(from, to); }

static struct call random_call(void)
{
    static const uint8_t often[] = {FRESH, ENQUEUE, ENQUEUE, ENQUEUE, DEQUEUE, DEQUEUE, DEQUEUE, STEP, STEP, STEP,
                                    STEP, STEP, STEP, STEP, STEP, RUN, RUN, RUN, QUIET, WAITING, LISTING, LISTING};
    struct call c = {often[below(sizeof often)], {0, 0, 0}, 0};
    switch (c.kind) {
    case FRESH: c.x[0] = mostly(L, L), c.x[1] = mostly(Q, Q), c.x[2] = mostly(N, once_in(2) ? N : N + 9); break;
    case ENQUEUE: c.x[0] = mostly(0, L - 1), c.x[1] = mostly(1, Q), c.x[2] = mostly(Q, N); break;
    case DEQUEUE: c.x[0] = mostly(0, L - 1), c.x[1] = mostly(1, Q); break;
    case RUN: c.x[0] = once_in(40) ? near_number() : (uint16_t)below(60); break;
    case LISTING:
        c.x[0] = mostly(1, Q);
        c.room = once_in(2) ? ROOM - below(SLACK) : below(N + 2);
        break;
    case WAITING: /* the rarer the more steps it may take, up to 20 million */
        if (!once_in(1 + (L + 3) * (N + 7) * (N + 1) / 10000))
            c.kind = QUIET; /* fall through */
    default: c.x[0] = mostly(1, Q);
    }
    return c;
}

/* The end of a stretch of memory after which nothing can be read or written. */
static uint16_t *guarded(void)
{
    size_t page = (size_t)sysconf(_SC_PAGESIZE);
    char *m = mmap(0, 4 * page, PROT_READ | PROT_WRITE, MAP_PRIVATE | MAP_ANONYMOUS, -1, 0);
    if (m == MAP_FAILED || mprotect(m + 3 * page, page, PROT_NONE) != 0)
        abort();
    return (uint16_t *)(m + 3 * page);
}

static uint16_t *table_stop, *room_stop;

static bench_answer make_on(const struct side *s, const struct call *c, uint16_t *t, uint16_t *room, struct lent *m)
{
    switch (c->kind) {
    case FRESH: return s->fresh(t, len, c->x[0], c->x[1], c->x[2]);
    case ENQUEUE: return s->begin_enqueue(t, len, c->x[0], c->x[1], c->x[2]);
    case DEQUEUE: return s->begin_dequeue(t, len, c->x[0], c->x[1]);
    case STEP: return s->step(t, len, m->end);
    case RUN: return s->run(t, len, c->x[0], m->end);
    case QUIET: return s->quiet(t, len, c->x[0]);
    case WAITING: return s->waiting(t, len, c->x[0], m->count);
    default: return s->listing(t, len, c->x[0], room, c->room);
    }
}

/* The call, on copies that stand right before guarded memory. */
static bench_answer make(const struct side *s, const struct call *c, struct lent *m)
{
    uint16_t *t = table_stop - len, *room = room_stop - c->room;
    memcpy(t, m->table, len * sizeof *t);
    memcpy(room, m->room, c->room * sizeof *room);
    bench_answer a = make_on(s, c, t, room, m);
    memcpy(m->table, t, len * sizeof *t);
    memcpy(m->room, room, c->room * sizeof *room);
    return a;
}

/* ---- what was tried: answers by call and code, steps by point and code */
static uint64_t seen[KINDS][BENCH_ENDED + 1], stepped[38][3];

static void note(const struct call *c, const struct lent *before, bench_answer a)
{
    unsigned code = bench_code(a);
    seen[c->kind][code]++;
    if (c->kind != STEP || (code != 0 && code != 10 && code != BENCH_ENDED))
        return;
    unsigned levels = before->table[0], l = levels;
    size_t frames = 4 + 2 * levels;
    frames += 2 * before->table[1 + 2 * levels];
    frames += 2 * before->table[frames - 2];
    while (before->table[frames + FRAME_WORDS * --l] == 0)
        ;
    unsigned point = before->table[frames + FRAME_WORDS * l + 1];
    if (point <= 37)
        stepped[point][code == 0 ? 0 : code == 10 ? 1 : 2]++;
}

static void show(const char *name, const uint16_t *a, const uint16_t *b, size_t count)
{
    for (size_t i = 0; i < count; i++)
        if (a[i] != b[i])
            printf("  %s word %zu: %s %u, %s %u\n", name, i, plain_side.name, a[i], our_side.name, b[i]);
}

static int differ(const struct call *c, const struct lent *before, const struct lent *a, const struct lent *b, bench_answer x, bench_answer y)
{
    printf("DIFFERENT: %s %u %u %u, room %zu, on %zu words (L %u, Q %u, N %u before any damage)\n", kind_names[c->kind],
           c->x[0], c->x[1], c->x[2], c->room, len, L, Q, N);
    printf("  answers (code, value): %s %u %u, %s %u %u\n", plain_side.name, bench_code(x), bench_value(x), our_side.name,
           bench_code(y), bench_value(y));
    show("table", a->table, b->table, BUFFER);
    show("room", a->room, b->room, ROOM);
    show("end", a->end, b->end, BENCH_END_WORDS);
    show("count", a->count, b->count, BENCH_COUNT_WORDS);
    printf("  the words before:");
    for (size_t i = 0; i < len; i++)
        printf(" %u", before->table[i]);
    printf("\n");
    return 1;
}

/* ---- plain C held to itself */

/* The table with one more idle level on top: a table too, if it had fewer than 16 levels. */
static size_t taller(uint16_t *to, const uint16_t *t)
{
    size_t levels = t[0], queues = t[1 + 2 * levels], nodes = t[2 + 2 * levels + 2 * queues];
    size_t rest = 1 + 2 * levels, frames = 3 + rest + 2 * queues + 2 * nodes, all = frames + FRAME_WORDS * levels;
    memcpy(to, t, rest * sizeof *t);
    to[rest] = to[rest + 1] = 0;
    memcpy(to + rest + 2, t + rest, (all - rest) * sizeof *t);
    memset(to + all + 2, 0, FRAME_WORDS * sizeof *t);
    to[0] = to[frames + 1] = (uint16_t)(levels + 1);
    return all + 2 + FRAME_WORDS;
}

static uint64_t spent; /* how often no dequeue had said empty after all the steps of a waiting count */

/* The code of a waiting count that is not refused by 1 or 4, and the count, by the other calls. */
static uint16_t drained(const uint16_t *t, uint16_t queue, uint32_t *count)
{
    static uint16_t copy[BENCH_MOST_WORDS], end[BENCH_END_WORDS];
    size_t size = taller(copy, t), levels = t[0], nodes = t[2 + 2 * levels + 2 * t[1 + 2 * levels]];
    uint64_t left = (levels + 3) * (nodes + 7) * (nodes + 1);
    for (*count = 0; plain_begin_dequeue(copy, size, (uint16_t)levels, queue) == 0; ++*count) {
        bench_answer a = 0;
        for (; left > 0 && bench_code(a) == 0; left -= bench_value(a))
            a = plain_run(copy, size, (uint16_t)(left < 65535 ? left : 65535), end);
        spent += bench_code(a) == 0;
        if (bench_code(a) != BENCH_ENDED)
            return 10;
        if (end[BENCH_END_NODE] == 0)
            return 0;
    }
    return 8;
}

/* A waiting count is what the other calls give on the taller table, and alters no word but its own two. */
static int untrue_waiting(const struct call *c, const struct lent *before, const struct lent *after, bench_answer a)
{
    uint16_t code = bench_code(a);
    uint32_t due;
    if (code == 1 || code == 4 || before->table[0] == 16)
        return 0;
    if (code != drained(before->table, c->x[0], &due) || bench_value(a) != 0)
        return 1;
    return code == 0 && (due != bench_count(after->count) || memcmp(before, after, offsetof(struct lent, count)) != 0);
}

/* A refusal leaves everything as it was, a run is its steps, and a waiting count is its dequeues. */
static int untrue(const struct call *c, const struct lent *before, const struct lent *after, bench_answer a)
{
    static struct lent m;
    uint16_t code = bench_code(a), taken = 0;
    if (c->kind != RUN && code != 0 && code != BENCH_ENDED && memcmp(before, after, sizeof m) != 0)
        return 1;
    if (c->kind != RUN)
        return c->kind == WAITING && untrue_waiting(c, before, after, a);
    m = *before;
    bench_answer step = 0;
    while (step == 0 && taken < c->x[0] && (step = plain_step(m.table, len, m.end)) == 0)
        taken++;
    if (bench_code(step) == BENCH_ENDED)
        taken++;
    bool spent_short = code == 1 && c->x[0] == 0; /* refusal 1 comes before the budget is looked at */
    return memcmp(&m, after, sizeof m) != 0 || taken != bench_value(a) || (!spent_short && bench_code(step) != code);
}

static int try_calls(void)
{
    static struct lent before, a, b;
    for (unsigned i = from_to(1, 12); i > 0; i--) {
        struct call c = random_call();
        before = a = b = now;
        bench_answer x = make(&plain_side, &c, &a), y = make(&our_side, &c, &b);
        if (x != y || memcmp(&a, &b, sizeof a) != 0)
            return differ(&c, &before, &a, &b, x, y);
        if (untrue(&c, &before, &a, x)) {
            printf("UNTRUE of plain C: %s\n", kind_names[c.kind]);
            return differ(&c, &before, &a, &b, x, y);
        }
        note(&c, &before, x);
        now = a;
    }
    return 0;
}

/* Every refusal that docs/STEPS.md gives a call must have come, 10 of a waiting count by its steps too, and
 * each point gone on or ended. */
static int report(void)
{
    static const uint8_t due[KINDS][8] = {{0, 1, 2}, {0, 1, 3, 4, 5, 6, 7}, {0, 1, 3, 4, 6, 8}, {0, 1, 9, 10, BENCH_ENDED},
                                          {0, 1, 9, 10, BENCH_ENDED}, {0, 1, 4}, {0, 1, 4, 8, 10}, {0, 1, 4, 11, 10, 12}};
    int missing = 0;
    for (int k = 0; k < KINDS; k++) {
        printf("%-8s", kind_names[k]);
        for (int i = 0; i < 8 && (i == 0 || due[k][i] != 0); i++) {
            printf(" %s%u: %llu", due[k][i] == BENCH_ENDED ? "ended " : "", due[k][i], (unsigned long long)seen[k][due[k][i]]);
            missing += seen[k][due[k][i]] == 0;
        }
        printf("\n");
    }
    printf("waiting  10 by its steps: %llu\n", (unsigned long long)spent);
    missing += spent == 0;
    for (int p = 1; p <= 37; p++)
        if (p != 30 && stepped[p][0] + stepped[p][2] == 0)
            printf("point %d was never stepped\n", p), missing++;
    return missing != 0;
}

int main(int argc, char **argv)
{
    uint64_t seed = argc > 1 ? strtoull(argv[1], 0, 10) : 1, tables = argc > 2 ? strtoull(argv[2], 0, 10) : 100000;
    table_stop = guarded();
    room_stop = guarded();
    for (uint64_t i = 0; i < tables; i++) {
        state = (seed << 32) + i;
        memset(&now, 0x5a, sizeof now);
        random_table();
        if (try_calls() != 0) {
            printf("seed %llu, table %llu\n", (unsigned long long)seed, (unsigned long long)i);
            return 1;
        }
    }
    int missing = report();
    printf("%llu tables from seed %llu: no difference between %s and %s%s\n", (unsigned long long)tables,
           (unsigned long long)seed, plain_side.name, our_side.name, missing ? ", but NOT EVERYTHING WAS TRIED" : "");
    return missing;
}
