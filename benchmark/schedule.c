/* Writes a schedule in which no event is refused. usage: schedule LEVELS QUEUES NODES STEPS BYTES SEED
 * An S takes at most STEPS steps; the text is as long as BYTES allows. */
#include "plain.h"

#include <stdio.h>
#include <stdlib.h>
#include <string.h>

enum { LONGEST_LINE = 32, HEADER = 64 };

static uint16_t t[BENCH_MOST_WORDS], trial[BENCH_MOST_WORDS];
static uint64_t state;

static unsigned from_to(unsigned a, unsigned b)
{
    state = state * 6364136223846793005u + 1442695040888963407u;
    return a + (unsigned)((state >> 33) % (b - a + 1));
}

/* Steps past ended operations: how many until the count is spent or nothing runs. */
static unsigned take_steps(uint16_t *table, unsigned count)
{
    uint16_t end[BENCH_END_WORDS];
    unsigned taken = 0;
    while (taken < count) {
        bench_answer a = plain_run(table, BENCH_MOST_WORDS, (uint16_t)(count - taken), end);
        taken += bench_value(a);
        if (bench_code(a) != BENCH_ENDED)
            break;
    }
    return taken;
}

/* One event that is accepted, performed and written to line; 0 where the draw was refused. */
static int event(char *line, unsigned levels, unsigned queues, unsigned nodes, unsigned steps)
{
    unsigned l = from_to(0, levels - 1), q = from_to(1, queues), n = from_to(queues, nodes), c = from_to(1, steps);
    switch (from_to(0, 3)) {
    case 0:
        if (plain_begin_enqueue(t, BENCH_MOST_WORDS, (uint16_t)l, (uint16_t)q, (uint16_t)n) != 0)
            return 0;
        return sprintf(line, "E %u %u %u\n", l, q, n);
    case 1:
        if (plain_begin_dequeue(t, BENCH_MOST_WORDS, (uint16_t)l, (uint16_t)q) != 0)
            return 0;
        return sprintf(line, "D %u %u\n", l, q);
    default:
        memcpy(trial, t, sizeof t);
        c = take_steps(trial, c);
        if (c == 0)
            return 0;
        take_steps(t, c);
        return sprintf(line, "S %u\n", c);
    }
}

int main(int argc, char **argv)
{
    unsigned x[6];
    if (argc != 7)
        return 2;
    for (int i = 0; i < 6; i++)
        x[i] = (unsigned)strtoul(argv[i + 1], 0, 10);
    state = x[5];
    if (plain_fresh(t, BENCH_MOST_WORDS, (uint16_t)x[0], (uint16_t)x[1], (uint16_t)x[2]) != 0)
        return 2;
    char *lines = malloc(x[4] + LONGEST_LINE), line[LONGEST_LINE], header[HEADER];
    unsigned len = 0, count = 0;
    for (;;) {
        int n = event(line, x[0], x[1], x[2], x[3]);
        if (n == 0)
            continue;
        int h = sprintf(header, "3\n%u\n%u\n%u\n%u\n", x[0], x[1], x[2], count + 1);
        if (len + (unsigned)n + (unsigned)h > x[4])
            break;
        memcpy(lines + len, line, (unsigned)n);
        len += (unsigned)n;
        count++;
    }
    printf("3\n%u\n%u\n%u\n%u\n%.*s", x[0], x[1], x[2], count, (int)len, lines);
    free(lines);
    return 0;
}
