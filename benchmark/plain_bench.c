/* The bench program in plain C: a schedule on standard input, its log on standard output. */
#include "plain.h"

#include <stdbool.h>
#include <unistd.h>

enum { MOST_BYTES = 65536, MOST_NODES = 1024 };

struct event {
    uint8_t kind; /* 'E', 'D' or 'S' */
    uint16_t level, queue, node, count;
};

static uint8_t text[MOST_BYTES + 1];
static struct event events[MOST_BYTES / 4]; /* the shortest line of an event is "S 1\n" */
static uint16_t table[BENCH_MOST_WORDS];
static uint16_t listed[MOST_NODES];
static uint8_t log_bytes[1 << 16];
static size_t log_len;

static size_t read_all(void)
{
    size_t len = 0;
    ssize_t got;
    while (len < sizeof text && (got = read(0, text + len, sizeof text - len)) > 0)
        len += (size_t)got;
    return len;
}

static void flush(void)
{
    size_t done = 0;
    ssize_t put;
    while (done < log_len && (put = write(1, log_bytes + done, log_len - done)) > 0)
        done += (size_t)put;
    log_len = 0;
}

static void put_byte(uint8_t b)
{
    if (log_len == sizeof log_bytes)
        flush();
    log_bytes[log_len++] = b;
}

static void put_number(uint16_t x)
{
    uint8_t digits[5];
    int n = 0;
    do
        digits[n++] = (uint8_t)('0' + x % 10);
    while ((x /= 10) != 0);
    while (n > 0)
        put_byte(digits[--n]);
}

/* A line of the log: a letter and numbers. */
static void put_line(uint8_t letter, const uint16_t *numbers, size_t count)
{
    put_byte(letter);
    for (size_t i = 0; i < count; i++) {
        put_byte(' ');
        put_number(numbers[i]);
    }
    put_byte('\n');
}

/* A decimal number 0 to 65,535 with no leading zero, and the byte after it, which is passed over. */
static bool take_number(const uint8_t **at, const uint8_t *stop, uint8_t after, uint16_t *x)
{
    const uint8_t *p = *at;
    uint32_t v = 0;
    if (p < stop && *p == '0') {
        p++;
    } else {
        const uint8_t *first = p;
        for (; p < stop && (uint8_t)(*p - '0') <= 9; p++) {
            v = 10 * v + (uint8_t)(*p - '0');
            if (v > UINT16_MAX)
                return false;
        }
        if (p == first)
            return false;
    }
    if (p == stop || *p != after)
        return false;
    *at = p + 1;
    *x = (uint16_t)v;
    return true;
}

static bool take_event(const uint8_t **at, const uint8_t *stop, struct event *e)
{
    if (stop - *at < 2 || (*at)[1] != ' ')
        return false;
    e->kind = **at;
    *at += 2;
    switch (e->kind) {
    case 'E':
        return take_number(at, stop, ' ', &e->level) && take_number(at, stop, ' ', &e->queue) &&
               take_number(at, stop, '\n', &e->node);
    case 'D': return take_number(at, stop, ' ', &e->level) && take_number(at, stop, '\n', &e->queue);
    case 'S': return take_number(at, stop, '\n', &e->count) && e->count != 0;
    default: return false;
    }
}

/* Reads the whole text: 0, or -1 with the number of its first wrong line. */
static int read_schedule(size_t len, uint16_t sizes[3], uint16_t *count, size_t *line)
{
    const uint8_t *at = text, *stop = text + len;
    uint16_t three;
    *line = 0;
    if (len > MOST_BYTES)
        return -1;
    *line = 1;
    if (!take_number(&at, stop, '\n', &three) || three != 3)
        return -1;
    for (int i = 0; i < 3; i++) {
        ++*line;
        if (!take_number(&at, stop, '\n', &sizes[i]))
            return -1;
    }
    ++*line;
    if (!take_number(&at, stop, '\n', count))
        return -1;
    for (size_t i = 0; i < *count; i++) {
        ++*line;
        if (!take_event(&at, stop, &events[i]))
            return -1;
    }
    ++*line;
    return at == stop ? 0 : -1;
}

static void put_ended(const uint16_t end[BENCH_END_WORDS])
{
    put_line(end[BENCH_END_OP] == 1 ? 'E' : 'D', end + BENCH_END_LEVEL, BENCH_END_WORDS - BENCH_END_LEVEL);
}

/* Steps until the count is spent, past ended operations: 0, or the refusal. */
static uint16_t take_steps(uint16_t count)
{
    uint16_t end[BENCH_END_WORDS];
    while (count != 0) {
        bench_answer a = plain_run(table, BENCH_MOST_WORDS, count, end);
        if (bench_code(a) == BENCH_ENDED)
            put_ended(end);
        else if (bench_code(a) != 0)
            return bench_code(a);
        count = (uint16_t)(count - bench_value(a));
    }
    return 0;
}

static uint16_t perform(const struct event *e)
{
    switch (e->kind) {
    case 'E': return bench_code(plain_begin_enqueue(table, BENCH_MOST_WORDS, e->level, e->queue, e->node));
    case 'D': return bench_code(plain_begin_dequeue(table, BENCH_MOST_WORDS, e->level, e->queue));
    default: return take_steps(e->count);
    }
}

static void put_queue(uint16_t q)
{
    bench_answer a = plain_listing(table, BENCH_MOST_WORDS, q, listed, MOST_NODES);
    if (bench_code(a) != 0) {
        put_line('U', &q, 1);
        return;
    }
    put_byte('Q');
    put_byte(' ');
    put_number(q);
    for (size_t i = 0; i < bench_value(a); i++) {
        put_byte(' ');
        put_number(listed[i]);
    }
    put_byte('\n');
}

int main(void)
{
    uint16_t sizes[3], count;
    size_t line;
    if (read_schedule(read_all(), sizes, &count, &line) != 0) {
        put_line('T', (uint16_t[]){(uint16_t)line}, 1);
    } else if (plain_fresh(table, BENCH_MOST_WORDS, sizes[0], sizes[1], sizes[2]) != 0) {
        put_line('R', (uint16_t[]){0, 2}, 2);
    } else {
        for (uint16_t i = 0; i < count; i++) {
            uint16_t refusal = perform(&events[i]);
            if (refusal != 0) {
                put_line('R', (uint16_t[]){(uint16_t)(i + 1), refusal}, 2);
                break;
            }
        }
        for (uint16_t q = 1; q <= sizes[1]; q++)
            put_queue(q);
    }
    flush();
    return 0;
}
