/* Passes a text on with a few random changes, or none. usage: damage SEED <TEXT */
#include <stdint.h>
#include <stdio.h>
#include <stdlib.h>
#include <string.h>

enum { MOST_BYTES = 65536 + 64 };

static char text[MOST_BYTES + 1];
static size_t len;
static uint64_t state;

static size_t below(size_t n)
{
    state = state * 6364136223846793005u + 1442695040888963407u;
    return (size_t)((state >> 33) % n);
}

/* Puts `put` in the place of the bytes from..to. */
static void replace(size_t from, size_t to, const char *put, size_t n)
{
    if (len - (to - from) + n > MOST_BYTES)
        return;
    memmove(text + from + n, text + to, len - to);
    memcpy(text + from, put, n);
    len = len - (to - from) + n;
}

/* The start of the line, or of the field, that holds the byte at. */
static size_t start_of(size_t at, const char *parts)
{
    while (at > 0 && strchr(parts, text[at - 1]) == NULL)
        at--;
    return at;
}
static size_t stop_of(size_t at, const char *parts)
{
    while (at < len && (text[at] == 0 || strchr(parts, text[at]) == NULL))
        at++;
    return at;
}

static void change_byte(size_t at)
{
    static const char bytes[] = " \n0123456789EDSR-+x\r\t";
    char b = below(8) == 0 ? (char)below(256) : bytes[below(sizeof bytes - 1)];
    switch (below(3)) {
    case 0: replace(at, at + 1, &b, 1); break;
    case 1: replace(at, at, &b, 1); break;
    default: replace(at, at + 1, "", 0);
    }
}

static void change_field(size_t at)
{
    static const char *const fields[] = {"0", "00", "01", "1", "2", "3", "16", "17", "9", "1024", "1025", "65535",
                                         "65536", "99999", "100000", "", "E", "D", "S", "4294967297"};
    const char *put = fields[below(sizeof fields / sizeof *fields)];
    replace(start_of(at, " \n"), stop_of(at, " \n"), put, strlen(put));
}

static void change_line(size_t at)
{
    char line[64];
    size_t from = start_of(at, "\n"), to = stop_of(at, "\n");
    if (to == len || to + 1 - from > sizeof line)
        return;
    memcpy(line, text + from, to + 1 - from);
    if (below(2) == 0)
        replace(from, to + 1, "", 0);
    else
        replace(from, from, line, to + 1 - from);
}

int main(int argc, char **argv)
{
    state = argc > 1 ? strtoull(argv[1], 0, 10) * 2654435761u : 1;
    len = fread(text, 1, 65536, stdin);
    for (size_t i = below(4); i > 0 && len > 0; i--) {
        size_t at = below(below(3) == 0 && len > 12 ? 12 : len);
        switch (below(8)) {
        case 0: case 1: change_byte(at); break;
        case 2: case 3: case 4: change_field(at); break;
        case 5: case 6: change_line(at); break;
        default: len = below(4) == 0 ? at : len - 1;
        }
    }
    fwrite(text, 1, len, stdout);
    return 0;
}
