/* Times programs on the same standard input, taking turns, and sees that all write the same.
 * usage: programs RUNS INPUT COMMAND..., each COMMAND one word, its parts parted by spaces.
 * Prints the best time of each in microseconds, on one line. */
#define _GNU_SOURCE
#include <fcntl.h>
#include <stdio.h>
#include <stdlib.h>
#include <string.h>
#include <sys/mman.h>
#include <sys/wait.h>
#include <time.h>
#include <unistd.h>

enum { MOST_COMMANDS = 8, MOST_PARTS = 16, MOST_BYTES = 1 << 22 };

static char written[2][MOST_BYTES];

static void fail(const char *what)
{
    fprintf(stderr, "programs: %s\n", what);
    exit(1);
}

static double now_us(void)
{
    struct timespec ts;
    clock_gettime(CLOCK_MONOTONIC, &ts);
    return 1e6 * (double)ts.tv_sec + 1e-3 * (double)ts.tv_nsec;
}

/* Runs the parts once on the input: the microseconds that it took. */
static double once(char *const parts[], const char *input, int out)
{
    int in = open(input, O_RDONLY), status;
    if (in < 0 || ftruncate(out, 0) != 0 || lseek(out, 0, SEEK_SET) != 0)
        fail("no input, or no room for the output");
    double began = now_us();
    pid_t child = vfork();
    if (child == 0) {
        dup2(in, 0);
        dup2(out, 1);
        execv(parts[0], parts);
        _exit(127);
    }
    if (child < 0 || waitpid(child, &status, 0) != child || !WIFEXITED(status) || WEXITSTATUS(status) != 0)
        fail("a program failed");
    double took = now_us() - began;
    close(in);
    return took;
}

static size_t take_output(int out, char *into)
{
    ssize_t n = pread(out, into, MOST_BYTES, 0);
    if (n < 0 || n == MOST_BYTES)
        fail("the output cannot be read back");
    return (size_t)n;
}

int main(int argc, char **argv)
{
    static char *parts[MOST_COMMANDS][MOST_PARTS + 1];
    double best[MOST_COMMANDS];
    int commands = argc - 3, runs = argc > 1 ? atoi(argv[1]) : 0, out = memfd_create("output", 0);
    size_t len[2];
    if (commands < 1 || commands > MOST_COMMANDS || runs < 1 || out < 0)
        fail("usage: programs RUNS INPUT COMMAND...");
    for (int i = 0; i < commands; i++) {
        int n = 0;
        for (char *p = strtok(argv[i + 3], " "); p != NULL && n < MOST_PARTS; p = strtok(NULL, " "))
            parts[i][n++] = p;
        best[i] = 1e30;
    }
    for (int r = 0; r < runs; r++) {
        for (int i = 0; i < commands; i++) {
            double took = once(parts[i], argv[2], out);
            best[i] = took < best[i] ? took : best[i];
            len[i > 0] = take_output(out, written[i > 0]);
            if (i > 0 && (len[0] != len[1] || memcmp(written[0], written[1], len[0]) != 0))
                fail("the logs differ");
        }
    }
    for (int i = 0; i < commands; i++)
        printf("%.1f%c", best[i], i + 1 < commands ? ' ' : '\n');
    return 0;
}
