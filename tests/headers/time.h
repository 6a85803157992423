/* A stand-in: see stddef.h. The function is that of the kit's C library, on x86-64. */
struct timespec {
    long tv_sec, tv_nsec;
};
enum { CLOCK_MONOTONIC = 1 };
int clock_gettime(int clock, struct timespec *time);
