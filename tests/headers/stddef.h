/* A stand-in: what the C files of this repository need of C's own, for the kit's compiler, which has no headers. */
typedef unsigned long size_t;
#define NULL ((void *)0)
