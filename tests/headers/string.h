/* A stand-in: see stddef.h. The functions are those of the kit's C library. */
#include <stddef.h>
void *memcpy(void *to, const void *from, size_t size);
void *memset(void *at, int byte, size_t size);
int memcmp(const void *a, const void *b, size_t size);
int strcmp(const char *a, const char *b);
