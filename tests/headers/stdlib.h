/* A stand-in: see stddef.h. The functions are those of the kit's C library. */
#include <stddef.h>
void *malloc(size_t size);
void free(void *at);
_Noreturn void abort(void);
_Noreturn void exit(int status);
