/* A stand-in: see stddef.h. */
typedef unsigned char uint8_t;
typedef unsigned short uint16_t;
typedef unsigned int uint32_t;
typedef unsigned long uint64_t;
#define UINT16_MAX 65535
#define UINT64_MAX 18446744073709551615ul
