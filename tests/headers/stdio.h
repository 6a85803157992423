/* A stand-in: see stddef.h. The functions are those of the kit's C library. */
typedef struct _IO_FILE FILE;
extern FILE *stdout, *stderr;
int printf(const char *format, ...);
FILE *fopen(const char *path, const char *mode);
int fprintf(FILE *file, const char *format, ...);
int fflush(FILE *file);
int fclose(FILE *file);
