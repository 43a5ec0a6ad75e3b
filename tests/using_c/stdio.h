/* What a program of docs/USING.md uses of the C library, for the kit's compiler, which comes without headers. */
#include <stddef.h>
typedef struct FILE FILE;
extern FILE *stdin;
int printf(const char *, ...);
size_t fread(void *, size_t, size_t, FILE *);
