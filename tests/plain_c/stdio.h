#ifdef __cplusplus
extern "C" {
#endif
typedef struct file FILE;
extern FILE *stderr;
FILE *fopen(const char *, const char *);
__SIZE_TYPE__ fread(void *, __SIZE_TYPE__, __SIZE_TYPE__, FILE *);
int printf(const char *, ...);
int fprintf(FILE *, const char *, ...);
#ifdef __cplusplus
}
#define NULL nullptr
#else
#define NULL ((void *)0)
#endif
