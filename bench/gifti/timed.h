/* What both readers of label files share: the clock, the file, and the line that they print: name, bytes, keys, number, median and best
   CPU milliseconds, a checksum of the keys, peak memory in kilobytes. */
#include <stdint.h>
#include <stdio.h>
#include <stdlib.h>
#include <time.h>

enum { KEYS = 1048576 };

static double now(void)
{
    struct timespec t;
    clock_gettime(CLOCK_PROCESS_CPUTIME_ID, &t);
    return t.tv_sec * 1e3 + t.tv_nsec / 1e6;
}

/* Peak memory of this process in kilobytes; 0 where the system does not tell. */
static long peak(void)
{
    char line[128];
    long kilobytes = 0;
    FILE *f = fopen("/proc/self/status", "r");
    while (f && fgets(line, sizeof line, f))
        if (sscanf(line, "VmHWM: %ld", &kilobytes) == 1)
            break;
    if (f)
        fclose(f);
    return kilobytes;
}

static int compare_times(const void *a, const void *b)
{
    double x = *(const double *)a, y = *(const double *)b;
    return x < y ? -1 : x > y;
}

static uint8_t *load(const char *path, size_t *len)
{
    FILE *f = fopen(path, "rb");
    if (!f)
        exit(2);
    fseek(f, 0, SEEK_END);
    *len = ftell(f);
    rewind(f);
    uint8_t *text = malloc(*len + 1);
    if (!text || fread(text, 1, *len, f) != *len)
        exit(2);
    fclose(f);
    return text;
}

static void show(const char *name, size_t bytes, const int32_t *keys, size_t count, int number, double *times, int repeats)
{
    uint64_t sum = 0;
    qsort(times, repeats, sizeof *times, compare_times);
    for (size_t i = 0; i < count; i++)
        sum = sum * 31 + (uint32_t)keys[i];
    printf("%s %zu %zu %d %.3f %.3f %lx %ld\n", name, bytes, count, number, times[repeats / 2], times[0], (unsigned long)sum, peak());
}
