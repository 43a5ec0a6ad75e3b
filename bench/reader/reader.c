/* The proved reader on one file.

     reader FILE LENGTHS [REPEATS]        LENGTHS as 2,91282

   Prints as creader does: ours, bytes, records, number, median and best CPU milliseconds, a checksum of the
   records, peak memory in kilobytes. */
#define _GNU_SOURCE
#include "dzwonolin.h"
#include <stdio.h>
#include <stdlib.h>
#include <time.h>

static double now(void)
{
    struct timespec t;
    clock_gettime(CLOCK_PROCESS_CPUTIME_ID, &t);
    return t.tv_sec * 1e3 + t.tv_nsec / 1e6;
}

/* Peak memory of this process in kilobytes; 0 where the system does not tell. */
static long peak(void)
{
    char line[128];
    long kilobytes = 0;
    FILE *f = fopen("/proc/self/status", "r");
    while (f && fgets(line, sizeof line, f))
        if (sscanf(line, "VmHWM: %ld", &kilobytes) == 1)
            break;
    if (f)
        fclose(f);
    return kilobytes;
}

static int compare_times(const void *a, const void *b)
{
    double x = *(const double *)a, y = *(const double *)b;
    return x < y ? -1 : x > y;
}

static uint8_t *load(const char *path, size_t *len)
{
    FILE *f = fopen(path, "rb");
    if (!f)
        exit(2);
    fseek(f, 0, SEEK_END);
    *len = ftell(f);
    rewind(f);
    uint8_t *text = malloc(*len + 1);
    if (!text || fread(text, 1, *len, f) != *len)
        exit(2);
    fclose(f);
    return text;
}

int main(int argc, char **argv)
{
    uint64_t lengths[3], answer[DZ_ANSWER], room = 0, longest = 0, number = 0, sum = 0;
    size_t count = 0, len, filled = 0;
    if (argc < 3)
        return 2;
    for (char *at = argv[2]; count < 3; at++) {
        lengths[count] = strtoul(at, &at, 10);
        room += lengths[count];
        longest = lengths[count] > longest ? lengths[count] : longest;
        count++;
        if (*at != ',')
            break;
    }
    uint8_t *text = load(argv[1], &len);
    int repeats = argc > 3 ? atoi(argv[3]) : 1;
    double *times = malloc(repeats * sizeof *times);
    uint64_t *records = calloc(room + 1, 8), *work = calloc(longest + 1, 8);
    for (int i = 0; i < repeats; i++) {
        double begin = now();
        number = dz_read(text, len, lengths, count, records, room, work, longest, answer, DZ_ANSWER);
        times[i] = now() - begin;
    }
    qsort(times, repeats, sizeof *times, compare_times);
    for (int d = 0; d < 3; d++) {
        const uint64_t *one = answer + DZ_HEAD + DZ_DIMENSION * d;
        if (one[DZ_KIND] == DZ_BRAIN && one[DZ_START] + one[DZ_LENGTH] > filled)
            filled = one[DZ_START] + one[DZ_LENGTH];
    }
    for (size_t i = 0; i < filled; i++)
        sum = sum * 31 + records[i];
    printf("ours %zu %zu %d %.3f %.3f %lx %ld\n", len, filled, (int)number, times[repeats / 2], times[0], (unsigned long)sum, peak());
    return 0;
}
