/* The proved reader on one GIFTI label file.

     gifti FILE [REPEATS] */
#define _GNU_SOURCE
#include "dzwonolin.h"
#include "timed.h"

int main(int argc, char **argv)
{
    size_t len;
    uint64_t count = 0, number = 0;
    if (argc < 2)
        return 2;
    uint8_t *text = load(argv[1], &len);
    int repeats = argc > 2 ? atoi(argv[2]) : 1;
    double *times = malloc(repeats * sizeof *times);
    int32_t *keys = calloc(KEYS, sizeof *keys);
    for (int i = 0; i < repeats; i++) {
        double begin = now();
        number = dz_gifti_keys(text, len, 0, keys, KEYS, &count, 1);
        times[i] = now() - begin;
    }
    show("ours", len, keys, count, (int)number, times, repeats);
    return 0;
}
