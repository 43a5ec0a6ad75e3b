#include <stdint.h>
#include <stdio.h>
#include <stdlib.h>
#include <string.h>
#include <time.h>

struct slice { const uint8_t *at; size_t length; };
uint64_t bench_sum(const uint8_t *at, size_t length, size_t from);

__attribute__((noinline)) static uint64_t plain_sum(const uint8_t *s, size_t n, size_t i)
{
    uint64_t sum = 0;
    for (;;) {
        while (i < n && (s[i] == 32 || s[i] == 9 || s[i] == 10 || s[i] == 13)) i++;
        if (i >= n || s[i] < 48 || s[i] > 57) return sum;
        uint64_t v = 0;
        while (i < n && s[i] >= 48 && s[i] <= 57) v = v * 10 + (s[i++] - 48);
        sum += v;
    }
}

__attribute__((noinline)) static uint64_t bounded_sum(const uint8_t *s, size_t n, size_t i)
{
    uint64_t sum = 0;
    for (;;) {
        while (i < n && (s[i] == 32 || s[i] == 9 || s[i] == 10 || s[i] == 13)) i++;
        uint64_t v = 0;
        int k = 0;
        while (k < 7 && i < n && s[i] >= 48 && s[i] <= 57) { v = v * 10 + (s[i++] - 48); k++; }
        if (k == 0) return sum;
        sum += v;
    }
}

static double now(void)
{
    struct timespec t;
    clock_gettime(CLOCK_PROCESS_CPUTIME_ID, &t);
    return t.tv_sec * 1e3 + t.tv_nsec / 1e6;
}

int main(void)
{
    size_t count = 1000000, n = 0;
    uint8_t *text = malloc(count * 8 + 64);
    for (size_t k = 0; k < count; k++) n += sprintf((char *)text + n, "%u ", (unsigned)((k * 7919) % 1048576));
    n += sprintf((char *)text + n, "</VertexIndices>");
    for (int round = 0; round < 8; round++) {
        double t[4];
        uint64_t x, y, z;
        t[0] = now();
        if (round % 2) { y = bench_sum(text, n, 0); t[1] = now(); x = plain_sum(text, n, 0); }
        else { x = plain_sum(text, n, 0); t[1] = now(); y = bench_sum(text, n, 0); }
        t[2] = now();
        z = bounded_sum(text, n, 0);
        t[3] = now();
        double c = round % 2 ? t[2] - t[1] : t[1] - t[0], r = round % 2 ? t[1] - t[0] : t[2] - t[1];
        printf("plain C %.2f ms, C with 7 digits %.2f ms, next_number %.2f ms, ratio %.2f and %.2f, %s\n",
               c, t[3] - t[2], r, r / c, r / (t[3] - t[2]), x == y && y == z ? "same sum" : "DIFFERENT");
    }
    return 0;
}
