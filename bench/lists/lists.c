/* The short list: making it beside a plain C loop, and its questions beside a scan of all records. CPU time, the best of the rounds. */
#include <stdio.h>
#include <stdlib.h>
#include <time.h>
#include "dzwonolin.h"

enum { MODELS = 21, ROUNDS = 30 };

static double now(void)
{
    struct timespec t;
    clock_gettime(CLOCK_PROCESS_CPUTIME_ID, &t);
    return 1e6 * t.tv_sec + 1e-3 * t.tv_nsec;
}

static void best(double *least, double since, double count)
{
    double took = (now() - since) / count;
    if (took < *least)
        *least = took;
}

/* what dz_model_list does, in one plain loop */
__attribute__((noinline)) static uint64_t plain(const uint64_t *records, size_t n, uint64_t *list, size_t room, uint64_t *count)
{
    char seen[64] = {0};
    uint64_t first[64], kinds[64], last = 64;
    size_t runs = 0;
    if (n < 1 || n > 1048576)
        return 15;
    for (size_t i = 0; i < n; i++) {
        uint64_t x = records[i], kind = x >> 48;
        if (x >> 54 || (!(x >> 53) && (x & 0xffffffffffff) > 1048575))
            return 16;
        if (kind == last)
            continue;
        if (seen[kind])
            return 26;
        seen[kind] = 1;
        last = kinds[runs] = kind;
        first[runs++] = i;
    }
    if (room < runs)
        return 17;
    for (size_t i = 0; i < runs; i++) {
        list[4 * i] = first[i];
        list[4 * i + 1] = (i + 1 < runs ? first[i + 1] : n) - first[i];
        list[4 * i + 2] = kinds[i] >> 5;
        list[4 * i + 3] = kinds[i] & 31;
    }
    *count = runs;
    return 0;
}

__attribute__((noinline)) static uint64_t scan(const uint64_t *records, size_t n, uint64_t record)
{
    for (size_t i = 0; i < n; i++)
        if (records[i] == record)
            return i;
    return n;
}

static void fill(uint64_t *records, size_t n)
{
    for (size_t i = 0; i < n; i++) {
        uint64_t m = i * MODELS / n, j = i - (m * n + MODELS - 1) / MODELS;
        records[i] = m < 2 ? m << 48 | j : 1ULL << 53 | m << 48 | (j >> 16) << 32 | (j >> 8 & 255) << 16 | (j & 255);
    }
}

static void measure(size_t n)
{
    uint64_t *records = malloc(8 * n), list[256], other[256], many[256], answer[2], place, count = 0, runs = 0;
    volatile uint64_t sum = 0;
    double made = 1e9, beside = 1e9, told = 1e9, told64 = 1e9, sought = 1e9, scanned = 1e9;
    fill(records, n);
    for (int i = 0; i < 64; i++) {
        many[4 * i] = 1000 * i;
        many[4 * i + 1] = 1000;
        many[4 * i + 2] = i >> 5;
        many[4 * i + 3] = i & 31;
    }
    for (int round = 0; round < ROUNDS; round++) {
        double since = now();
        sum += dz_model_list(records, n, list, 256, &count, 1);
        best(&made, since, 1);
        since = now();
        sum += plain(records, n, other, 64, &runs);
        best(&beside, since, 1);
        since = now();
        for (uint64_t i = 0; i < 10000; i++)
            sum += dz_structure_at(list, 4 * count, i * 7919 % n, answer, 2) + answer[1];
        best(&told, since, 10000);
        since = now();
        for (uint64_t i = 0; i < 10000; i++)
            sum += dz_structure_at(many, 256, i * 7919 % 64000, answer, 2) + answer[1];
        best(&told64, since, 10000);
        since = now();
        for (uint64_t i = 0; i < 100; i++)
            sum += dz_index_of(list, 4 * count, records, n, records[i * 245489 % n], &place, 1) + place;
        best(&sought, since, 100);
        since = now();
        for (uint64_t i = 0; i < 100; i++)
            sum += scan(records, n, records[i * 245489 % n]);
        best(&scanned, since, 100);
    }
    int same = count == runs;
    for (size_t i = 0; i < 4 * count; i++)
        same &= list[i] == other[i];
    printf("%zu records, %d models, %s: made in %.1f us, by a plain loop in %.1f us (%.2f times)\n", n, (int)count,
           same ? "the same list" : "ANOTHER LIST", made, beside, made / beside);
    printf("  structure_at %.3f us, of 64 models %.3f us; index_of %.2f us, a scan of all %.2f us\n", told, told64, sought, scanned);
    free(records);
}

int main(void)
{
    measure(91282);
    measure(1048576);
    return 0;
}
