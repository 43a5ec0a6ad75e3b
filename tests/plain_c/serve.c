/* The library behind a pipe, in a program of its own: tests/served.py starts it.

   A question is the number of a function and its arguments, each slice as its length and its contents, all numbers of 64
   bits. The answer is what the function returned, whether all that it may not touch is as it was, and then each slice that
   it may write. Every slice stands between two marked stretches. The length NONE asks for an empty slice whose pointer is null. */
#include "dzwonolin.h"

long read(int file, void *to, size_t count);
long write(int file, const void *from, size_t count);
void *malloc(size_t size);
void free(void *memory);
void _exit(int status);

#define NONE (~(uint64_t)0)
enum { GUARD = 64, MARK = 0xA5, ARGUMENTS = 6 };

/* b, n: bytes and numbers to be read; B, N, K: bytes, numbers and keys to be written; v: a number. */
static const char *const SHAPES[] = {"bnNNN", "bnvvN", "nvN", "nBN", "bNN", "bN", "bNNN", "bvvN", "nNN", "nvN", "nnvN",
                                     "bbNN", "bbNN", "bnvNN", "bnvvKN", "bnvvvN", "bvKN"};

struct argument {
    uint64_t count;
    size_t size;
    uint8_t *memory, *slice, *kept, *given;
};

static void take(void *to, size_t count)
{
    for (uint8_t *at = to; count; ) {
        long got = read(0, at, count);
        if (got <= 0)
            _exit(0);
        at += got;
        count -= got;
    }
}

static void give(const void *from, size_t count)
{
    for (const uint8_t *at = from; count; ) {
        long put = write(1, at, count);
        if (put <= 0)
            _exit(1);
        at += put;
        count -= put;
    }
}

static void take_slice(struct argument *one, char kind)
{
    int null = one->count == NONE;
    if (null)
        one->count = 0;
    one->size = one->count * (kind == 'b' || kind == 'B' ? 1 : kind == 'K' ? 4 : 8);
    one->memory = malloc(one->size + 2 * GUARD);
    one->kept = malloc(one->size + 1);
    if (!one->memory || !one->kept)
        _exit(2);
    one->slice = one->memory + GUARD;
    one->given = null ? 0 : one->slice;
    for (int i = 0; i < GUARD; i++)
        one->memory[i] = one->slice[one->size + i] = MARK;
    take(one->slice, one->size);
    for (size_t i = 0; i < one->size; i++)
        one->kept[i] = one->slice[i];
}

static int untouched(const struct argument *one, char kind)
{
    int same = 1;
    for (int i = 0; i < GUARD; i++)
        same &= one->memory[i] == MARK && one->slice[one->size + i] == MARK;
    if (kind == 'b' || kind == 'n')
        for (size_t i = 0; i < one->size; i++)
            same &= one->slice[i] == one->kept[i];
    return same;
}

#define BYTES(i) a[i].given, a[i].count
#define NUMBERS(i) (uint64_t *)a[i].given, a[i].count
#define KEYS(i) (int32_t *)a[i].given, a[i].count

static uint64_t call(uint64_t function, struct argument *a)
{
    switch (function) {
    case 0: return dz_read(BYTES(0), NUMBERS(1), NUMBERS(2), NUMBERS(3), NUMBERS(4));
    case 1: return dz_map_name(BYTES(0), NUMBERS(1), a[2].count, a[3].count, NUMBERS(4));
    case 2: return dz_find(NUMBERS(0), a[1].count, NUMBERS(2));
    case 3: return dz_pack(NUMBERS(0), BYTES(1), NUMBERS(2));
    case 4: return dz_unpack(BYTES(0), NUMBERS(1), NUMBERS(2));
    case 5: return dz_front(BYTES(0), NUMBERS(1));
    case 6: return dz_read_file(BYTES(0), NUMBERS(1), NUMBERS(2), NUMBERS(3));
    case 7: return dz_file_map_name(BYTES(0), a[1].count, a[2].count, NUMBERS(3));
    case 8: return dz_model_list(NUMBERS(0), NUMBERS(1), NUMBERS(2));
    case 9: return dz_structure_at(NUMBERS(0), a[1].count, NUMBERS(2));
    case 10: return dz_index_of(NUMBERS(0), NUMBERS(1), a[2].count, NUMBERS(3));
    case 11: return dz_compare(BYTES(0), BYTES(1), NUMBERS(2), NUMBERS(3));
    case 12: return dz_tail(BYTES(0), BYTES(1), NUMBERS(2), NUMBERS(3));
    case 13: return dz_map_names(BYTES(0), NUMBERS(1), a[2].count, NUMBERS(3), NUMBERS(4));
    case 14: return dz_label_keys(BYTES(0), NUMBERS(1), a[2].count, a[3].count, KEYS(4), NUMBERS(5));
    case 15: return dz_label_name(BYTES(0), NUMBERS(1), a[2].count, a[3].count, (int32_t)a[4].count, NUMBERS(5));
    default: return dz_gifti_keys(BYTES(0), a[1].count, KEYS(2), NUMBERS(3));
    }
}

int main(void)
{
    for (;;) {
        struct argument a[ARGUMENTS];
        uint64_t answer[2] = {0, 1}, function;
        take(&function, 8);
        const char *shape = SHAPES[function];
        for (int i = 0; shape[i]; i++) {
            take(&a[i].count, 8);
            if (shape[i] != 'v')
                take_slice(&a[i], shape[i]);
        }
        answer[0] = call(function, a);
        for (int i = 0; shape[i]; i++)
            answer[1] &= shape[i] == 'v' || untouched(&a[i], shape[i]);
        give(answer, sizeof answer);
        for (int i = 0; shape[i]; i++) {
            if (shape[i] == 'v')
                continue;
            if (shape[i] == 'B' || shape[i] == 'N' || shape[i] == 'K')
                give(a[i].slice, a[i].size);
            free(a[i].memory);
            free(a[i].kept);
        }
    }
}
