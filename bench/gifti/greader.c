/* Plain C readers of a GIFTI label file, on libexpat.

     greader empty|plain FILE [REPEATS]

   `empty` parses and does nothing. `plain` is what a C programmer would write: the text of Data gathered in a buffer, a table of 256 for
   Base64 or strtol for numbers, the keys of the table sorted, and a search by halves for each key. It refuses malformed data (7), a wrong
   count (30) and an unknown key (31), and looks at nothing else. */
#define _GNU_SOURCE
#include <expat.h>
#include <string.h>
#include "timed.h"

enum { OTHER = -1, BLANK = -2, PAD = -3 };

static int8_t worth[256];
static int32_t *table, *keys;
static size_t labels, room, used, capacity, count;
static char *data;
static int in_data, base64, big, number;
static long dim0;

static void set_worth(void)
{
    const char *alphabet = "ABCDEFGHIJKLMNOPQRSTUVWXYZabcdefghijklmnopqrstuvwxyz0123456789+/";
    memset(worth, OTHER, sizeof worth);
    for (int i = 0; i < 64; i++)
        worth[(uint8_t)alphabet[i]] = i;
    worth[' '] = worth['\t'] = worth['\n'] = worth['\r'] = BLANK;
    worth['='] = PAD;
}

static int rising(const void *a, const void *b)
{
    int32_t x = *(const int32_t *)a, y = *(const int32_t *)b;
    return (x > y) - (x < y);
}

static int known(int32_t key)
{
    size_t low = 0, high = labels;
    while (low < high) {
        size_t middle = (low + high) / 2;
        if (table[middle] < key)
            low = middle + 1;
        else
            high = middle;
    }
    return low < labels && table[low] == key;
}

static void add_label(const char *key)
{
    if (labels == room)
        table = realloc(table, (room = room * 2 + 64) * sizeof *table);
    table[labels++] = strtol(key, 0, 10);
}

static void XMLCALL start(void *user, const char *name, const char **attributes)
{
    (void)user;
    in_data = !strcmp(name, "Data");
    used = in_data ? 0 : used;
    int label = !strcmp(name, "Label"), array = !strcmp(name, "DataArray");
    for (const char **a = attributes; *a && (label || array); a += 2) {
        if (label && !strcmp(*a, "Key"))
            add_label(a[1]);
        else if (array && !strcmp(*a, "Dim0"))
            dim0 = strtol(a[1], 0, 10);
        else if (array && !strcmp(*a, "Encoding"))
            base64 = !strcmp(a[1], "Base64Binary");
        else if (array && !strcmp(*a, "Endian"))
            big = !strcmp(a[1], "BigEndian");
    }
}

static void XMLCALL characters(void *user, const char *text, int length)
{
    (void)user;
    if (!in_data)
        return;
    if (used + length + 1 > capacity)
        data = realloc(data, capacity = (used + length + 1) * 2);
    memcpy(data + used, text, length);
    used += length;
}

/* The keys of Base64; a count of bytes other than four times Dim0 is 30. */
static int coded_keys(void)
{
    uint8_t *out = (uint8_t *)keys, *end = out + 4 * dim0;
    uint32_t value = 0;
    int held = 0, pads = 0;
    for (size_t i = 0; i < used; i++) {
        int w = worth[(uint8_t)data[i]];
        if (w >= 0) {
            if (pads)
                return 7;
            value = value << 6 | w;
            if (++held < 4)
                continue;
            if (out + 3 > end)
                return 30;
            *out++ = value >> 16;
            *out++ = value >> 8;
            *out++ = value;
            held = value = 0;
        } else if (w == PAD)
            pads++;
        else if (w != BLANK)
            return 7;
    }
    if (held == 2 && pads == 2 && !(value & 15) && out < end)
        *out++ = value >> 4;
    else if (held == 3 && pads == 1 && !(value & 3) && out + 1 < end) {
        *out++ = value >> 10;
        *out++ = value >> 2;
    } else if (held || pads)
        return 7;
    count = dim0;
    for (long i = 0; big && i < dim0; i++)
        keys[i] = __builtin_bswap32(keys[i]);
    return out == end ? 0 : 30;
}

static int listed_keys(void)
{
    char *end;
    data[used] = 0;
    for (char *at = data; ; at = end) {
        long value = strtol(at, &end, 10);
        if (end == at)
            return count == (size_t)dim0 ? 0 : 30;
        if (count == (size_t)dim0)
            return 30;
        keys[count++] = value;
    }
}

static void XMLCALL finish(void *user, const char *name)
{
    (void)user;
    if (strcmp(name, "Data"))
        return;
    in_data = 0;
    number = base64 ? coded_keys() : listed_keys();
    qsort(table, labels, sizeof *table, rising);
    for (size_t i = 0; !number && i < count; i++)
        if (!known(keys[i]))
            number = 31;
}

static void once(const char *mode, const uint8_t *text, size_t len)
{
    labels = count = number = 0;
    XML_Parser parser = XML_ParserCreate(0);
    if (strcmp(mode, "empty")) {
        XML_SetElementHandler(parser, start, finish);
        XML_SetCharacterDataHandler(parser, characters);
    }
    if (!XML_Parse(parser, (const char *)text, (int)len, 1))
        number = 3;
    XML_ParserFree(parser);
}

int main(int argc, char **argv)
{
    size_t len;
    if (argc < 3)
        return 2;
    uint8_t *text = load(argv[2], &len);
    int repeats = argc > 3 ? atoi(argv[3]) : 1;
    double *times = malloc(repeats * sizeof *times);
    keys = calloc(KEYS, sizeof *keys);
    set_worth();
    for (int i = 0; i < repeats; i++) {
        double begin = now();
        once(argv[1], text, len);
        times[i] = now() - begin;
    }
    show(argv[1], len, keys, number ? 0 : count, number, times, repeats);
    return 0;
}
