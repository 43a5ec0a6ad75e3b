/* counts FILE.nii: for each dimension of a CIFTI-2 file its kind and length, and for each model of a brain map its type, the number of its
   structure, its count and its first index. Status 0: accepted, 1: refused, 3: could not ask.

   cc counts.c libdzwonolin.a                      the archive
   cc counts.c -ldzwonolin                         the shared library
   cc -DOPENED counts.c -ldl                       the shared library, opened by this program */
#include "dzwonolin.h"
#include <stdio.h>
#include <stdlib.h>

#ifdef OPENED
#include <dlfcn.h>
typedef uint64_t numbers_of(const uint8_t *, size_t, uint64_t *, size_t);
typedef uint64_t reader_of(const uint8_t *, size_t, uint64_t *, size_t, uint64_t *, size_t, uint64_t *, size_t);
typedef uint64_t lister_of(const uint64_t *, size_t, uint64_t *, size_t, uint64_t *, size_t);
static numbers_of *front_of_file;
static reader_of *read_file;
static lister_of *list_models;
static int ready(void)
{
    void *library = dlopen("libdzwonolin.so.1", RTLD_NOW);
    if (!library)
        return 0;
    *(void **)&front_of_file = dlsym(library, "dz_front");
    *(void **)&read_file = dlsym(library, "dz_read_file");
    *(void **)&list_models = dlsym(library, "dz_model_list");
    return front_of_file && read_file && list_models;
}
#else
#define front_of_file dz_front
#define read_file dz_read_file
#define list_models dz_model_list
static int ready(void) { return 1; }
#endif

enum { MOST = 32 << 20, LONGEST = 1048576, MODELS = 64 }; /* bytes up to the matrix; a length; models of a map */

static int refused(uint64_t number) { return printf("refused %d\n", (int)number), 1; }

static int counts(const uint8_t *file, size_t size)
{
    static const char *const kinds[] = {"none", "brain", "series", "scalars"};
    uint64_t front[DZ_FRONT], answer[DZ_ANSWER], list[4 * MODELS], models = 0, room = 0;
    uint64_t number = front_of_file(file, size, front, DZ_FRONT);
    if (number)
        return refused(number);
    for (int i = 0; i < 3; i++)
        room += front[DZ_FRONT_LENGTHS + i] <= LONGEST ? front[DZ_FRONT_LENGTHS + i] : 0; /* a longer one is refused */
    uint64_t *records = (uint64_t *)malloc(2 * room * sizeof *records + 1), *work = records + room;
    if (!records)
        return 3;
    number = read_file(file, size, records, room, work, room, answer, DZ_ANSWER);
    for (int d = 0; d < 3 && !number; d++) {
        const uint64_t *told = answer + DZ_HEAD + DZ_DIMENSION * d;
        if (told[DZ_KIND] != DZ_NONE)
            printf("%d %s %d\n", d, kinds[told[DZ_KIND]], (int)told[DZ_LENGTH]);
        if (told[DZ_KIND] == DZ_BRAIN)
            number = list_models(records + told[DZ_START], told[DZ_LENGTH], list, 4 * MODELS, &models, 1);
        for (uint64_t m = 0; told[DZ_KIND] == DZ_BRAIN && m < models; m++)
            printf("%c %d %d %d\n", "SV"[list[4 * m + 2]], (int)list[4 * m + 3], (int)list[4 * m + 1], (int)list[4 * m]);
    }
    free(records);
    return number ? refused(number) : 0;
}

int main(int count, char **arguments)
{
    FILE *file = count == 2 && ready() ? fopen(arguments[1], "rb") : NULL;
    uint8_t *bytes = (uint8_t *)malloc(MOST);
    int status = file && bytes ? counts(bytes, fread(bytes, 1, MOST, file)) : 3;
    if (status == 3)
        fprintf(stderr, "counts " DZ_VERSION ": no such file, or no library\n");
    free(bytes);
    return status;
}
