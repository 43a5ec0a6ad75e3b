/* As stdio.h. */
#include <stdint.h>
#define PRIu64 "lu"
