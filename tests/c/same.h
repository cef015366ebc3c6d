/* What the checks of the headers share: sizes and places at compile time, and values of the archive beside those wanted. */
#ifndef SAME_H
#define SAME_H

#include <inttypes.h>
#include <stdio.h>
#include <string.h>

#include "lumbixet.h"

#define SIZE(type, bytes) _Static_assert(sizeof(type) == (bytes), #type)
#define AT(type, field, place) _Static_assert(offsetof(type, field) == (place), #type "." #field)

static int seen, faults;

#define SAME(got, wanted) same(#got, (uint64_t)(got), (uint64_t)(wanted), __FILE__, __LINE__)

static inline void same(const char *what, uint64_t got, uint64_t wanted, const char *file, int line)
{
    seen++;
    if (got == wanted)
        return;
    faults++;
    printf("%s: line %d: %s is %" PRIu64 ", not %" PRIu64 "\n", file, line, what, got, wanted);
}

static inline void same_bytes(const char *what, const void *got, const void *wanted, size_t length)
{
    seen++;
    if (memcmp(got, wanted, length) == 0)
        return;
    faults++;
    printf("header: %s are other bytes\n", what);
}

#endif
