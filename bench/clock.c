#define _POSIX_C_SOURCE 199309L

#include "clock.h"

#include <time.h>

uint64_t clock_cost;

uint64_t now(void)
{
    struct timespec t;
    clock_gettime(CLOCK_MONOTONIC, &t);
    return (uint64_t)t.tv_sec * 1000000000 + (uint64_t)t.tv_nsec;
}

uint64_t since(uint64_t from)
{
    uint64_t passed = now() - from;
    return passed > clock_cost ? passed - clock_cost : 0;
}

void measure_clock(void)
{
    uint64_t least = UINT64_MAX;
    for (int i = 0; i < 20000; i++) {
        uint64_t from = now();
        uint64_t passed = now() - from;
        if (passed < least)
            least = passed;
    }
    clock_cost = least;
}
