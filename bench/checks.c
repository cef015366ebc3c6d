#include "checks.h"

#include <inttypes.h>
#include <stdio.h>
#include <stdlib.h>
#include <string.h>

#include "inputs.h"

uint8_t left[5120], right[5120];

static uint64_t count;
static uint64_t state = 11;

void check(bool same, const char *call)
{
    count++;
    if (same)
        return;
    printf("bench: the sides differ: %s, comparison %" PRIu64 "\n", call, count);
    exit(1);
}

uint64_t compared(void)
{
    return count;
}

bool same_record(const lumbixet_receiver *a, const lumbixet_receiver *b)
{
    return memcmp(a, b, sizeof *a) == 0;
}

void check_answer(const lumbixet_answer *a, const lumbixet_answer *b, const char *call)
{
    check(a->result == b->result && same_record(&a->next, &b->next), call);
}

uint64_t draw(void)
{
    return pick(&state);
}

uint64_t below(uint64_t limit)
{
    return draw() % limit;
}

uint64_t any_number(void)
{
    static const uint64_t edges[] = {0, 63, 64, 1000, 1023, 1024, 16383, 16384, 16384000, 1073741823, 1073741824,
                                     LUMBIXET_LARGEST, UINT64_C(1) << 63, UINT64_MAX - 1};
    uint64_t kind = below(32);
    if (kind < 14)
        return edges[kind] + below(3) - 1;
    uint64_t bits = below(64);
    return draw() >> bits;
}

void any_numbers(uint64_t *list, size_t length)
{
    for (size_t i = 0; i < length; i++)
        list[i] = any_number();
}

uint64_t any_mark(uint64_t once_ce)
{
    uint64_t ecn = below(once_ce) ? below(LUMBIXET_ECN_CE) : LUMBIXET_ECN_CE;
    uint64_t above = below(256);
    return above < 64 ? 4 * above + ecn : ecn;
}

void fill_buffers(void)
{
    memset(left, 0xa5, sizeof left);
    memset(right, 0xa5, sizeof right);
}

bool same_buffers(void)
{
    return memcmp(left, right, sizeof left) == 0;
}
