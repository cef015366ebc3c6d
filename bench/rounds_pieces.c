/* A report of 50 entries that arrives over several reads. */
#include "rounds.h"

#include "clock.h"
#include "inputs.h"

/* The first holds a whole report of either profile, the next one of profile 1; then a short read, and a byte. */
static const size_t part_lengths[PART_LENGTHS] = {1500, 1200, 64, 1};

/* One report from the opening to the end, through a buffer for all its entries, which the caller has read after each part. */
static inline uint64_t one_report(const struct side *side, uint64_t profile, const uint8_t *bytes, size_t length, size_t part)
{
    static uint8_t entries[LUMBIXET_OLD_ENTRIES * 24];
    lumbixet_pieces pieces;
    uint64_t sum = 0;
    side->pieces_open(&pieces, profile);
    for (size_t at = 0; at < length; at += part) {
        size_t rest = length - at;
        sum += side->pieces_take(&pieces, bytes + at, rest < part ? rest : part, entries, sizeof entries).records;
    }
    return sum + entries[7] + side->pieces_end(&pieces).header.total;
}

double read_in_parts(const struct side *side, int kind, int round)
{
    (void)round;
    const struct reports *r = &reports[kind / PART_LENGTHS ? OLD_GROUPS : OLD_LIST];
    size_t part = part_lengths[kind % PART_LENGTHS];
    size_t calls = part == 1 ? CALLS / 32 : CALLS;
    uint64_t sum = 0;
    uint64_t from = now();
    for (size_t i = 0; i < calls; i++)
        sum += one_report(side, r->profile, r->bytes[i % VARIANTS], r->lengths[i % VARIANTS], part);
    uint64_t passed = since(from);
    sink += sum;
    return (double)passed / (double)calls;
}
