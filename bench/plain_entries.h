/* What the plain side's reports share: the rules of each profile, and of one entry by itself. */
#ifndef PLAIN_ENTRIES_H
#define PLAIN_ENTRIES_H

#include "plain_numbers.h"

#define MOST_ENTRIES 200

static inline bool known_profile(uint64_t profile)
{
    return profile == LUMBIXET_PROFILE_1 || profile == LUMBIXET_PROFILE_2;
}

/* Bytes of a record, of which those of profile 2 begin with the group. */
static inline size_t record_size(uint64_t profile)
{
    return profile == LUMBIXET_PROFILE_2 ? 24 : 16;
}

static inline uint64_t most_metrics(uint64_t profile)
{
    return profile == LUMBIXET_PROFILE_2 ? 8 : 4;
}

static inline bool good_type(uint64_t profile, uint64_t kind)
{
    if (profile == LUMBIXET_PROFILE_2)
        return kind % 2 == 0;
    return kind == 0x02 || kind == 0x04 || kind == 0x10 || kind == 0x12;
}

static inline bool entry_good(const uint8_t *record)
{
    if (load8(record) > LARGEST || record[8] > LUMBIXET_PARTIAL || record[9] || record[10] || record[11])
        return false;
    return record[8] != LUMBIXET_NOT_RECEIVED || load4(record + 12) == 0;
}

/* The signed average that is stored as a number. */
static inline int64_t average_of(uint64_t stored)
{
    return stored % 2 ? -(int64_t)(stored / 2) - 1 : (int64_t)(stored / 2);
}

#endif
