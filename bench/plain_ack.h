/* The walk over an ACK frame that checks all of it, for the files of the plain side. */
#ifndef PLAIN_ACK_H
#define PLAIN_ACK_H

#include "plain_numbers.h"

/* What the check finds of a frame that it does not refuse. */
struct checked {
    uint64_t largest, delay;
    uint64_t count; /* ranges after the first */
    size_t ranges;  /* where the first range's length stands */
    uint64_t counted, ect0, ect1, ce;
    uint64_t used;
};

/* Reads a frame type, which is either of two: 2 where it is cut, 3 where it is another one or not in shortest form. */
static inline uint64_t take_either(struct reader *reader, uint64_t one, uint64_t other, uint64_t *found)
{
    if (!take(reader, found))
        return LUMBIXET_ENDS;
    if ((*found != one && *found != other) || reader->at != width(*found))
        return LUMBIXET_OTHER_TYPE;
    return LUMBIXET_ACCEPTED;
}

/* Walks over all ranges and writes nothing: 2 and 14 come before the room is judged. */
static inline uint64_t check_ranges(struct reader *reader, uint64_t largest, uint64_t count)
{
    for (;;) {
        uint64_t size, gap;
        if (!take(reader, &size))
            return LUMBIXET_ENDS;
        if (largest < size)
            return LUMBIXET_BELOW_ZERO;
        if (count-- == 0)
            return LUMBIXET_ACCEPTED;
        largest -= size;
        if (!take(reader, &gap))
            return LUMBIXET_ENDS;
        if (largest < gap + 2)
            return LUMBIXET_BELOW_ZERO;
        largest -= gap + 2;
    }
}

/* Checks a whole frame: its refusal, or 0 and what it found. */
static inline uint64_t check_ack(const uint8_t *bytes, size_t length, struct checked *ack)
{
    struct reader reader = {bytes, length, 0};
    uint64_t type, largest, delay, count;
    uint64_t result = take_either(&reader, ACK, ACK_WITH_COUNTS, &type);
    if (result)
        return result;
    if (!take(&reader, &largest) || !take(&reader, &delay) || !take(&reader, &count))
        return LUMBIXET_ENDS;
    size_t ranges = reader.at;
    result = check_ranges(&reader, largest, count);
    if (result)
        return result;
    uint64_t counted = type == ACK_WITH_COUNTS, ect0 = 0, ect1 = 0, ce = 0;
    if (counted && (!take(&reader, &ect0) || !take(&reader, &ect1) || !take(&reader, &ce)))
        return LUMBIXET_ENDS;
    *ack = (struct checked){largest, delay, count, ranges, counted, ect0, ect1, ce, reader.at};
    return LUMBIXET_ACCEPTED;
}

#endif
