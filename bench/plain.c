/* What an engineer would write by hand from document 01, with the same answers and no proof: numbers and frames. */
#include "plain_ack.h"

lumbixet_number plain_read_number(const uint8_t *bytes, size_t length, size_t at)
{
    struct reader reader = {bytes, length, at};
    uint64_t value;
    if (!take(&reader, &value))
        return (lumbixet_number){.result = LUMBIXET_ENDS};
    return (lumbixet_number){LUMBIXET_ACCEPTED, value, reader.at, reader.at - at == width(value)};
}

lumbixet_put plain_put_number(uint8_t *buffer, size_t length, size_t at, uint64_t value)
{
    if (value > LARGEST)
        return (lumbixet_put){LUMBIXET_TOO_LARGE, 0};
    if (at > length || length - at < width(value))
        return (lumbixet_put){LUMBIXET_NO_ROOM, 0};
    uint8_t *end = store(buffer + at, value);
    return (lumbixet_put){LUMBIXET_ACCEPTED, (uint64_t)(end - buffer)};
}

/* ---- frames */

static uint64_t take_type(struct reader *reader, uint64_t type)
{
    uint64_t found;
    return take_either(reader, type, type, &found);
}

lumbixet_frequency plain_read_frequency(const uint8_t *bytes, size_t length)
{
    struct reader reader = {bytes, length, 0};
    uint64_t result = take_type(&reader, 0xaf);
    if (result)
        return (lumbixet_frequency){.result = result};
    uint64_t sequence, threshold, delay, reordering;
    if (!take(&reader, &sequence) || !take(&reader, &threshold) || !take(&reader, &delay) ||
        !take(&reader, &reordering))
        return (lumbixet_frequency){.result = LUMBIXET_ENDS};
    return (lumbixet_frequency){LUMBIXET_ACCEPTED, sequence, threshold, delay, reordering, reader.at};
}

lumbixet_immediate_frame plain_read_immediate(const uint8_t *bytes, size_t length)
{
    struct reader reader = {bytes, length, 0};
    uint64_t result = take_type(&reader, 0x1f);
    return (lumbixet_immediate_frame){result, result ? 0 : reader.at};
}

/* Writes the ranges that were checked, smallest before largest. */
static void fill_ranges(const uint8_t *p, uint64_t largest, uint64_t count, uint64_t *ranges)
{
    for (;;) {
        uint64_t smallest = largest - known(&p);
        *ranges++ = smallest;
        *ranges++ = largest;
        if (count-- == 0)
            return;
        largest = smallest - known(&p) - 2;
    }
}

lumbixet_ack plain_read_ack(const uint8_t *bytes, size_t length, uint64_t *ranges, size_t room)
{
    struct checked ack;
    uint64_t result = check_ack(bytes, length, &ack);
    if (result)
        return (lumbixet_ack){.result = result};
    if (room / 2 <= ack.count)
        return (lumbixet_ack){.result = LUMBIXET_NO_ROOM};
    fill_ranges(bytes + ack.ranges, ack.largest, ack.count, ranges);
    return (lumbixet_ack){LUMBIXET_ACCEPTED, ack.largest, ack.delay, ack.count + 1, ack.used,
                          ack.counted,       ack.ect0,    ack.ect1,  ack.ce};
}

lumbixet_put plain_put_frequency(uint8_t *buffer, size_t length, uint64_t sequence, uint64_t threshold, uint64_t delay,
                                 uint64_t reordering)
{
    if (sequence > LARGEST || threshold > LARGEST || delay > LARGEST || reordering > LARGEST)
        return (lumbixet_put){LUMBIXET_TOO_LARGE, 0};
    if (length < 2 + width(sequence) + width(threshold) + width(delay) + width(reordering))
        return (lumbixet_put){LUMBIXET_NO_ROOM, 0};
    uint8_t *p = store(buffer, 0xaf);
    p = store(store(store(store(p, sequence), threshold), delay), reordering);
    return (lumbixet_put){LUMBIXET_ACCEPTED, (uint64_t)(p - buffer)};
}

lumbixet_put plain_put_immediate(uint8_t *buffer, size_t length)
{
    return plain_put_number(buffer, length, 0, 0x1f);
}
