/* The ACK frame by hand in one walk over the window: an edge is a place whose mark differs from that of the place below it,
 * so the edges of a word from the highest down are the ends of its runs, one after the other. It has a file of its own:
 * beside it in one file the compiler lays plain C's packet out slower, and the packet's rows would flatter the archive. */
#include "plain_record.h"

enum { MOST_IN_A_BYTE = 63 }; /* the largest range count that takes one byte */

/* The edges of word i, where no place below `least` counts as marked. */
static uint64_t edges(const uint64_t *words, size_t i, uint64_t least)
{
    size_t lowest = least / 64;
    uint64_t word = i == lowest ? words[i] & ~UINT64_C(0) << least % 64 : words[i];
    uint64_t below = i == lowest ? 0 : words[i - 1] >> 63;
    return word ^ (word << 1 | below);
}

/* A gap or a length, which are below 1,024. */
static size_t small_width(uint64_t value)
{
    return value < 64 ? 1 : 2;
}

static uint8_t *store_small(uint8_t *p, uint64_t value)
{
    if (value < 64) {
        *p = (uint8_t)value;
        return p + 1;
    }
    p[0] = (uint8_t)(0x40 | value >> 8);
    p[1] = (uint8_t)value;
    return p + 2;
}

/* The pairs that were stored: the place behind them, how many there are, and what the next one takes, 0 where there is none. */
struct pairs {
    uint8_t *end;
    uint64_t count;
    size_t next;
};

/* Stores the pairs of gap and length below the first range, which begins at place `first`: at most so many, and as many
 * as fit before `limit`. */
static struct pairs store_pairs(const uint64_t *words, uint64_t first, uint64_t least, uint64_t most, uint8_t *p,
                                       const uint8_t *limit)
{
    size_t i = first / 64;
    uint64_t left = edges(words, i, least) & ((UINT64_C(1) << first % 64) - 1);
    uint64_t last = first, gap = 0, count = 0;
    for (;;) {
        while (left == 0) {
            if (i == least / 64)
                return (struct pairs){p, count, 0};
            left = edges(words, --i, least);
        }
        unsigned bit = 63 - (unsigned)__builtin_clzll(left);
        uint64_t place = 64 * i + bit, size = last - place - 1;
        left &= ~(UINT64_C(1) << bit);
        last = place;
        if (gap == 0) {
            gap = size + 1;
            continue;
        }
        size_t next = small_width(gap - 1) + small_width(size);
        if (count == most || (size_t)(limit - p) < next)
            return (struct pairs){p, count, next};
        p = store_small(store_small(p, gap - 1), size);
        count++;
        gap = 0;
    }
}

/* Writes the frame at the start of the buffer: its refusal, or 0 and its length. Only the first range and the counts can
 * be refused for room, so whatever else fits is stored as it is found. */
static uint64_t put_ack(const lumbixet_receiver *r, uint64_t time_us, bool counts, uint8_t *buffer, size_t length,
                               uint64_t *written)
{
    *written = 0;
    if (!consistent(r))
        return LUMBIXET_INCONSISTENT;
    if (time_us > LARGEST)
        return LUMBIXET_TOO_LARGE;
    if (r->end == 0)
        return LUMBIXET_NOTHING_YET;
    const uint64_t tail[3] = {r->total_ect0, r->total_ect1, r->total_ce};
    size_t tail_bytes = counts ? width(tail[0]) + width(tail[1]) + width(tail[2]) : 0;
    uint64_t delay = less(time_us, r->arrived) / 8;
    uint64_t least = place_of(r, r->confirmed);
    uint64_t first = larger(PLACES - run_below(r->window, PLACES, true), least);
    size_t head = 1 + width(r->end - 1) + width(delay);
    if (length < head + 1 + small_width(PLACES - 1 - first) + tail_bytes)
        return LUMBIXET_NO_ROOM;
    uint8_t *field = store(store(store(buffer, counts ? ACK_WITH_COUNTS : ACK), r->end - 1), delay);
    const uint8_t *limit = buffer + length - tail_bytes;
    struct pairs pairs = store_pairs(r->window, first, least, MOST_IN_A_BYTE, store_small(field + 1, PLACES - 1 - first), limit);
    /* One more is kept only where it fits beside a count of two bytes; then all is stored once more. */
    if (pairs.count == MOST_IN_A_BYTE && pairs.next && (size_t)(limit - pairs.end) >= 1 + pairs.next)
        pairs = store_pairs(r->window, first, least, PLACES, store_small(field + 2, PLACES - 1 - first), limit);
    uint8_t *p = pairs.end;
    store(field, pairs.count);
    for (int i = 0; i < (counts ? 3 : 0); i++)
        p = store(p, tail[i]);
    *written = (uint64_t)(p - buffer);
    return LUMBIXET_ACCEPTED;
}

/* What a written ACK changes in the record. */
static void settle(lumbixet_receiver *r)
{
    r->acknowledged = r->end;
    r->pending_end = 0;
    r->pending_count = 0;
    r->cause = LUMBIXET_NOT_DUE;
}

lumbixet_wrote plain_write(lumbixet_receiver receiver, uint64_t time_us, bool counts, uint8_t *buffer, size_t length)
{
    uint64_t written, result = put_ack(&receiver, time_us, counts, buffer, length, &written);
    if (result == LUMBIXET_ACCEPTED)
        settle(&receiver);
    return (lumbixet_wrote){result, written, receiver};
}

lumbixet_wrote_lent plain_write_lent(lumbixet_receiver *receiver, uint64_t time_us, bool counts, uint8_t *buffer,
                                     size_t length)
{
    uint64_t written, result = put_ack(receiver, time_us, counts, buffer, length, &written);
    if (result == LUMBIXET_ACCEPTED)
        settle(receiver);
    return (lumbixet_wrote_lent){result, written};
}
