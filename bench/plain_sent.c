/* The loss list in plain C, from document 02, No. 9: marks in words, and one walk over the ranges once the frame is checked. */
#include "plain_ack.h"

enum { WORDS = 16 };

static inline uint64_t oldest(const lumbixet_losses *l)
{
    return l->next < LUMBIXET_HELD ? 0 : l->next - LUMBIXET_HELD;
}

/* Sets the bits of `low` to `high`, at most 1,024 numbers. */
static inline void set(uint64_t *words, uint64_t low, uint64_t high)
{
    uint64_t from = UINT64_MAX << low % 64, to = UINT64_MAX >> (63 - high % 64);
    if (low / 64 == high / 64) {
        words[low / 64 % WORDS] |= from & to;
        return;
    }
    words[low / 64 % WORDS] |= from;
    for (uint64_t i = low / 64 + 1; i < high / 64; i++)
        words[i % WORDS] = UINT64_MAX;
    words[high / 64 % WORDS] |= to;
}

/* The held numbers that lie 3 or more below the end's number. */
static inline void set_passed(uint64_t *words, uint64_t floor, uint64_t end)
{
    if (end > floor + LUMBIXET_PACKET_THRESHOLD)
        set(words, floor, end - 1 - LUMBIXET_PACKET_THRESHOLD);
}

static bool consistent(const lumbixet_losses *l)
{
    uint64_t floor = oldest(l), held[WORDS] = {0}, passed[WORDS] = {0}, wrong = 0;
    if (l->next > LUMBIXET_LARGEST + 1 || l->end > l->next)
        return false;
    if (l->acknowledged_before > floor || l->lost_before != floor - l->acknowledged_before)
        return false;
    if (l->next > floor)
        set(held, floor, l->next - 1);
    set_passed(passed, floor, l->end);
    for (int i = 0; i < WORDS; i++) {
        uint64_t marks = l->acknowledged[i] | l->lost[i];
        wrong |= (l->acknowledged[i] & l->lost[i]) | (marks & ~held[i]) | (passed[i] & ~marks);
    }
    return wrong == 0;
}

void plain_losses_open(lumbixet_losses *losses)
{
    *losses = (lumbixet_losses){.next = 0};
}

lumbixet_sent plain_losses_send(lumbixet_losses *losses)
{
    if (!consistent(losses))
        return (lumbixet_sent){LUMBIXET_INCONSISTENT, 0};
    if (losses->next > LUMBIXET_LARGEST)
        return (lumbixet_sent){LUMBIXET_TOO_LARGE, 0};
    if (losses->next >= LUMBIXET_HELD) {
        uint64_t word = losses->next / 64 % WORDS, bit = UINT64_C(1) << losses->next % 64;
        if (!((losses->acknowledged[word] | losses->lost[word]) & bit))
            return (lumbixet_sent){LUMBIXET_NO_ROOM, 0};
        losses->acknowledged_before += (losses->acknowledged[word] & bit) != 0;
        losses->lost_before += (losses->lost[word] & bit) != 0;
        losses->acknowledged[word] &= ~bit;
        losses->lost[word] &= ~bit;
    }
    return (lumbixet_sent){LUMBIXET_ACCEPTED, losses->next++};
}

/* Sets what the ranges of a checked frame have of the held numbers. */
static void set_ranges(uint64_t *words, const uint8_t *p, const struct checked *ack, uint64_t floor)
{
    uint64_t largest = ack->largest;
    for (uint64_t left = ack->count;; left--) {
        uint64_t smallest = largest - known(&p);
        if (largest >= floor)
            set(words, smallest < floor ? floor : smallest, largest);
        if (left == 0 || smallest <= floor)
            return;
        largest = smallest - known(&p) - 2;
    }
}

static uint64_t count(const uint64_t *words)
{
    uint64_t sum = 0;
    for (int i = 0; i < WORDS; i++)
        sum += (uint64_t)__builtin_popcountll(words[i]);
    return sum;
}

/* Writes the held numbers whose bits are set, rising. A word of the oldest may hold the newest too. */
static void list(const uint64_t *words, uint64_t floor, uint64_t next, uint64_t *to)
{
    uint64_t last = (next - 1) / 64;
    for (uint64_t i = floor / 64; i <= last; i++) {
        uint64_t bits = words[i % WORDS];
        if (i == floor / 64)
            bits &= UINT64_MAX << floor % 64;
        if (i == last)
            bits &= UINT64_MAX >> (63 - (next - 1) % 64);
        for (; bits; bits &= bits - 1)
            *to++ = i * 64 + (uint64_t)__builtin_ctzll(bits);
    }
}

lumbixet_heard plain_losses_heard(lumbixet_losses *losses, const uint8_t *frame, size_t length, uint64_t *acknowledged,
                                  size_t acknowledged_length, uint64_t *lost, size_t lost_length)
{
    if (!consistent(losses))
        return (lumbixet_heard){.result = LUMBIXET_INCONSISTENT};
    struct checked ack;
    uint64_t result = check_ack(frame, length, &ack);
    if (result)
        return (lumbixet_heard){.result = result};
    if (ack.largest >= losses->next)
        return (lumbixet_heard){.result = LUMBIXET_NEVER_SENT};
    uint64_t floor = oldest(losses), end = losses->end > ack.largest ? losses->end : ack.largest + 1;
    uint64_t newly[WORDS] = {0}, passed[WORDS] = {0};
    set_ranges(newly, frame + ack.ranges, &ack, floor);
    set_passed(passed, floor, end);
    for (int i = 0; i < WORDS; i++) {
        passed[i] &= ~(losses->acknowledged[i] | losses->lost[i] | newly[i]);
        newly[i] &= ~losses->acknowledged[i];
    }
    lumbixet_heard heard = {LUMBIXET_ACCEPTED, ack.used, count(newly), count(passed)};
    if (heard.acknowledged > acknowledged_length || heard.lost > lost_length)
        return (lumbixet_heard){.result = LUMBIXET_NO_ROOM};
    list(newly, floor, losses->next, acknowledged);
    list(passed, floor, losses->next, lost);
    for (int i = 0; i < WORDS; i++) {
        losses->acknowledged[i] |= newly[i];
        losses->lost[i] = (losses->lost[i] & ~newly[i]) | passed[i];
    }
    losses->end = end;
    return heard;
}
