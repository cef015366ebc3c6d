/* The receiver by hand from document 01: the same answers and refusals as the archive, and no proof. */
#include "plain_record.h"

lumbixet_answer plain_open(uint64_t threshold, uint64_t reordering, uint64_t maximum_ms, uint64_t minimum_us)
{
    uint64_t result = LUMBIXET_ACCEPTED;
    if (threshold > LARGEST || reordering > LARGEST || maximum_ms > LARGEST || minimum_us > LARGEST)
        result = LUMBIXET_TOO_LARGE;
    else if (maximum_ms >= DELAY_LIMIT_MS || minimum_us > maximum_ms * 1000)
        result = LUMBIXET_DELAY;
    if (result)
        threshold = 1, reordering = 1, maximum_ms = 25, minimum_us = 1000;
    return (lumbixet_answer){result,
                             {.threshold = threshold,
                              .reordering = reordering,
                              .delay = maximum_ms * 1000,
                              .maximum = maximum_ms,
                              .minimum = minimum_us}};
}

/* The parameter is the call's own copy: it is changed in place and handed back. */
lumbixet_answer plain_packet(lumbixet_receiver receiver, uint64_t number, uint64_t time_us, bool eliciting,
                             uint64_t ecn)
{
    uint64_t result = take_packet(&receiver, number, time_us, eliciting, ecn);
    return (lumbixet_answer){result, receiver};
}

lumbixet_answer plain_timer(lumbixet_receiver receiver, uint64_t time_us)
{
    uint64_t result = LUMBIXET_ACCEPTED;
    if (!consistent(&receiver))
        result = LUMBIXET_INCONSISTENT;
    else if (time_us > LARGEST)
        result = LUMBIXET_TOO_LARGE;
    else if (!receiver.cause && receiver.pending_count && less(time_us, receiver.pending_first) >= receiver.delay)
        receiver.cause = LUMBIXET_TIMER;
    return (lumbixet_answer){result, receiver};
}

lumbixet_answer plain_threshold(lumbixet_receiver receiver, uint64_t sequence, uint64_t threshold, uint64_t delay_us,
                                uint64_t reordering)
{
    uint64_t result = LUMBIXET_ACCEPTED;
    if (!consistent(&receiver)) {
        result = LUMBIXET_INCONSISTENT;
    } else if (sequence > LARGEST || threshold > LARGEST || delay_us > LARGEST || reordering > LARGEST) {
        result = LUMBIXET_TOO_LARGE;
    } else if (delay_us >= DELAY_LIMIT_US || delay_us < receiver.minimum) {
        result = LUMBIXET_DELAY;
    } else if (sequence < receiver.sequence) {
        result = LUMBIXET_STALE;
    } else {
        receiver.threshold = threshold;
        receiver.reordering = reordering;
        receiver.delay = delay_us;
        receiver.sequence = sequence + 1;
    }
    return (lumbixet_answer){result, receiver};
}

lumbixet_answer plain_immediate(lumbixet_receiver receiver)
{
    uint64_t result = LUMBIXET_ACCEPTED;
    if (!consistent(&receiver))
        result = LUMBIXET_INCONSISTENT;
    else if (receiver.end == 0)
        result = LUMBIXET_NOTHING_YET;
    else if (!receiver.cause)
        receiver.cause = LUMBIXET_IMMEDIATE;
    return (lumbixet_answer){result, receiver};
}

lumbixet_answer plain_confirm(lumbixet_receiver receiver, uint64_t largest)
{
    uint64_t result = LUMBIXET_ACCEPTED;
    if (!consistent(&receiver))
        result = LUMBIXET_INCONSISTENT;
    else if (largest > LARGEST)
        result = LUMBIXET_TOO_LARGE;
    else if (receiver.end == 0)
        result = LUMBIXET_NOTHING_YET;
    else if (largest >= receiver.acknowledged)
        result = LUMBIXET_NOT_ACKNOWLEDGED;
    else if (largest + 1 < receiver.end)
        receiver.confirmed = larger(receiver.confirmed, largest + 1);
    else
        receiver.confirmed = largest;
    return (lumbixet_answer){result, receiver};
}
