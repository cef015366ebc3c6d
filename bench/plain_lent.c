/* The calls on a lent record by hand: they work in place through the pointer, with the same test of the record. */
#include "plain_record.h"

uint64_t plain_packet_lent(lumbixet_receiver *receiver, uint64_t number, uint64_t time_us, bool eliciting, uint64_t ecn)
{
    return take_packet(receiver, number, time_us, eliciting, ecn);
}

uint64_t plain_timer_lent(lumbixet_receiver *receiver, uint64_t time_us)
{
    if (!consistent(receiver))
        return LUMBIXET_INCONSISTENT;
    if (time_us > LARGEST)
        return LUMBIXET_TOO_LARGE;
    if (!receiver->cause && receiver->pending_count && less(time_us, receiver->pending_first) >= receiver->delay)
        receiver->cause = LUMBIXET_TIMER;
    return LUMBIXET_ACCEPTED;
}
