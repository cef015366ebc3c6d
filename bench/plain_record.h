/* The record by hand from document 01: when it is consistent, and what a packet changes in place.
 * The calls by value work on a copy of their own, those on a lent record on the host's. */
#ifndef PLAIN_RECORD_H
#define PLAIN_RECORD_H

#include "plain_numbers.h"
#include "plain_window.h"

#define DELAY_LIMIT_MS 16384
#define DELAY_LIMIT_US 16384000

static inline bool consistent(const lumbixet_receiver *r)
{
    uint64_t end = r->end;
    if (end > LARGEST + 1 || r->pending_count > LARGEST + 1 || r->sequence > LARGEST + 1)
        return false;
    if (r->arrived > LARGEST || r->pending_first > LARGEST || r->threshold > LARGEST || r->reordering > LARGEST)
        return false;
    if (r->total_ect0 > LARGEST || r->total_ect1 > LARGEST || r->total_ce > LARGEST || r->total_unmarked > LARGEST)
        return false;
    if (r->maximum >= DELAY_LIMIT_MS || r->minimum > r->maximum * 1000)
        return false;
    if (r->delay >= DELAY_LIMIT_US || r->delay < r->minimum)
        return false;
    if (r->acknowledged > end || r->highest > end || r->pending_end > end)
        return false;
    if ((r->pending_count == 0) != (r->pending_end == 0))
        return false;
    if (r->cause > (end ? 5 : 0) || r->confirmed > less(end, 1))
        return false;
    if (end && !is_marked(r->window, PLACES - 1))
        return false;
    return none_below(r->window, less(PLACES, end));
}

/* The place of number n, or 0 where it lies below the window. */
static inline uint64_t place_of(const lumbixet_receiver *r, uint64_t n)
{
    return less(n + PLACES, r->end);
}

/* The larger of the record's own floor and the window's. */
static inline uint64_t floor_of(const lumbixet_receiver *r)
{
    return larger(r->confirmed, less(r->end, PLACES));
}

/* Whether a number from `from` up to below `to` is missing in the window; *m is then the smallest. */
static inline bool missing(const lumbixet_receiver *r, uint64_t from, uint64_t to, uint64_t *m)
{
    from = larger(from, floor_of(r));
    if (from >= to)
        return false;
    uint64_t last = place_of(r, to);
    uint64_t place = first_missing(r->window, place_of(r, from), last);
    *m = r->end + place - PLACES;
    return place < last;
}

/* Cause 3, judged on the record with the packet marked; `highest` is the end of the earlier H. */
static inline bool order(const lumbixet_receiver *r, uint64_t number, uint64_t highest)
{
    uint64_t m;
    if (r->reordering == 0)
        return false;
    if (r->reordering == 1)
        return number + 1 < highest || missing(r, highest, number, &m);
    uint64_t reach = r->reordering < PLACES ? r->reordering : PLACES - 1;
    uint64_t newest = r->pending_end - 1;
    return missing(r, less(r->acknowledged, reach), newest, &m) && newest - m >= reach;
}

static inline uint64_t packet_refusal(const lumbixet_receiver *r, uint64_t number, uint64_t time_us)
{
    if (!consistent(r))
        return LUMBIXET_INCONSISTENT;
    if (number > LARGEST || time_us > LARGEST)
        return LUMBIXET_TOO_LARGE;
    if (number >= r->end)
        return LUMBIXET_ACCEPTED;
    if (number < floor_of(r))
        return LUMBIXET_BELOW_WINDOW;
    return is_marked(r->window, place_of(r, number)) ? LUMBIXET_REPEATED : LUMBIXET_ACCEPTED;
}

/* The total of the mark that an ECN field gives. */
static inline uint64_t *total_of(lumbixet_receiver *r, uint64_t ecn)
{
    switch (ecn % 4) {
    case LUMBIXET_ECN_ECT1:
        return &r->total_ect1;
    case LUMBIXET_ECN_ECT0:
        return &r->total_ect0;
    case LUMBIXET_ECN_CE:
        return &r->total_ce;
    default:
        return &r->total_unmarked;
    }
}

/* Changes the record in place; a refused packet leaves it as it was. */
static inline uint64_t take_packet(lumbixet_receiver *r, uint64_t number, uint64_t time_us, bool eliciting, uint64_t ecn)
{
    uint64_t refusal = packet_refusal(r, number, time_us);
    if (refusal)
        return refusal;
    uint64_t *total = total_of(r, ecn);
    *total += *total < LARGEST;
    bool marked = ecn % 4 == LUMBIXET_ECN_CE;
    bool congested = marked && (r->sequence == 0 || r->end == 0 || r->ce == 0);
    uint64_t highest = r->highest;
    if (number < r->end) {
        mark(r->window, place_of(r, number));
    } else {
        advance(r->window, number + 1 - r->end);
        mark(r->window, PLACES - 1);
        r->end = number + 1;
        r->arrived = time_us;
    }
    r->ce = marked;
    if (!eliciting)
        return LUMBIXET_ACCEPTED;
    if (r->pending_count == 0)
        r->pending_first = time_us;
    if (r->pending_count <= LARGEST)
        r->pending_count++;
    r->pending_end = larger(r->pending_end, number + 1);
    r->highest = larger(highest, number + 1);
    if (r->cause == LUMBIXET_NOT_DUE) {
        if (r->pending_count > r->threshold)
            r->cause = LUMBIXET_COUNT;
        else if (order(r, number, highest))
            r->cause = LUMBIXET_ORDER;
        else if (congested)
            r->cause = LUMBIXET_CONGESTION;
    }
    return LUMBIXET_ACCEPTED;
}

#endif
