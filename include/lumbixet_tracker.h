/* Lumbixet: the tracker of object statuses, for hosts in C and C++. docs/hosts/TRACKING.md shows the order of calls. What
 * lumbixet.h says of calls, records and lent memory holds here too.
 *
 * A tracker follows 256 media objects in a row from a first one. The host lends its record, and each call
 * updates it there; every call answers 0 for accepted or a refusal number, and a refused call changes nothing.
 * Every byte of a record may hold anything: one that is not consistent is refused with 1. Times and intervals
 * are in microseconds.
 */
#ifndef LUMBIXET_TRACKER_H
#define LUMBIXET_TRACKER_H

#include "lumbixet.h"

#ifdef __cplusplus
extern "C" {
#endif

/* So many objects are tracked, and so many bytes always suffice for their entries. */
#define LUMBIXET_TRACKED 256
#define LUMBIXET_TRACKER_ROOM 4096

/* The record. A host opens it by lumbixet_tracker_open and need not look inside. */
typedef struct {
    uint64_t first;                     /* the number of the first object */
    uint64_t interval;                  /* the expected interval between arrivals */
    uint64_t named;                     /* one past the place of the first arrival by order of calls, 0 for none */
    uint64_t objects[LUMBIXET_TRACKED]; /* a word each: top two bits 0 nothing, 1 ended early, 2 received, 3 late; then the time */
} lumbixet_tracker;

/* A playback deadline, or none: a type of its own, so that a plain time is not taken for one. */
typedef struct {
    uint64_t end; /* one past the deadline, and 0 for none */
} lumbixet_deadline;

static inline lumbixet_deadline lumbixet_no_deadline(void)
{
    lumbixet_deadline none = {0};
    return none;
}

static inline lumbixet_deadline lumbixet_deadline_at(uint64_t time)
{
    lumbixet_deadline at = {time == UINT64_MAX ? time : time + 1};
    return at;
}

/* Opens a tracker for the 256 objects from `first` on. What stood in the record is not looked at.
 * 5: the last of the 256 or the interval is above LUMBIXET_LARGEST. */
uint64_t lumbixet_tracker_open(lumbixet_tracker *tracker, uint64_t first, uint64_t interval);

/* An object arrived whole: late if that was after its deadline, lumbixet_no_deadline() or lumbixet_deadline_at(time).
 * A second arrival is ignored. 1, 5, then 17. */
uint64_t lumbixet_tracker_arrived(lumbixet_tracker *tracker, uint64_t object, uint64_t time, lumbixet_deadline deadline);

/* An object ended early: it is partial unless it arrives. A second early end, or one after an arrival, is ignored.
 * 1, 5, then 17. */
uint64_t lumbixet_tracker_ended_early(lumbixet_tracker *tracker, uint64_t object, uint64_t time);

/* Makes the report's header for a time and a report interval, and the entries, 16 bytes each, at the start of the
 * buffer; header.entries says how many. Both go to lumbixet_write_report as they are, in profile 1. An object that did not arrive
 * is not received once a larger one arrived, or once more than twice the interval has passed after its expected
 * arrival, counted from the first arrival; before that it has no entry.
 * 1; 5 for the time and the interval, then for an average outside -2^61 to 2^61 - 1; 9 where not all entries fit. */
lumbixet_report lumbixet_tracker_report(const lumbixet_tracker *tracker, uint64_t time, uint64_t interval, uint8_t *entries,
                                        size_t length);

#ifdef __cplusplus
}
#endif

#endif
