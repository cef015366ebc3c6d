/* The tracker in plain C, from document 02, No. 4: one walk that looks at every object, and a product of 128 bits. */
#include <string.h>

#include "plain.h"

__extension__ typedef __int128 wide;

enum { NOTHING, ENDED_EARLY, RECEIVED, LATE };

static const uint64_t time_bits = LUMBIXET_LARGEST;

static inline unsigned state_of(uint64_t word)
{
    return (unsigned)(word >> 62);
}

static bool first_is_named(const lumbixet_tracker *t)
{
    if (t->named != 0)
        return t->named <= LUMBIXET_TRACKED && state_of(t->objects[t->named - 1]) >= RECEIVED;
    for (size_t i = 0; i < LUMBIXET_TRACKED; i++)
        if (state_of(t->objects[i]) >= RECEIVED)
            return false;
    return true;
}

static bool numbers_obey(uint64_t first, uint64_t interval)
{
    return first <= LUMBIXET_LARGEST - (LUMBIXET_TRACKED - 1) && interval <= LUMBIXET_LARGEST;
}

static bool consistent(const lumbixet_tracker *t)
{
    return numbers_obey(t->first, t->interval) && first_is_named(t);
}

static uint64_t object_refusal(const lumbixet_tracker *t, uint64_t object, uint64_t time, uint64_t deadline)
{
    if (!consistent(t))
        return LUMBIXET_INCONSISTENT;
    if (object > LUMBIXET_LARGEST || time > LUMBIXET_LARGEST || deadline > LUMBIXET_LARGEST + 1)
        return LUMBIXET_TOO_LARGE;
    return object - t->first < LUMBIXET_TRACKED ? LUMBIXET_ACCEPTED : LUMBIXET_OUTSIDE;
}

uint64_t plain_tracker_open(lumbixet_tracker *tracker, uint64_t first, uint64_t interval)
{
    if (!numbers_obey(first, interval))
        return LUMBIXET_TOO_LARGE;
    *tracker = (lumbixet_tracker){.first = first, .interval = interval};
    return LUMBIXET_ACCEPTED;
}

uint64_t plain_tracker_arrived(lumbixet_tracker *tracker, uint64_t object, uint64_t time, lumbixet_deadline deadline)
{
    uint64_t refusal = object_refusal(tracker, object, time, deadline.end);
    if (refusal != LUMBIXET_ACCEPTED)
        return refusal;
    uint64_t place = object - tracker->first;
    if (state_of(tracker->objects[place]) >= RECEIVED)
        return LUMBIXET_ACCEPTED;
    if (tracker->named == 0)
        tracker->named = place + 1;
    uint64_t state = deadline.end != 0 && time >= deadline.end ? LATE : RECEIVED;
    tracker->objects[place] = state << 62 | time;
    return LUMBIXET_ACCEPTED;
}

uint64_t plain_tracker_ended_early(lumbixet_tracker *tracker, uint64_t object, uint64_t time)
{
    uint64_t refusal = object_refusal(tracker, object, time, 0);
    if (refusal == LUMBIXET_ACCEPTED && state_of(tracker->objects[object - tracker->first]) == NOTHING)
        tracker->objects[object - tracker->first] = (uint64_t)ENDED_EARLY << 62 | time;
    return refusal;
}

static void put(uint8_t *to, uint64_t value, int bytes)
{
    for (int i = bytes; i > 0; i--, value >>= 8)
        to[i - 1] = (uint8_t)value;
}

/* The arrivals: how many, the highest place, and the earliest and the latest time. */
struct arrivals {
    uint64_t count, highest, earliest, latest;
};

static struct arrivals arrivals_of(const lumbixet_tracker *t)
{
    struct arrivals a = {.earliest = UINT64_MAX};
    for (size_t i = 0; i < LUMBIXET_TRACKED; i++) {
        if (state_of(t->objects[i]) < RECEIVED)
            continue;
        uint64_t time = t->objects[i] & time_bits;
        a.count++;
        a.highest = i;
        if (time < a.earliest)
            a.earliest = time;
        if (time > a.latest)
            a.latest = time;
    }
    return a;
}

/* The status of an object, or 4 where it has none. */
static unsigned status_of(const lumbixet_tracker *t, const struct arrivals *a, size_t place, uint64_t now)
{
    static const unsigned statuses[] = {4, LUMBIXET_PARTIAL, LUMBIXET_RECEIVED, LUMBIXET_LATE};
    unsigned state = state_of(t->objects[place]);
    if (state != NOTHING || t->named == 0)
        return statuses[state];
    if (place < a->highest)
        return LUMBIXET_NOT_RECEIVED;
    wide due = t->objects[t->named - 1] & time_bits;
    due += (wide)t->interval * (place - (t->named - 1) + 2);
    return (wide)now > due ? LUMBIXET_NOT_RECEIVED : 4;
}

static uint64_t age_of(unsigned status, uint64_t now, uint64_t then)
{
    if (status == LUMBIXET_NOT_RECEIVED || now < then)
        return 0;
    return now - then < UINT32_MAX ? now - then : UINT32_MAX;
}

lumbixet_report plain_tracker_report(const lumbixet_tracker *tracker, uint64_t time, uint64_t interval, uint8_t *entries,
                                     size_t length)
{
    static const lumbixet_report empty;
    lumbixet_report made = {.header = {.timestamp = time, .interval = interval}}, refused = empty;
    uint8_t records[LUMBIXET_TRACKER_ROOM], *end = records;
    uint64_t counts[5] = {0};
    refused.result = !consistent(tracker) ? LUMBIXET_INCONSISTENT : LUMBIXET_TOO_LARGE;
    if (!consistent(tracker) || time > LUMBIXET_LARGEST || interval > LUMBIXET_LARGEST)
        return refused;
    struct arrivals a = arrivals_of(tracker);
    for (size_t i = 0; i < LUMBIXET_TRACKED; i++) {
        unsigned status = status_of(tracker, &a, i, time);
        counts[status]++;
        if (status == 4)
            continue;
        put(end, tracker->first + i, 8);
        put(end + 8, (uint64_t)status << 24, 4);
        put(end + 12, age_of(status, time, tracker->objects[i] & time_bits), 4);
        end += 16;
    }
    wide average = 0;
    if (a.count > 1) {
        average = a.latest - a.earliest;
        average = (average - (wide)tracker->interval * (a.count - 1)) / (wide)(a.count - 1);
    }
    if (average < -((wide)1 << 61) || average >= (wide)1 << 61)
        return refused;
    refused.result = LUMBIXET_NO_ROOM;
    if (length < (size_t)(end - records))
        return refused;
    memcpy(entries, records, (size_t)(end - records));
    made.header.received = counts[LUMBIXET_RECEIVED];
    made.header.late = counts[LUMBIXET_LATE];
    made.header.lost = counts[LUMBIXET_NOT_RECEIVED] + counts[LUMBIXET_PARTIAL];
    made.header.total = made.header.entries = LUMBIXET_TRACKED - counts[4];
    made.header.average = (int64_t)average;
    return made;
}
