/* Holds include/lumbixet_tracker.h to the archive: sizes and places at compile time, and at run time every word of
 * the record, every refusal of each call, and one entry by its bytes. `make host` builds and runs it. */
#include "lumbixet_tracker.h"
#include "same.h"

SIZE(lumbixet_tracker, 2072);
AT(lumbixet_tracker, interval, 8);
AT(lumbixet_tracker, named, 16);
AT(lumbixet_tracker, objects, 24);

static const uint64_t ended = UINT64_C(1) << 62, received = UINT64_C(2) << 62, late = UINT64_C(3) << 62;

static void words(lumbixet_tracker *t)
{
    memset(t, 0xff, sizeof *t);
    SAME(lumbixet_tracker_open(t, LUMBIXET_LARGEST - 254, 10), LUMBIXET_TOO_LARGE);
    SAME(lumbixet_tracker_open(t, 0, LUMBIXET_LARGEST + 1), LUMBIXET_TOO_LARGE);
    SAME(t->first, UINT64_MAX);
    SAME(lumbixet_tracker_open(t, LUMBIXET_LARGEST - 255, 10), LUMBIXET_ACCEPTED);
    SAME(lumbixet_tracker_open(t, 100, 10), LUMBIXET_ACCEPTED);
    SAME(t->first, 100);
    SAME(t->interval, 10);
    SAME(t->named, 0);
    SAME(t->objects[255], 0);
    SAME(lumbixet_tracker_ended_early(t, 101, 40), LUMBIXET_ACCEPTED);
    SAME(t->objects[1], ended + 40);
    SAME(lumbixet_tracker_arrived(t, 102, 50, lumbixet_deadline_at(50)), LUMBIXET_ACCEPTED);
    SAME(t->objects[2], received + 50);
    SAME(t->named, 3);
    SAME(lumbixet_tracker_arrived(t, 100, 61, lumbixet_deadline_at(60)), LUMBIXET_ACCEPTED);
    SAME(t->objects[0], late + 61);
    SAME(t->named, 3);
}

static void refusals(lumbixet_tracker *t)
{
    lumbixet_tracker made_up = *t;
    uint8_t entries[LUMBIXET_TRACKER_ROOM];
    SAME(lumbixet_tracker_arrived(t, 99, 0, lumbixet_no_deadline()), LUMBIXET_OUTSIDE);
    SAME(lumbixet_tracker_arrived(t, 356, LUMBIXET_LARGEST + 1, lumbixet_no_deadline()), LUMBIXET_TOO_LARGE);
    SAME(lumbixet_tracker_arrived(t, 100, 0, lumbixet_deadline_at(LUMBIXET_LARGEST + 1)), LUMBIXET_TOO_LARGE);
    SAME(lumbixet_tracker_arrived(t, 100, 0, lumbixet_deadline_at(UINT64_MAX)), LUMBIXET_TOO_LARGE);
    SAME(lumbixet_tracker_ended_early(t, 356, 0), LUMBIXET_OUTSIDE);
    SAME(lumbixet_tracker_ended_early(t, LUMBIXET_LARGEST + 1, 0), LUMBIXET_TOO_LARGE);
    SAME(lumbixet_tracker_report(t, LUMBIXET_LARGEST + 1, 0, entries, sizeof entries).result, LUMBIXET_TOO_LARGE);
    SAME(lumbixet_tracker_report(t, 70, 1000, entries, 47).result, LUMBIXET_NO_ROOM);
    SAME(memcmp(t, &made_up, sizeof made_up), 0);
    made_up.named = 0;
    SAME(lumbixet_tracker_arrived(&made_up, 100, 0, lumbixet_no_deadline()), LUMBIXET_INCONSISTENT);
    made_up.named = 2;
    SAME(lumbixet_tracker_ended_early(&made_up, 100, 0), LUMBIXET_INCONSISTENT);
    made_up.named = 257;
    SAME(lumbixet_tracker_report(&made_up, 70, 1000, entries, sizeof entries).result, LUMBIXET_INCONSISTENT);
}

static void report(const lumbixet_tracker *t)
{
    static const uint8_t partial[] = {0, 0, 0, 0, 0, 0, 0, 101, 3, 0, 0, 0, 0, 0, 0, 30};
    uint8_t entries[48], report[64];
    lumbixet_report made = lumbixet_tracker_report(t, 70, 1000, entries, sizeof entries);
    SAME(made.result, LUMBIXET_ACCEPTED);
    SAME(made.header.timestamp, 70);
    SAME(made.header.interval, 1000);
    SAME(made.header.total, 3);
    SAME(made.header.received, 1);
    SAME(made.header.late, 1);
    SAME(made.header.lost, 1);
    SAME(made.header.average, 1);
    SAME(made.header.metrics, 0);
    SAME(made.header.entries, 3);
    SAME(memcmp(entries + 16, partial, sizeof partial), 0);
    SAME(lumbixet_write_report(LUMBIXET_PROFILE_1, report, sizeof report, made.header, entries, sizeof entries, LUMBIXET_ENTRIES).kept, 3);
}

int main(void)
{
    lumbixet_tracker tracker;
    words(&tracker);
    refusals(&tracker);
    report(&tracker);
    if (faults == 0)
        printf("tracker: %d values of the archive are as include/lumbixet_tracker.h says\n", seen);
    return faults != 0;
}
