/* The media objects of a hearing, one every 20 ms, and what became of them: `make host` builds and runs it.
 * What it must print stands in objects.expected, which was written by hand from document 02, No. 4. */
#include <inttypes.h>
#include <stdio.h>
#include <stdlib.h>

#include "lumbixet_tracker.h"

enum { FIRST = 500, INTERVAL = 20000, PLAYBACK = 40000, SHOWN = 8 };

static void must(uint64_t result, const char *what)
{
    if (result == LUMBIXET_ACCEPTED)
        return;
    fprintf(stderr, "%s: refused with %" PRIu64 "\n", what, result);
    exit(1);
}

/* Each object is played 40 ms after it was expected. */
static void arrives(lumbixet_tracker *tracker, uint64_t object, uint64_t time)
{
    uint64_t deadline = (object - FIRST) * INTERVAL + PLAYBACK;
    must(lumbixet_tracker_arrived(tracker, object, time, lumbixet_deadline_at(deadline)), "arrived");
}

/* A letter for each object: R received, L late, - not received, P partial, a dot where it has no status. */
static void report(const lumbixet_tracker *tracker, uint64_t time)
{
    static const char letters[] = "RL-P";
    uint8_t entries[LUMBIXET_TRACKER_ROOM];
    char strip[SHOWN + 1] = "........";
    lumbixet_report made = lumbixet_tracker_report(tracker, time, 100000, entries, sizeof entries);
    must(made.result, "report");
    for (uint64_t i = 0; i < made.header.entries; i++) {
        lumbixet_entry entry = lumbixet_read_entry(LUMBIXET_PROFILE_1, entries, 16 * made.header.entries, i);
        if (entry.object - FIRST < SHOWN)
            strip[entry.object - FIRST] = letters[entry.status];
    }
    printf("%6" PRIu64 "  %s  total %" PRIu64 ", received %" PRIu64 ", late %" PRIu64 ", lost %" PRIu64 ", average %" PRId64 "\n", time,
           strip, made.header.total, made.header.received, made.header.late, made.header.lost, made.header.average);
}

int main(void)
{
    lumbixet_tracker tracker;
    must(lumbixet_tracker_open(&tracker, FIRST, INTERVAL), "open");
    report(&tracker, 0);
    arrives(&tracker, 500, 0);
    arrives(&tracker, 501, 20000);
    puts("502 is lost on the way: nothing says so yet.");
    report(&tracker, 50000);
    arrives(&tracker, 504, 80000);
    puts("504 arrived, and 503 is behind: both 502 and 503 count as not received.");
    report(&tracker, 90000);
    must(lumbixet_tracker_ended_early(&tracker, 505, 101000), "ended early");
    arrives(&tracker, 503, 110000);
    puts("505 ended early; 503 came after all, 10 ms after its playback.");
    report(&tracker, 120000);
    puts("Now the line is quiet. 506 was expected at 120000: at 160000 twice the interval has passed, and not more.");
    report(&tracker, 160000);
    report(&tracker, 160001);
    report(&tracker, 200000);
    puts("The clock goes back: what was overdue by time alone is not yet.");
    report(&tracker, 10000);
    return 0;
}
