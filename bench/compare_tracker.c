/* The tracker: rooms that lose, delay and repeat objects, clocks that go back, large numbers, and made-up records. */
#include <string.h>

#include "checks.h"
#include "compare.h"
#include "sides.h"

static lumbixet_tracker one, other;

static void compare_words(uint64_t a, uint64_t b, const char *call)
{
    check(a == b && memcmp(&one, &other, sizeof one) == 0, call);
}

static void compare_tracker_report(uint64_t time, uint64_t interval, size_t room)
{
    static uint8_t here[LUMBIXET_TRACKER_ROOM], there[LUMBIXET_TRACKER_ROOM];
    memset(here, 0xa5, sizeof here);
    memset(there, 0xa5, sizeof there);
    lumbixet_report a = archive.tracker_report(&one, time, interval, here, room);
    lumbixet_report b = plain.tracker_report(&other, time, interval, there, room);
    check(memcmp(&a, &b, sizeof a) == 0 && memcmp(here, there, sizeof here) == 0, "tracker_report");
}

/* A call on an object near the first ones or anywhere, at a time near the clock or anywhere. */
static void compare_tracker_call(uint64_t first, uint64_t *clock)
{
    uint64_t object = below(8) ? first + below(below(2) ? 12 : 258) - below(2) : any_number();
    uint64_t time = below(8) ? *clock : any_number();
    lumbixet_deadline deadline = below(2) ? lumbixet_no_deadline() : lumbixet_deadline_at(time + below(3) - 1);
    if (below(8) == 0)
        deadline.end = any_number();
    if (below(4) == 0)
        compare_words(archive.tracker_ended_early(&one, object, time), plain.tracker_ended_early(&other, object, time),
                      "tracker_ended_early");
    else
        compare_words(archive.tracker_arrived(&one, object, time, deadline),
                      plain.tracker_arrived(&other, object, time, deadline), "tracker_arrived");
    *clock += below(60);
    if (below(10) == 0 && *clock > 200)
        *clock -= 200;
}

static void compare_room(void)
{
    uint64_t first = below(4) ? below(1000) : any_number(), clock = 0;
    uint64_t interval = below(4) ? below(50) : any_number();
    any_numbers((uint64_t *)&one, sizeof one / 8);
    other = one;
    compare_words(archive.tracker_open(&one, first, interval), plain.tracker_open(&other, first, interval), "tracker_open");
    for (size_t call = 0; call < 40; call++) {
        compare_tracker_call(one.first, &clock);
        uint64_t asked = below(8) ? clock + below(400) : any_number();
        compare_tracker_report(asked, below(8) ? below(1000) : any_number(), below(2) ? LUMBIXET_TRACKER_ROOM : below(300));
    }
    for (size_t spoiled = 0; spoiled < 4; spoiled++) {
        uint64_t value = below(2) ? below(260) : any_number();
        memcpy((uint8_t *)&one + 8 * below(spoiled % 2 ? 3 : sizeof one / 8), &value, 8);
        other = one;
        compare_tracker_call(one.first, &clock);
        compare_tracker_report(clock, 1000, LUMBIXET_TRACKER_ROOM);
    }
}

void compare_trackers(void)
{
    for (size_t room = 0; room < 3000; room++)
        compare_room();
}
