/* Computes again what include/lumbixet.h gives as room that always suffices, and sees each reached by the archive and
 * never passed. Also: the time to wake against the timer call, the words for numbers, the version. `make host` runs it. */
#include <inttypes.h>
#include <stdio.h>
#include <string.h>

#include "lumbixet.h"

enum { WINDOW = 1024 };

static int seen, faults;

#define HOLDS(fact) holds(#fact, (fact), __LINE__)

static void holds(const char *what, bool is_so, int line)
{
    seen++;
    if (is_so)
        return;
    faults++;
    printf("room: line %d: it is not so that %s\n", line, what);
}

/* How many bytes a number takes on the wire (RFC 9000, section 16). */
static unsigned width(uint64_t number)
{
    return number < 64 ? 1 : number < 16384 ? 2 : number < (1 << 30) ? 4 : 8;
}

/* The most bytes that an ACK frame of the window can take. A range after the first takes a gap of g + 1 places and l + 1
 * places of its own, and the bytes of g and l. Of each width the least number is tried: a larger one takes more places
 * and no more bytes. Type, largest, delay and range count take at most 1, 8, 8 and 2, and each of the three ECN counts 8. */
static unsigned most_bytes_of_ack(void)
{
    static const unsigned least[] = {0, 64};
    static unsigned most[WINDOW];
    for (unsigned places = 0; places < WINDOW; places++)
        for (unsigned g = 0; g < 2; g++)
            for (unsigned l = 0; l < 2; l++) {
                unsigned taken = least[g] + 1 + least[l] + 1;
                unsigned bytes = taken <= places ? width(least[g]) + width(least[l]) + most[places - taken] : 0;
                most[places] = bytes > most[places] ? bytes : most[places];
            }
    unsigned ranges = 0;
    for (unsigned first = 0; first < WINDOW; first++) {
        unsigned bytes = width(first) + most[WINDOW - 1 - first];
        ranges = bytes > ranges ? bytes : ranges;
    }
    return 1 + 8 + 8 + 2 + ranges + 3 * 8;
}

/* A receiver that got every second number of a window, the last of them `largest`, at time 0. */
static lumbixet_receiver every_second(uint64_t largest)
{
    lumbixet_receiver receiver = lumbixet_open(1, 1, 25, 1000).next;
    for (uint64_t number = largest - (WINDOW - 2); number <= largest; number += 2) {
        lumbixet_answer answer = lumbixet_packet(receiver, number, 0, true, LUMBIXET_ECN_CE);
        HOLDS(answer.result == LUMBIXET_ACCEPTED);
        receiver = answer.next;
    }
    return receiver;
}

static void ack_room(void)
{
    static uint8_t frame[LUMBIXET_ACK_ROOM];
    static uint64_t ranges[LUMBIXET_RANGES_ROOM(LUMBIXET_ACK_ROOM)];
    HOLDS(most_bytes_of_ack() == LUMBIXET_ACK_ROOM);
    lumbixet_receiver receiver = every_second(LUMBIXET_LARGEST);
    HOLDS(receiver.total_ce == WINDOW / 2);
    receiver.total_ect0 = receiver.total_ect1 = receiver.total_ce = LUMBIXET_LARGEST;
    lumbixet_wrote wrote = lumbixet_write(receiver, LUMBIXET_LARGEST, true, frame, sizeof frame);
    HOLDS(wrote.result == LUMBIXET_ACCEPTED && wrote.length == LUMBIXET_ACK_ROOM);
    HOLDS(lumbixet_read_ack(frame, sizeof frame, ranges, sizeof ranges / 8).ranges == WINDOW / 2);
    wrote = lumbixet_write(receiver, LUMBIXET_LARGEST, true, frame, sizeof frame - 1);
    HOLDS(wrote.result == LUMBIXET_ACCEPTED && wrote.length < LUMBIXET_ACK_ROOM - 1);
    wrote = lumbixet_write(receiver, LUMBIXET_LARGEST, false, frame, sizeof frame);
    HOLDS(wrote.result == LUMBIXET_ACCEPTED && wrote.length == LUMBIXET_ACK_ROOM - 3 * 8);
}

static void ranges_room(void)
{
    static uint8_t frame[LUMBIXET_ACK_ROOM];
    static uint64_t ranges[LUMBIXET_RANGES_ROOM(LUMBIXET_ACK_ROOM)];
    /* five numbers of at least a byte hold one range, each further range is two numbers more */
    for (uint64_t bytes = 5; bytes < 70000; bytes++)
        HOLDS(2 * (1 + (bytes - 5) / 2) <= LUMBIXET_RANGES_ROOM(bytes));
    lumbixet_receiver receiver = every_second(WINDOW - 2);
    for (size_t room = 6; room <= sizeof frame; room++) {
        uint64_t length = lumbixet_write(receiver, 0, room % 2 && room > 9, frame, room).length;
        HOLDS(lumbixet_read_ack(frame, length, ranges, LUMBIXET_RANGES_ROOM(length)).result == LUMBIXET_ACCEPTED);
    }
    /* where each number takes one byte, not one number less would do */
    static const uint8_t shortest[67] = {0x02, 63};
    for (uint8_t more = 0; more <= 31; more++) {
        uint64_t length = 5 + 2 * (uint64_t)more;
        memcpy(frame, shortest, sizeof shortest);
        frame[3] = more;
        HOLDS(lumbixet_read_ack(frame, length, ranges, LUMBIXET_RANGES_ROOM(length)).ranges == 1 + (uint64_t)more);
        HOLDS(lumbixet_read_ack(frame, length, ranges, LUMBIXET_RANGES_ROOM(length) - 1).result == LUMBIXET_NO_ROOM);
    }
}

/* Each number of a frame takes at most 8 bytes, and the largest does. */
static void frequency_room(void)
{
    uint8_t buffer[LUMBIXET_FREQUENCY_ROOM];
    const uint64_t most = LUMBIXET_LARGEST;
    HOLDS(LUMBIXET_FREQUENCY_ROOM == 2 + 4 * 8);
    HOLDS(lumbixet_put_frequency(buffer, sizeof buffer, most, most, most, most).next == LUMBIXET_FREQUENCY_ROOM);
}

/* So does each of a header; the metric count takes one, the entry count two, and a type one in profile 1 and eight in 2. */
static void report_room(uint64_t profile, size_t room, size_t record, const lumbixet_header *header)
{
    static uint8_t buffer[LUMBIXET_REPORT_2_ROOM], records[LUMBIXET_ENTRIES * 24];
    memset(records, 0, sizeof records);
    for (size_t i = 0; i < LUMBIXET_ENTRIES; i++)
        records[record * i + 7] = (uint8_t)i;
    lumbixet_written written =
        lumbixet_write_report(profile, buffer, room, *header, records, LUMBIXET_ENTRIES * record, LUMBIXET_ENTRIES);
    HOLDS(written.result == LUMBIXET_ACCEPTED && written.next == room && written.kept == LUMBIXET_ENTRIES);
    HOLDS(lumbixet_read_report(profile, buffer, room).result == LUMBIXET_ACCEPTED);
}

static void report_rooms(void)
{
    const uint64_t most = LUMBIXET_LARGEST, third = LUMBIXET_LARGEST / 3;
    HOLDS(LUMBIXET_REPORT_ROOM == 7 * 8 + 1 + 4 * (1 + 8) + 2 + LUMBIXET_ENTRIES * 16);
    HOLDS(LUMBIXET_REPORT_2_ROOM == 7 * 8 + 1 + 8 * (8 + 8) + 2 + LUMBIXET_ENTRIES * 24);
    lumbixet_header header = {
        .timestamp = most, .interval = most, .total = 3 * third, .received = third, .late = third, .lost = third,
        .average = INT64_MIN / 4, .metrics = 4,
        .kinds = {LUMBIXET_PLAYOUT_AHEAD_MS, LUMBIXET_ESTIMATED_BANDWIDTH_KBPS, LUMBIXET_PEER_RTT_US, LUMBIXET_PEER_LOSS_RATE},
        .values = {most, most, most, most, most, most, most, most},
    };
    report_room(LUMBIXET_PROFILE_1, LUMBIXET_REPORT_ROOM, 16, &header);
    header.metrics = 8;
    for (uint64_t i = 0; i < 8; i++)
        header.kinds[i] = most - 15 + 2 * i;
    report_room(LUMBIXET_PROFILE_2, LUMBIXET_REPORT_2_ROOM, 24, &header);
}

/* A microsecond before the time to wake nothing is due, and then the timer is. */
static void wake(void)
{
    lumbixet_receiver receiver = lumbixet_open(9, 9, 25, 1000).next;
    HOLDS(lumbixet_wake(&receiver) == UINT64_MAX);
    receiver = lumbixet_packet(receiver, 0, 500, false, LUMBIXET_ECN_NONE).next;
    HOLDS(lumbixet_wake(&receiver) == UINT64_MAX);
    receiver = lumbixet_packet(receiver, 1, 777, true, LUMBIXET_ECN_NONE).next;
    receiver = lumbixet_packet(receiver, 2, 888, true, LUMBIXET_ECN_NONE).next;
    HOLDS(lumbixet_wake(&receiver) == 25777);
    receiver = lumbixet_threshold(receiver, 0, 9, 3000, 9).next;
    uint64_t time = lumbixet_wake(&receiver);
    HOLDS(time == 3777);
    HOLDS(lumbixet_timer(receiver, time - 1).next.cause == LUMBIXET_NOT_DUE);
    receiver = lumbixet_timer(receiver, time).next;
    HOLDS(receiver.cause == LUMBIXET_TIMER);
    HOLDS(lumbixet_wake(&receiver) == UINT64_MAX);
}

/* Every number that a call gives has words of its own, every other is unknown. */
static void texts(void)
{
    for (uint64_t a = 0; a <= 300; a++) {
        bool named = a <= LUMBIXET_TOO_LONG || a == LUMBIXET_STALE;
        HOLDS((strcmp(lumbixet_refusal_text(a), "unknown") != 0) == named);
        HOLDS((strcmp(lumbixet_cause_text(a), "unknown") != 0) == (a <= LUMBIXET_TIMER));
        for (uint64_t b = 0; named && b < a; b++)
            HOLDS(strcmp(lumbixet_refusal_text(a), lumbixet_refusal_text(b)) != 0);
    }
    HOLDS(strcmp(lumbixet_refusal_text(UINT64_MAX), "unknown") == 0);
    HOLDS(strcmp(lumbixet_cause_text(UINT64_MAX), "unknown") == 0);
    char version[32];
    snprintf(version, sizeof version, "%d.%d.%d", LUMBIXET_VERSION_MAJOR, LUMBIXET_VERSION_MINOR, LUMBIXET_VERSION_PATCH);
    HOLDS(strcmp(version, LUMBIXET_VERSION_TEXT) == 0);
}

int main(void)
{
    ack_room();
    ranges_room();
    frequency_room();
    report_rooms();
    wake();
    texts();
    if (faults == 0)
        printf("room: an ACK takes at most %d bytes, a report %d, one of profile 2 %d; %d facts of the header's macros and inline calls hold\n",
               LUMBIXET_ACK_ROOM, LUMBIXET_REPORT_ROOM, LUMBIXET_REPORT_2_ROOM, seen);
    return faults != 0;
}
