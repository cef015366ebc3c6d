#include "rounds.h"

#include "clock.h"
#include "inputs.h"

volatile uint64_t sink;

/* Each round has numbers of its own, else the processor would learn the order of their lengths. */
double read_numbers(const struct side *side, int kind, int round)
{
    (void)kind;
    uint64_t sum = 0;
    size_t at = numbers.starts[round % PARTS];
    uint64_t from = now();
    for (size_t i = 0; i < PART; i++) {
        lumbixet_number number = side->read_number(numbers.wire, numbers.length, at);
        sum += number.value;
        at = number.next;
    }
    uint64_t passed = since(from);
    sink += sum;
    return (double)passed / PART;
}

double put_numbers(const struct side *side, int kind, int round)
{
    (void)kind;
    static uint8_t buffer[PART * 8];
    const uint64_t *values = numbers.values + round % PARTS * PART;
    size_t at = 0;
    uint64_t from = now();
    for (size_t i = 0; i < PART; i++)
        at = side->put_number(buffer, sizeof buffer, at, values[i]).next;
    uint64_t passed = since(from);
    sink += at + buffer[at / 2];
    return (double)passed / PART;
}

double read_acks(const struct side *side, int kind, int round)
{
    (void)round;
    const struct acks *a = &acks[kind];
    uint64_t ranges[128];
    uint64_t sum = 0;
    uint64_t from = now();
    for (size_t i = 0; i < CALLS; i++) {
        size_t v = i % VARIANTS;
        lumbixet_ack ack = side->read_ack(a->frames[v], a->lengths[v], ranges, 128);
        sum += ack.ranges + ranges[2 * ack.ranges - 1];
    }
    uint64_t passed = since(from);
    sink += sum;
    return (double)passed / CALLS;
}

double write_acks(const struct side *side, int kind, int round)
{
    (void)round;
    const struct acks *a = &acks[kind];
    uint8_t frame[FRAME_ROOM];
    uint64_t sum = 0;
    uint64_t from = now();
    for (size_t i = 0; i < CALLS; i++) {
        lumbixet_wrote wrote = side->write(a->records[i % VARIANTS], a->time, a->counts, frame, sizeof frame);
        sum += wrote.length + frame[wrote.length - 1] + wrote.next.acknowledged;
    }
    uint64_t passed = since(from);
    sink += sum;
    return (double)passed / CALLS;
}

/* Blocks of packets are timed; the write between two blocks is not. Each answer is the next call's record, as a host
 * would assign it; the two are aligned, so that where they lie makes no difference between rows. */
double take_packets(const struct side *side, int kind, int round)
{
    (void)round;
    const struct traffic *t = &traffic[kind / 2][kind % 2];
    _Alignas(64) lumbixet_answer a = {0, t->start};
    _Alignas(64) lumbixet_answer b;
    uint8_t frame[FRAME_ROOM];
    uint64_t passed = 0;
    for (size_t block = WARM; block < WARM + PACKETS; block += BLOCK) {
        uint64_t from = now();
        for (size_t k = block; k < block + BLOCK; k += 2) {
            b = side->packet(a.next, t->numbers[k], arrival(k), true, LUMBIXET_ECN_ECT0);
            a = side->packet(b.next, t->numbers[k + 1], arrival(k + 1), true, LUMBIXET_ECN_ECT0);
        }
        passed += since(from);
        sink += a.next.cause;
        a.next = side->write(a.next, arrival(block + BLOCK - 1), false, frame, sizeof frame).next;
    }
    return (double)passed / PACKETS;
}

/* The record waits for an ACK and the delay has not passed, as most looks at a timer find it. */
double look_at_timer(const struct side *side, int kind, int round)
{
    (void)kind;
    (void)round;
    const struct traffic *t = &traffic[IN_ORDER][0];
    _Alignas(64) lumbixet_answer a = plain.packet(t->start, t->numbers[WARM], arrival(WARM), true, LUMBIXET_ECN_ECT0);
    _Alignas(64) lumbixet_answer b;
    uint64_t from = now();
    for (size_t i = 0; i < CALLS; i += 2) {
        b = side->timer(a.next, arrival(WARM) + i);
        a = side->timer(b.next, arrival(WARM) + i + 1);
    }
    uint64_t passed = since(from);
    sink += a.result + a.next.cause;
    return (double)passed / CALLS;
}

double read_reports(const struct side *side, int kind, int round)
{
    (void)round;
    const struct reports *r = &reports[kind];
    uint64_t sum = 0;
    uint64_t from = now();
    for (size_t i = 0; i < CALLS; i++) {
        lumbixet_report report = side->read_report(r->profile, r->bytes[i % VARIANTS], r->lengths[i % VARIANTS]);
        sum += report.header.total + report.header.entries;
    }
    uint64_t passed = since(from);
    sink += sum;
    return (double)passed / CALLS;
}

double find_newest_lost(const struct side *side, int kind, int round)
{
    (void)round;
    const struct reports *r = &reports[kind];
    uint64_t sum = 0;
    uint64_t from = now();
    for (size_t i = 0; i < CALLS; i++) {
        lumbixet_newest newest = side->newest_lost(r->profile, r->bytes[i % VARIANTS], r->lengths[i % VARIANTS]);
        sum += newest.found + newest.object;
    }
    uint64_t passed = since(from);
    sink += sum;
    return (double)passed / CALLS;
}

double write_reports(const struct side *side, int kind, int round)
{
    (void)round;
    const struct reports *r = &reports[kind];
    uint8_t buffer[REPORT_ROOM];
    uint64_t sum = 0;
    uint64_t from = now();
    for (size_t i = 0; i < CALLS; i++) {
        size_t v = i % VARIANTS;
        lumbixet_written written = side->write_report(r->profile, buffer, sizeof buffer, r->headers[v], r->records[v], r->size,
                                                      LUMBIXET_ENTRIES);
        sum += written.next + buffer[written.next - 1];
    }
    uint64_t passed = since(from);
    sink += sum;
    return (double)passed / CALLS;
}

/* Each object comes 20 ms after the one before, every seventh after its deadline; the first one is not timed. */
double arrive_objects(const struct side *side, int kind, int round)
{
    (void)kind;
    (void)round;
    static lumbixet_tracker tracker;
    uint64_t sum = 0, passed = 0;
    for (size_t time = 0; time < 8; time++) {
        side->tracker_open(&tracker, 1000, 20000);
        sum += side->tracker_arrived(&tracker, 1000, 0, lumbixet_no_deadline());
        uint64_t from = now();
        for (uint64_t i = 1; i < LUMBIXET_TRACKED; i++)
            sum += side->tracker_arrived(&tracker, 1000 + i, 20000 * i, lumbixet_deadline_at(20000 * i + (i % 7 ? 4 : -1)));
        passed += since(from);
    }
    sink += sum + tracker.objects[255];
    return (double)passed / (8 * (LUMBIXET_TRACKED - 1));
}

/* All 256 objects make an entry: every one arrived (0), or the last one alone and the others are lost (1). */
double report_objects(const struct side *side, int kind, int round)
{
    static lumbixet_tracker tracker;
    static uint8_t entries[LUMBIXET_TRACKER_ROOM];
    uint64_t sum = 0;
    side->tracker_open(&tracker, 1000, 20000);
    for (uint64_t i = kind ? 255 : 0; i < LUMBIXET_TRACKED; i++)
        side->tracker_arrived(&tracker, 1000 + i, 20000 * i, lumbixet_deadline_at(20000 * i + (i % 7 ? 4 : -1)));
    uint64_t from = now();
    for (uint64_t i = 0; i < 64; i++)
        sum += side->tracker_report(&tracker, 6000000 + i + (uint64_t)round, 100000, entries, sizeof entries).header.total + entries[15];
    uint64_t passed = since(from);
    sink += sum;
    return (double)passed / 64;
}
