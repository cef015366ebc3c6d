/* Rounds on lent records: one that stays in its place, and those of two thousand rooms, a call to each in turn. */
#include <string.h>

#include "clock.h"
#include "inputs.h"
#include "rounds.h"

enum { EACH = 4 }; /* packets for each room in a round */

static _Alignas(64) lumbixet_receiver rooms[ROOMS];

/* The rooms in the order of their calls: neighbours in time are no neighbours in memory. */
static size_t order[ROOMS];

/* Blocks of packets are timed; the write between two blocks is not. */
double take_packets_lent(const struct side *side, int kind, int round)
{
    (void)round;
    const struct traffic *t = &traffic[kind / 2][kind % 2];
    _Alignas(64) lumbixet_receiver record = t->start;
    uint8_t frame[FRAME_ROOM];
    uint64_t passed = 0, sum = 0;
    for (size_t block = WARM; block < WARM + PACKETS; block += BLOCK) {
        uint64_t from = now();
        for (size_t k = block; k < block + BLOCK; k++)
            sum += side->packet_lent(&record, t->numbers[k], arrival(k), true, LUMBIXET_ECN_ECT0);
        passed += since(from);
        sum += record.cause + side->write_lent(&record, arrival(block + BLOCK - 1), false, frame, sizeof frame).length;
    }
    sink += sum;
    return (double)passed / PACKETS;
}

static void open_rooms(const lumbixet_receiver *record)
{
    for (size_t i = 0; i < ROOMS; i++) {
        rooms[i] = *record;
        order[i] = i * 787 % ROOMS;
    }
}

double take_packets_in_rooms(const struct side *side, int kind, int round)
{
    (void)round;
    const struct traffic *t = &traffic[IN_ORDER][kind];
    open_rooms(&t->start);
    uint64_t sum = 0;
    uint64_t from = now();
    for (size_t k = WARM; k < WARM + EACH; k++)
        for (size_t i = 0; i < ROOMS; i++)
            sum += side->packet_lent(&rooms[order[i]], t->numbers[k], arrival(k), true, LUMBIXET_ECN_ECT0);
    uint64_t passed = since(from);
    sink += sum + rooms[0].cause;
    return (double)passed / (EACH * ROOMS);
}

/* The same where each record is copied in and out. */
double take_packets_in_rooms_by_value(const struct side *side, int kind, int round)
{
    (void)round;
    const struct traffic *t = &traffic[IN_ORDER][kind];
    open_rooms(&t->start);
    uint64_t sum = 0;
    uint64_t from = now();
    for (size_t k = WARM; k < WARM + EACH; k++)
        for (size_t i = 0; i < ROOMS; i++) {
            lumbixet_answer answer = side->packet(rooms[order[i]], t->numbers[k], arrival(k), true, LUMBIXET_ECN_ECT0);
            rooms[order[i]] = answer.next;
            sum += answer.result;
        }
    uint64_t passed = since(from);
    sink += sum + rooms[0].cause;
    return (double)passed / (EACH * ROOMS);
}

/* A record that waits for an ACK, and whose delay has not passed. */
static lumbixet_receiver waiting(void)
{
    const struct traffic *t = &traffic[IN_ORDER][0];
    return plain.packet(t->start, t->numbers[WARM], arrival(WARM), true, LUMBIXET_ECN_ECT0).next;
}

double look_at_timer_lent(const struct side *side, int kind, int round)
{
    (void)kind;
    (void)round;
    _Alignas(64) lumbixet_receiver record = waiting();
    uint64_t sum = 0;
    uint64_t from = now();
    for (size_t i = 0; i < CALLS; i++)
        sum += side->timer_lent(&record, arrival(WARM) + i);
    uint64_t passed = since(from);
    sink += sum + record.cause;
    return (double)passed / CALLS;
}

double look_at_timers_in_rooms(const struct side *side, int kind, int round)
{
    (void)kind;
    (void)round;
    lumbixet_receiver record = waiting();
    open_rooms(&record);
    uint64_t sum = 0;
    uint64_t from = now();
    for (size_t i = 0; i < ROOMS; i++)
        sum += side->timer_lent(&rooms[order[i]], arrival(WARM) + i);
    uint64_t passed = since(from);
    sink += sum + rooms[0].cause;
    return (double)passed / ROOMS;
}

/* A record may be written again: the next frame has the same ranges. */
double write_acks_lent(const struct side *side, int kind, int round)
{
    (void)round;
    const struct acks *a = &acks[kind];
    static _Alignas(64) lumbixet_receiver records[VARIANTS];
    uint8_t frame[FRAME_ROOM];
    uint64_t sum = 0;
    memcpy(records, a->records, sizeof records);
    uint64_t from = now();
    for (size_t i = 0; i < CALLS; i++) {
        lumbixet_wrote_lent wrote = side->write_lent(&records[i % VARIANTS], a->time, a->counts, frame, sizeof frame);
        sum += wrote.length + frame[wrote.length - 1];
    }
    uint64_t passed = since(from);
    sink += sum + records[0].acknowledged;
    return (double)passed / CALLS;
}
