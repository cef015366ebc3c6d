/* The receiver: each call on one record, and the answer of the archive handed back; packet, timer and write in both forms,
 * by value and on a lent record. The timed traffic, sequences of any calls, some on spoiled records, and windows with
 * hundreds of ranges. */
#include <string.h>

#include "checks.h"
#include "compare.h"
#include "inputs.h"
#include "sides.h"

enum { SEQUENCES = 2000, CALLS = 200 };

/* What both sides answered and left of two lent records: the same as the call by value. */
static void check_lent(const lumbixet_answer *wanted, uint64_t a, const lumbixet_receiver *x, uint64_t b,
                       const lumbixet_receiver *y, const char *call)
{
    check(a == wanted->result && same_record(x, &wanted->next), call);
    check(b == wanted->result && same_record(y, &wanted->next), call);
}

static lumbixet_answer compare_packet(const lumbixet_receiver *r, uint64_t number, uint64_t time, bool eliciting,
                                      uint64_t ecn)
{
    lumbixet_answer a = archive.packet(*r, number, time, eliciting, ecn);
    lumbixet_answer b = plain.packet(*r, number, time, eliciting, ecn);
    check_answer(&a, &b, "packet");
    lumbixet_receiver x = *r, y = *r;
    uint64_t here = archive.packet_lent(&x, number, time, eliciting, ecn);
    uint64_t there = plain.packet_lent(&y, number, time, eliciting, ecn);
    check_lent(&a, here, &x, there, &y, "packet_lent");
    return a;
}

static lumbixet_answer compare_timer(const lumbixet_receiver *r, uint64_t time)
{
    lumbixet_answer a = archive.timer(*r, time);
    lumbixet_answer b = plain.timer(*r, time);
    check_answer(&a, &b, "timer");
    lumbixet_receiver x = *r, y = *r;
    uint64_t here = archive.timer_lent(&x, time);
    uint64_t there = plain.timer_lent(&y, time);
    check_lent(&a, here, &x, there, &y, "timer_lent");
    return a;
}

static lumbixet_answer compare_immediate(const lumbixet_receiver *r)
{
    lumbixet_answer a = archive.immediate(*r);
    lumbixet_answer b = plain.immediate(*r);
    check_answer(&a, &b, "immediate");
    return a;
}

static lumbixet_answer compare_confirm(const lumbixet_receiver *r, uint64_t largest)
{
    lumbixet_answer a = archive.confirm(*r, largest);
    lumbixet_answer b = plain.confirm(*r, largest);
    check_answer(&a, &b, "confirm");
    return a;
}

static lumbixet_answer compare_threshold(const lumbixet_receiver *r, uint64_t sequence, uint64_t threshold,
                                         uint64_t delay, uint64_t reordering)
{
    lumbixet_answer a = archive.threshold(*r, sequence, threshold, delay, reordering);
    lumbixet_answer b = plain.threshold(*r, sequence, threshold, delay, reordering);
    check_answer(&a, &b, "threshold");
    return a;
}

static lumbixet_answer compare_write_as(const lumbixet_receiver *r, uint64_t time, bool counts, size_t room)
{
    fill_buffers();
    lumbixet_wrote a = archive.write(*r, time, counts, left, room);
    lumbixet_wrote b = plain.write(*r, time, counts, right, room);
    check(a.result == b.result && a.length == b.length && same_record(&a.next, &b.next) && same_buffers(), "write");
    lumbixet_answer answer = {a.result, a.next};
    lumbixet_receiver x = *r, y = *r;
    memset(right, 0xa5, sizeof right);
    lumbixet_wrote_lent there = plain.write_lent(&y, time, counts, right, room);
    check(there.length == a.length && same_buffers(), "write_lent");
    memset(right, 0xa5, sizeof right);
    lumbixet_wrote_lent here = archive.write_lent(&x, time, counts, right, room);
    check(here.length == a.length && same_buffers(), "write_lent");
    check_lent(&answer, here.result, &x, there.result, &y, "write_lent");
    return answer;
}

/* As type 03, then as type 02, whose answer it gives. */
static lumbixet_answer compare_write(const lumbixet_receiver *r, uint64_t time, size_t room)
{
    compare_write_as(r, time, true, room);
    return compare_write_as(r, time, false, room);
}

static void compare_traffic(const struct traffic *t)
{
    lumbixet_receiver record = t->start;
    for (size_t k = WARM; k < WARM + PACKETS; k++) {
        record = compare_packet(&record, t->numbers[k], arrival(k), true, LUMBIXET_ECN_ECT0).next;
        if (k % BLOCK == BLOCK - 1)
            record = compare_write(&record, arrival(k), FRAME_ROOM).next;
    }
}

/* A sitting with losses, each ACK confirmed when the next block has come. */
static void compare_sitting(void)
{
    uint64_t state = 1;
    uint64_t number = 0;
    lumbixet_receiver record = archive.open(1000, 3, 25, 1000).next;
    for (size_t k = 0; k < SITTING; k++) {
        uint64_t arrived = next_arrival(&state, &number);
        record = compare_packet(&record, arrived, sitting_arrival(k), true, LUMBIXET_ECN_ECT0).next;
        if (k % BLOCK < BLOCK - 1)
            continue;
        record = compare_confirm(&record, record.acknowledged - 1).next;
        record = compare_write(&record, sitting_arrival(k), FRAME_ROOM).next;
    }
}

/* A packet that is not ack-eliciting once in so many, and that has CE once in so many. */
static lumbixet_answer compare_some_packet(const lumbixet_receiver *r, uint64_t number, uint64_t time,
                                           uint64_t once_not_eliciting, uint64_t once_ce)
{
    bool eliciting = below(once_not_eliciting) != 0;
    uint64_t ecn = any_mark(once_ce);
    return compare_packet(r, number, time, eliciting, ecn);
}

/* A threshold call near the record's own sequence and minimum. */
static lumbixet_answer compare_some_threshold(const lumbixet_receiver *r)
{
    uint64_t sequence = r->sequence + below(3) - 1;
    uint64_t threshold = below(40);
    uint64_t delay = r->minimum + below(9) - 1;
    uint64_t reordering = below(8) ? below(7) : any_number();
    return compare_threshold(r, sequence, threshold, delay, reordering);
}

/* Any call with numbers near those of the record, or of any size. */
static lumbixet_answer compare_any_call(const lumbixet_receiver *r)
{
    uint64_t time = below(16) ? r->arrived + below(3000) - 500 : any_number();
    uint64_t up = below(12);
    uint64_t near = r->end + up - below(8);
    uint64_t v[4];
    switch (below(18)) {
    case 16:
        return compare_confirm(r, below(16) ? r->acknowledged - below(4) : any_number());
    case 17:
        return compare_confirm(r, r->acknowledged - below(r->acknowledged | 1));
    case 0:
        return compare_timer(r, r->pending_first + r->delay + below(3) - 1);
    case 1:
        return compare_write(r, time, below(4) ? below(64) : FRAME_ROOM);
    case 2:
        return below(8) ? compare_timer(r, time) : compare_immediate(r);
    case 3:
        return compare_some_threshold(r);
    case 4:
        any_numbers(v, 4);
        return compare_threshold(r, v[0], v[1], v[2], v[3]);
    case 5:
        return compare_some_packet(r, r->end + below(1500) - 1100, time, 4, 2);
    case 6:
        return compare_some_packet(r, below(8) ? near : any_number(), time, 4, 2);
    default:
        return compare_some_packet(r, near, time, 8, 16);
    }
}

/* Any number, one beside the end or the maximum, or one as small as a cause. */
static uint64_t spoiled_value(const lumbixet_receiver *r)
{
    switch (below(4)) {
    case 0:
        return any_number();
    case 1:
        return r->end + 1 - below(3);
    case 2:
        return r->maximum * 1000 + 1 - below(3);
    default:
        return below(8);
    }
}

/* The record with one field made up: a word of it taken at random. */
static lumbixet_receiver spoiled(lumbixet_receiver r)
{
    size_t word = below(sizeof r / 8);
    uint64_t value = spoiled_value(&r);
    memcpy((uint8_t *)&r + 8 * word, &value, 8);
    return r;
}

static void compare_sequence(void)
{
    static const uint64_t limits[4] = {40, 7, 20000, 5000};
    uint64_t v[4];
    for (size_t i = 0; i < 4; i++)
        v[i] = below(limits[i]);
    uint64_t odd = below(32);
    if (odd < 4)
        v[odd] = any_number();
    lumbixet_answer a = archive.open(v[0], v[1], v[2], v[3]);
    lumbixet_answer b = plain.open(v[0], v[1], v[2], v[3]);
    check_answer(&a, &b, "open");
    lumbixet_receiver record = a.next;
    for (size_t i = 0; i < CALLS; i++) {
        lumbixet_receiver made_up = i > 2 && below(16) ? record : spoiled(record);
        lumbixet_answer answer = compare_any_call(&made_up);
        if (answer.result != LUMBIXET_INCONSISTENT)
            record = answer.next;
    }
}

/* Windows with every number missing or there at random have hundreds of ranges: each room up to 1,000 cuts some off. */
static void compare_dense_windows(void)
{
    lumbixet_receiver record = acks[ONE_RANGE].records[0];
    for (size_t room = 0; room <= 1000; room++) {
        for (size_t i = 0; i < 16; i++) {
            uint64_t word = draw();
            record.window[i] = word & draw();
        }
        record.window[15] |= UINT64_C(1) << 63;
        record.confirmed = room % 2 ? record.end - 1 - below(1100) : 0;
        for (size_t less = 0; less < 4 && less <= room; less++)
            compare_write(&record, acks[ONE_RANGE].time, room - less);
    }
}

/* A made-up H at each place of a window with losses, and packets at it and beside it, under each kind of R. */
static void compare_made_up_highest(void)
{
    for (uint64_t reordering = 0; reordering < 5; reordering++) {
        lumbixet_receiver record = traffic[LOSS][0].start;
        record.reordering = reordering;
        for (uint64_t down = 1; down < 1024; down++) {
            record.highest = record.end - down;
            for (uint64_t number = record.highest - 2; number <= record.highest; number++)
                compare_packet(&record, number, record.arrived, true, LUMBIXET_ECN_NONE);
        }
    }
}

void compare_receiver(void)
{
    for (int pattern = 0; pattern < PATTERNS; pattern++)
        for (int r = 0; r < 2; r++)
            compare_traffic(&traffic[pattern][r]);
    for (int kind = 0; kind < ACK_KINDS; kind++)
        for (size_t v = 0; v < VARIANTS; v++)
            for (size_t room = 0; room <= FRAME_ROOM; room++)
                compare_write(&acks[kind].records[v], acks[kind].time, room);
    compare_dense_windows();
    compare_sitting();
    compare_made_up_highest();
    for (size_t i = 0; i < SEQUENCES; i++)
        compare_sequence();
}
