/* The receiver of one hearing room, told in sentences: `make host` builds and runs it. The record stands in one place; packets,
 * timer and writes update it there, and the rarer calls hand it over by value. Its reports stand in room_reports.h.
 * What it must print stands in room.expected, which was written by hand from documents 01 and 02. */
#include "room_reports.h"

enum { ROOM = 64 };

/* Ends the sentence on a call with what came of it. */
static void told(uint64_t result, const lumbixet_receiver *receiver)
{
    if (result == LUMBIXET_STALE)
        puts(" It is stale: nothing changed.");
    else if (result != LUMBIXET_ACCEPTED)
        refused(result);
    else if (receiver->cause == LUMBIXET_NOT_DUE)
        puts(" Nothing is due.");
    else
        printf(" An acknowledgment is due: %s.\n", lumbixet_cause_text(receiver->cause));
}

/* The same of a call by value, whose next record is taken. */
static void taken(lumbixet_answer answer, lumbixet_receiver *receiver)
{
    *receiver = answer.next;
    told(answer.result, receiver);
}

static void rules(const lumbixet_receiver *receiver)
{
    printf("An acknowledgment is due for more than %" PRIu64 " packets, ", receiver->threshold);
    if (receiver->reordering == 0)
        printf("never for a gap");
    else
        printf("for a gap that reaches %" PRIu64, receiver->reordering);
    printf(", or after %" PRIu64 " microseconds.\n", receiver->delay);
}

static void packet(lumbixet_receiver *receiver, uint64_t number, uint64_t time, uint64_t ecn)
{
    static const char *const marks[] = {"", " marked ECT(1)", " marked ECT(0)", " with a congestion mark"};
    printf("At %" PRIu64 " packet %" PRIu64 " arrives%s.", time, number, marks[ecn]);
    told(lumbixet_packet_lent(receiver, number, time, true, ecn), receiver);
}

static void timer(lumbixet_receiver *receiver, uint64_t time)
{
    printf("At %" PRIu64 " the timer is looked at.", time);
    told(lumbixet_timer_lent(receiver, time), receiver);
}

/* Writes an acknowledgment, with the counts of marks or without, and reads it back as the sender will. */
static void acknowledge(lumbixet_receiver *receiver, uint64_t time, bool counts, size_t room)
{
    uint8_t buffer[ROOM];
    uint64_t ranges[LUMBIXET_RANGES_ROOM(ROOM)];
    lumbixet_wrote_lent wrote = lumbixet_write_lent(receiver, time, counts, buffer, room);
    printf("At %" PRIu64 " an acknowledgment%s is written into %zu bytes", time, counts ? " with counts" : "", room);
    if (wrote.result != LUMBIXET_ACCEPTED) {
        putchar('.');
        refused(wrote.result);
        return;
    }
    putchar(':');
    show(buffer, wrote.length);
    lumbixet_ack ack = lumbixet_read_ack(buffer, wrote.length, ranges, LUMBIXET_RANGES_ROOM(ROOM));
    must(ack.result, "reading the ACK back");
    printf("  Read back, it says %" PRIu64 " microseconds after packet %" PRIu64 ":", 8 * ack.delay, ack.largest);
    for (uint64_t i = 0; i < ack.ranges; i++)
        printf(" %" PRIu64 " to %" PRIu64 " arrived%c", ranges[2 * i], ranges[2 * i + 1], i + 1 < ack.ranges ? ',' : '.');
    putchar('\n');
    if (ack.counts)
        printf("  Marked so far: %" PRIu64 " with ECT(0), %" PRIu64 " with ECT(1), %" PRIu64 " with CE.\n", ack.ect0, ack.ect1, ack.ce);
}

/* An ACK_FREQUENCY frame: written by the sender, read here, and heard; then an obsolete one, whose reordering threshold is another. */
static void other_rules(lumbixet_receiver *receiver)
{
    uint8_t buffer[LUMBIXET_FREQUENCY_ROOM];
    lumbixet_put put = lumbixet_put_frequency(buffer, sizeof buffer, 5, 2, 5000, 0);
    must(put.result, "writing ACK_FREQUENCY");
    printf("The sender's frame is");
    show(buffer, put.next);
    lumbixet_frequency f = lumbixet_read_frequency(buffer, put.next);
    must(f.result, "reading ACK_FREQUENCY");
    printf("  Read, it has sequence %" PRIu64 ", threshold %" PRIu64 ", delay %" PRIu64 " and reordering threshold %" PRIu64 ".\n",
           f.sequence, f.threshold, f.delay, f.reordering);
    printf("The frame is heard.");
    taken(lumbixet_threshold(*receiver, f.sequence, f.threshold, f.delay, f.reordering), receiver);
    rules(receiver);
    printf("A frame with sequence 4 asks for reordering threshold 1.");
    taken(lumbixet_threshold(*receiver, 4, f.threshold, f.delay, 1), receiver);
    rules(receiver);
    printf("A frame with sequence 6 asks for a delay of 16384000.");
    taken(lumbixet_threshold(*receiver, 6, 2, 16384000, 0), receiver);
}

static void asked(lumbixet_receiver *receiver)
{
    uint8_t buffer[ROOM];
    lumbixet_put put = lumbixet_put_immediate(buffer, sizeof buffer);
    must(put.result, "writing IMMEDIATE_ACK");
    lumbixet_immediate_frame frame = lumbixet_read_immediate(buffer, put.next);
    must(frame.result, "reading IMMEDIATE_ACK");
    printf("The sender's frame is");
    for (uint64_t i = 0; i < frame.used; i++)
        printf(" %02x.", buffer[i]);
    taken(lumbixet_immediate(*receiver), receiver);
}

/* The sender acknowledges the packet that carried an ACK: it knows of the numbers up to that ACK's largest. */
static void confirmed(lumbixet_receiver *receiver, uint64_t largest)
{
    lumbixet_answer answer = lumbixet_confirm(*receiver, largest);
    *receiver = answer.next;
    printf("The packet with the acknowledgment of %" PRIu64 " is itself acknowledged.", largest);
    if (answer.result == LUMBIXET_ACCEPTED)
        printf(" Numbers below %" PRIu64 " are reported no more.\n", receiver->confirmed);
    else
        refused(answer.result);
}

int main(void)
{
    puts("A packet is lost");
    lumbixet_answer opened = lumbixet_open(1000, 3, 25, 1000);
    must(opened.result, "opening");
    lumbixet_receiver receiver = opened.next;
    rules(&receiver);
    static const uint64_t arrivals[][2] = {{0, 1000}, {1, 2000}, {3, 4000}, {4, 5000}, {5, 6000}, {5, 6100}};
    for (size_t i = 0; i < sizeof arrivals / sizeof arrivals[0]; i++)
        packet(&receiver, arrivals[i][0], arrivals[i][1], LUMBIXET_ECN_NONE);
    acknowledge(&receiver, 6400, false, ROOM);

    puts("\nThe sender asks for other rules");
    other_rules(&receiver);

    puts("\nThe timer runs");
    packet(&receiver, 6, 20000, LUMBIXET_ECN_NONE);
    timer(&receiver, 24999);
    timer(&receiver, 25000);
    acknowledge(&receiver, 25000, false, ROOM);

    puts("\nThe lost packet comes after all");
    packet(&receiver, 2, 26000, LUMBIXET_ECN_NONE);
    packet(&receiver, 7, 27000, LUMBIXET_ECN_NONE);
    packet(&receiver, 8, 28000, LUMBIXET_ECN_NONE);
    acknowledge(&receiver, 28000, false, ROOM);

    puts("\nThe network is congested, and the sender asks");
    packet(&receiver, 9, 29000, LUMBIXET_ECN_CE);
    acknowledge(&receiver, 29000, false, 4);
    acknowledge(&receiver, 29000, false, 5);
    asked(&receiver);
    acknowledge(&receiver, 29400, false, ROOM);

    puts("\nThe sender confirms an acknowledgment");
    packet(&receiver, 12, 30000, LUMBIXET_ECN_NONE);
    packet(&receiver, 13, 31000, LUMBIXET_ECN_NONE);
    acknowledge(&receiver, 31000, false, ROOM);
    confirmed(&receiver, 9);
    acknowledge(&receiver, 31500, false, ROOM);
    packet(&receiver, 9, 32000, LUMBIXET_ECN_NONE);
    confirmed(&receiver, 13);
    packet(&receiver, 14, 33000, LUMBIXET_ECN_NONE);
    acknowledge(&receiver, 33000, false, ROOM);
    confirmed(&receiver, 15);

    puts("\nThe sender wants the marks counted");
    packet(&receiver, 15, 34000, LUMBIXET_ECN_ECT0);
    packet(&receiver, 16, 34500, LUMBIXET_ECN_CE);
    acknowledge(&receiver, 34500, true, 7);
    acknowledge(&receiver, 34500, true, 8);
    packet(&receiver, 16, 34600, LUMBIXET_ECN_CE);
    packet(&receiver, 18, 35000, LUMBIXET_ECN_ECT1);
    acknowledge(&receiver, 35000, true, ROOM);

    puts("\nThe report");
    report();

    puts("\nMany small objects are lost, and some receivers are old");
    lost(LUMBIXET_ENTRIES);
    lost(LUMBIXET_OLD_ENTRIES);
    lost(LUMBIXET_ENTRIES + 1);

    puts("\nThe sender has two groups");
    groups();

    puts("\nThe operator's screen asks for the last object that did not come");
    newest_lost();
    return 0;
}
