/* Holds include/lumbixet.h to the archive: sizes and places at compile time, and at run time every field
 * of every struct by a value of its own, so that two fields of the header in the wrong order are seen.
 * Every number that the header names is seen in an answer too; those of reports in tests/c/report.c. */
#include "same.h"

SIZE(bool, 1);
SIZE(size_t, 8);
SIZE(lumbixet_number, 32);
SIZE(lumbixet_put, 16);
SIZE(lumbixet_frequency, 48);
SIZE(lumbixet_immediate_frame, 16);
SIZE(lumbixet_ack, 72);
SIZE(lumbixet_receiver, 288);
SIZE(lumbixet_answer, 296);
SIZE(lumbixet_wrote, 304);

/* No byte between two fields: answers can be compared by their bytes. */
SIZE(lumbixet_answer, 8 + sizeof(lumbixet_receiver));
SIZE(lumbixet_wrote, 16 + sizeof(lumbixet_receiver));

AT(lumbixet_receiver, window, 0);
AT(lumbixet_receiver, end, 128);
AT(lumbixet_receiver, arrived, 136);
AT(lumbixet_receiver, confirmed, 144);
AT(lumbixet_receiver, pending_count, 152);
AT(lumbixet_receiver, pending_end, 160);
AT(lumbixet_receiver, pending_first, 168);
AT(lumbixet_receiver, threshold, 176);
AT(lumbixet_receiver, reordering, 184);
AT(lumbixet_receiver, delay, 192);
AT(lumbixet_receiver, sequence, 200);
AT(lumbixet_receiver, maximum, 208);
AT(lumbixet_receiver, minimum, 216);
AT(lumbixet_receiver, acknowledged, 224);
AT(lumbixet_receiver, highest, 232);
AT(lumbixet_receiver, ce, 240);
AT(lumbixet_receiver, cause, 248);
AT(lumbixet_receiver, total_ect0, 256);
AT(lumbixet_receiver, total_ect1, 264);
AT(lumbixet_receiver, total_ce, 272);
AT(lumbixet_receiver, total_unmarked, 280);
AT(lumbixet_answer, next, 8);
AT(lumbixet_wrote, length, 8);
AT(lumbixet_wrote, next, 16);

static void numbers(void)
{
    uint8_t buffer[8] = {0};
    lumbixet_put put = lumbixet_put_number(buffer, sizeof buffer, 3, 15293);
    SAME(put.result, LUMBIXET_ACCEPTED);
    SAME(put.next, 5);
    same_bytes("those of 15293", buffer, "\0\0\0\x7b\xbd\0\0\0", 8);
    SAME(lumbixet_put_number(buffer, sizeof buffer, 3, LUMBIXET_LARGEST + 1).result, LUMBIXET_TOO_LARGE);
    SAME(lumbixet_put_number(buffer, sizeof buffer, 0, LUMBIXET_LARGEST).next, 8);
    SAME(lumbixet_put_number(buffer, sizeof buffer, 7, 15293).result, LUMBIXET_NO_ROOM);
    lumbixet_number number = lumbixet_read_number((const uint8_t *)"\0\0\0\x7b\xbd", 5, 3);
    SAME(number.result, LUMBIXET_ACCEPTED);
    SAME(number.value, 15293);
    SAME(number.next, 5);
    SAME(number.shortest, 1);
    SAME(lumbixet_read_number((const uint8_t *)"\x40\x25", 2, 0).shortest, 0);
    SAME(lumbixet_read_number(buffer, sizeof buffer, 8).result, LUMBIXET_ENDS);
}

static void frames(void)
{
    static const uint8_t asked[] = {0x40, 0xaf, 0x05, 0x0a, 0x80, 0x00, 0x61, 0xa8, 0x03};
    static const uint8_t ranged[] = {0x02, 0x05, 0x32, 0x01, 0x02, 0x00, 0x01};
    static const uint8_t counted[] = {0x03, 0x05, 0x32, 0x00, 0x02, 11, 12, 13};
    static const uint8_t longer[] = {0x40, 0x1f};
    static const uint8_t below[] = {0x02, 0x05, 0x00, 0x01, 0x04, 0x02};
    uint8_t buffer[9];
    lumbixet_put put = lumbixet_put_frequency(buffer, sizeof buffer, 5, 10, 25000, 3);
    SAME(put.result, LUMBIXET_ACCEPTED);
    SAME(put.next, 9);
    same_bytes("those of ACK_FREQUENCY", buffer, asked, 9);
    lumbixet_frequency frequency = lumbixet_read_frequency(asked, sizeof asked);
    SAME(frequency.result, LUMBIXET_ACCEPTED);
    SAME(frequency.sequence, 5);
    SAME(frequency.threshold, 10);
    SAME(frequency.delay, 25000);
    SAME(frequency.reordering, 3);
    SAME(frequency.used, 9);
    frequency = lumbixet_read_frequency_as(0xaf, asked + 2, sizeof asked - 2);
    SAME(frequency.result, LUMBIXET_ACCEPTED);
    SAME(frequency.reordering, 3);
    SAME(frequency.used, 7);
    SAME(lumbixet_read_frequency_as(2, asked + 2, sizeof asked - 2).result, LUMBIXET_OTHER_TYPE);

    SAME(lumbixet_put_immediate(buffer, sizeof buffer).next, 1);
    lumbixet_immediate_frame immediate = lumbixet_read_immediate(buffer, sizeof buffer);
    SAME(immediate.result, LUMBIXET_ACCEPTED);
    SAME(immediate.used, 1);
    SAME(lumbixet_read_immediate(longer, sizeof longer).result, LUMBIXET_OTHER_TYPE);

    uint64_t ranges[6] = {90, 91, 92, 93, 94, 95};
    lumbixet_ack ack = lumbixet_read_ack(ranged, sizeof ranged, ranges, 6);
    SAME(ack.result, LUMBIXET_ACCEPTED);
    SAME(ack.largest, 5);
    SAME(ack.delay, 50);
    SAME(ack.ranges, 2);
    SAME(ack.used, 7);
    SAME(ack.counts, 0);
    same_bytes("those of the ranges", ranges, (uint64_t[]){3, 5, 0, 1, 94, 95}, sizeof ranges);
    ack = lumbixet_read_ack(counted, sizeof counted, ranges, 2);
    SAME(ack.result, LUMBIXET_ACCEPTED);
    SAME(ack.used, 8);
    SAME(ack.counts, 1);
    SAME(ack.ect0, 11);
    SAME(ack.ect1, 12);
    SAME(ack.ce, 13);
    ack = lumbixet_read_ack_as(3, counted + 1, sizeof counted - 1, ranges, 2);
    SAME(ack.result, LUMBIXET_ACCEPTED);
    SAME(ack.used, 7);
    SAME(ack.ce, 13);
    SAME(lumbixet_read_ack_as(0xaf, counted + 1, sizeof counted - 1, ranges, 2).result, LUMBIXET_OTHER_TYPE);
    SAME(lumbixet_read_ack(below, sizeof below, ranges, 6).result, LUMBIXET_BELOW_ZERO);
    SAME(lumbixet_read_ack(ranged, sizeof ranged, ranges, 3).result, LUMBIXET_NO_ROOM);
}

/* A number in each word of the window. */
static void window(void)
{
    lumbixet_receiver receiver = lumbixet_packet(lumbixet_open(1, 1, 25, 1000).next, 1023, 0, false, LUMBIXET_ECN_NONE).next;
    for (uint64_t i = 0; i < 16; i++)
        receiver = lumbixet_packet(receiver, 65 * i, 0, false, LUMBIXET_ECN_NONE).next;
    for (uint64_t i = 0; i < 16; i++)
        SAME(receiver.window[i], (UINT64_C(1) << i) + (i == 15 ? UINT64_C(1) << 63 : 0));
}

static lumbixet_receiver next(lumbixet_answer answer)
{
    SAME(answer.result, LUMBIXET_ACCEPTED);
    return answer.next;
}

/* Each field of the record gets a value that no other field has. */
static void record(void)
{
    lumbixet_receiver r = next(lumbixet_open(11, 12, 60, 14));
    SAME(r.threshold, 11);
    SAME(r.reordering, 12);
    SAME(r.delay, 60000);
    SAME(r.total_ect0 | r.total_ect1 | r.total_ce | r.total_unmarked, 0);
    r.total_ect0 = 31, r.total_ect1 = 41, r.total_ce = 51, r.total_unmarked = 61;
    r = next(lumbixet_packet(r, 5, 777, true, LUMBIXET_ECN_NONE));
    r = next(lumbixet_packet(r, 9, 778, false, LUMBIXET_ECN_ECT1));
    uint8_t buffer[10];
    lumbixet_wrote wrote = lumbixet_write(r, 778, true, buffer, sizeof buffer);
    SAME(wrote.length, 10);
    same_bytes("those of ACK with counts", buffer, "\x03\x09\x00\x01\x00\x02\x00\x1f\x2a\x33", 10);
    wrote = lumbixet_write(r, 778, false, buffer, sizeof buffer);
    SAME(wrote.result, LUMBIXET_ACCEPTED);
    SAME(wrote.length, 7);
    same_bytes("those of ACK", buffer, "\x02\x09\x00\x01\x00\x02\x00", 7);
    r = next(lumbixet_packet(wrote.next, 3, 888, true, LUMBIXET_ECN_ECT0));
    r = next(lumbixet_packet(r, 2, 889, true, LUMBIXET_ECN_ECT0 + 4 * 46));
    r = next(lumbixet_packet(r, 20, 999, false, LUMBIXET_ECN_CE));
    r = next(lumbixet_confirm(r, 7));
    r = next(lumbixet_threshold(r, 77, 101, 50000, 102));
    r = next(lumbixet_timer(r, 50888));
    SAME(r.end, 21);
    SAME(r.arrived, 999);
    SAME(r.confirmed, 8);
    SAME(r.pending_count, 2);
    SAME(r.pending_end, 4);
    SAME(r.pending_first, 888);
    SAME(r.threshold, 101);
    SAME(r.reordering, 102);
    SAME(r.delay, 50000);
    SAME(r.sequence, 78);
    SAME(r.maximum, 60);
    SAME(r.minimum, 14);
    SAME(r.acknowledged, 10);
    SAME(r.highest, 6);
    SAME(r.ce, 1);
    SAME(r.cause, LUMBIXET_TIMER);
    SAME(r.total_ect0, 33);
    SAME(r.total_ect1, 42);
    SAME(r.total_ce, 52);
    SAME(r.total_unmarked, 62);

    lumbixet_answer stale = lumbixet_threshold(r, 77, 1, 50000, 1);
    SAME(stale.result, LUMBIXET_STALE);
    SAME(stale.next.threshold, 101);
    SAME(lumbixet_packet(r, 9, 0, true, LUMBIXET_ECN_NONE).result, LUMBIXET_REPEATED);
    SAME(lumbixet_packet(r, 3, 0, true, LUMBIXET_ECN_NONE).result, LUMBIXET_BELOW_WINDOW);
    SAME(lumbixet_confirm(r, 10).result, LUMBIXET_NOT_ACKNOWLEDGED);
    SAME(lumbixet_write(r, 0, false, buffer, 4).result, LUMBIXET_NO_ROOM);
    r.cause = 6;
    SAME(lumbixet_timer(r, 0).result, LUMBIXET_INCONSISTENT);
}

static void causes(void)
{
    lumbixet_receiver r = next(lumbixet_open(1, 1, 25, 1000));
    SAME(r.cause, LUMBIXET_NOT_DUE);
    SAME(lumbixet_immediate(r).result, LUMBIXET_NOTHING_YET);
    SAME(lumbixet_open(1, 1, 16384, 1000).result, LUMBIXET_DELAY);
    SAME(lumbixet_packet(r, 0, 0, true, LUMBIXET_ECN_CE).next.cause, LUMBIXET_CONGESTION);
    SAME(lumbixet_packet(r, 1, 0, true, LUMBIXET_ECN_NONE).next.cause, LUMBIXET_ORDER);
    r = next(lumbixet_packet(r, 0, 0, true, LUMBIXET_ECN_NONE));
    SAME(lumbixet_packet(r, 1, 0, true, LUMBIXET_ECN_NONE).next.cause, LUMBIXET_COUNT);
    SAME(lumbixet_immediate(r).next.cause, LUMBIXET_IMMEDIATE);
    r = next(lumbixet_packet(r, 1024, 0, false, LUMBIXET_ECN_NONE));
    SAME(lumbixet_packet(r, 0, 0, true, LUMBIXET_ECN_NONE).result, LUMBIXET_BELOW_WINDOW);
}

int main(void)
{
    numbers();
    frames();
    window();
    record();
    causes();
    if (faults == 0)
        printf("header: %d values of the archive are as include/lumbixet.h says\n", seen);
    return faults != 0;
}
