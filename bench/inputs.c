/* Makes the inputs from fixed seeds. Records and frames come from the plain side; the comparisons hold the archive to it. */
#include "inputs.h"

#include <stdio.h>
#include <stdlib.h>
#include <string.h>

#include "plain.h"

struct numbers numbers;
struct acks acks[ACK_KINDS];
struct traffic traffic[PATTERNS][2];
struct reports reports[REPORT_KINDS];

uint64_t pick(uint64_t *state)
{
    uint64_t z = *state += UINT64_C(0x9e3779b97f4a7c15);
    z = (z ^ z >> 30) * UINT64_C(0xbf58476d1ce4e5b9);
    z = (z ^ z >> 27) * UINT64_C(0x94d049bb133111eb);
    return z ^ z >> 31;
}

static void expect(bool holds, const char *what)
{
    if (holds)
        return;
    fprintf(stderr, "bench: an input is not what it should be: %s\n", what);
    exit(1);
}

/* The four lengths equally often, in random order. */
static void make_numbers(void)
{
    static const uint64_t least[4] = {0, 64, 16384, 1073741824};
    static const uint64_t most[4] = {63, 16383, 1073741823, LUMBIXET_LARGEST};
    uint64_t state = 1;
    for (size_t i = 0; i < NUMBERS; i++) {
        if (i % PART == 0)
            numbers.starts[i / PART] = numbers.length;
        size_t code = pick(&state) % 4;
        numbers.values[i] = least[code] + pick(&state) % (most[code] - least[code] + 1);
        lumbixet_put put = plain_put_number(numbers.wire, sizeof numbers.wire, numbers.length, numbers.values[i]);
        expect(put.result == 0, "a number");
        numbers.length = put.next;
    }
}

static void make_frame(struct acks *made, size_t v, uint64_t ranges)
{
    lumbixet_wrote wrote = plain_write(made->records[v], made->time, made->counts, made->frames[v], FRAME_ROOM);
    made->lengths[v] = wrote.length;
    uint64_t pairs[1024];
    expect(wrote.result == 0, "an ACK frame");
    lumbixet_ack ack = plain_read_ack(made->frames[v], wrote.length, pairs, 1024);
    expect(ack.result == 0 && (ranges == 0 || ack.ranges == ranges), "a number of ranges");
}

/* One gap of 1 to 3 numbers, of 1 where a part has but 2, at the start of each of `ranges` equal parts of the window. */
static void make_acks(struct acks *made, uint64_t ranges, uint64_t seed)
{
    uint64_t state = seed;
    uint64_t part = 1024 / ranges;
    made->time = arrival(2 * 1024) + 1000;
    for (size_t v = 0; v < VARIANTS; v++) {
        lumbixet_receiver record = plain_open(1000, 3, 25, 1000).next;
        uint64_t gap = 0;
        for (uint64_t n = 0; n < 2 * 1024; n++) {
            if (n % part == 0)
                gap = 1 + pick(&state) % (part > 3 ? 3 : part - 1);
            if (n % part >= gap)
                record = plain_packet(record, 1000000 * 1024 + n, arrival(n), true, LUMBIXET_ECN_ECT0).next;
        }
        made->records[v] = record;
        make_frame(made, v, ranges);
    }
}

/* The end of a sitting: an ACK is due to be written after each block, and the one before was confirmed by then or not. */
static lumbixet_receiver sit(uint64_t seed, bool confirming)
{
    uint64_t state = seed;
    uint64_t number = 0;
    lumbixet_receiver record = plain_open(1000, 3, 25, 1000).next;
    uint8_t frame[FRAME_ROOM];
    for (size_t k = 0; k < SITTING; k++) {
        uint64_t time = sitting_arrival(k);
        if (k && k % BLOCK == 0)
            record = plain_write(record, time, false, frame, sizeof frame).next;
        lumbixet_answer answer = plain_packet(record, next_arrival(&state, &number), time, true, LUMBIXET_ECN_ECT0);
        expect(answer.result == 0, "a packet of a sitting");
        record = answer.next;
        if (confirming && k > BLOCK && k % BLOCK == BLOCK - 1)
            record = plain_confirm(record, record.acknowledged - 1).next;
    }
    return record;
}

static void make_sittings(struct acks *made, bool confirming)
{
    made->time = sitting_arrival(SITTING);
    for (size_t v = 0; v < VARIANTS; v++) {
        made->records[v] = sit(100 + v, confirming);
        make_frame(made, v, 0);
    }
}

uint64_t next_arrival(uint64_t *state, uint64_t *number)
{
    while (pick(state) % 100 < 2)
        ++*number;
    return (*number)++;
}

/* The numbers of a pattern in their order of arrival. */
static void make_pattern(uint64_t *sent, int pattern)
{
    uint64_t state = 3;
    uint64_t number = 0;
    for (size_t k = 0; k < WARM + PACKETS; k++)
        sent[k] = pattern == LOSS ? next_arrival(&state, &number) : pattern == SWAPPED ? k ^ 1 : k;
}

static void make_traffic(struct traffic *made, int pattern, uint64_t reordering)
{
    made->reordering = reordering;
    make_pattern(made->numbers, pattern);
    lumbixet_receiver record = plain_open(1000, reordering, 25, 1000).next;
    uint8_t frame[FRAME_ROOM];
    for (size_t k = 0; k < WARM; k++) {
        lumbixet_answer answer = plain_packet(record, made->numbers[k], arrival(k), true, LUMBIXET_ECN_ECT0);
        expect(answer.result == 0, "a packet");
        record = answer.next;
        if (k % BLOCK == BLOCK - 1)
            record = plain_write(record, arrival(k), false, frame, sizeof frame).next;
    }
    made->start = record;
}

/* One record: the object number, received three times of four, else late, lost or partial, and an age. */
static void make_record(uint8_t *record, uint64_t object, uint64_t *state)
{
    uint64_t status = pick(state) % 4 ? LUMBIXET_RECEIVED : 1 + pick(state) % 3;
    uint64_t age = status == LUMBIXET_NOT_RECEIVED ? 0 : pick(state) % 200000;
    for (int i = 0; i < 8; i++)
        record[i] = (uint8_t)(object >> (56 - 8 * i));
    record[8] = (uint8_t)status;
    record[9] = record[10] = record[11] = 0;
    for (int i = 0; i < 4; i++)
        record[12 + i] = (uint8_t)(age >> (24 - 8 * i));
}

/* One statement for each number drawn: an initialiser leaves their order open. */
static void make_header(lumbixet_header *h, uint64_t *state)
{
    *h = (lumbixet_header){.interval = 100000, .metrics = 2, .kinds = {0x02, 0x10}};
    h->timestamp = pick(state) % 100000000;
    h->received = pick(state) % 100;
    h->late = pick(state) % 10;
    h->lost = pick(state) % 10;
    h->average = (int64_t)(pick(state) % 4000) - 2000;
    h->values[0] = pick(state) % 100000;
    h->values[1] = pick(state) % 100;
    h->total = h->received + h->late + h->lost;
}

/* Which entry of a report is lost, and no other: one at a place, none, or those that were drawn so. */
enum { AS_DRAWN = -2, NOWHERE = -1 };

/* A record that is lost, or else that is not. */
static void lose(uint8_t *record, bool lost)
{
    if (lost) {
        record[8] = LUMBIXET_NOT_RECEIVED;
        memset(record + 12, 0, 4);
    } else if (record[8] == LUMBIXET_NOT_RECEIVED)
        record[8] = LUMBIXET_RECEIVED;
}

/* In profile 2 each group has five objects, and the next one begins at a smaller object again. */
static void make_reports(struct reports *made, uint64_t profile, size_t entries, int lost)
{
    uint64_t state = 4;
    size_t record = profile == LUMBIXET_PROFILE_2 ? 24 : 16;
    made->profile = profile;
    made->size = record * entries;
    for (size_t v = 0; v < VARIANTS; v++) {
        lumbixet_header *h = &made->headers[v];
        make_header(h, &state);
        uint64_t object = pick(&state) % 1000000;
        for (size_t i = 0; i < entries; i++) {
            uint8_t *place = made->records[v] + record * i;
            object += 1 + pick(&state) % 2;
            if (profile == LUMBIXET_PROFILE_2) {
                if (i % 5 == 0)
                    object -= object % 16;
                place[7] = (uint8_t)(i / 5);
            }
            make_record(place + record - 16, object, &state);
            if (lost != AS_DRAWN)
                lose(place + record - 16, lost == (int)i);
        }
        lumbixet_written written =
            plain_write_report(profile, made->bytes[v], REPORT_ROOM, *h, made->records[v], made->size, LUMBIXET_ENTRIES);
        expect(written.result == 0 && written.kept == entries, "a report");
        made->lengths[v] = written.next;
    }
}

void make_inputs(void)
{
    make_numbers();
    make_acks(&acks[ONE_RANGE], 1, 5);
    make_acks(&acks[EIGHT_RANGES], 8, 6);
    make_acks(&acks[SIXTY_FOUR_RANGES], 64, 7);
    make_acks(&acks[RANGES_256], 256, 8);
    make_acks(&acks[RANGES_512], 512, 9);
    acks[COUNTED].counts = true;
    make_acks(&acks[COUNTED], 8, 6);
    make_sittings(&acks[SITTINGS], false);
    make_sittings(&acks[CONFIRMED], true);
    for (int pattern = 0; pattern < PATTERNS; pattern++) {
        make_traffic(&traffic[pattern][0], pattern, 1);
        make_traffic(&traffic[pattern][1], pattern, 3);
    }
    for (int groups = 0; groups < 2; groups++) {
        uint64_t profile = groups ? LUMBIXET_PROFILE_2 : LUMBIXET_PROFILE_1;
        make_reports(&reports[groups ? OLD_GROUPS : OLD_LIST], profile, LUMBIXET_OLD_ENTRIES, AS_DRAWN);
        make_reports(&reports[groups ? LONG_GROUPS : LONG_LIST], profile, LUMBIXET_ENTRIES, AS_DRAWN);
        make_reports(&reports[groups ? LAST_LOST_GROUPS : LAST_LOST], profile, LUMBIXET_ENTRIES, LUMBIXET_ENTRIES - 1);
        make_reports(&reports[groups ? MIDDLE_LOST_GROUPS : MIDDLE_LOST], profile, LUMBIXET_ENTRIES, LUMBIXET_ENTRIES / 2);
        make_reports(&reports[groups ? NONE_LOST_GROUPS : NONE_LOST], profile, LUMBIXET_ENTRIES, NOWHERE);
    }
}
