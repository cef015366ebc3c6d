/* Holds include/lumbixet_pieces.h to the archive: sizes and places at compile time, and at run time the words of the record in
 * each stage, every refusal of each call, and what is delivered by its bytes. `make host` builds and runs it. */
#include "lumbixet_pieces.h"
#include "same.h"

SIZE(lumbixet_pieces, 448);
AT(lumbixet_pieces, stage, 8);
AT(lumbixet_pieces, left, 16);
AT(lumbixet_pieces, group, 24);
AT(lumbixet_pieces, above, 32);
AT(lumbixet_pieces, come, 40);
AT(lumbixet_pieces, carried, 48);
AT(lumbixet_pieces, numbers, 56);
AT(lumbixet_pieces, bytes, 256);
SIZE(lumbixet_pieces_taken, 232);
AT(lumbixet_pieces_taken, taken, 8);
AT(lumbixet_pieces_taken, records, 16);
AT(lumbixet_pieces_taken, whole, 24);
AT(lumbixet_pieces_taken, header, 32);

/* Two entries in profile 1, and the same in profile 2: objects 5 and 6, of groups 3 and 4. The metric's value takes two bytes. */
static const uint8_t report[] = {7, 9, 2, 1, 1, 0, 3, 1, 2, 0x40, 0x50, 2,
                                 0, 0, 0, 0, 0, 0, 0, 5, 0, 0, 0, 0, 0, 0, 0, 44,
                                 0, 0, 0, 0, 0, 0, 0, 6, 1, 0, 0, 0, 0, 0, 0, 33};
static const uint8_t groups[] = {7, 9, 2, 1, 1, 0, 3, 1, 6, 0x40, 0x50, 2,
                                 0, 0, 0, 0, 0, 0, 0, 3, 0, 0, 0, 0, 0, 0, 0, 5, 0, 0, 0, 0, 0, 0, 0, 44,
                                 0, 0, 0, 0, 0, 0, 0, 4, 0, 0, 0, 0, 0, 0, 0, 6, 1, 0, 0, 0, 0, 0, 0, 33};
enum { NUMBERS = 12, ENTRY = 16, WHOLE = NUMBERS + 2 * ENTRY };

static uint8_t buffer[64];

/* Takes a part into a buffer that is filled anew. */
static lumbixet_pieces_taken take(lumbixet_pieces *p, const uint8_t *part, size_t length, size_t room)
{
    memset(buffer, 0xa5, sizeof buffer);
    return lumbixet_pieces_take(p, part, length, buffer, room);
}

static void opening(lumbixet_pieces *p)
{
    static const lumbixet_pieces opened = {.profile = LUMBIXET_PROFILE_2};
    memset(p, 0xff, sizeof *p);
    SAME(lumbixet_pieces_open(p, 0), LUMBIXET_OTHER_PROFILE);
    SAME(lumbixet_pieces_open(p, 3), LUMBIXET_OTHER_PROFILE);
    SAME(p->profile, UINT64_MAX);
    SAME(p->bytes[23], UINT64_MAX);
    SAME(take(p, report, WHOLE, 16).result, LUMBIXET_INCONSISTENT);
    SAME(lumbixet_pieces_end(p).result, LUMBIXET_INCONSISTENT);
    SAME(lumbixet_pieces_open(p, LUMBIXET_PROFILE_2), LUMBIXET_ACCEPTED);
    same_bytes("the words of an opened record", p, &opened, sizeof opened);
}

/* The record while the report comes, cut inside a number and inside an entry. */
static void words(lumbixet_pieces *p)
{
    lumbixet_pieces_open(p, LUMBIXET_PROFILE_1);
    lumbixet_pieces_taken taken = take(p, report, 10, 16);
    SAME(taken.result, LUMBIXET_ACCEPTED);
    SAME(taken.taken, 10);
    SAME(taken.records, 0);
    SAME(taken.whole, 0);
    SAME(taken.header.timestamp, 0);
    SAME(p->stage, LUMBIXET_IN_NUMBERS);
    SAME(p->come, 9);
    SAME(p->numbers[6], 3);
    SAME(p->carried, 1);
    SAME(p->bytes[0], 0x40);
    taken = take(p, report + 10, 20, 32);
    SAME(taken.taken, 20);
    SAME(taken.records, 1);
    SAME(taken.whole, 1);
    SAME(taken.header.timestamp, 7);
    SAME(taken.header.average, -2);
    SAME(taken.header.kinds[0], LUMBIXET_PLAYOUT_AHEAD_MS);
    SAME(taken.header.values[0], 80);
    SAME(taken.header.entries, 2);
    same_bytes("the first entry", buffer, report + NUMBERS, ENTRY);
    SAME(buffer[ENTRY], 0xa5);
    SAME(p->stage, LUMBIXET_IN_ENTRIES);
    SAME(p->left, 1);
    SAME(p->group, 0);
    SAME(p->above, 6);
    SAME(p->come, 11);
    SAME(p->carried, 2);
    SAME(take(p, report + 30, WHOLE - 30, 16).records, 1);
    same_bytes("the second entry", buffer, report + NUMBERS + ENTRY, ENTRY);
    lumbixet_report end = lumbixet_pieces_end(p);
    SAME(end.result, LUMBIXET_ACCEPTED);
    SAME(end.header.received, 1);
    SAME(p->stage, LUMBIXET_ENDED);
    SAME(take(p, report, WHOLE, 16).taken, 0);
    SAME(lumbixet_pieces_end(p).header.total, 2);
}

/* A buffer of one entry: no byte of a further one is taken. */
static void rooms(lumbixet_pieces *p)
{
    lumbixet_pieces before;
    lumbixet_pieces_open(p, LUMBIXET_PROFILE_2);
    before = *p;
    SAME(take(p, groups, sizeof groups, 23).result, LUMBIXET_NO_ROOM);
    SAME(memcmp(p, &before, sizeof before), 0);
    lumbixet_pieces_taken taken = take(p, groups, sizeof groups, 47);
    SAME(taken.taken, NUMBERS + 24);
    SAME(taken.records, 1);
    SAME(p->group, 3);
    SAME(p->above, 6);
    same_bytes("the first entry with its group", buffer, groups + NUMBERS, 24);
    taken = take(p, groups + taken.taken, sizeof groups - taken.taken, 24);
    SAME(taken.taken, 24);
    SAME(lumbixet_read_entry(LUMBIXET_PROFILE_2, buffer, 24, 0).group, 4);
    SAME(lumbixet_pieces_end(p).result, LUMBIXET_ACCEPTED);
}

/* One byte of the report is another one, and so many bytes are handed in: the answer, and once more; then how many entries came. */
static void wrong(lumbixet_pieces *p, size_t place, uint8_t byte, size_t length, uint64_t result, uint64_t taken, uint64_t records)
{
    uint8_t bytes[WHOLE + 2] = {0};
    memcpy(bytes, report, WHOLE);
    bytes[place] = byte;
    lumbixet_pieces_open(p, LUMBIXET_PROFILE_1);
    lumbixet_pieces_taken first = take(p, bytes, length, sizeof buffer);
    SAME(first.result, result);
    SAME(first.taken, taken);
    SAME(first.records, records);
    SAME(first.whole, result == LUMBIXET_ACCEPTED);
    if (result != LUMBIXET_ACCEPTED) {
        SAME(first.header.timestamp, 0);
        SAME(take(p, bytes, length, 16).result, result);
        SAME(take(p, bytes, length, 15).result, LUMBIXET_NO_ROOM);
    }
    SAME(lumbixet_pieces_end(p).result, result ? result : LUMBIXET_ENDS);
    SAME(take(p, bytes, length, 16).result, result ? result : LUMBIXET_ENDS);
    /* 12 stood before the end, which left the record as it was */
    SAME(p->stage, result == LUMBIXET_ENTRY ? LUMBIXET_COUNTING : LUMBIXET_REFUSED);
    SAME(p->left, result == LUMBIXET_ENTRY ? 0 : result ? result : LUMBIXET_ENDS);
}

static void refusals(lumbixet_pieces *p)
{
    wrong(p, 5, 1, WHOLE, LUMBIXET_SUM, 6, 0);
    wrong(p, 7, 5, WHOLE, LUMBIXET_COUNT_OR_TYPE, 8, 0);
    wrong(p, 8, 3, WHOLE, LUMBIXET_COUNT_OR_TYPE, 9, 0);
    wrong(p, 10, 0x3f, WHOLE, LUMBIXET_LONGER_FORM, 11, 0);
    wrong(p, NUMBERS + ENTRY + 8, 4, WHOLE, LUMBIXET_ENTRY, WHOLE, 1);
    wrong(p, NUMBERS + ENTRY + 7, 5, WHOLE + 1, LUMBIXET_ENTRY, WHOLE, 1);
    wrong(p, NUMBERS + 8, 4, WHOLE - 1, LUMBIXET_ACCEPTED, WHOLE - 1, 0);
    wrong(p, 0, 7, WHOLE + 2, LUMBIXET_BYTES_BEHIND, WHOLE + 1, 2);
    wrong(p, 0, 7, WHOLE - 1, LUMBIXET_ACCEPTED, WHOLE - 1, 1);
}

/* A record that no call leaves: nothing of it changes. */
static void made_up(lumbixet_pieces *p)
{
    lumbixet_pieces given;
    lumbixet_pieces_open(p, LUMBIXET_PROFILE_1);
    take(p, report, 30, 32);
    for (int word = 0; word < 7; word++) {
        lumbixet_pieces spoiled = *p;
        memset((uint8_t *)&spoiled + 8 * word, 0x7f, 8);
        given = spoiled;
        SAME(take(&spoiled, report, WHOLE, 32).result, LUMBIXET_INCONSISTENT);
        SAME(lumbixet_pieces_end(&spoiled).result, LUMBIXET_INCONSISTENT);
        SAME(memcmp(&spoiled, &given, sizeof given), 0);
        SAME(buffer[0], 0xa5);
    }
}

/* Each of these has parts that disagree: no header before its entries; 7 of 0 and 0 and 0; more entries left than it counts; a
 * group in profile 1; more bytes to be counted on than a report has; accepted without a header. */
static void disagreeing(void)
{
    static const lumbixet_pieces given[] = {
        {.profile = 1, .stage = LUMBIXET_IN_ENTRIES},
        {.profile = 1, .stage = LUMBIXET_IN_ENTRIES, .come = 9, .numbers = {[2] = 7}},
        {.profile = 1, .stage = LUMBIXET_IN_ENTRIES, .left = 200, .above = 1, .come = 9},
        {.profile = 1, .stage = LUMBIXET_IN_ENTRIES, .group = 5, .above = 1, .come = 9, .numbers = {[8] = 1}},
        {.profile = 1, .stage = LUMBIXET_COUNTING, .left = UINT64_MAX, .come = 9, .numbers = {[8] = 2}},
        {.profile = 1, .stage = LUMBIXET_ENDED},
    };
    for (size_t i = 0; i < sizeof given / sizeof given[0]; i++) {
        lumbixet_pieces spoiled = given[i];
        SAME(take(&spoiled, report, WHOLE, 32).result, LUMBIXET_INCONSISTENT);
        SAME(lumbixet_pieces_end(&spoiled).result, LUMBIXET_INCONSISTENT);
        SAME(memcmp(&spoiled, &given[i], sizeof spoiled), 0);
    }
}

/* A refusal that stands is given again, and the record stays as it was, words that mean nothing included. */
static void standing(void)
{
    static const lumbixet_pieces given = {.profile = 1, .stage = LUMBIXET_REFUSED, .left = LUMBIXET_SUM, .group = 7, .come = 3};
    lumbixet_pieces refused = given;
    SAME(take(&refused, report, WHOLE, 32).result, LUMBIXET_SUM);
    SAME(lumbixet_pieces_end(&refused).result, LUMBIXET_SUM);
    SAME(memcmp(&refused, &given, sizeof refused), 0);
}

int main(void)
{
    lumbixet_pieces pieces;
    opening(&pieces);
    words(&pieces);
    rooms(&pieces);
    refusals(&pieces);
    made_up(&pieces);
    disagreeing();
    standing();
    if (faults == 0)
        printf("pieces: %d values of the archive are as include/lumbixet_pieces.h says\n", seen);
    return faults != 0;
}
