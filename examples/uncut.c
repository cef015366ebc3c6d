/* A feedback report off a stream: in one part, byte by byte, and in random cuttings, through a buffer of one entry. `make host` builds
 * and runs it. What it must print stands in uncut.expected, which was written by hand from documents 01 and 02. */
#include <inttypes.h>
#include <stdio.h>
#include <stdlib.h>
#include <string.h>

#include "lumbixet_pieces.h"

enum { NUMBERS = 15, ENTRIES = 3, WHOLE = NUMBERS + 16 * ENTRIES, MOST = NUMBERS + 24 * ENTRIES + 2, CUTTINGS = 1000 };

/* Timestamp, interval, total, received, late, lost, average, no metrics, three entries; then the entries, as profile 1 has them. */
static const uint8_t report[WHOLE] = {
    0x80, 0x0f, 0x42, 0x40, 0x80, 0x01, 0x86, 0xa0, 3, 1, 1, 1, 3, 0, ENTRIES,
    0, 0, 0, 0, 0, 0, 0, 100, LUMBIXET_RECEIVED, 0, 0, 0, 0, 0, 0x9c, 0x40,
    0, 0, 0, 0, 0, 0, 0, 101, LUMBIXET_LATE, 0, 0, 0, 0, 0, 0x4e, 0x20,
    0, 0, 0, 0, 0, 0, 0, 102, LUMBIXET_NOT_RECEIVED, 0, 0, 0, 0, 0, 0, 0,
};

/* What a reading comes to. */
struct outcome {
    uint64_t result;              /* 0, or the refusal */
    uint64_t with;                /* how many bytes had come when it was refused; 0 where only the end did so */
    uint64_t entries;             /* how many entries were delivered */
    uint8_t records[24 * ENTRIES];/* and they themselves */
    lumbixet_header header;       /* what the end handed over */
};

/* How long the next part is; of a stream nobody knows. */
typedef size_t cutting(void);

static size_t in_one_part(void)
{
    return MOST;
}

static size_t byte_by_byte(void)
{
    return 1;
}

/* Up to 19 bytes, now and then none. */
static size_t at_random(void)
{
    static uint64_t state = 6;
    state = state * 6364136223846793005 + 1442695040888963407;
    return (state >> 33) % 20;
}

static void say_entry(uint64_t byte, lumbixet_entry entry)
{
    static const char *const words[] = {"came in time", "came late", "did not come", "came in part"};
    printf("  byte %" PRIu64 ": object %" PRIu64 " %s.\n", byte, entry.object, words[entry.status]);
}

/* One call: the buffer holds one entry, which is copied out. It answers how many bytes were taken. */
static size_t take(lumbixet_pieces *pieces, const uint8_t *part, size_t length, size_t at, struct outcome *o, bool *silent)
{
    uint8_t buffer[24];
    size_t size = pieces->profile == LUMBIXET_PROFILE_2 ? 24 : 16;
    lumbixet_pieces_taken taken = lumbixet_pieces_take(pieces, part, length, buffer, size);
    at += taken.taken;
    if (taken.whole && !*silent) {
        printf("  byte %zu: the header is whole: %" PRIu64 " objects, %" PRIu64 " received, %" PRIu64 " late, %" PRIu64 " lost, ", at,
               taken.header.total, taken.header.received, taken.header.late, taken.header.lost);
        printf("and %" PRIu64 " entries follow.\n", taken.header.entries);
        *silent = true;
    }
    memcpy(o->records + o->entries * size, buffer, taken.records * size);
    o->entries += taken.records;
    o->result = taken.result;
    o->with = taken.result ? at : 0;
    return taken.taken;
}

/* The bytes come as the cutting has it; what is not taken comes again at the start of the next part. */
static struct outcome read_in(cutting *next, uint64_t profile, const uint8_t *bytes, size_t length, bool aloud)
{
    struct outcome o = {0};
    lumbixet_pieces pieces;
    bool silent = !aloud;
    lumbixet_pieces_open(&pieces, profile);
    for (size_t at = 0; at < length && o.result == LUMBIXET_ACCEPTED;) {
        size_t rest = length - at, part = next();
        uint64_t came = o.entries;
        at += take(&pieces, bytes + at, part < rest ? part : rest, at, &o, &silent);
        if (aloud && o.entries > came)
            say_entry(at, lumbixet_read_entry(profile, o.records, sizeof o.records, came));
    }
    lumbixet_report end = lumbixet_pieces_end(&pieces);
    o.result = end.result;
    o.header = end.header;
    return o;
}

/* All cuttings come to the same, and to what the whole reader says. */
static struct outcome read_every_way(uint64_t profile, const uint8_t *bytes, size_t length)
{
    struct outcome whole = read_in(in_one_part, profile, bytes, length, false);
    struct outcome other = read_in(byte_by_byte, profile, bytes, length, false);
    bool same = memcmp(&whole, &other, sizeof whole) == 0;
    for (int i = 0; i < CUTTINGS; i++) {
        other = read_in(at_random, profile, bytes, length, false);
        same = same && memcmp(&whole, &other, sizeof whole) == 0;
    }
    lumbixet_report read = lumbixet_read_report(profile, bytes, length);
    same = same && read.result == whole.result && memcmp(&read.header, &whole.header, sizeof read.header) == 0;
    if (same)
        return whole;
    puts("Two cuttings of one report gave different answers.");
    exit(1);
}

/* The report with some bytes at a place in the stead of one, so many of it or with one behind: what every cutting gives. */
static void wrong(const char *what, size_t place, const uint8_t *instead, size_t count, int more)
{
    uint8_t bytes[MOST] = {0};
    memcpy(bytes, report, place);
    memcpy(bytes + place, instead, count);
    memcpy(bytes + place + count, report + place + 1, WHOLE - place - 1);
    struct outcome o = read_every_way(LUMBIXET_PROFILE_1, bytes, (size_t)((int)(WHOLE - 1 + count) + more));
    printf("  %s: %" PRIu64 " ", what, o.result);
    if (o.with)
        printf("with byte %" PRIu64, o.with);
    else
        printf("at the end");
    printf(", %" PRIu64 " of the entries delivered.\n", o.entries);
}

static void all_wrongs(void)
{
    const uint8_t as_it_is = report[NUMBERS + 16 + 8], bad = 7, again = 100, total = 4, metrics = 5;
    const uint8_t many[] = {0x40, 201}, longer[] = {0x40, ENTRIES};
    printf("What goes wrong, in one part, byte by byte, in %d random cuttings and read whole the same:\n", CUTTINGS);
    wrong("the last byte is missing", NUMBERS + 16 + 8, &as_it_is, 1, -1);
    wrong("a byte too many", NUMBERS + 16 + 8, &as_it_is, 1, 1);
    wrong("object 101 has status 7", NUMBERS + 16 + 8, &bad, 1, 0);
    wrong("status 7 and a byte too many", NUMBERS + 16 + 8, &bad, 1, 1);
    wrong("status 7, and the last byte is missing", NUMBERS + 16 + 8, &bad, 1, -1);
    wrong("object 100 again in place of 101", NUMBERS + 16 + 7, &again, 1, 0);
    wrong("a total of 4", 8, &total, 1, 0);
    wrong("five metrics", 13, &metrics, 1, 0);
    wrong("201 entries", 14, many, 2, 0);
    wrong("the entry count in two bytes", 14, longer, 2, 0);
}

/* The same entries with groups 7, 7 and 8. */
static void with_groups(void)
{
    uint8_t bytes[NUMBERS + 24 * ENTRIES] = {0};
    memcpy(bytes, report, NUMBERS);
    for (size_t i = 0; i < ENTRIES; i++) {
        bytes[NUMBERS + 24 * i + 7] = i < 2 ? 7 : 8;
        memcpy(bytes + NUMBERS + 24 * i + 8, report + NUMBERS + 16 * i, 16);
    }
    struct outcome o = read_every_way(LUMBIXET_PROFILE_2, bytes, sizeof bytes);
    printf("Profile 2, %zu bytes, every cutting: %s, %" PRIu64 " entries; the last is object %" PRIu64 " of group %" PRIu64 ".\n", sizeof bytes,
           lumbixet_refusal_text(o.result), o.entries, lumbixet_read_entry(LUMBIXET_PROFILE_2, o.records, sizeof o.records, 2).object,
           lumbixet_read_entry(LUMBIXET_PROFILE_2, o.records, sizeof o.records, 2).group);
}

/* A buffer without room for an entry, and a byte after the end. */
static void edges(void)
{
    lumbixet_pieces pieces;
    uint8_t buffer[48];
    lumbixet_pieces_open(&pieces, LUMBIXET_PROFILE_1);
    lumbixet_pieces_taken taken = lumbixet_pieces_take(&pieces, report, WHOLE, buffer, 15);
    printf("A buffer of 15 bytes: %" PRIu64 ", %" PRIu64 " bytes taken.", taken.result, taken.taken);
    taken = lumbixet_pieces_take(&pieces, report, WHOLE, buffer, sizeof buffer);
    printf(" One of 48 next: %" PRIu64 ", %" PRIu64 " bytes taken, %" PRIu64 " entries.\n", taken.result, taken.taken, taken.records);
    uint64_t first = lumbixet_pieces_end(&pieces).result;
    taken = lumbixet_pieces_take(&pieces, report, WHOLE, buffer, sizeof buffer);
    printf("The end: %" PRIu64 ". The report once more: %" PRIu64 ", %" PRIu64 " bytes taken. The end again: %" PRIu64 ".\n", first, taken.result,
           taken.taken, lumbixet_pieces_end(&pieces).result);
}

int main(void)
{
    printf("A report of %d bytes comes off a stream: %d bytes of numbers, then %d entries of 16. The buffer holds one.\n", WHOLE, NUMBERS, ENTRIES);
    puts("In one part:");
    struct outcome o = read_in(in_one_part, LUMBIXET_PROFILE_1, report, WHOLE, true);
    printf("  the end: %s.\n", lumbixet_refusal_text(o.result));
    puts("Byte by byte:");
    o = read_in(byte_by_byte, LUMBIXET_PROFILE_1, report, WHOLE, true);
    printf("  the end: %s.\n", lumbixet_refusal_text(o.result));
    read_every_way(LUMBIXET_PROFILE_1, report, WHOLE);
    printf("In %d random cuttings: each gave the same header, the same entries and the same answer, which are the whole reader's.\n", CUTTINGS);
    all_wrongs();
    with_groups();
    edges();
    return 0;
}
