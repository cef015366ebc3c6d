/* Holds include/lumbixet_report.h to the archive, as tests/c/header.c does the rest. `make host` builds and runs it. */
#include "same.h"

SIZE(lumbixet_header, 200);
SIZE(lumbixet_report, 208);
SIZE(lumbixet_entries, 16);
SIZE(lumbixet_entry, 40);
SIZE(lumbixet_written, 24);
SIZE(lumbixet_newest, 32);

/* No byte between two fields: answers can be compared by their bytes. */
SIZE(lumbixet_header, (9 + 8 + 8) * 8);
SIZE(lumbixet_report, 8 + sizeof(lumbixet_header));

AT(lumbixet_header, average, 48);
AT(lumbixet_header, kinds, 64);
AT(lumbixet_header, values, 128);
AT(lumbixet_header, entries, 192);
AT(lumbixet_report, header, 8);
AT(lumbixet_entry, group, 8);
AT(lumbixet_entry, object, 16);
AT(lumbixet_newest, found, 8);
AT(lumbixet_newest, group, 16);

static void reports(void)
{
    static const uint8_t expected[] = {
        0x43, 0xe9, 0x43, 0xea, 60, 10, 20, 30, 13, 4, 0x02, 51, 0x04, 52, 0x10, 53, 0x12, 54, 4,
        0, 0, 0, 0, 0, 0, 0, 7, 0, 0, 0, 0, 0, 0, 0, 9,
        0, 0, 0, 0, 0, 0, 0, 8, 1, 0, 0, 0, 0, 0, 1, 0,
        0, 0, 0, 0, 0, 0, 0, 9, 2, 0, 0, 0, 0, 0, 0, 0,
        0, 0, 0, 0, 0, 0, 0, 10, 3, 0, 0, 0, 0, 0, 0, 9,
    };
    const uint8_t *records = expected + 19;
    lumbixet_header header = {
        .timestamp = 1001, .interval = 1002, .total = 60, .received = 10, .late = 20, .lost = 30, .average = -7,
        .metrics = 4, .kinds = {0x02, 0x04, 0x10, 0x12}, .values = {51, 52, 53, 54}, .entries = 99,
    };
    uint8_t buffer[sizeof expected];
    lumbixet_written written = lumbixet_write_report(LUMBIXET_PROFILE_1, buffer, sizeof buffer, header, records, 64, LUMBIXET_ENTRIES);
    SAME(written.result, LUMBIXET_ACCEPTED);
    SAME(written.next, 83);
    SAME(written.kept, 4);
    same_bytes("those of the report", buffer, expected, sizeof expected);

    lumbixet_report report = lumbixet_read_report(LUMBIXET_PROFILE_1, expected, sizeof expected);
    header.entries = 4;
    SAME(report.result, LUMBIXET_ACCEPTED);
    same_bytes("those of the header", &report.header, &header, sizeof header);
    lumbixet_entries part = lumbixet_find_entries(LUMBIXET_PROFILE_1, expected, sizeof expected);
    SAME(part.start, 19);
    SAME(part.length, 64);
    lumbixet_entry entry = lumbixet_read_entry(LUMBIXET_PROFILE_1, expected + part.start, part.length, 1);
    SAME(entry.result, LUMBIXET_ACCEPTED);
    SAME(entry.group, 0);
    SAME(entry.object, 8);
    SAME(entry.status, LUMBIXET_LATE);
    SAME(entry.age, 256);
    SAME(lumbixet_read_entry(LUMBIXET_PROFILE_1, records, 64, 0).status, LUMBIXET_RECEIVED);
    SAME(lumbixet_read_entry(LUMBIXET_PROFILE_1, records, 64, 2).status, LUMBIXET_NOT_RECEIVED);
    SAME(lumbixet_read_entry(LUMBIXET_PROFILE_1, records, 64, 3).status, LUMBIXET_PARTIAL);
    SAME(lumbixet_read_entry(LUMBIXET_PROFILE_1, records, 64, 4).result, LUMBIXET_ENDS);

    SAME(lumbixet_read_report(LUMBIXET_PROFILE_1, expected, sizeof expected - 1).result, LUMBIXET_ENDS);
    SAME(lumbixet_find_entries(LUMBIXET_PROFILE_1, expected, sizeof expected - 1).start, 82);
    static const uint8_t long_average[] = {0, 0, 0, 0, 0, 0, 0x40, 0, 0, 0};
    SAME(lumbixet_read_report(LUMBIXET_PROFILE_1, long_average, sizeof long_average).result, LUMBIXET_LONGER_FORM);
    SAME(lumbixet_write_report(LUMBIXET_PROFILE_1, buffer, sizeof buffer, header, records, 63, LUMBIXET_ENTRIES).result, LUMBIXET_ENTRY);
    SAME(lumbixet_write_report(LUMBIXET_PROFILE_1, buffer, sizeof buffer, header, records, 63, LUMBIXET_ENTRIES + 1).result, LUMBIXET_COUNT_OR_TYPE);
    header.metrics = 5;
    SAME(lumbixet_write_report(LUMBIXET_PROFILE_1, buffer, sizeof buffer, header, records, 64, LUMBIXET_ENTRIES).result, LUMBIXET_COUNT_OR_TYPE);
    header.lost = 31;
    SAME(lumbixet_write_report(LUMBIXET_PROFILE_1, buffer, sizeof buffer, header, records, 64, LUMBIXET_ENTRIES).result, LUMBIXET_SUM);
    static const uint8_t behind[] = {0x80, 0x0f, 0x42, 0x40, 0x80, 0x01, 0x86, 0xa0, 3, 1, 1, 1, 3, 0, 0, 0};
    SAME(lumbixet_read_report(LUMBIXET_PROFILE_1, behind, sizeof behind).result, LUMBIXET_BYTES_BEHIND);
    static const uint8_t longer[] = {0, 0, 0, 0, 0, 0, 0, 0, 0x40, 0};
    SAME(lumbixet_read_report(LUMBIXET_PROFILE_1, longer, sizeof longer).result, LUMBIXET_LONGER_FORM);
}

/* Two groups, of which the second begins at a smaller object; eight metrics, of which six have no name here. */
static void groups(void)
{
    static const uint8_t expected[] = {
        1, 2, 3, 3, 0, 0, 4, 8, 0, 61, 2, 62, 4, 63, 6, 60, 8, 59, 10, 58, 12, 57, 0x40, 0x40, 56, 3,
        0, 0, 0, 0, 0, 0, 0, 5, 0, 0, 0, 0, 0, 0, 0, 70, 0, 0, 0, 0, 0, 0, 0, 9,
        0, 0, 0, 0, 0, 0, 0, 5, 0, 0, 0, 0, 0, 0, 0, 71, 1, 0, 0, 0, 0, 0, 1, 0,
        0, 0, 0, 0, 0, 0, 1, 4, 0, 0, 0, 0, 0, 0, 0, 7, 2, 0, 0, 0, 0, 0, 0, 0,
    };
    enum { TWO = LUMBIXET_PROFILE_2, START = 26 };
    const uint8_t *records = expected + START;
    lumbixet_header header = {
        .timestamp = 1, .interval = 2, .total = 3, .received = 3, .average = 2, .metrics = 8,
        .kinds = {0, 2, 4, 6, 8, 10, 12, 64}, .values = {61, 62, 63, 60, 59, 58, 57, 56}, .entries = 3,
    };
    uint8_t buffer[sizeof expected];
    lumbixet_written written = lumbixet_write_report(TWO, buffer, sizeof buffer, header, records, 72, LUMBIXET_ENTRIES);
    SAME(written.result, LUMBIXET_ACCEPTED);
    SAME(written.kept, 3);
    same_bytes("those of a report with groups", buffer, expected, sizeof expected);
    lumbixet_report report = lumbixet_read_report(TWO, expected, sizeof expected);
    SAME(report.result, LUMBIXET_ACCEPTED);
    same_bytes("those of the header with eight metrics", &report.header, &header, sizeof header);
    lumbixet_entries part = lumbixet_find_entries(TWO, expected, sizeof expected);
    SAME(part.start, START);
    SAME(part.length, 72);
    lumbixet_entry entry = lumbixet_read_entry(TWO, records, 72, 1);
    SAME(entry.result, LUMBIXET_ACCEPTED);
    SAME(entry.group, 5);
    SAME(entry.object, 71);
    SAME(entry.status, LUMBIXET_LATE);
    SAME(entry.age, 256);
    SAME(lumbixet_read_entry(TWO, records, 72, 2).group, 260);
    SAME(lumbixet_read_entry(TWO, records, 72, 3).result, LUMBIXET_ENDS);
    SAME(lumbixet_write_report(TWO, buffer, sizeof buffer - 1, header, records, 72, LUMBIXET_ENTRIES).next, START + 48);
    SAME(lumbixet_write_report(TWO, buffer, sizeof buffer, header, records, 48 + 16, LUMBIXET_ENTRIES).result, LUMBIXET_ENTRY);
    memcpy(buffer, records + 24, 24);
    memcpy(buffer + 24, records, 24);
    SAME(lumbixet_write_report(TWO, buffer + 48, 40, header, buffer, 48, LUMBIXET_ENTRIES).result, LUMBIXET_ENTRY);
    header.kinds[1] = 1;
    SAME(lumbixet_write_report(TWO, buffer, sizeof buffer, header, records, 72, LUMBIXET_ENTRIES).result, LUMBIXET_COUNT_OR_TYPE);
    header.metrics = 9;
    SAME(lumbixet_write_report(TWO, buffer, sizeof buffer, header, records, 72, LUMBIXET_ENTRIES).result, LUMBIXET_COUNT_OR_TYPE);
}

/* 18 before everything: nothing is read, no number is judged, and no room is looked at. */
static void other_profiles(void)
{
    static const uint64_t others[] = {0, 3, UINT64_MAX};
    const lumbixet_header header = {.timestamp = UINT64_MAX};
    uint8_t bytes[9] = {0};
    for (size_t i = 0; i < sizeof others / sizeof others[0]; i++) {
        SAME(lumbixet_read_report(others[i], bytes, 0).result, LUMBIXET_OTHER_PROFILE);
        SAME(lumbixet_find_entries(others[i], bytes, sizeof bytes).start, sizeof bytes);
        SAME(lumbixet_find_entries(others[i], bytes, sizeof bytes).length, 0);
        SAME(lumbixet_read_entry(others[i], bytes, 0, 0).result, LUMBIXET_OTHER_PROFILE);
        SAME(lumbixet_write_report(others[i], bytes, 0, header, bytes, 1, UINT64_MAX).result, LUMBIXET_OTHER_PROFILE);
        SAME(lumbixet_newest_lost(others[i], bytes, 0).result, LUMBIXET_OTHER_PROFILE);
    }
}

/* The answer's four numbers: a refusal has no object, and "none" is no refusal. */
static void newest_is(int line, uint64_t profile, const uint8_t *bytes, size_t length, lumbixet_newest expected)
{
    lumbixet_newest newest = lumbixet_newest_lost(profile, bytes, length);
    same("newest.result", newest.result, expected.result, __FILE__, line);
    same("newest.found", newest.found, expected.found, __FILE__, line);
    same("newest.group", newest.group, expected.group, __FILE__, line);
    same("newest.object", newest.object, expected.object, __FILE__, line);
}

#define NEWEST(...) newest_is(__LINE__, __VA_ARGS__)

/* Four objects, of which the second and the third did not come. Each change is taken back before the next. */
static void newest_lost(void)
{
    enum { ONE = LUMBIXET_PROFILE_1, START = 9, FIRST = START, THIRD = START + 32, LAST = START + 48, END = START + 64 };
    uint8_t bytes[END + 1] = {
        1, 2, 3, 1, 0, 2, 0, 0, 4,
        0, 0, 0, 0, 0, 0, 1, 7, 0, 0, 0, 0, 0, 0, 0, 9,
        0, 0, 0, 0, 0, 0, 1, 8, 2, 0, 0, 0, 0, 0, 0, 0,
        0, 0, 0, 0, 0, 0, 1, 9, 2, 0, 0, 0, 0, 0, 0, 0,
        0, 0, 0, 0, 0, 0, 1, 10, 3, 0, 0, 0, 0, 0, 0, 9,
    };
    const lumbixet_newest none = {0}, third = {.found = 1, .object = 265}, broken = {.result = LUMBIXET_ENTRY};
    NEWEST(ONE, bytes, END, third);

    bytes[FIRST + 8] = 4; /* not read, and so is its order */
    NEWEST(ONE, bytes, END, third);
    SAME(lumbixet_read_report(ONE, bytes, END).result, LUMBIXET_ENTRY);
    bytes[FIRST + 8] = 0;
    bytes[FIRST + 16 + 7] = 11;
    NEWEST(ONE, bytes, END, third);
    SAME(lumbixet_read_report(ONE, bytes, END).result, LUMBIXET_ENTRY);
    bytes[FIRST + 16 + 7] = 8;

    bytes[LAST + 9] = 1; /* a bad one that is read, the found one itself, and the order between the two */
    NEWEST(ONE, bytes, END, broken);
    NEWEST(ONE, bytes, END + 1, (lumbixet_newest){.result = LUMBIXET_BYTES_BEHIND});
    SAME(lumbixet_read_report(ONE, bytes, END + 1).result, LUMBIXET_ENTRY);
    NEWEST(ONE, bytes, END - 1, (lumbixet_newest){.result = LUMBIXET_ENDS});
    bytes[LAST + 9] = 0;
    bytes[THIRD + 15] = 1;
    NEWEST(ONE, bytes, END, broken);
    bytes[THIRD + 15] = 0;
    bytes[LAST + 7] = 9;
    NEWEST(ONE, bytes, END, broken);
    bytes[LAST + 7] = 10;

    bytes[THIRD + 8] = LUMBIXET_PARTIAL; /* then the second, then none, then the first */
    NEWEST(ONE, bytes, END, (lumbixet_newest){.found = 1, .object = 264});
    bytes[FIRST + 16 + 8] = LUMBIXET_LATE;
    NEWEST(ONE, bytes, END, none);
    bytes[FIRST + 8] = LUMBIXET_NOT_RECEIVED;
    NEWEST(ONE, bytes, END, broken);
    bytes[FIRST + 15] = 0;
    NEWEST(ONE, bytes, END, (lumbixet_newest){.found = 1, .object = 263});
    NEWEST(ONE, (const uint8_t[]){0, 0, 0, 0, 0, 0, 0, 0, 0}, 9, none);

    bytes[2] = 4; /* the header is judged whole, and first */
    NEWEST(ONE, bytes, END, (lumbixet_newest){.result = LUMBIXET_SUM});
    NEWEST(ONE, (const uint8_t[]){0, 0, 0, 0, 0, 0, 0, 5}, 8, (lumbixet_newest){.result = LUMBIXET_COUNT_OR_TYPE});
    NEWEST(ONE, (const uint8_t[]){0, 0, 0, 0, 0, 0, 0, 0, 0x40, 0}, 10, (lumbixet_newest){.result = LUMBIXET_LONGER_FORM});

    static const uint8_t groups[] = {
        0, 0, 0, 0, 0, 0, 0, 0, 2,
        0, 0, 0, 0, 0, 0, 1, 5, 0, 0, 0, 0, 0, 0, 0, 70, 2, 0, 0, 0, 0, 0, 0, 0,
        0, 0, 0, 0, 0, 0, 1, 6, 0, 0, 0, 0, 0, 0, 0, 7, 1, 0, 0, 0, 0, 0, 0, 9,
    };
    NEWEST(LUMBIXET_PROFILE_2, groups, sizeof groups, (lumbixet_newest){.found = 1, .group = 261, .object = 70});
}

/* A report of so many entries on the wire, all numbers 0, the objects from 0 on: its length. */
static size_t so_many(uint8_t *bytes, uint64_t entries)
{
    memset(bytes, 0, 8);
    uint64_t start = lumbixet_put_number(bytes, 10, 8, entries).next;
    memset(bytes + start, 0, 16 * entries);
    for (uint64_t i = 0; i < entries; i++)
        bytes[start + 16 * i + 7] = (uint8_t)i;
    return start + 16 * entries;
}

/* 63 entries are the last whose count takes one byte, 200 the most; a maximum is at most as large. */
static void limits(void)
{
    static uint8_t bytes[10 + 201 * 16], buffer[sizeof bytes];
    const lumbixet_header header = {0};
    static const uint64_t counts[] = {0, 1, 50, 63, 64, 65, 199, 200};
    for (size_t i = 0; i < sizeof counts / sizeof counts[0]; i++) {
        uint64_t count = counts[i], length = so_many(bytes, count);
        SAME(length, 8 + (count < 64 ? 1 : 2) + 16 * count);
        lumbixet_report report = lumbixet_read_report(LUMBIXET_PROFILE_1, bytes, length);
        SAME(report.result, LUMBIXET_ACCEPTED);
        SAME(report.header.entries, count);
        const uint8_t *records = bytes + length - 16 * count;
        lumbixet_written written = lumbixet_write_report(LUMBIXET_PROFILE_1, buffer, length, header, records, 16 * count, LUMBIXET_ENTRIES);
        SAME(written.next, length);
        same_bytes("those of a long report", buffer, bytes, length);
        written = lumbixet_write_report(LUMBIXET_PROFILE_1, buffer, sizeof buffer, header, records, 16 * count, LUMBIXET_OLD_ENTRIES);
        SAME(written.kept, count < LUMBIXET_OLD_ENTRIES ? count : LUMBIXET_OLD_ENTRIES);
        same_bytes("the last records", buffer + 9, records + 16 * (count - written.kept), 16 * written.kept);
        SAME(lumbixet_write_report(LUMBIXET_PROFILE_1, buffer, sizeof buffer, header, records, 16 * count, 0).next, 9);
        SAME(lumbixet_write_report(LUMBIXET_PROFILE_1, buffer, 0, header, records, 16 * count, UINT64_MAX).result, LUMBIXET_COUNT_OR_TYPE);
    }
    SAME(lumbixet_read_report(LUMBIXET_PROFILE_1, bytes, so_many(bytes, 201)).result, LUMBIXET_COUNT_OR_TYPE);
    SAME(lumbixet_write_report(LUMBIXET_PROFILE_1, buffer, sizeof buffer, header, bytes + 10, 201 * 16, LUMBIXET_ENTRIES).kept, 200);
}

int main(void)
{
    reports();
    limits();
    groups();
    other_profiles();
    newest_lost();
    if (faults == 0)
        printf("report: %d values of the archive are as include/lumbixet_report.h says\n", seen);
    return faults != 0;
}
