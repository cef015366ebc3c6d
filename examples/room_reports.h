/* The reports of room.c, and the sentences that all of it needs. */
#ifndef ROOM_REPORTS_H
#define ROOM_REPORTS_H

#include <inttypes.h>
#include <stdio.h>
#include <stdlib.h>
#include <string.h>

#include "lumbixet.h"

enum { ONE = LUMBIXET_PROFILE_1, TWO = LUMBIXET_PROFILE_2 };

static void show(const uint8_t *bytes, uint64_t length)
{
    for (uint64_t i = 0; i < length; i++)
        printf(" %02x", bytes[i]);
    puts(".");
}

/* What this story relies on: a host logs the words and gives up what it was doing. */
static void must(uint64_t result, const char *what)
{
    if (result == LUMBIXET_ACCEPTED)
        return;
    fprintf(stderr, "%s: refused with %" PRIu64 ": %s\n", what, result, lumbixet_refusal_text(result));
    exit(1);
}

static void refused(uint64_t result)
{
    printf(" Refused with %" PRIu64 ": %s.\n", result, lumbixet_refusal_text(result));
}

/* Reads a report, and says its metrics, and what became of each object that it has an entry for. */
static void read_report(uint64_t profile, const uint8_t *bytes, size_t length)
{
    lumbixet_report report = lumbixet_read_report(profile, bytes, length);
    if (report.result != LUMBIXET_ACCEPTED) {
        refused(report.result);
        return;
    }
    lumbixet_header h = report.header;
    printf("Read back: %" PRIu64 " objects, %" PRIu64 " received, %" PRIu64 " late, %" PRIu64 " lost, average deviation %" PRId64 " microseconds.\n",
           h.total, h.received, h.late, h.lost, h.average);
    for (uint64_t i = 0; i < h.metrics; i++)
        printf("  Metric %" PRIu64 " is %" PRIu64 ".\n", h.kinds[i], h.values[i]);
    lumbixet_entries part = lumbixet_find_entries(profile, bytes, length);
    for (uint64_t i = 0; i < h.entries; i++) {
        lumbixet_entry entry = lumbixet_read_entry(profile, bytes + part.start, part.length, i);
        must(entry.result, "reading an entry");
        printf("  Object %" PRIu64 " ", entry.object);
        if (profile == TWO)
            printf("of group %" PRIu64 " ", entry.group);
        if (entry.status == LUMBIXET_NOT_RECEIVED)
            puts("did not come.");
        else
            printf("came %s, %" PRIu64 " microseconds before the report.\n",
                   entry.status == LUMBIXET_LATE ? "late" : entry.status == LUMBIXET_PARTIAL ? "in part" : "in time", entry.age);
    }
}

static void report(void)
{
    /* object number (8 bytes, high first), status, three zeros, age (4 bytes, high first) */
    static const uint8_t records[] = {
        0, 0, 0, 0, 0, 0, 0, 100, LUMBIXET_RECEIVED, 0, 0, 0, 0, 0, 0x9c, 0x40,
        0, 0, 0, 0, 0, 0, 0, 101, LUMBIXET_LATE, 0, 0, 0, 0, 0, 0x4e, 0x20,
        0, 0, 0, 0, 0, 0, 0, 102, LUMBIXET_NOT_RECEIVED, 0, 0, 0, 0, 0, 0, 0,
    };
    lumbixet_header header = {.timestamp = 1000000, .interval = 100000, .total = 3, .received = 1, .late = 1, .lost = 1, .average = -2};
    uint8_t buffer[47];
    lumbixet_written written = lumbixet_write_report(ONE, buffer, sizeof buffer, header, records, sizeof records, LUMBIXET_ENTRIES);
    must(written.result, "writing the report");
    printf("A report of %" PRIu64 " objects is written into %zu bytes. It takes %" PRIu64 ", and keeps the last %" PRIu64 " of 3 records.\n",
           header.total, sizeof buffer, written.next, written.kept);
    printf("  Its numbers are");
    show(buffer, lumbixet_find_entries(ONE, buffer, written.next).start);
    read_report(ONE, buffer, written.next);
    printf("The report without its last byte.");
    read_report(ONE, buffer, written.next - 1);
    uint8_t longer[sizeof buffer + 1] = {[14] = 0x40};
    memcpy(longer, buffer, 14);
    memcpy(longer + 15, buffer + 14, sizeof buffer - 14);
    printf("The report with its entry count in two bytes, 40 02.");
    read_report(ONE, longer, written.next + 1);
}

/* Seventy objects did not come; the report has at most so many entries. */
static void lost(uint64_t maximum)
{
    uint8_t records[70 * 16] = {0}, buffer[LUMBIXET_REPORT_ROOM];
    for (uint8_t i = 0; i < 70; i++) {
        records[16 * i + 7] = (uint8_t)(100 + i);
        records[16 * i + 8] = LUMBIXET_NOT_RECEIVED;
    }
    lumbixet_header header = {.timestamp = 1000000, .interval = 100000, .total = 70, .lost = 70};
    lumbixet_written written = lumbixet_write_report(ONE, buffer, sizeof buffer, header, records, sizeof records, maximum);
    printf("A report of 70 lost objects with at most %" PRIu64 " entries.", maximum);
    if (written.result != LUMBIXET_ACCEPTED) {
        refused(written.result);
        return;
    }
    lumbixet_entry first = lumbixet_read_entry(ONE, buffer + written.next - 16 * written.kept, 16 * written.kept, 0);
    printf(" It takes %" PRIu64 " bytes, and has the last %" PRIu64 ", from object %" PRIu64 " on.\n", written.next, written.kept, first.object);
}

/* Says which object of a report is the last that did not come. The search begins at the end and stops there. */
static void newest(uint64_t profile, const uint8_t *bytes, size_t length)
{
    lumbixet_newest lost = lumbixet_newest_lost(profile, bytes, length);
    if (lost.result != LUMBIXET_ACCEPTED)
        refused(lost.result);
    else if (!lost.found)
        puts(" There is none.");
    else if (profile == TWO)
        printf(" It is object %" PRIu64 " of group %" PRIu64 ".\n", lost.object, lost.group);
    else
        printf(" It is object %" PRIu64 ".\n", lost.object);
}

/* Profile 2: each record begins with its group (8 bytes, high first), and a metric may have a type that has no name yet. */
static void groups(void)
{
    static const uint8_t records[] = {
        0, 0, 0, 0, 0, 0, 0, 7, 0, 0, 0, 0, 0, 0, 0, 40, LUMBIXET_LATE, 0, 0, 0, 0, 0, 0x03, 0xe8,
        0, 0, 0, 0, 0, 0, 0, 7, 0, 0, 0, 0, 0, 0, 0, 41, LUMBIXET_NOT_RECEIVED, 0, 0, 0, 0, 0, 0, 0,
        0, 0, 0, 0, 0, 0, 0, 8, 0, 0, 0, 0, 0, 0, 0, 0, LUMBIXET_RECEIVED, 0, 0, 0, 0, 0, 0x01, 0xf4,
    };
    lumbixet_header header = {.timestamp = 1000000, .interval = 100000, .total = 3, .received = 1, .late = 1, .lost = 1,
                              .metrics = 2, .kinds = {LUMBIXET_PLAYOUT_AHEAD_MS, 20}, .values = {80, 5}};
    uint8_t buffer[LUMBIXET_REPORT_2_ROOM];
    lumbixet_written written = lumbixet_write_report(TWO, buffer, sizeof buffer, header, records, sizeof records, LUMBIXET_ENTRIES);
    must(written.result, "writing the report of two groups");
    printf("A report of profile 2 takes %" PRIu64 " bytes.\n  Its numbers are", written.next);
    show(buffer, lumbixet_find_entries(TWO, buffer, written.next).start);
    read_report(TWO, buffer, written.next);
    printf("The last object in it that did not come is sought.");
    newest(TWO, buffer, written.next);
    printf("Read as profile 3.");
    read_report(3, buffer, written.next);
}

/* Three objects, of which the middle one did not come; the report is then changed byte by byte. */
static void newest_lost(void)
{
    static const uint8_t records[] = {
        0, 0, 0, 0, 0, 0, 0, 100, LUMBIXET_RECEIVED, 0, 0, 0, 0, 0, 0x9c, 0x40,
        0, 0, 0, 0, 0, 0, 0, 101, LUMBIXET_NOT_RECEIVED, 0, 0, 0, 0, 0, 0, 0,
        0, 0, 0, 0, 0, 0, 0, 102, LUMBIXET_LATE, 0, 0, 0, 0, 0, 0x4e, 0x20,
    };
    lumbixet_header header = {.timestamp = 1000000, .interval = 100000, .total = 3, .received = 1, .late = 1, .lost = 1};
    uint8_t buffer[LUMBIXET_REPORT_ROOM];
    lumbixet_written written = lumbixet_write_report(ONE, buffer, sizeof buffer, header, records, sizeof records, LUMBIXET_ENTRIES);
    must(written.result, "writing the report for the screen");
    uint8_t *entries = buffer + written.next - sizeof records;
    printf("Object 100 came, 101 did not, 102 came late.");
    newest(ONE, buffer, written.next);
    entries[8] = 7;
    printf("Object 100 gets status 7, which means nothing; the search does not come to it.");
    newest(ONE, buffer, written.next);
    printf("The whole report is read.");
    read_report(ONE, buffer, written.next);
    entries[8] = LUMBIXET_RECEIVED;
    entries[16 + 8] = LUMBIXET_PARTIAL;
    printf("Object 100 came after all, and 101 in part.");
    newest(ONE, buffer, written.next);
    entries[32 + 7] = 101;
    printf("Both of the last two entries are of object 101.");
    newest(ONE, buffer, written.next);
    buffer[written.next] = 0;
    printf("And a byte stands behind the report.");
    newest(ONE, buffer, written.next + 1);
}

#endif
