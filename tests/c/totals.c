/* Holds include/lumbixet_totals.h to the archive: sizes and places at compile time, and at run time every sum, every
 * number that a report is given, a file in pieces, and the page by its bytes. `make host` builds and runs it. */
#include "lumbixet_totals.h"
#include "same.h"

SIZE(lumbixet_totals, 472);
AT(lumbixet_totals, full, 232);
AT(lumbixet_totals, skip, 464);
SIZE(lumbixet_added, 480);
AT(lumbixet_added, counted_as, 0);
AT(lumbixet_added, next, 8);
SIZE(lumbixet_taken, 480);
AT(lumbixet_taken, used, 472);
SIZE(lumbixet_page, 16);
AT(lumbixet_page, length, 8);

/* P9 of document 01 with four entries, one of each status: total 10 = 1 + 2 + 7. */
static const uint8_t good[] = {
    0x80, 0x0f, 0x42, 0x40, 0x80, 0x01, 0x86, 0xa0, 10, 1, 2, 7, 3, 0, 4, /* the summary, no metrics, four entries */
    0, 0, 0, 0, 0, 0, 0, 1, 0, 0, 0, 0, 0, 0, 0, 9, /* received */
    0, 0, 0, 0, 0, 0, 0, 2, 1, 0, 0, 0, 0, 0, 0, 9, /* late */
    0, 0, 0, 0, 0, 0, 0, 3, 2, 0, 0, 0, 0, 0, 0, 0, /* not received */
    0, 0, 0, 0, 0, 0, 0, 4, 3, 0, 0, 0, 0, 0, 0, 9, /* partial */
};
static uint8_t report[8193];

/* The number that the good report is given with one byte changed, or with another length. */
static uint64_t given(size_t place, uint8_t byte, size_t length)
{
    memset(report, 0, sizeof report);
    memcpy(report, good, sizeof good);
    report[place] = byte;
    lumbixet_added added = lumbixet_totals_add(lumbixet_totals_open(), report, length);
    SAME(added.next.sums[added.counted_as], 1);
    for (unsigned at = 0; at < LUMBIXET_AT_TOTAL; at++)
        if (at != added.counted_as)
            SAME(added.next.sums[at], 0);
    return added.counted_as;
}

static void numbers(void)
{
    SAME(given(0, good[0], sizeof good), LUMBIXET_ACCEPTED);
    SAME(given(0, good[0], 0), LUMBIXET_ENDS);
    SAME(given(0, good[0], sizeof good - 1), LUMBIXET_ENDS);
    SAME(given(13, 5, sizeof good), LUMBIXET_COUNT_OR_TYPE);
    SAME(given(8, 11, sizeof good), LUMBIXET_SUM);
    SAME(given(23, 4, sizeof good), LUMBIXET_ENTRY);
    SAME(given(0, good[0], sizeof good + 1), LUMBIXET_BYTES_BEHIND);
    SAME(given(0, 0x40, sizeof good), LUMBIXET_LONGER_FORM); /* 15 in two bytes */
    SAME(given(0, good[0], 8192), LUMBIXET_BYTES_BEHIND);
    SAME(given(0, good[0], 8193), LUMBIXET_TOO_LONG);
}

static void sums(void)
{
    lumbixet_totals totals = lumbixet_totals_open();
    for (unsigned at = 0; at < LUMBIXET_PLACES; at++) {
        SAME(totals.sums[at], 0);
        SAME(totals.full[at], 0);
    }
    SAME(totals.skip, 0);
    totals.skip = 5;
    totals.sums[LUMBIXET_AT_TOTAL] = UINT64_MAX - 10;
    totals.sums[LUMBIXET_AT_LOST] = UINT64_MAX - 6;
    totals = lumbixet_totals_add(totals, good, sizeof good).next;
    SAME(totals.sums[LUMBIXET_AT_ACCEPTED], 1);
    SAME(totals.sums[LUMBIXET_AT_TOTAL], UINT64_MAX);
    SAME(totals.full[LUMBIXET_AT_TOTAL], 0);
    SAME(totals.sums[LUMBIXET_AT_RECEIVED], 1);
    SAME(totals.sums[LUMBIXET_AT_LATE], 2);
    SAME(totals.sums[LUMBIXET_AT_LOST], UINT64_MAX);
    SAME(totals.full[LUMBIXET_AT_LOST], 1);
    for (unsigned status = LUMBIXET_RECEIVED; status <= LUMBIXET_PARTIAL; status++)
        SAME(totals.sums[LUMBIXET_AT_ENTRIES + status], 1);
    SAME(totals.skip, 5);
}

/* Two good reports, one of 8,193 bytes between them, as a file. */
static uint8_t file[2 * (4 + sizeof good) + 4 + 8193];

static void make_file(void)
{
    static const uint8_t of_good[] = {0, 0, 0, sizeof good}, too_long[] = {0, 0, 0x20, 0x01};
    uint8_t *at = file;
    memcpy(at, of_good, 4);
    memcpy(at + 4, good, sizeof good);
    memcpy(at + 4 + sizeof good, too_long, 4);
    at = file + sizeof file - 4 - sizeof good;
    memcpy(at, of_good, 4);
    memcpy(at + 4, good, sizeof good);
}

static void page(void)
{
    static const char wanted[] = "accepted 2\nrefused 20 1\ntotal 20\nreceived 2\nlate 4\nlost 14\nentries received 2\n"
                                 "entries late 2\nentries not received 2\nentries partial 2\n";
    static const char full[] = "accepted 18446744073709551615 full\n";
    uint8_t buffer[LUMBIXET_PAGE_ROOM];
    make_file();
    /* the first report, the length of the second, and some of its bytes; then the rest without its last byte */
    lumbixet_taken first = lumbixet_totals_piece(lumbixet_totals_open(), file, 100);
    SAME(first.used, 100);
    SAME(first.next.skip, 8193 - (100 - 4 - sizeof good - 4));
    lumbixet_taken second = lumbixet_totals_piece(first.next, file + 100, sizeof file - 100 - 1);
    SAME(second.used, sizeof file - 100 - 4 - sizeof good);
    size_t left = 4 + sizeof good;
    SAME(lumbixet_totals_page(second.next, left - 1, buffer, sizeof buffer).length, 2);
    SAME(memcmp(buffer, "2\n", 2), 0);
    SAME(lumbixet_totals_page(first.next, 0, buffer, sizeof buffer).length, 2);
    lumbixet_taken last = lumbixet_totals_piece(second.next, file + sizeof file - left, left);
    SAME(last.used, left);
    /* a room that lacks one byte of the page, and one that just holds it */
    memset(buffer, 'x', sizeof buffer);
    lumbixet_page written = lumbixet_totals_page(last.next, 0, buffer, sizeof wanted - 2);
    SAME(written.result, LUMBIXET_NO_ROOM);
    SAME(written.length, 0);
    for (size_t at = 0; at < sizeof buffer; at++)
        SAME(buffer[at], 'x');
    written = lumbixet_totals_page(last.next, 0, buffer, sizeof wanted - 1);
    SAME(written.result, LUMBIXET_ACCEPTED);
    SAME(written.length, sizeof wanted - 1);
    SAME(memcmp(buffer, wanted, sizeof wanted - 1), 0);
    SAME(buffer[sizeof wanted - 1], 'x');
    SAME(lumbixet_totals_page(last.next, 1, buffer, 1).result, LUMBIXET_NO_ROOM);
    SAME(lumbixet_totals_page(last.next, 1, buffer, 2).length, 2);
    memset(&last.next, 0xff, sizeof last.next);
    last.next.skip = 0;
    written = lumbixet_totals_page(last.next, 0, buffer, sizeof buffer);
    SAME(written.result, LUMBIXET_ACCEPTED);
    SAME(memcmp(buffer, full, sizeof full - 1), 0);
}

int main(void)
{
    numbers();
    sums();
    page();
    if (faults == 0)
        printf("totals: %d values of the archive are as include/lumbixet_totals.h says\n", seen);
    return faults != 0;
}
