/* Lumbixet: the totals of a week's feedback reports, for hosts in C and C++. What lumbixet.h says of calls, records and
 * lent memory holds here too. A report that is refused is counted under its number, so the totals change with it: the
 * number tells what the report was counted as, and refuses no call. Every byte of a record may hold anything; none is
 * refused.
 *
 * A host adds reports one by one, or gives a file of them in pieces, each report after its length, four bytes with the
 * high byte first. lumbixet_totals_piece takes what is whole and says how many bytes that was; the rest comes again at
 * the start of the next piece. However the file is cut, the page is the same.
 */
#ifndef LUMBIXET_TOTALS_H
#define LUMBIXET_TOTALS_H

#include "lumbixet.h"

#ifdef __cplusplus
extern "C" {
#endif

/* A piece of at least so many bytes holds a whole report with its length, unless that is too long and is skipped. */
#define LUMBIXET_PIECE_LEAST 8196

/* So many bytes always suffice for the page. */
#define LUMBIXET_PAGE_ROOM 1363

/* Where each sum stands. Reports refused with a number from 1 to 20 stand at that number. */
enum {
    LUMBIXET_AT_ACCEPTED = 0, /* reports accepted */
    LUMBIXET_AT_TOTAL = 21,   /* the four summary totals of the accepted reports */
    LUMBIXET_AT_RECEIVED = 22,
    LUMBIXET_AT_LATE = 23,
    LUMBIXET_AT_LOST = 24,
    LUMBIXET_AT_ENTRIES = 25, /* their entries with status 0, LUMBIXET_RECEIVED; the other statuses follow */
    LUMBIXET_PLACES = 29      /* so many sums there are */
};

/* The totals so far. A host opens them by lumbixet_totals_open. */
typedef struct {
    uint64_t sums[LUMBIXET_PLACES]; /* each sum, or 2^64 - 1 where it would pass that */
    uint64_t full[LUMBIXET_PLACES]; /* not 0 where the sum would pass 2^64 - 1 */
    uint64_t skip;                  /* how many bytes of a report that is too long are still to come in a file */
} lumbixet_totals;

/* What one report comes to. */
typedef struct {
    uint64_t counted_as;  /* 0, 2, 10, 11, 12, 13, 15 or 20: the number under which it was counted */
    lumbixet_totals next; /* the totals with it */
} lumbixet_added;

/* What a piece of a file comes to. */
typedef struct {
    lumbixet_totals next; /* the totals with every report that is whole */
    uint64_t used;        /* how many bytes were taken; what follows them is no whole report yet */
} lumbixet_taken;

/* What the writer of the page answers. */
typedef struct {
    uint64_t result; /* 0 or 9 */
    uint64_t length; /* the page's length in bytes */
} lumbixet_page;

/* The totals before the first report: every sum is 0. */
lumbixet_totals lumbixet_totals_open(void);

/* Adds one report, in the bytes of profile 1 as lumbixet_read_report takes them. 20: it is longer than 8,192 bytes. */
lumbixet_added lumbixet_totals_add(lumbixet_totals totals, const uint8_t *report, size_t length);

/* Adds the reports of a piece of a file. */
lumbixet_taken lumbixet_totals_piece(lumbixet_totals totals, const uint8_t *piece, size_t length);

/* Writes the page at the start of the buffer, in ASCII, a line for each sum: name and number, and " full" where it is;
 * refusals only where they occur. `left` is how many bytes of the file are left at its end, 0 where reports were added
 * one by one: where some are, or some were still to be skipped, the file ended early and the page is the line "2" alone.
 * 9: the buffer is shorter than the page, and no byte of it is written; LUMBIXET_PAGE_ROOM bytes always suffice. */
lumbixet_page lumbixet_totals_page(lumbixet_totals totals, size_t left, uint8_t *buffer, size_t length);

#ifdef __cplusplus
}
#endif

#endif
