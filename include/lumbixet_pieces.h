/* Lumbixet: the feedback report in pieces, for hosts in C and C++ that get it off a stream. docs/hosts/STREAMS.md shows the order of
 * calls. What lumbixet.h says of calls, records and lent memory holds here too, but for one thing: what was delivered of a
 * report that is refused later, or in the same call, stays in the buffer.
 *
 * A host hands in the bytes as they come, in parts of any length, and lends a buffer for the entries that became whole. The
 * reader holds at most one unfinished number or entry between calls, in a record that the host lends and that is updated there.
 * However the report is cut, header, entries and refusal number are those of lumbixet_read_report; of a refused report exactly
 * the good entries before the first bad or missing one were delivered. Every byte of a record may hold anything: one that is not
 * consistent is refused with 1, and is left as it was.
 */
#ifndef LUMBIXET_PIECES_H
#define LUMBIXET_PIECES_H

#include "lumbixet.h"

#ifdef __cplusplus
extern "C" {
#endif

/* Where a report stands: the record's `stage`. */
enum {
    LUMBIXET_IN_NUMBERS = 0,  /* the header's numbers are coming */
    LUMBIXET_IN_ENTRIES = 1,  /* the header is whole, and the entries are coming, or all have come */
    LUMBIXET_COUNTING = 2,    /* an entry was bad: the entry bytes left are counted and not looked at; with 0 left 12 stands */
    LUMBIXET_REFUSED = 3,     /* a refusal stands */
    LUMBIXET_ENDED = 4        /* the end was said, and the report was accepted */
};

/* The record. A host opens it by lumbixet_pieces_open and need not look inside. What means nothing in a stage is not looked
 * at. A call that is refused with 1, with 9 or with the number of an earlier call leaves the record as it was; every other call
 * leaves 0 there. The parts of a consistent record agree: from the entries on the header is whole, its numbers bring no refusal,
 * and what is left is not more than it counts. docs/DECISIONS.md has the list. */
typedef struct {
    uint64_t profile;     /* the report's profile, 1 or 2 */
    uint64_t stage;       /* LUMBIXET_IN_NUMBERS and so on */
    uint64_t left;        /* entries that are not whole yet; when counting, entry bytes still to come; when refused, the number */
    uint64_t group;       /* the group of the last entry, 0 before the first */
    uint64_t above;       /* one past its object's number, 0 before the first */
    uint64_t come;        /* how many of the header's numbers have come */
    uint64_t carried;     /* how many bytes of an unfinished number or entry have come */
    uint64_t numbers[25]; /* the header's numbers in the report's order, the average as it stands on the wire */
    uint64_t bytes[24];   /* the bytes of what is unfinished, one to a word */
} lumbixet_pieces;

/* What a part brings. */
typedef struct {
    uint64_t result;        /* 0, 1, 9, 2, 10, 11, 12, 13 or 15; 2 only once the end was said */
    uint64_t taken;         /* how many bytes of the part were taken; the rest is handed in again when the buffer was emptied */
    uint64_t records;       /* how many entries stand at the start of the buffer, 16 bytes each, in profile 2 24 */
    uint64_t whole;         /* 1 where the header is whole and nothing is refused, and else 0 */
    lumbixet_header header; /* the header where it is whole, and else all 0 */
} lumbixet_pieces_taken;

/* Opens the reader for a report of a profile. What stood in the record is not looked at. 18: the profile is neither 1 nor 2. */
uint64_t lumbixet_pieces_open(lumbixet_pieces *pieces, uint64_t profile);

/* Takes the next part of the report, which may be empty. Each number is judged when its last byte has come. Entries that became
 * whole and are good go to the start of the buffer, for lumbixet_read_entry; when it is full no byte of a further entry is taken.
 * What follows the entries in the buffer stays as it was. Order: 1; 9 where the buffer is shorter than one entry, before any byte
 * is taken; then the refusal that stands, or what this part brings: 15, 11 or 10 with the last byte of the number that is wrong,
 * 12 with the last byte of all entries where one of them is bad, 13 with the first byte too many. Later calls give these again and
 * take nothing; 1 and 9 do not stand. */
lumbixet_pieces_taken lumbixet_pieces_take(lumbixet_pieces *pieces, const uint8_t *part, size_t length, uint8_t *buffer,
                                           size_t room);

/* The end of the report: 0 with the header where the report is whole, and otherwise 1, the refusal that stands, or 2. This answer
 * stands: later calls give it again, take nothing and deliver nothing, until the record is opened anew. */
lumbixet_report lumbixet_pieces_end(lumbixet_pieces *pieces);

#ifdef __cplusplus
}
#endif

#endif
