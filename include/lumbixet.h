/* Lumbixet: the receiver of a live hearing, for hosts in C and C++. docs/hosts/DRIVING.md shows a host's day.
 *
 * Every call takes any bytes and any numbers, ends, and keeps nothing between calls. `result` is 0 for
 * accepted, or the refusal number of document 01 (LUMBIXET_..., below). A refused call hands the record
 * back as it came, or leaves a lent one as it was, and writes no element of a lent buffer; lumbixet_pieces.h says where a
 * report in pieces differs. What else it answers is then 0. Calls without a result, as lumbixet_find_entries, say
 * themselves what they answer.
 *
 * A pointer with its length names that many elements, all readable, and writable where the pointer is not
 * const; with length 0 the pointer must still not be NULL. Two lent parts of one call must not overlap.
 * A uint64_t * is aligned as C aligns a uint64_t, to 8 bytes; bytes need no alignment.
 * A bool holds 0 or 1: C gives any other byte no meaning, and neither does Lumbixet. Every byte of a
 * record may hold anything: a record that is not consistent is refused with 1.
 *
 * Records and answers hold numbers and no pointers: they may be copied, kept, and compared by their bytes.
 * Threads: no state is shared between calls. Any number of them may run at once; where two lend the same memory or go
 * on from the same record, the host orders them. Machine: x86-64 with the System V calling convention (Linux). The
 * archive asks for memcpy and memset alone; of the compiler C11 or C++11 is assumed.
 * Versions: patch numbers change no declaration. While MAJOR is 0, a new MINOR may add calls, constants and fields, and so change
 * the size of a struct: header and archive are of one version, and a mixture does not link. CHANGELOG.md says what each brought.
 */
#ifndef LUMBIXET_H
#define LUMBIXET_H

#if !defined(__x86_64__) || !defined(__linux__) || defined(__ILP32__)
#error "Lumbixet's archive is x86-64 code with the System V calling convention: compile for 64-bit x86-64 Linux"
#endif

#include <stdbool.h>
#include <stddef.h>
#include <stdint.h>

#ifdef __cplusplus
extern "C" {
#endif

/* The version of this header and of the archive that goes with it: its parts, one number to compare, and its name. */
#define LUMBIXET_VERSION_MAJOR 0
#define LUMBIXET_VERSION_MINOR 11
#define LUMBIXET_VERSION_PATCH 0
#define LUMBIXET_VERSION (10000 * LUMBIXET_VERSION_MAJOR + 100 * LUMBIXET_VERSION_MINOR + LUMBIXET_VERSION_PATCH)
#define LUMBIXET_VERSION_TEXT "0.11.0"

/* The same of the archive that is linked, for other languages and for a log: 10000 * major + 100 * minor + patch, and its name. */
uint32_t lumbixet_version(void);
extern const char lumbixet_version_text[];

/* Structs may change with the first two numbers, so every file that includes this header asks the archive for a name that holds
 * them, lumbixet_archive_is_of_version_0_11: with an archive of another version the program does not link. */
#define LUMBIXET_NAMED(major, minor) lumbixet_archive_is_of_version_##major##_##minor
#define LUMBIXET_ARCHIVE_IS_OF(major, minor) LUMBIXET_NAMED(major, minor)
extern const char LUMBIXET_ARCHIVE_IS_OF(LUMBIXET_VERSION_MAJOR, LUMBIXET_VERSION_MINOR);
__attribute__((used)) static const char *const lumbixet_header_is_of_version =
    &LUMBIXET_ARCHIVE_IS_OF(LUMBIXET_VERSION_MAJOR, LUMBIXET_VERSION_MINOR);

/* The largest number, threshold and time: 2^62 - 1. */
#define LUMBIXET_LARGEST UINT64_C(4611686018427387903)

/* Room that always suffices; tests/c/room.c computes each again. */
#define LUMBIXET_ACK_ROOM 1066     /* bytes of an ACK frame with counts and every range that the window can have */
#define LUMBIXET_FREQUENCY_ROOM 34 /* bytes of an ACK_FREQUENCY frame */
#define LUMBIXET_REPORT_ROOM 3295  /* bytes of a report with 4 metrics and 200 entries, in profile 1 */
#define LUMBIXET_REPORT_2_ROOM 4987 /* bytes of a report with 8 metrics and 200 entries, in profile 2 */
#define LUMBIXET_RANGES_ROOM(bytes) ((bytes) > 5 ? (bytes) - 3 : 2) /* numbers for the ranges of an ACK of so many bytes */

/* What `result` says. Numbers between those named here are kept for calls to come. */
enum {
    LUMBIXET_ACCEPTED = 0,      /* done */
    LUMBIXET_INCONSISTENT = 1,  /* the record handed in is not consistent */
    LUMBIXET_ENDS = 2,          /* the bytes end inside a field */
    LUMBIXET_OTHER_TYPE = 3,    /* the frame type is another one, or not in shortest form */
    LUMBIXET_DELAY = 4,         /* a delay breaks the delay rule */
    LUMBIXET_TOO_LARGE = 5,     /* a number, threshold or time is above 2^62 - 1, or a signed value outside its range */
    LUMBIXET_REPEATED = 6,      /* the packet number lies in the window and was received */
    LUMBIXET_BELOW_WINDOW = 7,  /* the packet number lies below the window, or below what the sender has confirmed */
    LUMBIXET_NOTHING_YET = 8,   /* a write, IMMEDIATE_ACK or confirmation before anything was received */
    LUMBIXET_NO_ROOM = 9,       /* the smallest permitted output does not fit the lent buffer; for the ACK reader, all ranges */
    LUMBIXET_COUNT_OR_TYPE = 10,/* a report's metric count, metric types or entry count break their rule */
    LUMBIXET_SUM = 11,          /* total differs from received + late + lost */
    LUMBIXET_ENTRY = 12,        /* an entry record breaks its rule */
    LUMBIXET_BYTES_BEHIND = 13, /* bytes remain after a report */
    LUMBIXET_BELOW_ZERO = 14,   /* an ACK range goes below number 0 */
    LUMBIXET_LONGER_FORM = 15,  /* a report's number is not in its shortest form */
    LUMBIXET_NEVER_SENT = 16,   /* of the loss list: the frame acknowledges a number that was never sent */
    LUMBIXET_OUTSIDE = 17,      /* of the tracker: the object is none of the 256 */
    LUMBIXET_OTHER_PROFILE = 18, /* the report's profile is neither 1 nor 2 */
    LUMBIXET_NOT_ACKNOWLEDGED = 19, /* the confirmed number is above the largest acknowledged, or none is acknowledged */
    LUMBIXET_TOO_LONG = 20,     /* of a week's totals: the report is longer than 8,192 bytes */
    LUMBIXET_STALE = 255        /* of lumbixet_threshold alone: an obsolete frame; nothing changed */
};

/* Why an acknowledgment is due: the record's `cause`. */
enum {
    LUMBIXET_NOT_DUE = 0,    /* none is due */
    LUMBIXET_IMMEDIATE = 1,  /* the sender asked by IMMEDIATE_ACK */
    LUMBIXET_COUNT = 2,      /* more ack-eliciting packets than the threshold */
    LUMBIXET_ORDER = 3,      /* packets are missing or came out of order */
    LUMBIXET_CONGESTION = 4, /* a packet had the CE mark: before the first accepted ACK_FREQUENCY any, then the first of a run */
    LUMBIXET_TIMER = 5       /* the delay in force has passed */
};

/* The mark that a packet carried: the ECN field of its IP header (RFC 3168, section 5). */
enum {
    LUMBIXET_ECN_NONE = 0, /* not ECN-capable transport: no mark */
    LUMBIXET_ECN_ECT1 = 1, /* ECT(1) */
    LUMBIXET_ECN_ECT0 = 2, /* ECT(0) */
    LUMBIXET_ECN_CE = 3    /* congestion experienced */
};

/* ---- numbers on the wire */

/* A number that was read. */
typedef struct {
    uint64_t result;   /* 0 or 2 */
    uint64_t value;    /* the number */
    uint64_t next;     /* the place after it */
    uint64_t shortest; /* 1 where its form was the shortest, 0 where it was longer than needed */
} lumbixet_number;

/* What a writer of numbers and frames answers. */
typedef struct {
    uint64_t result; /* 0, 5 or 9 */
    uint64_t next;   /* the place after what was written; of a frame, its length */
} lumbixet_put;

/* Reads the number that starts at place `at`; longer forms than needed are accepted, and told. */
lumbixet_number lumbixet_read_number(const uint8_t *bytes, size_t length, size_t at);

/* Writes a number at place `at` in its shortest form: 8 bytes always suffice. 5, then 9. */
lumbixet_put lumbixet_put_number(uint8_t *buffer, size_t length, size_t at, uint64_t value);

/* ---- frames; a reader starts at the first byte, ignores what follows the frame, and `used` is the frame's length */

/* The four values of an ACK_FREQUENCY frame. */
typedef struct {
    uint64_t result;     /* 0, 2 or 3 */
    uint64_t sequence;   /* which frame this is: the sender counts them up */
    uint64_t threshold;  /* the ack-eliciting threshold */
    uint64_t delay;      /* the requested maximum delay in microseconds; lumbixet_threshold judges it */
    uint64_t reordering; /* the reordering threshold: 0 never, 1 RFC 9000's rule, from 2 up the distance of a gap */
    uint64_t used;       /* the frame's length */
} lumbixet_frequency;

/* What reading an IMMEDIATE_ACK frame finds. */
typedef struct {
    uint64_t result; /* 0, 2 or 3 */
    uint64_t used;   /* the frame's length */
} lumbixet_immediate_frame;

/* An ACK frame's numbers; its ranges stand in the lent slice. */
typedef struct {
    uint64_t result;  /* 0, 2, 3, 14 or 9 */
    uint64_t largest; /* the largest acknowledged number */
    uint64_t delay;   /* as on the wire: times 2 to the power of the exponent that its writer announced, microseconds */
    uint64_t ranges;  /* how many ranges were written to the lent slice */
    uint64_t used;    /* the frame's length */
    uint64_t counts;  /* 1 where the frame is of type 03, which has the three counts; else 0, and they are 0 too */
    uint64_t ect0;    /* packets that arrived at the frame's writer so far with ECT(0) */
    uint64_t ect1;    /* with ECT(1) */
    uint64_t ce;      /* with CE */
} lumbixet_ack;

/* Reads an ACK_FREQUENCY frame (type 40 af). */
lumbixet_frequency lumbixet_read_frequency(const uint8_t *bytes, size_t length);

/* The same where the host's stack has read the type already: `kind` is that number, and the bytes are those after it, which
 * `used` counts. Another kind is 3. An IMMEDIATE_ACK frame has nothing after its type: such a host calls lumbixet_immediate. */
lumbixet_frequency lumbixet_read_frequency_as(uint64_t kind, const uint8_t *bytes, size_t length);

/* Reads an IMMEDIATE_ACK frame (type 1f, and nothing else). */
lumbixet_immediate_frame lumbixet_read_immediate(const uint8_t *bytes, size_t length);

/* Reads an ACK frame of type 02, or of type 03 with its counts. `ranges` gets smallest and largest of each range, newest
 * first; `room` counts numbers, and LUMBIXET_RANGES_ROOM(length) of them always suffice. */
lumbixet_ack lumbixet_read_ack(const uint8_t *bytes, size_t length, uint64_t *ranges, size_t room);

/* The same where the host's stack has read the type already, 2 or 3; another kind is 3. */
lumbixet_ack lumbixet_read_ack_as(uint64_t kind, const uint8_t *bytes, size_t length, uint64_t *ranges, size_t room);

/* Writes an ACK_FREQUENCY frame at the start of the buffer. 5, then 9. */
lumbixet_put lumbixet_put_frequency(uint8_t *buffer, size_t length, uint64_t sequence, uint64_t threshold,
                                    uint64_t delay, uint64_t reordering);

/* Writes an IMMEDIATE_ACK frame, one byte, at the start of the buffer. 9. */
lumbixet_put lumbixet_put_immediate(uint8_t *buffer, size_t length);

/* ---- the receiver */

/* The record of one receiver. What may be absent is kept as an end, one past the number, with 0 for none. */
typedef struct {
    uint64_t window[16];        /* which of the last 1,024 numbers were received: bit 1023 is the largest */
    uint64_t end;               /* the end of the largest received number */
    uint64_t arrived;           /* when that arrived, in microseconds */
    uint64_t confirmed;         /* a floor, at most the largest: smaller numbers were confirmed, and are reported no more */
    uint64_t pending_count;     /* ack-eliciting packets since the last written ACK */
    uint64_t pending_end;       /* the end of the largest of their numbers */
    uint64_t pending_first;     /* when the first of them arrived, in microseconds */
    uint64_t threshold;         /* the ack-eliciting threshold in force */
    uint64_t reordering;        /* the reordering threshold in force */
    uint64_t delay;             /* the delay in force, in microseconds */
    uint64_t sequence;          /* the end of the largest ACK_FREQUENCY sequence processed */
    uint64_t maximum;           /* the own maximum delay, in milliseconds */
    uint64_t minimum;           /* the own minimum delay, in microseconds */
    uint64_t acknowledged;      /* the end of the largest acknowledged number */
    uint64_t highest;           /* the end of the highest ack-eliciting number */
    uint64_t ce;                /* not 0 exactly where the last accepted packet had the CE mark */
    uint64_t cause;             /* why an acknowledgment is due */
    uint64_t total_ect0;        /* accepted packets that were marked ECT(0); each of the totals stays at 2^62 - 1 */
    uint64_t total_ect1;        /* accepted packets that were marked ECT(1) */
    uint64_t total_ce;          /* accepted packets that were marked CE */
    uint64_t total_unmarked;    /* accepted packets without a mark */
} lumbixet_receiver;

/* A call's result and the next record. */
typedef struct {
    uint64_t result;        /* 0, or why the call was refused; LUMBIXET_STALE of lumbixet_threshold alone */
    lumbixet_receiver next; /* the record to go on with; of a refused call the one that was handed in */
} lumbixet_answer;

/* What the write call answers. */
typedef struct {
    uint64_t result;        /* 0, 1, 5, 8 or 9 */
    uint64_t length;        /* how many bytes the ACK frame takes at the start of the buffer */
    lumbixet_receiver next; /* the record to go on with */
} lumbixet_wrote;

/* Opens a receiver: T, R, the own maximum delay in milliseconds, the own minimum in microseconds. 5, then 4; a refused
 * opening hands back the usual record (1, 1, 25 ms, 1,000 us). */
lumbixet_answer lumbixet_open(uint64_t threshold, uint64_t reordering, uint64_t maximum_ms, uint64_t minimum_us);

/* A packet arrives, ack-eliciting or not, with the ECN field of its IP header (LUMBIXET_ECN_NONE and so on). Only the two
 * low bits of `ecn` count, so the whole traffic class byte may be given as the socket tells it. Of an accepted packet, of
 * either kind, the total of its mark grows by one. 1, 5, then 6 or 7. */
lumbixet_answer lumbixet_packet(lumbixet_receiver receiver, uint64_t number, uint64_t time_us, bool eliciting, uint64_t ecn);

/* The timer is looked at. 1, 5. */
lumbixet_answer lumbixet_timer(lumbixet_receiver receiver, uint64_t time_us);

/* An ACK_FREQUENCY frame arrives. 1, 5, 4, then LUMBIXET_STALE. */
lumbixet_answer lumbixet_threshold(lumbixet_receiver receiver, uint64_t sequence, uint64_t threshold, uint64_t delay_us,
                                   uint64_t reordering);

/* An IMMEDIATE_ACK frame arrives. 1, 8. */
lumbixet_answer lumbixet_immediate(lumbixet_receiver receiver);

/* A packet of ours that carried an ACK frame is itself acknowledged: `largest` is that frame's largest number. The sender
 * knows of the numbers up to it, so later ACKs leave them out, gaps among them make no ACK due, and a packet with such a
 * number is refused with 7. The largest received number itself stays, and the floor never falls. 1, 5, 8, then 19. */
lumbixet_answer lumbixet_confirm(lumbixet_receiver receiver, uint64_t largest);

/* Writes an ACK frame at the start of the buffer, with as many newest ranges as fit, and its delay in units of 8
 * microseconds (exponent 3). With `counts` it is of type 03: behind the ranges stand the totals of ECT(0), ECT(1) and CE
 * as they are now, and there is that much less room for ranges; else of type 02. 1, 5, 8, 9. */
lumbixet_wrote lumbixet_write(lumbixet_receiver receiver, uint64_t time_us, bool counts, uint8_t *buffer, size_t length);

/* When to look at the timer: the first unacknowledged arrival plus the delay in force, in microseconds; UINT64_MAX while
 * nothing is pending or an acknowledgment is due already. */
inline uint64_t lumbixet_wake(const lumbixet_receiver *receiver)
{
    bool waiting = receiver->pending_count != 0 && receiver->cause == LUMBIXET_NOT_DUE;
    return waiting ? receiver->pending_first + receiver->delay : UINT64_MAX;
}

#ifdef __cplusplus
}
#endif

/* Packet, timer and write on a record that the host lends. */
#include "lumbixet_lent.h"

/* The feedback report. */
#include "lumbixet_report.h"

/* The numbers in words: lumbixet_refusal_text and lumbixet_cause_text. */
#include "lumbixet_text.h"

#endif
