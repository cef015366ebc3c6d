/* Lumbixet's feedback report, read and written. lumbixet.h includes it, and says what holds of every call. */
#ifndef LUMBIXET_REPORT_H
#define LUMBIXET_REPORT_H

#include "lumbixet.h"

#ifdef __cplusplus
extern "C" {
#endif

/* The profiles: 1 has records of 16 bytes, up to 4 metrics and four types of them. 2 is for senders of several groups: records
 * of 24 bytes, which begin with the group, up to 8 metrics, and every even type. The caller passes the profile; another one
 * than these is refused with 18, before everything. */
enum { LUMBIXET_PROFILE_1 = 1, LUMBIXET_PROFILE_2 = 2 };

/* How many entries a report may have, and how many old receivers take, which refuse more with 10. */
#define LUMBIXET_ENTRIES 200
#define LUMBIXET_OLD_ENTRIES 50

/* What became of a media object: an entry's `status`. */
enum {
    LUMBIXET_RECEIVED = 0,     /* it came whole and in time */
    LUMBIXET_LATE = 1,         /* it came whole and late */
    LUMBIXET_NOT_RECEIVED = 2, /* nothing of it came */
    LUMBIXET_PARTIAL = 3       /* a part of it came */
};

/* What a metric of a report says: its number in `kinds`, and the unit of its number in `values`. Profile 2 may bring others. */
enum {
    LUMBIXET_PLAYOUT_AHEAD_MS = 0x02,         /* milliseconds until playback stalls at the receiver */
    LUMBIXET_ESTIMATED_BANDWIDTH_KBPS = 0x04, /* kilobits per second, as the receiver estimates them */
    LUMBIXET_PEER_RTT_US = 0x10,              /* microseconds: the receiver's smoothed round-trip time */
    LUMBIXET_PEER_LOSS_RATE = 0x12            /* per mille of packets lost in the interval: 50 is 5.0 % */
};

/* The summary of a report, and its metrics. */
typedef struct {
    uint64_t timestamp;  /* when the report was made, in microseconds */
    uint64_t interval;   /* how long the reported time is, in microseconds */
    uint64_t total;      /* objects reported on: received + late + lost */
    uint64_t received;   /* of them, received in time */
    uint64_t late;       /* of them, received late */
    uint64_t lost;       /* of them, lost */
    int64_t average;     /* by how much arrivals lay further apart than expected, in microseconds, -2^61 to 2^61 - 1 */
    uint64_t metrics;    /* how many metrics there are, at most 4, in profile 2 at most 8 */
    uint64_t kinds[8];   /* strictly rising, from 0x02, 0x04, 0x10, 0x12 (LUMBIXET_PLAYOUT_AHEAD_MS and so on); in profile 2 even */
    uint64_t values[8];  /* the number of each, in the unit that its kind names */
    uint64_t entries;    /* how many entries follow; the writer takes no heed of it */
} lumbixet_header;

/* What reading a report finds. */
typedef struct {
    uint64_t result;        /* 0, 18, 2, 10, 11, 12, 13 or 15 */
    lumbixet_header header; /* all 0 where the report is refused */
} lumbixet_report;

/* Where the entries of a report stand in the caller's own bytes. */
typedef struct {
    uint64_t start;  /* the place of the first; of a report without entries, and of a refused one, the bytes' length */
    uint64_t length; /* in bytes: 16 for each entry, in profile 2 24 */
} lumbixet_entries;

/* One entry. */
typedef struct {
    uint64_t result; /* 0, 18, 2 or 12 */
    uint64_t group;  /* the object's group; 0 in profile 1 */
    uint64_t object; /* the object's number */
    uint64_t status; /* what became of it: LUMBIXET_RECEIVED and so on */
    uint64_t age;    /* microseconds at the timestamp; 0 where it was not received */
} lumbixet_entry;

/* What the writer of reports answers. */
typedef struct {
    uint64_t result; /* 0, 18, 5, 11, 10, 12 or 9 */
    uint64_t next;   /* the length of the report */
    uint64_t kept;   /* how many of the last records were written */
} lumbixet_written;

/* The newest object of a report that was not received. */
typedef struct {
    uint64_t result; /* 0, 18, 2, 15, 10, 11, 13 or 12 */
    uint64_t found;  /* 1 where there is one, and else 0, and so are group and object */
    uint64_t group;  /* its group; 0 in profile 1 */
    uint64_t object; /* its number */
} lumbixet_newest;

/* Reads a whole report: every number in its shortest form (15), and no byte may follow it. Equal reports have equal bytes. */
lumbixet_report lumbixet_read_report(uint64_t profile, const uint8_t *bytes, size_t length);

/* Finds the entries of a report; a refused report has none, whatever the refusal, 18 included. */
lumbixet_entries lumbixet_find_entries(uint64_t profile, const uint8_t *bytes, size_t length);

/* Reads entry `index` of the part that lumbixet_find_entries named: pass bytes + start and length. */
lumbixet_entry lumbixet_read_entry(uint64_t profile, const uint8_t *entries, size_t length, size_t index);

/* Finds the last entry of a report of profile 1 or 2 that is marked not received. It searches from the end and stops there: a bad
 * entry gives 12 only where it was read, and bytes behind the report give 13 first. lumbixet_read_report judges all of a report. */
lumbixet_newest lumbixet_newest_lost(uint64_t profile, const uint8_t *bytes, size_t length);

/* Writes a report at the start of the buffer: header, then the longest run of last records, at most `maximum`, that fits.
 * `records` are 0 to 256 records of 16 bytes, rising by object: object number (8, high byte first), status, three zeros,
 * age (4); in profile 2 of 24 bytes, rising by group and then object: group (8, high byte first), then the same.
 * `maximum` is 0 to 200: LUMBIXET_ENTRIES, or LUMBIXET_OLD_ENTRIES for an old receiver. A larger one is refused with 10,
 * right after the metric types. More room, or a higher maximum, never drops an entry that was kept with less. */
lumbixet_written lumbixet_write_report(uint64_t profile, uint8_t *buffer, size_t length, lumbixet_header header,
                                       const uint8_t *records, size_t records_length, uint64_t maximum);

#ifdef __cplusplus
}
#endif

#endif
