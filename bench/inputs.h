/* What is timed and compared: made from fixed seeds, so that every run has the same. */
#ifndef INPUTS_H
#define INPUTS_H

#include "lumbixet_sent.h"

enum {
    PART = 4096,     /* numbers on the wire for one round */
    PARTS = 32,
    NUMBERS = PART * PARTS,
    VARIANTS = 16,   /* different frames, records and reports for one row, in rotation */
    FRAME_ROOM = 1200,
    WARM = 2048,     /* packets before the first that is timed: the window is full by then */
    PACKETS = 4096,
    BLOCK = 32,      /* packets between two writes */
    BLOCKS = (WARM + PACKETS) / BLOCK,
    STEP_US = 100,   /* microseconds between two packets */
    SITTING = 45000 * BLOCK, /* packets of two hours, one every 5 ms */
    REPORT_ROOM = 5000
};

struct numbers {
    uint64_t values[NUMBERS];
    uint8_t wire[NUMBERS * 8];
    size_t length;
    size_t starts[PARTS]; /* where each part starts on the wire */
};

/* Records to write ACK frames of, and those frames. */
struct acks {
    lumbixet_receiver records[VARIANTS];
    uint64_t time;
    bool counts; /* of type 03 */
    uint8_t frames[VARIANTS][FRAME_ROOM];
    size_t lengths[VARIANTS];
};

/* Packets in their order of arrival, and the record when the first WARM of them have come. */
struct traffic {
    uint64_t reordering;
    uint64_t numbers[WARM + PACKETS];
    lumbixet_receiver start;
};

struct reports {
    uint64_t profile;
    size_t size; /* of all records of a report, in bytes */
    lumbixet_header headers[VARIANTS];
    uint8_t records[VARIANTS][LUMBIXET_ENTRIES * 24];
    uint8_t bytes[VARIANTS][REPORT_ROOM];
    size_t lengths[VARIANTS];
};

/* ACK frames, and for each a record of the sending side before it hears it. */
struct heard {
    lumbixet_losses records[VARIANTS];
    uint8_t frames[VARIANTS][FRAME_ROOM];
    size_t lengths[VARIANTS];
};

/* The ACK of each block of a line with 2 % loss, and how many numbers were sent before it is heard. */
struct stream {
    uint8_t frames[BLOCKS][FRAME_ROOM];
    size_t lengths[BLOCKS];
    uint64_t sent[BLOCKS];
};

/* From 65 ranges on the range count takes two bytes, and no window has more than 512. COUNTED is EIGHT_RANGES as type 03. The
 * last two are the ends of sittings with 2 % loss; in CONFIRMED each ACK was confirmed before the next one. */
enum {
    ONE_RANGE, EIGHT_RANGES, SIXTY_FOUR_RANGES, RANGES_256, RANGES_512, COUNTED, SITTINGS, CONFIRMED, ACK_KINDS
};
enum { IN_ORDER, LOSS, SWAPPED, PATTERNS };
/* The first three hear of a block more; HEARD_ALL, of eight ranges, of everything for the first time. */
enum { HEARD_ONE, HEARD_EIGHT, HEARD_SIXTY_FOUR, HEARD_ALL, HEARD_KINDS };
/* So many entries each: as many as old receivers take, and as many as there may be; then the same in profile 2. Then as many as
 * there may be where the last one alone was not received, the middle one alone, or none; and the same in profile 2. */
enum {
    OLD_LIST, LONG_LIST, OLD_GROUPS, LONG_GROUPS,
    LAST_LOST, MIDDLE_LOST, NONE_LOST, LAST_LOST_GROUPS, MIDDLE_LOST_GROUPS, NONE_LOST_GROUPS, REPORT_KINDS
};

extern struct numbers numbers;
extern struct acks acks[ACK_KINDS];
extern struct traffic traffic[PATTERNS][2]; /* R = 1, R = 3 */
extern struct reports reports[REPORT_KINDS];
extern struct heard heard[HEARD_KINDS];
extern struct stream stream;

void make_inputs(void);

/* After the others, of which it is made. */
void make_sent_inputs(void);

/* The next pseudo-random number (splitmix64). */
uint64_t pick(uint64_t *state);

/* The next number that arrives on a line where 2 % are lost; `number` is the next one sent. */
uint64_t next_arrival(uint64_t *state, uint64_t *number);

/* When packet k arrives. */
static inline uint64_t arrival(size_t k)
{
    return 1000000 + k * STEP_US;
}

/* When packet k of a sitting arrives. */
static inline uint64_t sitting_arrival(size_t k)
{
    return 1000000 + k * 5000;
}

/* Hands the record back and looks at nothing; it has the form of the timer call. */
lumbixet_answer copy_record(lumbixet_receiver receiver, uint64_t time_us);

#endif
