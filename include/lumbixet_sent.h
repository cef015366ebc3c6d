/* Lumbixet: the sending side's loss list, for hosts in C and C++. docs/hosts/SENDING.md shows the order of calls. What
 * lumbixet.h says of calls, records and lent memory holds here too.
 *
 * A record knows of each packet number that the host sent, from 0 on, whether it is outstanding, acknowledged or lost. It
 * holds up to 1,024 numbers in a row; of older ones, the forgotten, it keeps how many were acknowledged and how many lost.
 * The host lends the record, and each call updates it there; a refused call changes nothing. Every byte of a record may
 * hold anything: one that is not consistent is refused with 1.
 */
#ifndef LUMBIXET_SENT_H
#define LUMBIXET_SENT_H

#include "lumbixet.h"

#ifdef __cplusplus
extern "C" {
#endif

/* So many numbers are held, and lists of so many always suffice. */
#define LUMBIXET_HELD 1024

/* A number is lost when one that lies so far above it is acknowledged (RFC 9002, section 6.1.1). */
#define LUMBIXET_PACKET_THRESHOLD 3

/* The record. A host opens it by lumbixet_losses_open and need not look inside. Number n has bit n % 64 of word n / 64 % 16. */
typedef struct {
    uint64_t acknowledged[16];    /* which of the held numbers are acknowledged */
    uint64_t lost[16];            /* which of them are lost */
    uint64_t next;                /* the next number to be sent, which is how many were sent */
    uint64_t acknowledged_before; /* how many of the forgotten numbers are acknowledged */
    uint64_t lost_before;         /* how many of the forgotten numbers are lost */
    uint64_t end;                 /* one past the largest number that was ever acknowledged, 0 for none */
} lumbixet_losses;

/* What a send answers. */
typedef struct {
    uint64_t result; /* 0, 1, 5 or 9 */
    uint64_t number; /* the packet's number */
} lumbixet_sent;

/* What hearing an ACK frame answers. */
typedef struct {
    uint64_t result;       /* 0, 1, 2, 3, 14, 16 or 9 */
    uint64_t length;       /* the frame's length */
    uint64_t acknowledged; /* how many numbers were written to the list of the newly acknowledged */
    uint64_t lost;         /* how many to the list of the newly lost */
} lumbixet_heard;

/* Opens a record: nothing was sent. What stood in it is not looked at, and nothing is refused. */
void lumbixet_losses_open(lumbixet_losses *losses);

/* A packet is sent: gives its number, which is outstanding from now on. When 1,024 are held, the oldest is forgotten.
 * 1; 5 where number 2^62 - 1 was sent; 9 where 1,024 are held and the oldest is outstanding. */
lumbixet_sent lumbixet_losses_send(lumbixet_losses *losses);

/* An ACK frame of type 02 or 03 is heard, at the first of `length` bytes; what follows it is not looked at. Held numbers in
 * its ranges become acknowledged, lost ones too. Then an outstanding number n becomes lost if the largest number that any
 * frame acknowledged is at least n + LUMBIXET_PACKET_THRESHOLD. What became acknowledged and what became lost stands at the
 * start of the two lists, rising; elements behind that stay. A range over forgotten numbers changes nothing of them.
 * 1; 2, 3 and 14 as lumbixet_read_ack gives them; 16 for a number that was never sent; 9 where either list is too short. */
lumbixet_heard lumbixet_losses_heard(lumbixet_losses *losses, const uint8_t *frame, size_t length, uint64_t *acknowledged,
                                     size_t acknowledged_length, uint64_t *lost, size_t lost_length);

/* How many of the numbers sent are in each state, the forgotten ones too: together they are `next`. */
typedef struct {
    uint64_t outstanding;
    uint64_t acknowledged;
    uint64_t lost;
} lumbixet_states;

static inline lumbixet_states lumbixet_losses_states(const lumbixet_losses *losses)
{
    lumbixet_states states = {0, losses->acknowledged_before, losses->lost_before};
    for (int i = 0; i < 16; i++) {
        for (uint64_t rest = losses->acknowledged[i]; rest != 0; rest &= rest - 1)
            states.acknowledged++;
        for (uint64_t rest = losses->lost[i]; rest != 0; rest &= rest - 1)
            states.lost++;
    }
    states.outstanding = losses->next - states.acknowledged - states.lost;
    return states;
}

#ifdef __cplusplus
}
#endif

#endif
