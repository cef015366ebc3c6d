/* Lumbixet's calls on a lent record: packet, timer and write, for a host that keeps a record for each room and does not copy
 * it in and out. lumbixet.h includes it, and says what holds of every call.
 *
 * Each answers what the call by value answers, and leaves in the record what that call hands back: the next record, and of a
 * refused call the record as it came, byte for byte. Either form may follow the other on one record. The record is readable
 * and writable, aligned to 8 bytes, and not NULL; no other thread uses it during the call, and it does not overlap the buffer.
 */
#ifndef LUMBIXET_LENT_H
#define LUMBIXET_LENT_H

#include "lumbixet.h"

#ifdef __cplusplus
extern "C" {
#endif

/* What the write call answers where the record is lent. */
typedef struct {
    uint64_t result; /* 0, 1, 5, 8 or 9 */
    uint64_t length; /* how many bytes the ACK frame takes at the start of the buffer */
} lumbixet_wrote_lent;

/* A packet arrives: lumbixet_packet, with the record updated where it stands. 1, 5, then 6 or 7. */
uint64_t lumbixet_packet_lent(lumbixet_receiver *receiver, uint64_t number, uint64_t time_us, bool eliciting, uint64_t ecn);

/* The timer is looked at: lumbixet_timer, with the record updated where it stands. 1, 5. */
uint64_t lumbixet_timer_lent(lumbixet_receiver *receiver, uint64_t time_us);

/* Writes an ACK frame: lumbixet_write, with the record updated where it stands. A host that may yet fail to send the frame
 * keeps a copy of the record, or writes by value and takes the next record when the frame has left. 1, 5, 8, 9. */
lumbixet_wrote_lent lumbixet_write_lent(lumbixet_receiver *receiver, uint64_t time_us, bool counts, uint8_t *buffer,
                                        size_t length);

#ifdef __cplusplus
}
#endif

#endif
