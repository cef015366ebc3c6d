/* The calls of lumbixet.h under another name: plain C from documents 01 and 02, with the same answers and no proof. */
#ifndef PLAIN_H
#define PLAIN_H

#include "lumbixet_pieces.h"
#include "lumbixet_sent.h"
#include "lumbixet_tracker.h"

lumbixet_number plain_read_number(const uint8_t *bytes, size_t length, size_t at);
lumbixet_put plain_put_number(uint8_t *buffer, size_t length, size_t at, uint64_t value);

lumbixet_frequency plain_read_frequency(const uint8_t *bytes, size_t length);
lumbixet_immediate_frame plain_read_immediate(const uint8_t *bytes, size_t length);
lumbixet_ack plain_read_ack(const uint8_t *bytes, size_t length, uint64_t *ranges, size_t room);
lumbixet_put plain_put_frequency(uint8_t *buffer, size_t length, uint64_t sequence, uint64_t threshold,
                                 uint64_t delay, uint64_t reordering);
lumbixet_put plain_put_immediate(uint8_t *buffer, size_t length);

lumbixet_answer plain_open(uint64_t threshold, uint64_t reordering, uint64_t maximum_ms, uint64_t minimum_us);
lumbixet_answer plain_packet(lumbixet_receiver receiver, uint64_t number, uint64_t time_us, bool eliciting,
                             uint64_t ecn);
lumbixet_answer plain_timer(lumbixet_receiver receiver, uint64_t time_us);
lumbixet_answer plain_threshold(lumbixet_receiver receiver, uint64_t sequence, uint64_t threshold, uint64_t delay_us,
                                uint64_t reordering);
lumbixet_answer plain_immediate(lumbixet_receiver receiver);
lumbixet_answer plain_confirm(lumbixet_receiver receiver, uint64_t largest);
lumbixet_wrote plain_write(lumbixet_receiver receiver, uint64_t time_us, bool counts, uint8_t *buffer, size_t length);
uint64_t plain_packet_lent(lumbixet_receiver *receiver, uint64_t number, uint64_t time_us, bool eliciting, uint64_t ecn);
uint64_t plain_timer_lent(lumbixet_receiver *receiver, uint64_t time_us);
lumbixet_wrote_lent plain_write_lent(lumbixet_receiver *receiver, uint64_t time_us, bool counts, uint8_t *buffer,
                                     size_t length);

lumbixet_report plain_read_report(uint64_t profile, const uint8_t *bytes, size_t length);
lumbixet_entries plain_find_entries(uint64_t profile, const uint8_t *bytes, size_t length);
lumbixet_entry plain_read_entry(uint64_t profile, const uint8_t *entries, size_t length, size_t index);
lumbixet_newest plain_newest_lost(uint64_t profile, const uint8_t *bytes, size_t length);
lumbixet_written plain_write_report(uint64_t profile, uint8_t *buffer, size_t length, lumbixet_header header,
                                    const uint8_t *records, size_t records_length, uint64_t maximum);

uint64_t plain_tracker_open(lumbixet_tracker *tracker, uint64_t first, uint64_t interval);
uint64_t plain_tracker_arrived(lumbixet_tracker *tracker, uint64_t object, uint64_t time, lumbixet_deadline deadline);
uint64_t plain_tracker_ended_early(lumbixet_tracker *tracker, uint64_t object, uint64_t time);
lumbixet_report plain_tracker_report(const lumbixet_tracker *tracker, uint64_t time, uint64_t interval, uint8_t *entries,
                                     size_t length);

void plain_losses_open(lumbixet_losses *losses);
lumbixet_sent plain_losses_send(lumbixet_losses *losses);
lumbixet_heard plain_losses_heard(lumbixet_losses *losses, const uint8_t *frame, size_t length, uint64_t *acknowledged,
                                  size_t acknowledged_length, uint64_t *lost, size_t lost_length);
uint64_t plain_pieces_open(lumbixet_pieces *pieces, uint64_t profile);
lumbixet_pieces_taken plain_pieces_take(lumbixet_pieces *pieces, const uint8_t *part, size_t length, uint8_t *buffer,
                                        size_t room);
lumbixet_report plain_pieces_end(lumbixet_pieces *pieces);

#endif
