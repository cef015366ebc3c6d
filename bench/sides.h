/* The two sides that are compared and timed: the same calls by pointer, so that the code around them is the same. */
#ifndef SIDES_H
#define SIDES_H

#include "lumbixet_pieces.h"
#include "lumbixet_sent.h"
#include "lumbixet_tracker.h"

struct side {
    lumbixet_number (*read_number)(const uint8_t *, size_t, size_t);
    lumbixet_put (*put_number)(uint8_t *, size_t, size_t, uint64_t);
    lumbixet_frequency (*read_frequency)(const uint8_t *, size_t);
    lumbixet_immediate_frame (*read_immediate)(const uint8_t *, size_t);
    lumbixet_ack (*read_ack)(const uint8_t *, size_t, uint64_t *, size_t);
    lumbixet_put (*put_frequency)(uint8_t *, size_t, uint64_t, uint64_t, uint64_t, uint64_t);
    lumbixet_put (*put_immediate)(uint8_t *, size_t);
    lumbixet_answer (*open)(uint64_t, uint64_t, uint64_t, uint64_t);
    lumbixet_answer (*packet)(lumbixet_receiver, uint64_t, uint64_t, bool, uint64_t);
    lumbixet_answer (*timer)(lumbixet_receiver, uint64_t);
    lumbixet_answer (*threshold)(lumbixet_receiver, uint64_t, uint64_t, uint64_t, uint64_t);
    lumbixet_answer (*immediate)(lumbixet_receiver);
    lumbixet_answer (*confirm)(lumbixet_receiver, uint64_t);
    lumbixet_wrote (*write)(lumbixet_receiver, uint64_t, bool, uint8_t *, size_t);
    uint64_t (*packet_lent)(lumbixet_receiver *, uint64_t, uint64_t, bool, uint64_t);
    uint64_t (*timer_lent)(lumbixet_receiver *, uint64_t);
    lumbixet_wrote_lent (*write_lent)(lumbixet_receiver *, uint64_t, bool, uint8_t *, size_t);
    lumbixet_report (*read_report)(uint64_t, const uint8_t *, size_t);
    lumbixet_entries (*find_entries)(uint64_t, const uint8_t *, size_t);
    lumbixet_entry (*read_entry)(uint64_t, const uint8_t *, size_t, size_t);
    lumbixet_newest (*newest_lost)(uint64_t, const uint8_t *, size_t);
    lumbixet_written (*write_report)(uint64_t, uint8_t *, size_t, lumbixet_header, const uint8_t *, size_t, uint64_t);
    uint64_t (*tracker_open)(lumbixet_tracker *, uint64_t, uint64_t);
    uint64_t (*tracker_arrived)(lumbixet_tracker *, uint64_t, uint64_t, lumbixet_deadline);
    uint64_t (*tracker_ended_early)(lumbixet_tracker *, uint64_t, uint64_t);
    lumbixet_report (*tracker_report)(const lumbixet_tracker *, uint64_t, uint64_t, uint8_t *, size_t);
    void (*losses_open)(lumbixet_losses *);
    lumbixet_sent (*losses_send)(lumbixet_losses *);
    lumbixet_heard (*losses_heard)(lumbixet_losses *, const uint8_t *, size_t, uint64_t *, size_t, uint64_t *, size_t);
    uint64_t (*pieces_open)(lumbixet_pieces *, uint64_t);
    lumbixet_pieces_taken (*pieces_take)(lumbixet_pieces *, const uint8_t *, size_t, uint8_t *, size_t);
    lumbixet_report (*pieces_end)(lumbixet_pieces *);
};

extern const struct side archive;
extern const struct side plain;

#endif
