/* Both sides, each with its own names. */
#include "sides.h"

#include "plain.h"

#define SIDE(name)                                                                                                     \
    {                                                                                                                  \
        name##_read_number, name##_put_number, name##_read_frequency, name##_read_immediate, name##_read_ack,          \
            name##_put_frequency, name##_put_immediate, name##_open, name##_packet, name##_timer, name##_threshold,    \
            name##_immediate, name##_confirm, name##_write, name##_packet_lent, name##_timer_lent, name##_write_lent,  \
            name##_read_report, name##_find_entries, name##_read_entry, name##_newest_lost, name##_write_report,       \
            name##_tracker_open, name##_tracker_arrived, name##_tracker_ended_early, name##_tracker_report,            \
            name##_losses_open, name##_losses_send, name##_losses_heard,                                               \
            name##_pieces_open, name##_pieces_take, name##_pieces_end                                                  \
    }

const struct side archive = SIDE(lumbixet);
const struct side plain = SIDE(plain);
