/* What the C of the pages of docs/hosts leaves to the host, so that `make host` can see that it compiles. */
#include <inttypes.h>
#include <stdio.h>

#include "lumbixet_pieces.h"
#include "lumbixet_sent.h"
#include "lumbixet_tracker.h"

bool transmit(const uint8_t *frame, uint64_t length);
void on_frames(const uint8_t *frames, size_t length);
void set_alarm(uint64_t time);
void on_summary(const lumbixet_header *header);
void on_entry(const lumbixet_entry *entry);
