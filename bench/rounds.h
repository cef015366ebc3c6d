/* One round of each kind of row: nanoseconds for a call of the side. `kind` says which input of those of its kind. */
#ifndef ROUNDS_H
#define ROUNDS_H

#include "sides.h"

enum { CALLS = 2048 };

/* Every answer goes in here, so that no call can be left out. */
extern volatile uint64_t sink;

double read_numbers(const struct side *side, int kind, int round);
double put_numbers(const struct side *side, int kind, int round);
double read_acks(const struct side *side, int kind, int round);
double write_acks(const struct side *side, int kind, int round);
double take_packets(const struct side *side, int kind, int round);
double look_at_timer(const struct side *side, int kind, int round);
double read_reports(const struct side *side, int kind, int round);
double find_newest_lost(const struct side *side, int kind, int round);
double write_reports(const struct side *side, int kind, int round);
double arrive_objects(const struct side *side, int kind, int round);
double report_objects(const struct side *side, int kind, int round);

/* The sending side. */
double send_numbers(const struct side *side, int kind, int round);
double hear_acks(const struct side *side, int kind, int round);
double hear_stream(const struct side *side, int kind, int round);

/* A report of 50 entries in one part, or in parts of 1,200, 64 or 1 bytes; see IN_PARTS. */
enum { PART_LENGTHS = 4 };
#define IN_PARTS(profile, which) (PART_LENGTHS * ((profile) - 1) + (which))
double read_in_parts(const struct side *side, int kind, int round);

/* On a lent record; and on those of ROOMS rooms in turn, for kind R = 1 (0) or R = 3 (1). */
enum { ROOMS = 2000 };
double take_packets_lent(const struct side *side, int kind, int round);
double take_packets_in_rooms(const struct side *side, int kind, int round);
double take_packets_in_rooms_by_value(const struct side *side, int kind, int round);
double look_at_timer_lent(const struct side *side, int kind, int round);
double look_at_timers_in_rooms(const struct side *side, int kind, int round);
double write_acks_lent(const struct side *side, int kind, int round);

#endif
