/* The lines of relay.c: what each room's line brings, drawn from a seed of its own. */
#ifndef RELAY_LINE_H
#define RELAY_LINE_H

#include "lumbixet.h"

enum { TURN_US = 5000 };

/* A room's line: the numbers on it are drawn from its state. */
struct line {
    uint64_t state;
    uint64_t next;     /* the next number that is sent */
    uint64_t held;     /* the end of a number that is held back, 0 for none */
    uint64_t told;     /* the end of an ACK's largest number that the sender has not confirmed yet, 0 for none */
    uint64_t heard_at; /* the turn in which it does */
};

/* One call that is to be made, and what came of it. */
struct event {
    size_t room;
    uint64_t number, time, ecn;
    bool flag; /* of a packet: ack-eliciting; of a write: with counts */
    size_t length;
    uint64_t cause; /* why the write is due */
    uint64_t result;
};

/* The next number of a line's own (splitmix64). */
static inline uint64_t draw(struct line *line)
{
    uint64_t z = line->state += UINT64_C(0x9e3779b97f4a7c15);
    z = (z ^ z >> 30) * UINT64_C(0xbf58476d1ce4e5b9);
    z = (z ^ z >> 27) * UINT64_C(0x94d049bb133111eb);
    return z ^ z >> 31;
}

/* What a line brings in a turn, of 128 times: 3 lost, 1 held back, 8 the one that is held, 1 the last once more, 1 a very old
 * one, 1 a number that no packet has (one in 16 of these); else the next. Every 25th room begins ten turns later. */
static inline bool arrives(struct line *line, size_t room, uint64_t turn, struct event *event)
{
    uint64_t z = draw(line), kind = z % 128;
    if (room % 25 == 0 && turn < 10)
        return false;
    if (kind < 3 || (kind == 3 && line->held == 0)) {
        line->next++;
        line->held = kind == 3 ? line->next : line->held;
        return false;
    }
    *event = (struct event){.room = room, .time = turn * TURN_US + (z >> 32) % 1000, .flag = (z >> 16) % 8 != 0};
    event->ecn = room % 4 == 3 ? LUMBIXET_ECN_NONE : (z >> 24) % 64 == 0 ? LUMBIXET_ECN_CE : LUMBIXET_ECN_ECT0;
    if (kind >= 4 && kind < 12 && line->held != 0) {
        event->number = line->held - 1;
        line->held = 0;
    } else if (kind == 12 && line->next > 0)
        event->number = line->next - 1;
    else if (kind == 13 && line->next > 1100)
        event->number = line->next - 1100;
    else if (kind == 14 && (z >> 8) % 16 == 0)
        event->number = LUMBIXET_LARGEST + 1;
    else
        event->number = line->next++;
    return true;
}

#endif
