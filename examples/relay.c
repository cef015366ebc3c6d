/* A relay: two thousand rooms in one process, each with its own record, which packets, timers and writes update where it
 * stands (lumbixet_lent.h). `make relay` builds and runs it; it stops by itself.
 *
 * Every 5 ms each room's line brings a packet or loses it, holds it back, marks it, repeats it; the relay looks at timers,
 * hears frames and confirmations, and writes what is due. All this runs twice, with records lent and with the same calls by
 * value, and at the end each room's two records are compared. What it prints before the times stands in relay.expected,
 * which the second implementation made (oracle/relay.rs). */
#define _POSIX_C_SOURCE 200809L

#include <inttypes.h>
#include <stdio.h>
#include <string.h>
#include <time.h>
#include <unistd.h>

#include "relay_line.h"

enum { ROOMS = 2000, TURNS = 1000, FRAME = 128 };
enum { PACKET, TIMER, WRITE, THRESHOLD, IMMEDIATE, CONFIRM, KINDS };

static const char *const kinds[KINDS] = {"packet", "timer", "write", "threshold", "immediate", "confirm"};

/* The three frequent calls, in one of their two forms. */
struct form {
    const char *name;
    uint64_t (*packet)(lumbixet_receiver *, uint64_t, uint64_t, bool, uint64_t);
    uint64_t (*timer)(lumbixet_receiver *, uint64_t);
    lumbixet_wrote_lent (*write)(lumbixet_receiver *, uint64_t, bool, uint8_t *, size_t);
};

/* One run: the records, their lines, and what was counted. */
struct run {
    lumbixet_receiver records[ROOMS];
    struct line lines[ROOMS];
    struct event events[ROOMS];
    size_t count;
    uint8_t frames[ROOMS][FRAME];
    uint64_t results[KINDS][LUMBIXET_STALE + 1];
    uint64_t causes[LUMBIXET_TIMER + 1]; /* of the acknowledgments that were written; 0: none was due */
    uint64_t bytes, digest;
    uint64_t nanoseconds[KINDS];
};

static uint64_t packet_by_value(lumbixet_receiver *record, uint64_t number, uint64_t time, bool eliciting, uint64_t ecn)
{
    lumbixet_answer answer = lumbixet_packet(*record, number, time, eliciting, ecn);
    *record = answer.next;
    return answer.result;
}

static uint64_t timer_by_value(lumbixet_receiver *record, uint64_t time)
{
    lumbixet_answer answer = lumbixet_timer(*record, time);
    *record = answer.next;
    return answer.result;
}

static lumbixet_wrote_lent write_by_value(lumbixet_receiver *record, uint64_t time, bool counts, uint8_t *frame, size_t length)
{
    lumbixet_wrote wrote = lumbixet_write(*record, time, counts, frame, length);
    *record = wrote.next;
    return (lumbixet_wrote_lent){wrote.result, wrote.length};
}

static const struct form lent = {"lent", lumbixet_packet_lent, lumbixet_timer_lent, lumbixet_write_lent};
static const struct form by_value = {"by value", packet_by_value, timer_by_value, write_by_value};
static struct run runs[2];

static uint64_t now_ns(void)
{
    struct timespec t;
    clock_gettime(CLOCK_MONOTONIC, &t);
    return (uint64_t)t.tv_sec * 1000000000 + (uint64_t)t.tv_nsec;
}

/* A stray write of the host's own: `cause` of some rooms holds for one turn what no record may hold. */
static void spoil(struct run *run, uint64_t turn, uint64_t *causes, bool mend)
{
    for (size_t room = 50; turn % 200 == 199 && room < ROOMS; room += 100) {
        uint64_t *cause = &run->records[room].cause;
        causes[room] = mend ? causes[room] : *cause;
        *cause = mend ? causes[room] : 9;
    }
}

/* Rooms in another order each turn, as a relay's packets come. */
static void packets(struct run *run, const struct form *form, uint64_t turn)
{
    static uint64_t causes[ROOMS];
    run->count = 0;
    for (size_t i = 0; i < ROOMS; i++) {
        size_t room = (i * 787 + turn) % ROOMS;
        run->count += arrives(&run->lines[room], room, turn, &run->events[run->count]);
    }
    spoil(run, turn, causes, false);
    uint64_t from = now_ns();
    for (struct event *e = run->events; e < run->events + run->count; e++)
        e->result = form->packet(&run->records[e->room], e->number, e->time, e->flag, e->ecn);
    run->nanoseconds[PACKET] += now_ns() - from;
    spoil(run, turn, causes, true);
    for (size_t i = 0; i < run->count; i++)
        run->results[PACKET][run->events[i].result]++;
}

/* Each timer when it is time, and now and then one too early or at a time that is none. */
static void timers(struct run *run, const struct form *form, uint64_t turn, uint64_t now)
{
    run->count = 0;
    for (size_t room = 0; room < ROOMS; room++)
        if (lumbixet_wake(&run->records[room]) <= now || (room + turn) % 64 == 0)
            run->events[run->count++] =
                (struct event){.room = room, .time = (room + turn) % 640 == 0 ? LUMBIXET_LARGEST + 1 : now};
    uint64_t from = now_ns();
    for (struct event *e = run->events; e < run->events + run->count; e++)
        e->result = form->timer(&run->records[e->room], e->time);
    run->nanoseconds[TIMER] += now_ns() - from;
    for (size_t i = 0; i < run->count; i++)
        run->results[TIMER][run->events[i].result]++;
}

/* The rare calls take the record by value in both runs. */
static void take(struct run *run, size_t room, int kind, lumbixet_answer answer)
{
    run->records[room] = answer.next;
    run->results[kind][answer.result]++;
}

static void frames_and_confirmations(struct run *run, size_t room, uint64_t turn)
{
    lumbixet_receiver *r = &run->records[room];
    struct line *line = &run->lines[room];
    uint64_t part = turn % 250, sequence = turn / 250;
    if ((room + 7 * turn) % 500 == 0)
        take(run, room, IMMEDIATE, lumbixet_immediate(*r));
    if (part == 100 + room % 50 || (part == 160 && room % 10 == 0))
        take(run, room, THRESHOLD, lumbixet_threshold(*r, sequence, room % 2 ? 20 : 2, room % 3 ? 30000 : 10000, 1 + room % 4));
    if (part == 170 && room % 200 == 7)
        take(run, room, THRESHOLD, lumbixet_threshold(*r, sequence + 1, 2, 500, 1));
    if (line->told != 0 && turn >= line->heard_at) {
        take(run, room, CONFIRM, lumbixet_confirm(*r, line->told - 1));
        line->told = 0;
    }
    if ((room + turn) % 1000 == 999)
        take(run, room, CONFIRM, lumbixet_confirm(*r, r->end + 5));
}

/* A write that was accepted: counted by its cause, and in even rooms confirmed eight turns later. */
static void written(struct run *run, const struct event *e, uint64_t turn)
{
    run->causes[e->cause]++;
    run->bytes += e->length;
    for (size_t i = 0; i < e->length; i++)
        run->digest = (run->digest ^ run->frames[e->room][i]) * UINT64_C(0x100000001b3);
    struct line *line = &run->lines[e->room];
    if (e->room % 2 == 0 && line->told == 0) {
        line->told = run->records[e->room].acknowledged;
        line->heard_at = turn + 8;
    }
}

/* What is due is written; now and then a packet leaves anyway, or has room for four bytes only. */
static void writes(struct run *run, const struct form *form, uint64_t turn, uint64_t now)
{
    run->count = 0;
    for (size_t room = 0; room < ROOMS; room++) {
        uint64_t cause = run->records[room].cause;
        if (cause != LUMBIXET_NOT_DUE || (room + turn) % 400 == 5)
            run->events[run->count++] = (struct event){
                .room = room, .time = now, .flag = room % 4 != 3, .length = (room + turn) % 32 == 9 ? 4 : FRAME, .cause = cause};
    }
    uint64_t from = now_ns();
    for (struct event *e = run->events; e < run->events + run->count; e++) {
        lumbixet_wrote_lent wrote = form->write(&run->records[e->room], e->time, e->flag, run->frames[e->room], e->length);
        e->result = wrote.result;
        e->length = wrote.length;
    }
    run->nanoseconds[WRITE] += now_ns() - from;
    for (size_t i = 0; i < run->count; i++) {
        run->results[WRITE][run->events[i].result]++;
        if (run->events[i].result == LUMBIXET_ACCEPTED)
            written(run, &run->events[i], turn);
    }
}

static uint64_t calls(const struct run *run, int kind)
{
    uint64_t sum = 0;
    for (int result = 0; result <= LUMBIXET_STALE; result++)
        sum += run->results[kind][result];
    return sum;
}

static void relay(struct run *run, const struct form *form)
{
    bool shown = isatty(STDERR_FILENO);
    run->digest = UINT64_C(0xcbf29ce484222325);
    for (size_t room = 0; room < ROOMS; room++) {
        static const uint64_t thresholds[4] = {1, 3, 10, 1000}, reorderings[4] = {0, 1, 3, 5};
        run->records[room] = lumbixet_open(thresholds[room % 4], reorderings[room / 4 % 4], 25, 1000).next;
        run->lines[room].state = room;
    }
    for (uint64_t turn = 0; turn < TURNS; turn++) {
        uint64_t now = turn * TURN_US + 2000;
        packets(run, form, turn);
        timers(run, form, turn, now);
        for (size_t room = 0; room < ROOMS; room++)
            frames_and_confirmations(run, room, turn);
        writes(run, form, turn, now);
        if (shown && turn % 10 == 9)
            fprintf(stderr, "\r%-8s  turn %4" PRIu64 " of %d, %8" PRIu64 " packets, %7" PRIu64 " acknowledgments", form->name,
                    turn + 1, TURNS, calls(run, PACKET), run->results[WRITE][LUMBIXET_ACCEPTED]);
    }
    if (shown)
        fputs("\r\033[K", stderr);
}

/* So many times each refusal came. */
static void print_refusals(const struct run *run, int kind)
{
    const char *between = "";
    for (int result = 1; result <= LUMBIXET_STALE; result++)
        if (run->results[kind][result] != 0) {
            printf("%s%d: %" PRIu64, between, result, run->results[kind][result]);
            between = ", ";
        }
    putchar('\n');
}

static void print_counts(const struct run *run)
{
    printf("%d rooms in one process, a record of %zu bytes each: %zu bytes for all\n\n", ROOMS, sizeof run->records[0],
           sizeof run->records);
    printf("%-10s %-9s %9s %9s  refused, by number\n", "call", "record", "calls", "accepted");
    for (int kind = 0; kind < KINDS; kind++) {
        printf("%-10s %-9s %9" PRIu64 " %9" PRIu64 "  ", kinds[kind], kind <= WRITE ? lent.name : by_value.name,
               calls(run, kind), run->results[kind][LUMBIXET_ACCEPTED]);
        print_refusals(run, kind);
    }
    puts("\nacknowledgments by cause");
    for (uint64_t cause = 0; cause <= LUMBIXET_TIMER; cause++)
        printf("%9" PRIu64 "  %" PRIu64 " %s\n", run->causes[cause], cause, lumbixet_cause_text(cause));
    printf("%9" PRIu64 "  bytes in all, digest %016" PRIx64 "\n\n", run->bytes, run->digest);
}

static bool same_counts(const struct run *a, const struct run *b)
{
    return memcmp(a->results, b->results, sizeof a->results) == 0 && memcmp(a->causes, b->causes, sizeof a->causes) == 0 &&
           a->bytes == b->bytes && a->digest == b->digest;
}

static void print_times(void)
{
    puts("\nNanoseconds a call, this time and on this machine");
    printf("%-10s %9s %9s\n", "call", lent.name, by_value.name);
    for (int kind = 0; kind <= WRITE; kind++)
        printf("%-10s %9.1f %9.1f\n", kinds[kind], (double)runs[0].nanoseconds[kind] / (double)calls(&runs[0], kind),
               (double)runs[1].nanoseconds[kind] / (double)calls(&runs[1], kind));
}

int main(void)
{
    relay(&runs[0], &lent);
    relay(&runs[1], &by_value);
    print_counts(&runs[0]);
    for (size_t room = 0; room < ROOMS; room++)
        if (memcmp(&runs[0].records[room], &runs[1].records[room], sizeof runs[0].records[room]) != 0) {
            printf("room %zu: the record is not that of the same calls by value\n", room);
            return 1;
        }
    if (!same_counts(&runs[0], &runs[1])) {
        puts("the same calls by value gave other answers");
        return 1;
    }
    puts("Every room's record is that of the same calls by value, byte for byte; so are all answers and frames.");
    print_times();
    return 0;
}
