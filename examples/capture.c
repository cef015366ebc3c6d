/* A capture unit sends over a line that loses packets, and the room's receiver says what came: both sides of this library in one
 * process. `make host` builds and runs it. What it must print stands in capture.expected, which was written by hand from the rules. */
#include <inttypes.h>
#include <stdio.h>
#include <stdlib.h>

#include "lumbixet_sent.h"

enum { STEP_US = 5000, HOUR = 720000, MOST = HOUR + 2 * LUMBIXET_HELD };

/* What the line did with each number, and what the capture unit heard of it: the host's own notes, to hold the answers to. */
static bool lost_on_line[MOST], said_acknowledged[MOST], said_lost[MOST];

/* The two sides, and what is counted of the line between them. */
struct sides {
    lumbixet_losses unit;
    lumbixet_receiver room;
    uint64_t time;
    uint64_t written, unheard; /* acknowledgments, and those that the line lost */
    uint64_t late;             /* numbers that were listed as lost, and acknowledged later */
};

/* The lists of the last acknowledgment that was heard. */
static uint64_t acknowledged[LUMBIXET_HELD], lost[LUMBIXET_HELD];

static void must(bool holds, const char *what, uint64_t number)
{
    if (holds)
        return;
    fprintf(stderr, "capture: %s: %" PRIu64 "\n", what, number);
    exit(1);
}

static void start(struct sides *s)
{
    *s = (struct sides){.room = lumbixet_open(3, 3, 25, 1000).next}; /* more than 3 packets, a gap that reaches 3, or 25 ms */
    lumbixet_losses_open(&s->unit);
    for (size_t i = 0; i < MOST; i++)
        lost_on_line[i] = said_acknowledged[i] = said_lost[i] = false;
}

static uint64_t send(struct sides *s)
{
    lumbixet_sent sent = lumbixet_losses_send(&s->unit);
    must(sent.result == LUMBIXET_ACCEPTED, "a send was refused", sent.result);
    s->time += STEP_US;
    return sent.number;
}

static void arrives(struct sides *s, uint64_t number)
{
    uint64_t result = lumbixet_packet_lent(&s->room, number, s->time, true, LUMBIXET_ECN_NONE);
    must(result == LUMBIXET_ACCEPTED, "the room refused a packet", result);
}

/* The room's acknowledgment goes back; the line may lose it. */
static lumbixet_heard answer(struct sides *s, uint8_t *frame, uint64_t *length, bool reaches)
{
    lumbixet_wrote_lent wrote = lumbixet_write_lent(&s->room, s->time, false, frame, LUMBIXET_ACK_ROOM);
    must(wrote.result == LUMBIXET_ACCEPTED, "the room could not write", wrote.result);
    s->written++;
    *length = wrote.length;
    if (!reaches) {
        s->unheard++;
        return (lumbixet_heard){0, 0, 0, 0};
    }
    lumbixet_heard heard = lumbixet_losses_heard(&s->unit, frame, wrote.length, acknowledged, LUMBIXET_HELD, lost, LUMBIXET_HELD);
    must(heard.result == LUMBIXET_ACCEPTED, "the capture unit refused an acknowledgment", heard.result);
    for (uint64_t i = 0; i < heard.acknowledged; i++) {
        uint64_t number = acknowledged[i];
        must(!lost_on_line[number], "acknowledged, though the line lost it", number);
        must(!said_acknowledged[number], "acknowledged twice", number);
        said_acknowledged[number] = true;
        s->late += said_lost[number];
    }
    for (uint64_t i = 0; i < heard.lost; i++) {
        must(!said_lost[lost[i]] && !said_acknowledged[lost[i]], "lost twice, or after it was acknowledged", lost[i]);
        said_lost[lost[i]] = true;
    }
    return heard;
}

/* Every number that the line lost and a later one passed by 3 is in the loss list; what is acknowledged does not count as lost. */
static void judge(const struct sides *s)
{
    uint64_t still_lost = 0, arrived = 0;
    for (uint64_t n = 0; n < s->unit.next; n++) {
        bool passed = n + LUMBIXET_PACKET_THRESHOLD < s->unit.end;
        must(!lost_on_line[n] || !passed || said_lost[n], "lost on the line, and not in the loss list", n);
        must(lost_on_line[n] || !passed || said_acknowledged[n], "it came, and was not acknowledged", n);
        arrived += said_acknowledged[n];
        still_lost += said_lost[n] && !said_acknowledged[n];
    }
    lumbixet_states states = lumbixet_losses_states(&s->unit);
    must(states.acknowledged == arrived && states.lost == still_lost, "the record counts otherwise", states.lost);
}

static void states(const struct sides *s)
{
    lumbixet_states states = lumbixet_losses_states(&s->unit);
    printf("%" PRIu64 " outstanding, %" PRIu64 " acknowledged, %" PRIu64 " lost", states.outstanding, states.acknowledged, states.lost);
}

/* Numbers in a row with blanks between them, in a column. */
static void column(const uint64_t *numbers, uint64_t count, int width)
{
    int used = 0;
    for (uint64_t i = 0; i < count; i++)
        used += printf("%s%" PRIu64, i ? " " : "", numbers[i]);
    printf("%*s", used < width ? width - used : 1, "");
}

/* A row of the table: what happened on the line since the row before, what the room says, and what the capture unit makes of it. */
static void row(struct sides *s, const char *strip, bool reaches)
{
    uint8_t frame[LUMBIXET_ACK_ROOM];
    uint64_t ranges[LUMBIXET_RANGES_ROOM(LUMBIXET_ACK_ROOM)], length;
    lumbixet_heard heard = answer(s, frame, &length, reaches);
    lumbixet_ack ack = lumbixet_read_ack(frame, length, ranges, LUMBIXET_RANGES_ROOM(LUMBIXET_ACK_ROOM));
    printf("%-8s", strip);
    int used = 0;
    for (uint64_t i = 0; i < ack.ranges; i++)
        used += printf("%s%" PRIu64 "-%" PRIu64, i ? " " : "", ranges[2 * i], ranges[2 * i + 1]);
    printf("%*s", 24 - used, "");
    if (!reaches) {
        puts("the line loses this acknowledgment");
        return;
    }
    column(acknowledged, heard.acknowledged, 25);
    column(lost, heard.lost, 8);
    states(s);
    putchar('\n');
}

/* The line packet by packet: . comes, x is lost, h is held back, + the held one comes; ! loses the next acknowledgment. */
static void table(struct sides *s, const char *line)
{
    char strip[16];
    uint64_t held = 0;
    size_t at = 0;
    bool reaches = true;
    for (; *line; line++) {
        if (*line == '!') {
            reaches = false;
            continue;
        }
        strip[at++] = *line;
        strip[at] = 0;
        uint64_t number = *line == '+' ? held : send(s);
        if (*line == 'h')
            held = number;
        else if (*line == 'x')
            lost_on_line[number] = true;
        else
            arrives(s, number);
        if (s->room.cause != LUMBIXET_NOT_DUE) {
            row(s, strip, reaches);
            reaches = true;
            at = 0;
        }
    }
    s->time = lumbixet_wake(&s->room);
    must(lumbixet_timer_lent(&s->room, s->time) == LUMBIXET_ACCEPTED && s->room.cause == LUMBIXET_TIMER, "the timer", s->time);
    row(s, strip, true);
}

/* Of each fifty packets the line loses one, of each thousand one comes five later, and of the acknowledgments it loses some. */
static void hour(struct sides *s)
{
    uint8_t frame[LUMBIXET_ACK_ROOM];
    uint64_t length, held_back = 0, gone = 0;
    while (s->unit.next < HOUR) {
        uint64_t number = send(s);
        lost_on_line[number] = number % 50 == 17;
        gone += lost_on_line[number];
        if (number % 1000 == 505)
            arrives(s, number - 5);
        if (number % 1000 == 500)
            held_back++;
        else if (!lost_on_line[number])
            arrives(s, number);
        if (s->room.cause != LUMBIXET_NOT_DUE)
            answer(s, frame, &length, (s->room.end - 1) % 100 != 40);
    }
    answer(s, frame, &length, true);
    printf("the line          %d packets, %" PRIu64 " of them lost and %" PRIu64 " late\n", HOUR, gone, held_back);
    printf("the room          %" PRIu64 " packets received; %" PRIu64 " acknowledgments written, the line lost %" PRIu64 "\n",
           s->room.total_unmarked, s->written, s->unheard);
    printf("the capture unit  ");
    states(s);
    printf("; %" PRIu64 " were listed as lost and acknowledged later\n", s->late);
}

/* The line brings every packet and no acknowledgment, until there is no room for a number more. */
static void silence(struct sides *s)
{
    uint8_t frame[LUMBIXET_ACK_ROOM];
    uint64_t length;
    for (int i = 0; i < LUMBIXET_HELD; i++) {
        arrives(s, send(s));
        if (s->room.cause != LUMBIXET_NOT_DUE)
            answer(s, frame, &length, false);
    }
    printf("After %d packets: ", LUMBIXET_HELD);
    states(s);
    printf(".\nOne more send is refused with %" PRIu64 ".\n", lumbixet_losses_send(&s->unit).result);
    lumbixet_heard heard = answer(s, frame, &length, true);
    printf("An acknowledgment comes: %" PRIu64 " newly acknowledged, %" PRIu64 " newly lost.\n", heard.acknowledged, heard.lost);
    printf("The next packet has number %" PRIu64 ".\n", send(s));
}

int main(void)
{
    static struct sides sides;
    puts("Packet by packet: . comes, x is lost, h is held back, + comes late");
    printf("%-8s%-24s%-25s%s\n", "line", "the room received", "newly acknowledged", "newly lost, and the states");
    start(&sides);
    table(&sides, "...." "..x.." "." "h..." "+..." "!...." "...." "xxxx." "." "." "x.");
    judge(&sides);

    puts("\nAn hour on a poor line, a packet every 5 ms");
    start(&sides);
    hour(&sides);
    judge(&sides);

    puts("\nThe acknowledgments stay away");
    silence(&sides);
    judge(&sides);

    puts("\nEvery number that the line lost and a later one passed by 3 is in the loss list; none that was acknowledged counts as lost.");
    return 0;
}
