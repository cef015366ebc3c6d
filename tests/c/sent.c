/* Holds include/lumbixet_sent.h to the archive: sizes and places at compile time, and at run time every word of the record,
 * every refusal of each call, both lists, and the counts that the header makes. `make host` builds and runs it. */
#include "lumbixet_sent.h"
#include "same.h"

SIZE(lumbixet_losses, 288);
AT(lumbixet_losses, lost, 128);
AT(lumbixet_losses, next, 256);
AT(lumbixet_losses, acknowledged_before, 264);
AT(lumbixet_losses, lost_before, 272);
AT(lumbixet_losses, end, 280);
SIZE(lumbixet_sent, 16);
AT(lumbixet_sent, number, 8);
SIZE(lumbixet_heard, 32);
AT(lumbixet_heard, length, 8);
AT(lumbixet_heard, acknowledged, 16);
AT(lumbixet_heard, lost, 24);

static uint64_t acknowledged[LUMBIXET_HELD], lost[LUMBIXET_HELD];

/* Both lists have room for so many, and are filled before the call so that what is written is seen. */
static lumbixet_heard hear(lumbixet_losses *l, const uint8_t *frame, size_t length, size_t first, size_t second)
{
    memset(acknowledged, 0xa5, sizeof acknowledged);
    memset(lost, 0xa5, sizeof lost);
    return lumbixet_losses_heard(l, frame, length, acknowledged, first, lost, second);
}

static void states(const lumbixet_losses *l, uint64_t outstanding, uint64_t arrived, uint64_t gone)
{
    lumbixet_states s = lumbixet_losses_states(l);
    SAME(s.outstanding, outstanding);
    SAME(s.acknowledged, arrived);
    SAME(s.lost, gone);
}

static void words(lumbixet_losses *l)
{
    static const lumbixet_losses opened;
    static const uint8_t gap[] = {0x02, 7, 0, 1, 0, 4, 1, 0xee}; /* 7, and 0 to 1; a byte behind */
    static const uint8_t counted[] = {0x03, 6, 0, 0, 4, 9, 9, 9}; /* 2 to 6, with counts */
    memset(l, 0xff, sizeof *l);
    lumbixet_losses_open(l);
    same_bytes("words of an opened record", l, &opened, sizeof opened);
    for (uint64_t n = 0; n < 10; n++) {
        lumbixet_sent sent = lumbixet_losses_send(l);
        SAME(sent.result, LUMBIXET_ACCEPTED);
        SAME(sent.number, n);
    }
    SAME(l->next, 10);
    lumbixet_heard heard = hear(l, gap, sizeof gap, 3, 3);
    SAME(heard.result, LUMBIXET_ACCEPTED);
    SAME(heard.length, 7);
    SAME(heard.acknowledged, 3);
    SAME(heard.lost, 3);
    static const uint64_t three[] = {0, 1, 7, UINT64_C(0xa5a5a5a5a5a5a5a5)}, gone[] = {2, 3, 4, UINT64_C(0xa5a5a5a5a5a5a5a5)};
    same_bytes("newly acknowledged numbers", acknowledged, three, sizeof three);
    same_bytes("newly lost numbers", lost, gone, sizeof gone);
    SAME(l->acknowledged[0], 0x83);
    SAME(l->lost[0], 0x1c);
    SAME(l->end, 8);
    states(l, 4, 3, 3);
    heard = hear(l, counted, sizeof counted, 5, 0);
    SAME(heard.result, LUMBIXET_ACCEPTED);
    SAME(heard.length, 8);
    SAME(heard.acknowledged, 5);
    SAME(acknowledged[0], 2);
    SAME(acknowledged[4], 6);
    SAME(l->lost[0], 0);
    SAME(l->end, 8);
    states(l, 2, 8, 0);
}

static void refusals(lumbixet_losses *l)
{
    static const uint8_t never[] = {0x02, 10, 0, 0, 0}, last[] = {0x02, 9, 0, 0, 1}, below[] = {0x02, 10, 0, 0, 11}, other[] = {0x1f};
    lumbixet_losses made_up = *l;
    SAME(hear(l, never, 4, 0, 0).result, LUMBIXET_ENDS);
    SAME(hear(l, other, 1, 0, 0).result, LUMBIXET_OTHER_TYPE);
    SAME(hear(l, below, 5, 0, 0).result, LUMBIXET_BELOW_ZERO);
    SAME(hear(l, never, 5, 0, 0).result, LUMBIXET_NEVER_SENT);
    lumbixet_heard heard = hear(l, last, 5, 1, 9);
    SAME(heard.result, LUMBIXET_NO_ROOM);
    SAME(heard.length + heard.acknowledged + heard.lost, 0);
    SAME(acknowledged[0], UINT64_C(0xa5a5a5a5a5a5a5a5));
    same_bytes("words after refusals", l, &made_up, sizeof made_up);
    made_up.lost[0] = 1;
    SAME(lumbixet_losses_send(&made_up).result, LUMBIXET_INCONSISTENT);
    SAME(hear(&made_up, never, 4, 0, 0).result, LUMBIXET_INCONSISTENT);
}

/* The 1,025th number takes the room of number 0 once that is lost; what is forgotten stays in the counts. */
static void full(lumbixet_losses *l)
{
    static const uint8_t three[] = {0x02, 3, 0, 0, 0}, zero[] = {0x02, 0, 0, 0, 0};
    lumbixet_losses_open(l);
    for (uint64_t n = 0; n < LUMBIXET_HELD; n++)
        SAME(lumbixet_losses_send(l).number, n);
    SAME(lumbixet_losses_send(l).result, LUMBIXET_NO_ROOM);
    SAME(hear(l, three, 5, 1, 1).lost, 1);
    SAME(lumbixet_losses_send(l).number, LUMBIXET_HELD);
    SAME(l->lost_before, 1);
    SAME(hear(l, zero, 5, 0, 0).result, LUMBIXET_ACCEPTED);
    SAME(l->acknowledged_before, 0);
    states(l, LUMBIXET_HELD - 1, 1, 1);
    memset(l->acknowledged, 0xff, sizeof l->acknowledged);
    memset(l->lost, 0, sizeof l->lost);
    l->next = LUMBIXET_LARGEST;
    l->acknowledged_before = LUMBIXET_LARGEST - LUMBIXET_HELD - 1;
    SAME(lumbixet_losses_send(l).number, LUMBIXET_LARGEST);
    SAME(l->acknowledged_before, LUMBIXET_LARGEST - LUMBIXET_HELD);
    lumbixet_sent sent = lumbixet_losses_send(l);
    SAME(sent.result, LUMBIXET_TOO_LARGE);
    SAME(sent.number, 0);
}

int main(void)
{
    lumbixet_losses losses;
    words(&losses);
    refusals(&losses);
    full(&losses);
    if (faults == 0)
        printf("sent: %d values of the archive are as include/lumbixet_sent.h says\n", seen);
    return faults != 0;
}
