/* What is heard: ACK frames of some ranges by records that know all but the last numbers, and a stream with 2 % loss. */
#include <string.h>

#include "inputs.h"
#include "plain.h"

struct heard heard[HEARD_KINDS];
struct stream stream;

/* A record that sent up to the frame's largest number and heard of all but the last `fresh`. */
static lumbixet_losses before(const uint8_t *frame, size_t length, uint64_t fresh)
{
    static uint64_t acknowledged[LUMBIXET_HELD], lost[LUMBIXET_HELD];
    uint64_t pairs[128];
    uint64_t largest = plain_read_ack(frame, length, pairs, 128).largest;
    lumbixet_losses record = {.next = largest + 1, .acknowledged_before = largest + 1 - LUMBIXET_HELD};
    plain_losses_heard(&record, frame, length, acknowledged, LUMBIXET_HELD, lost, LUMBIXET_HELD);
    for (uint64_t n = largest + 1 - fresh; n <= largest; n++) {
        record.acknowledged[n / 64 % 16] &= ~(UINT64_C(1) << n % 64);
        record.lost[n / 64 % 16] &= ~(UINT64_C(1) << n % 64);
    }
    record.end = fresh == LUMBIXET_HELD ? 0 : largest + 1 - fresh;
    return record;
}

static void make_heard(struct heard *made, const struct acks *from, uint64_t fresh)
{
    for (size_t v = 0; v < VARIANTS; v++) {
        made->lengths[v] = from->lengths[v];
        memcpy(made->frames[v], from->frames[v], from->lengths[v]);
        made->records[v] = before(from->frames[v], from->lengths[v], fresh);
    }
}

/* The peer's record takes the arrivals of a line with 2 % loss and writes an ACK after each block. */
static void make_stream(void)
{
    const struct traffic *t = &traffic[LOSS][1];
    lumbixet_receiver record = plain_open(1000, 3, 25, 1000).next;
    for (size_t k = 0; k < WARM + PACKETS; k++) {
        plain_packet_lent(&record, t->numbers[k], arrival(k), true, LUMBIXET_ECN_ECT0);
        if (k % BLOCK != BLOCK - 1)
            continue;
        size_t i = k / BLOCK;
        stream.lengths[i] = plain_write_lent(&record, arrival(k), false, stream.frames[i], FRAME_ROOM).length;
        stream.sent[i] = record.end;
    }
}

void make_sent_inputs(void)
{
    make_heard(&heard[HEARD_ONE], &acks[ONE_RANGE], BLOCK);
    make_heard(&heard[HEARD_EIGHT], &acks[EIGHT_RANGES], BLOCK);
    make_heard(&heard[HEARD_SIXTY_FOUR], &acks[SIXTY_FOUR_RANGES], BLOCK);
    make_heard(&heard[HEARD_ALL], &acks[EIGHT_RANGES], LUMBIXET_HELD);
    make_stream();
}
