/* Rounds of the sending side: sends, and acknowledgments that are heard. */
#include "clock.h"
#include "inputs.h"
#include "rounds.h"

static uint64_t acknowledged[LUMBIXET_HELD], lost[LUMBIXET_HELD];

/* Each number takes the room of one that was acknowledged; the acknowledgment after each block is not timed. */
double send_numbers(const struct side *side, int kind, int round)
{
    (void)kind;
    (void)round;
    static _Alignas(64) lumbixet_losses record;
    uint8_t frame[FRAME_ROOM];
    uint64_t sum = 0, passed = 0;
    side->losses_open(&record);
    for (size_t block = 0; block < 4; block++) {
        uint64_t from = now();
        for (size_t i = 0; i < LUMBIXET_HELD; i++)
            sum += side->losses_send(&record).number;
        if (block > 0)
            passed += since(from);
        const uint64_t whole[] = {2, record.next - 1, 0, 0, LUMBIXET_HELD - 1};
        size_t length = 0;
        for (size_t i = 0; i < sizeof whole / sizeof whole[0]; i++)
            length = side->put_number(frame, sizeof frame, length, whole[i]).next;
        sum += side->losses_heard(&record, frame, length, acknowledged, LUMBIXET_HELD, lost, LUMBIXET_HELD).acknowledged;
    }
    sink += sum;
    return (double)passed / (3 * LUMBIXET_HELD);
}

/* Each record hears one frame; it is laid out anew for each round, which is not timed. */
double hear_acks(const struct side *side, int kind, int round)
{
    (void)round;
    static _Alignas(64) lumbixet_losses records[VARIANTS];
    const struct heard *h = &heard[kind];
    uint64_t sum = 0, passed = 0;
    for (size_t time = 0; time < 8; time++) {
        for (size_t v = 0; v < VARIANTS; v++)
            records[v] = h->records[v];
        uint64_t from = now();
        for (size_t v = 0; v < VARIANTS; v++) {
            lumbixet_heard got = side->losses_heard(&records[v], h->frames[v], h->lengths[v], acknowledged, LUMBIXET_HELD, lost, LUMBIXET_HELD);
            sum += got.acknowledged + got.lost + acknowledged[0];
        }
        passed += since(from);
    }
    sink += sum;
    return (double)passed / (8 * VARIANTS);
}

/* A stream with 2 % loss: a block is sent, then its acknowledgment is heard. Either is timed: sends (0), acknowledgments (1). */
double hear_stream(const struct side *side, int kind, int round)
{
    (void)round;
    static _Alignas(64) lumbixet_losses record;
    uint64_t sum = 0, sends = 0, hears = 0, sent = 0;
    side->losses_open(&record);
    for (size_t i = 0; i < BLOCKS; i++) {
        uint64_t from = now();
        for (; record.next < stream.sent[i]; sent++)
            sum += side->losses_send(&record).number;
        sends += since(from);
        from = now();
        lumbixet_heard got = side->losses_heard(&record, stream.frames[i], stream.lengths[i], acknowledged, LUMBIXET_HELD, lost, LUMBIXET_HELD);
        hears += since(from);
        sum += got.acknowledged + got.lost + acknowledged[0];
    }
    sink += sum;
    return kind ? (double)hears / BLOCKS : (double)sends / (double)sent;
}
