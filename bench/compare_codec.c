/* Numbers on the wire and the three frames: those that are timed, cut and changed, and made-up ones. */
#include <string.h>

#include "checks.h"
#include "compare.h"
#include "inputs.h"
#include "sides.h"

enum { MADE_UP = 20000 };

/* ---- numbers */

static void compare_put_number(size_t room, size_t at, uint64_t value)
{
    fill_buffers();
    lumbixet_put a = archive.put_number(left, room, at, value);
    lumbixet_put b = plain.put_number(right, room, at, value);
    check(memcmp(&a, &b, sizeof a) == 0 && same_buffers(), "put_number");
}

static void compare_read_number(const uint8_t *bytes, size_t length, size_t at)
{
    lumbixet_number a = archive.read_number(bytes, length, at);
    lumbixet_number b = plain.read_number(bytes, length, at);
    check(memcmp(&a, &b, sizeof a) == 0, "read_number");
}

void compare_numbers(void)
{
    for (size_t i = 0, at = 0; i < NUMBERS; i++) {
        compare_read_number(numbers.wire, numbers.length, at);
        compare_read_number(numbers.wire, at + below(9), at);
        compare_put_number(64, below(64), numbers.values[i]);
        at = plain.read_number(numbers.wire, numbers.length, at).next;
    }
    for (size_t i = 0; i < MADE_UP; i++) {
        size_t length = below(64);
        size_t at = below(8) ? below(64) : any_number();
        compare_read_number(numbers.wire, length, at);
        size_t room = below(16);
        at = below(8) ? below(16) : any_number();
        compare_put_number(room, at, any_number());
    }
}

/* ---- frames */

static void compare_read_ack(const uint8_t *bytes, size_t length, size_t room)
{
    static uint64_t one[256], other[256];
    memset(one, 0xa5, sizeof one);
    memset(other, 0xa5, sizeof other);
    lumbixet_ack a = archive.read_ack(bytes, length, one, room);
    lumbixet_ack b = plain.read_ack(bytes, length, other, room);
    check(memcmp(&a, &b, sizeof a) == 0 && memcmp(one, other, sizeof one) == 0, "read_ack");
}

static void compare_read_frames(const uint8_t *bytes, size_t length)
{
    lumbixet_frequency a = archive.read_frequency(bytes, length);
    lumbixet_frequency b = plain.read_frequency(bytes, length);
    check(memcmp(&a, &b, sizeof a) == 0, "read_frequency");
    lumbixet_immediate_frame c = archive.read_immediate(bytes, length);
    lumbixet_immediate_frame d = plain.read_immediate(bytes, length);
    check(memcmp(&c, &d, sizeof c) == 0, "read_immediate");
    compare_read_ack(bytes, length, below(257));
}

static void compare_put_frames(size_t room)
{
    uint64_t v[4];
    any_numbers(v, 4);
    fill_buffers();
    lumbixet_put a = archive.put_frequency(left, room, v[0], v[1], v[2], v[3]);
    lumbixet_put b = plain.put_frequency(right, room, v[0], v[1], v[2], v[3]);
    check(memcmp(&a, &b, sizeof a) == 0 && same_buffers(), "put_frequency");
    if (a.result == 0)
        compare_read_frames(left, a.next - below(2));
    fill_buffers();
    a = archive.put_immediate(left, room);
    b = plain.put_immediate(right, room);
    check(memcmp(&a, &b, sizeof a) == 0 && same_buffers(), "put_immediate");
}

/* Each timed frame whole, cut at every place, and with one byte changed. */
static void compare_timed_frames(void)
{
    for (int kind = 0; kind < ACK_KINDS; kind++) {
        for (size_t v = 0; v < VARIANTS; v++) {
            uint8_t *frame = acks[kind].frames[v];
            for (size_t cut = 0; cut <= acks[kind].lengths[v]; cut++) {
                compare_read_ack(frame, cut, 256);
                uint8_t kept = frame[cut];
                frame[cut] = (uint8_t)draw();
                compare_read_ack(frame, acks[kind].lengths[v], below(257));
                frame[cut] = kept;
            }
            for (size_t room = 0; room <= 256; room++)
                compare_read_ack(frame, acks[kind].lengths[v], room);
        }
    }
}

/* Any bytes behind each of the frame types, and ACK frames of small numbers, which often end at number 0 or below. */
static void compare_made_up_frames(void)
{
    static const uint8_t starts[5] = {0x02, 0x03, 0x40, 0x1f, 0x80};
    for (size_t i = 0; i < MADE_UP; i++) {
        uint8_t bytes[32], small[11];
        for (size_t k = 0; k < sizeof bytes; k++)
            bytes[k] = (uint8_t)draw();
        bytes[0] = starts[below(5)];
        if (below(2))
            bytes[1] = 0xaf;
        compare_read_frames(bytes, below(33));
        compare_put_frames(below(40));
        for (size_t k = 0; k < sizeof small; k++)
            small[k] = (uint8_t)below(4);
        small[0] = (uint8_t)(2 + below(2));
        small[1] = (uint8_t)below(10);
        size_t length = below(12);
        compare_read_ack(small, length, below(9));
    }
}

void compare_frames(void)
{
    compare_timed_frames();
    compare_made_up_frames();
}
