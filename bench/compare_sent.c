/* The loss list: lines that lose packets and acknowledgments, frames of every kind, short lists, and made-up records. */
#include <string.h>

#include "checks.h"
#include "compare.h"
#include "inputs.h"
#include "sides.h"

static lumbixet_losses one, other;

static bool same_losses(void)
{
    return memcmp(&one, &other, sizeof one) == 0;
}

static void compare_send(void)
{
    lumbixet_sent a = archive.losses_send(&one), b = plain.losses_send(&other);
    check(memcmp(&a, &b, sizeof a) == 0 && same_losses(), "losses_send");
}

/* Lists that hold everything, or of some room; what stands behind what is written is compared too. */
static void compare_heard(const uint8_t *frame, size_t length)
{
    static uint64_t lists[2][2][LUMBIXET_HELD];
    size_t first = below(3) ? LUMBIXET_HELD : below(40), second = below(3) ? LUMBIXET_HELD : below(40);
    memset(lists, 0xa5, sizeof lists);
    lumbixet_heard a = archive.losses_heard(&one, frame, length, lists[0][0], first, lists[0][1], second);
    lumbixet_heard b = plain.losses_heard(&other, frame, length, lists[1][0], first, lists[1][1], second);
    check(memcmp(&a, &b, sizeof a) == 0 && same_losses(), "losses_heard");
    check(memcmp(lists[0], lists[1], sizeof lists[0]) == 0, "the lists of losses_heard");
}

/* Appends a number, whose place is there. */
static size_t append(uint8_t *frame, size_t at, uint64_t value)
{
    return plain.put_number(frame, FRAME_ROOM, at, value & LUMBIXET_LARGEST).next;
}

/* A frame near the numbers sent; its ranges short, and now and then one long. */
static size_t make_near(uint8_t *frame)
{
    uint64_t last = one.next ? one.next - 1 : 0, counts = below(2), ranges = below(4) ? below(6) : below(70);
    uint64_t back = below(4) ? below(30) : below(1100);
    uint64_t largest = below(16) ? last - (back < last ? back : last) : last + below(3);
    uint64_t longest = below(4) ? 3 : 400;
    size_t at = append(frame, 0, 2 + counts);
    at = append(frame, at, largest);
    at = append(frame, at, any_number());
    at = append(frame, at, ranges);
    for (uint64_t i = 0; i < 2 * ranges + 1; i++)
        at = append(frame, at, below(longest));
    for (uint64_t i = 0; i < 3 * counts; i++)
        at = append(frame, at, any_number());
    return at;
}

static void compare_near(void)
{
    uint8_t frame[FRAME_ROOM];
    size_t length = make_near(frame);
    if (below(8) == 0)
        frame[below(length)] = (uint8_t)draw();
    compare_heard(frame, below(8) ? length : below(length + 1));
}

/* A record at the last numbers, all of them acknowledged. */
static void go_to_the_last(void)
{
    memset(&one, 0, sizeof one);
    memset(one.acknowledged, 0xff, sizeof one.acknowledged);
    one.next = LUMBIXET_LARGEST - below(4);
    one.lost_before = below(1000);
    one.acknowledged_before = one.next - LUMBIXET_HELD - one.lost_before;
    other = one;
}

static void compare_line(size_t line)
{
    any_numbers((uint64_t *)&one, sizeof one / 8);
    other = one;
    archive.losses_open(&one);
    plain.losses_open(&other);
    check(same_losses(), "losses_open");
    if (line % 10 == 0)
        go_to_the_last();
    for (size_t turn = 0; turn < 60; turn++) {
        for (uint64_t sends = below(8) ? below(30) : below(1100); sends > 0; sends--)
            compare_send();
        compare_near();
    }
    for (size_t spoiled = 0; spoiled < 8; spoiled++) {
        uint64_t value = below(2) ? below(2000) : any_number();
        uint64_t *words = (uint64_t *)&one, place = below(spoiled % 2 ? 4 : 36);
        words[35 - place] = spoiled % 4 ? value : words[35 - place] ^ UINT64_C(1) << below(64);
        other = one;
        compare_send();
        compare_near();
    }
}

void compare_sent(void)
{
    for (size_t line = 0; line < 400; line++)
        compare_line(line);
    for (size_t kind = 0; kind < HEARD_KINDS; kind++)
        for (size_t v = 0; v < VARIANTS; v++) {
            one = other = heard[kind].records[v];
            compare_heard(heard[kind].frames[v], heard[kind].lengths[v]);
        }
}
