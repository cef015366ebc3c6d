/* Reports in pieces: those that are timed, cut anywhere, changed and shortened, with any room; and made-up records. */
#include <string.h>

#include "checks.h"
#include "compare.h"
#include "inputs.h"
#include "sides.h"

static lumbixet_pieces one, other;

static void check_record(bool same, const char *call)
{
    check(same && memcmp(&one, &other, sizeof one) == 0, call);
}

static void compare_pieces_open(uint64_t profile)
{
    uint64_t a = archive.pieces_open(&one, profile), b = plain.pieces_open(&other, profile);
    check_record(a == b, "pieces_open");
}

static lumbixet_pieces_taken compare_take(const uint8_t *part, size_t length, size_t room)
{
    fill_buffers();
    lumbixet_pieces_taken a = archive.pieces_take(&one, part, length, left, room);
    lumbixet_pieces_taken b = plain.pieces_take(&other, part, length, right, room);
    check_record(memcmp(&a, &b, sizeof a) == 0 && same_buffers(), "pieces_take");
    return a;
}

static uint64_t compare_end(void)
{
    lumbixet_report a = archive.pieces_end(&one), b = plain.pieces_end(&other);
    check_record(memcmp(&a, &b, sizeof a) == 0, "pieces_end");
    return a.result;
}

/* Room for a record or some; now and then too little. */
static size_t any_room(void)
{
    return below(16) ? 16 + below(8) * 24 + below(24) : below(24);
}

/* The report in parts of about so many bytes, each handed in until all of it was taken; its number is the whole reader's. */
static void compare_parts(uint64_t profile, const uint8_t *bytes, size_t length, size_t about)
{
    compare_pieces_open(profile);
    for (size_t at = 0; at < length && one.stage != LUMBIXET_REFUSED && !(one.stage == LUMBIXET_COUNTING && one.left == 0);) {
        size_t part = below(about + 1), room = any_room();
        at += compare_take(bytes + at, part < length - at ? part : length - at, room).taken;
    }
    uint64_t whole = archive.read_report(profile, bytes, length).result, result = compare_end();
    check(result == whole, "pieces_end and read_report");
    compare_take(bytes, length, any_room());
    compare_end();
}

/* A record of a report that has come in part, with some words made up; then a part and the end. */
static void compare_made_up(uint64_t profile, const uint8_t *bytes, size_t length)
{
    size_t come = below(length + 1), at = below(length + 1), spoiled = below(3);
    compare_pieces_open(profile);
    compare_take(bytes, come, sizeof left);
    for (size_t i = 0; i <= spoiled; i++) {
        size_t words = below(2) ? 7 : sizeof one / 8;
        uint64_t value = below(2) ? below(30) : any_number();
        memcpy((uint8_t *)&one + 8 * below(words), &value, 8);
    }
    other = one;
    compare_take(bytes + at, length - at, any_room());
    compare_end();
    compare_take(bytes, length, any_room());
}

static void compare_report(uint64_t profile, uint8_t *bytes, size_t length)
{
    static const size_t about[] = {1, 9, 40, 1200};
    for (size_t i = 0; i < sizeof about / sizeof about[0]; i++) {
        compare_parts(profile, bytes, length, about[i]);
        size_t place = below(length), cut = below(length), extra = below(3);
        uint8_t kept = bytes[place];
        bytes[place] ^= (uint8_t)(1 << below(8));
        compare_parts(profile, bytes, length + extra, about[i]);
        bytes[place] = kept;
        compare_parts(profile, bytes, cut, about[i]);
    }
    for (size_t i = 0; i < 200; i++)
        compare_made_up(profile, bytes, length);
}

void compare_pieces(void)
{
    any_numbers((uint64_t *)&one, sizeof one / 8);
    other = one;
    compare_pieces_open(0);
    compare_pieces_open(3);
    for (size_t time = 0; time < 2; time++)
        for (int kind = 0; kind < REPORT_KINDS; kind++)
            for (size_t v = 0; v < VARIANTS; v++)
                compare_report(reports[kind].profile, reports[kind].bytes[v], reports[kind].lengths[v]);
}
