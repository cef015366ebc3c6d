/* Feedback reports: those that are timed, cut, changed and with other headers, and every length of a list of records. */
#include <string.h>

#include "checks.h"
#include "compare.h"
#include "inputs.h"
#include "sides.h"

/* A profile: mostly the one given, else the other one or one that there is not. */
static uint64_t near_profile(uint64_t profile)
{
    return below(8) ? profile : below(2) ? 3 - profile : any_number();
}

static void compare_read_entry(uint64_t profile, const uint8_t *entries, size_t length, size_t index)
{
    lumbixet_entry a = archive.read_entry(profile, entries, length, index);
    lumbixet_entry b = plain.read_entry(profile, entries, length, index);
    check(memcmp(&a, &b, sizeof a) == 0, "read_entry");
}

static void compare_read_report(uint64_t given, const uint8_t *bytes, size_t length)
{
    uint64_t profile = near_profile(given);
    lumbixet_report a = archive.read_report(profile, bytes, length);
    lumbixet_report b = plain.read_report(profile, bytes, length);
    check(memcmp(&a, &b, sizeof a) == 0, "read_report");
    lumbixet_entries c = archive.find_entries(profile, bytes, length);
    lumbixet_entries d = plain.find_entries(profile, bytes, length);
    check(memcmp(&c, &d, sizeof c) == 0, "find_entries");
    lumbixet_newest e = archive.newest_lost(profile, bytes, length);
    lumbixet_newest f = plain.newest_lost(profile, bytes, length);
    check(memcmp(&e, &f, sizeof e) == 0, "newest_lost");
    compare_read_entry(profile, bytes + c.start, c.length, below(LUMBIXET_ENTRIES + 2));
}

/* A maximum: mostly the limit, else one below it or near an edge. */
static uint64_t any_maximum(void)
{
    uint64_t kind = below(4);
    return kind < 2 ? LUMBIXET_ENTRIES : kind == 2 ? below(LUMBIXET_ENTRIES + 2) : any_number();
}

static void compare_write_report(uint64_t given, size_t room, lumbixet_header header, const uint8_t *records, size_t length)
{
    fill_buffers();
    uint64_t maximum = any_maximum(), profile = near_profile(given);
    lumbixet_written a = archive.write_report(profile, left, room, header, records, length, maximum);
    lumbixet_written b = plain.write_report(profile, right, room, header, records, length, maximum);
    check(memcmp(&a, &b, sizeof a) == 0 && same_buffers(), "write_report");
    if (a.result == 0)
        compare_read_report(profile, left, a.next);
}

/* A header with one number made up, and now and then its sum put right again. */
static lumbixet_header spoiled_header(lumbixet_header h)
{
    uint64_t value = any_number();
    memcpy((uint8_t *)&h + 8 * below(sizeof h / 8), &value, 8);
    if (below(2))
        h.metrics = below(10);
    if (below(2))
        h.total = h.received + h.late + h.lost;
    return h;
}

/* Every value at every place of a header. */
static void compare_changed_headers(const struct reports *given)
{
    uint8_t bytes[REPORT_ROOM];
    memcpy(bytes, given->bytes[0], sizeof bytes);
    for (size_t place = 0; place < 32; place++) {
        for (int value = 0; value < 256; value++) {
            bytes[place] = (uint8_t)value;
            compare_read_report(given->profile, bytes, given->lengths[0]);
        }
        bytes[place] = given->bytes[0][place];
    }
}

/* Records of every length, whole or not, each in some room and in every room. */
static void compare_records(const struct reports *given, size_t record)
{
    static uint8_t many[257 * 24 + 1];
    memset(many, 0, sizeof many);
    for (size_t i = 0; i < 257; i++)
        many[record * i + 6] = (uint8_t)(i >> 8), many[record * i + 7] = (uint8_t)i;
    for (size_t length = 0; length <= 257 * record + 1; length++) {
        size_t room = below(REPORT_ROOM);
        compare_write_report(given->profile, room, given->headers[length % VARIANTS], many, length);
        compare_write_report(given->profile, length % REPORT_ROOM, given->headers[length % VARIANTS], many, 256 * record);
    }
}

/* Each report whole, cut and with one byte changed; each written in every room and with a made-up header or record. */
static void compare_timed_reports(struct reports *given, size_t record)
{
    for (size_t v = 0; v < VARIANTS; v++) {
        uint8_t *bytes = given->bytes[v];
        size_t length = given->lengths[v];
        for (size_t cut = 0; cut <= length; cut++) {
            compare_read_report(given->profile, bytes, cut);
            uint8_t kept = bytes[cut];
            bytes[cut] ^= (uint8_t)(1 << below(8));
            compare_read_report(given->profile, bytes, length + below(2));
            bytes[cut] = kept;
            compare_write_report(given->profile, cut, given->headers[v], given->records[v], given->size);
            size_t place = below(given->size);
            uint8_t *byte = &given->records[v][place];
            kept = *byte;
            *byte ^= (uint8_t)(1 << below(8));
            compare_read_entry(given->profile, given->records[v], given->size, place / record);
            compare_write_report(given->profile, REPORT_ROOM, given->headers[v], given->records[v], given->size);
            compare_write_report(given->profile, REPORT_ROOM, spoiled_header(given->headers[v]), given->records[v], record * (cut % 9));
            *byte = kept;
        }
    }
}

void compare_reports(void)
{
    for (int kind = 0; kind < REPORT_KINDS; kind++) {
        size_t record = reports[kind].profile == LUMBIXET_PROFILE_2 ? 24 : 16;
        compare_records(&reports[kind], record);
        compare_changed_headers(&reports[kind]);
        compare_timed_reports(&reports[kind], record);
    }
}
