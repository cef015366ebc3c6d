/* A report in pieces by hand from document 02, No. 6: the same answers, record and refusals as the archive, and no proof. */
#include "plain_entries.h"

/* The places of some of a header's numbers, and how many each header has before its metrics. */
enum { TOTAL = 2, RECEIVED = 3, LATE = 4, LOST = 5, AVERAGE = 6, METRICS = 7, FIXED = 8 };

/* How many numbers the header has with its entry count, as far as those that have come tell. */
static inline uint64_t wanted(const lumbixet_pieces *s)
{
    return FIXED + 2 * (s->come > METRICS ? s->numbers[METRICS] : 0) + 1;
}

/* What the number v brings behind so many others. */
static inline uint64_t judge_number(const lumbixet_pieces *s, size_t before, uint64_t v)
{
    const uint64_t *n = s->numbers;
    if (before == LOST)
        return n[TOTAL] == n[RECEIVED] + n[LATE] + v ? LUMBIXET_ACCEPTED : LUMBIXET_SUM;
    if (before == METRICS)
        return v <= most_metrics(s->profile) ? LUMBIXET_ACCEPTED : LUMBIXET_COUNT_OR_TYPE;
    if (before < FIXED || before % 2)
        return LUMBIXET_ACCEPTED;
    if (before == FIXED + 2 * n[METRICS])
        return v <= MOST_ENTRIES ? LUMBIXET_ACCEPTED : LUMBIXET_COUNT_OR_TYPE;
    bool rises = before == FIXED || v > n[before - 2];
    return rises && good_type(s->profile, v) ? LUMBIXET_ACCEPTED : LUMBIXET_COUNT_OR_TYPE;
}

static bool numbers_consistent(const lumbixet_pieces *s)
{
    for (size_t i = 0; i < s->come; i++)
        if (s->numbers[i] > LARGEST || judge_number(s, i, s->numbers[i]))
            return false;
    return true;
}

/* Behind a whole header: at most as many entries are left as it counts, and the place of the last one is one, where one came. */
static bool entries_consistent(const lumbixet_pieces *s, uint64_t entries)
{
    if (s->left > entries || (s->left ? s->carried >= record_size(s->profile) : s->carried != 0))
        return false;
    if (s->left == entries)
        return s->group == 0 && s->above == 0;
    return s->group <= (s->profile == LUMBIXET_PROFILE_2 ? LARGEST : 0) && s->above != 0 && s->above <= LARGEST + 1;
}

static bool refusal_consistent(uint64_t number)
{
    return number == LUMBIXET_ENDS || (number >= LUMBIXET_COUNT_OR_TYPE && number <= LUMBIXET_BYTES_BEHIND) ||
           number == LUMBIXET_LONGER_FORM;
}

static bool consistent(const lumbixet_pieces *s)
{
    if (!known_profile(s->profile) || s->stage > LUMBIXET_ENDED || s->come > 25 || s->carried > 24)
        return false;
    if (s->stage == LUMBIXET_REFUSED)
        return refusal_consistent(s->left);
    if (!numbers_consistent(s))
        return false;
    if (s->stage == LUMBIXET_IN_NUMBERS)
        return s->come < wanted(s) && (s->carried == 0 || s->carried < (size_t)1 << ((uint8_t)s->bytes[0] >> 6));
    if (s->come != wanted(s))
        return false;
    uint64_t entries = s->numbers[s->come - 1];
    if (s->stage == LUMBIXET_IN_ENTRIES)
        return entries_consistent(s, entries);
    return s->stage == LUMBIXET_ENDED || (entries && s->left <= record_size(s->profile) * (entries - 1));
}

static void refuse(lumbixet_pieces *s, uint64_t number)
{
    s->stage = LUMBIXET_REFUSED;
    s->left = number;
}

/* Puts 0 wherever a word means nothing. */
static void tidy(lumbixet_pieces *s)
{
    if (s->stage == LUMBIXET_IN_NUMBERS || s->stage == LUMBIXET_ENDED)
        s->left = 0;
    if (s->stage != LUMBIXET_IN_ENTRIES)
        s->group = s->above = 0;
    if (s->stage > LUMBIXET_IN_ENTRIES)
        s->carried = 0;
    if (s->stage == LUMBIXET_REFUSED)
        s->come = 0;
    memset(s->numbers + s->come, 0, sizeof s->numbers - 8 * s->come);
    for (size_t i = 0; i < s->carried; i++)
        s->bytes[i] &= 0xff;
    memset(s->bytes + s->carried, 0, sizeof s->bytes - 8 * s->carried);
}

/* The refusal that stands, or 0. */
static inline uint64_t standing(const lumbixet_pieces *s)
{
    if (s->stage == LUMBIXET_COUNTING)
        return s->left ? LUMBIXET_ACCEPTED : LUMBIXET_ENTRY;
    return s->stage == LUMBIXET_REFUSED ? s->left : LUMBIXET_ACCEPTED;
}

static inline uint64_t number_at(const lumbixet_pieces *s, size_t place)
{
    return place < s->come ? s->numbers[place] : 0;
}

static lumbixet_header header_of(const lumbixet_pieces *s)
{
    lumbixet_header h = {.timestamp = number_at(s, 0), .interval = number_at(s, 1), .total = number_at(s, TOTAL),
                         .received = number_at(s, RECEIVED), .late = number_at(s, LATE), .lost = number_at(s, LOST),
                         .average = average_of(number_at(s, AVERAGE)), .metrics = number_at(s, METRICS)};
    for (size_t i = 0; i < h.metrics; i++) {
        h.kinds[i] = number_at(s, FIXED + 2 * i);
        h.values[i] = number_at(s, FIXED + 2 * i + 1);
    }
    h.entries = s->come ? s->numbers[s->come - 1] : 0;
    return h;
}

/* Carries bytes until so many are there; true where they are. */
static bool carry(lumbixet_pieces *s, struct reader *part, size_t size)
{
    while (s->carried < size && part->at < part->length)
        s->bytes[s->carried++] = part->bytes[part->at++];
    return s->carried == size;
}

/* What was carried, which is whole; nothing is carried now. */
static void joined(lumbixet_pieces *s, uint8_t *bytes)
{
    for (size_t i = 0; i < s->carried; i++)
        bytes[i] = (uint8_t)s->bytes[i];
    s->carried = 0;
}

/* The next number and how many bytes it took, straight from the part where it is whole there; false where it is not whole yet. */
static inline bool next_number(lumbixet_pieces *s, struct reader *part, uint64_t *value, size_t *length)
{
    size_t at = part->at;
    if (s->carried == 0 && take(part, value)) {
        *length = part->at - at;
        return true;
    }
    *length = (size_t)1 << ((s->carried ? (uint8_t)s->bytes[0] : part->bytes[at]) >> 6);
    if (!carry(s, part, *length))
        return false;
    uint8_t field[8];
    const uint8_t *p = field;
    joined(s, field);
    *value = known(&p);
    return true;
}

static void take_numbers(lumbixet_pieces *s, struct reader *part)
{
    uint64_t value;
    size_t length;
    while (s->stage == LUMBIXET_IN_NUMBERS && part->at < part->length) {
        if (!next_number(s, part, &value, &length))
            return;
        uint64_t fault = length == width(value) ? judge_number(s, s->come, value) : LUMBIXET_LONGER_FORM;
        if (fault) {
            refuse(s, fault);
            return;
        }
        s->numbers[s->come++] = value;
        if (s->come == wanted(s)) {
            s->stage = LUMBIXET_IN_ENTRIES;
            s->left = value;
            s->group = s->above = 0;
        }
    }
}

/* Whether a record obeys its rule and comes at or above the least place that it may have; that place then lies above it. */
static inline bool rises(lumbixet_pieces *s, const uint8_t *record, size_t size)
{
    uint64_t group = size == 24 ? load8(record) : 0, object = load8(record + size - 16);
    if (group > LARGEST || !entry_good(record + size - 16) || group < s->group || (group == s->group && object < s->above))
        return false;
    s->group = group;
    s->above = object + 1;
    return true;
}

static inline void copy_record(uint8_t *to, const uint8_t *record, size_t size)
{
    if (size == 24)
        memcpy(to, record, 24);
    else
        memcpy(to, record, 16);
}

/* Good records that become whole go to the buffer, as many as it holds; answers how many. */
static uint64_t take_records(lumbixet_pieces *s, struct reader *part, uint8_t *buffer, size_t room)
{
    size_t size = record_size(s->profile);
    uint64_t records = 0;
    for (; s->left && room >= size && part->at < part->length; room -= size, records++) {
        uint8_t carried[24];
        const uint8_t *record = part->bytes + part->at;
        if (s->carried || part->length - part->at < size) {
            if (!carry(s, part, size))
                return records;
            joined(s, carried);
            record = carried;
        } else
            part->at += size;
        s->left--;
        if (!rises(s, record, size)) {
            s->stage = LUMBIXET_COUNTING;
            s->left *= size;
            return records;
        }
        copy_record(buffer + records * size, record, size);
    }
    if (s->left == 0 && part->at < part->length) {
        part->at++;
        refuse(s, LUMBIXET_BYTES_BEHIND);
    }
    return records;
}

static void count_on(lumbixet_pieces *s, struct reader *part)
{
    size_t behind = part->length - part->at;
    size_t counted = s->left < behind ? s->left : behind;
    s->left -= counted;
    part->at += counted;
}

uint64_t plain_pieces_open(lumbixet_pieces *s, uint64_t profile)
{
    if (!known_profile(profile))
        return LUMBIXET_OTHER_PROFILE;
    *s = (lumbixet_pieces){.profile = profile};
    return LUMBIXET_ACCEPTED;
}

lumbixet_pieces_taken plain_pieces_take(lumbixet_pieces *s, const uint8_t *bytes, size_t length, uint8_t *buffer, size_t room)
{
    lumbixet_pieces_taken taken = {.result = consistent(s) ? LUMBIXET_ACCEPTED : LUMBIXET_INCONSISTENT};
    if (!taken.result)
        taken.result = room < record_size(s->profile) ? LUMBIXET_NO_ROOM : standing(s);
    if (taken.result)
        return taken;
    struct reader part = {bytes, length, 0};
    take_numbers(s, &part);
    if (s->stage == LUMBIXET_IN_ENTRIES)
        taken.records = take_records(s, &part, buffer, room);
    if (s->stage == LUMBIXET_COUNTING)
        count_on(s, &part);
    tidy(s);
    taken.result = standing(s);
    taken.taken = part.at;
    taken.whole = !taken.result && s->stage != LUMBIXET_IN_NUMBERS;
    if (taken.whole)
        taken.header = header_of(s);
    return taken;
}

lumbixet_report plain_pieces_end(lumbixet_pieces *s)
{
    lumbixet_report report = {.result = consistent(s) ? standing(s) : LUMBIXET_INCONSISTENT};
    if (report.result)
        return report;
    if (s->stage == LUMBIXET_IN_ENTRIES && s->left == 0)
        s->stage = LUMBIXET_ENDED;
    else if (s->stage < LUMBIXET_REFUSED)
        refuse(s, LUMBIXET_ENDS);
    tidy(s);
    report.result = standing(s);
    if (!report.result)
        report.header = header_of(s);
    return report;
}
