/* The feedback report by hand from documents 01 and 02: the same answers and refusals as the archive, and no proof. */
#include "plain_entries.h"

#define MOST_GIVEN 256

/* Whether every record obeys its rule and the object numbers rise strictly. */
static bool objects_good(const uint8_t *records, size_t count)
{
    uint64_t above = 0; /* one past the last object number */
    for (size_t i = 0; i < count; i++) {
        const uint8_t *record = records + i * 16;
        if (!entry_good(record) || load8(record) < above)
            return false;
        above = load8(record) + 1;
    }
    return true;
}

/* The same of records with groups, which rise by group and then object. */
static bool groups_good(const uint8_t *records, size_t count)
{
    uint64_t group = 0, above = 0; /* the last group, and one past its last object number */
    for (size_t i = 0; i < count; i++) {
        const uint8_t *record = records + i * 24;
        uint64_t own = load8(record), object = load8(record + 8);
        if (own > LARGEST || !entry_good(record + 8) || own < group || (own == group && object < above))
            return false;
        group = own;
        above = object + 1;
    }
    return true;
}

static inline bool entries_good(uint64_t profile, const uint8_t *records, size_t count)
{
    return profile == LUMBIXET_PROFILE_2 ? groups_good(records, count) : objects_good(records, count);
}

/* Reads the next number: 2 where it is cut, 15 where its form is longer than needed. */
static inline uint64_t take_shortest(struct reader *reader, uint64_t *value)
{
    size_t at = reader->at;
    if (!take(reader, value))
        return LUMBIXET_ENDS;
    return reader->at - at == width(*value) ? LUMBIXET_ACCEPTED : LUMBIXET_LONGER_FORM;
}

/* Reads the numbers of a report, each judged as it comes. */
static uint64_t take_header(uint64_t profile, struct reader *reader, lumbixet_header *h)
{
    uint64_t average, fault;
    if ((fault = take_shortest(reader, &h->timestamp)) || (fault = take_shortest(reader, &h->interval)) ||
        (fault = take_shortest(reader, &h->total)) || (fault = take_shortest(reader, &h->received)) ||
        (fault = take_shortest(reader, &h->late)) || (fault = take_shortest(reader, &h->lost)))
        return fault;
    if (h->total != h->received + h->late + h->lost)
        return LUMBIXET_SUM;
    if ((fault = take_shortest(reader, &average)) || (fault = take_shortest(reader, &h->metrics)))
        return fault;
    h->average = average_of(average);
    if (h->metrics > most_metrics(profile))
        return LUMBIXET_COUNT_OR_TYPE;
    for (uint64_t i = 0; i < h->metrics; i++) {
        if ((fault = take_shortest(reader, &h->kinds[i])))
            return fault;
        if (!good_type(profile, h->kinds[i]) || (i && h->kinds[i] <= h->kinds[i - 1]))
            return LUMBIXET_COUNT_OR_TYPE;
        if ((fault = take_shortest(reader, &h->values[i])))
            return fault;
    }
    if ((fault = take_shortest(reader, &h->entries)))
        return fault;
    return h->entries > MOST_ENTRIES ? LUMBIXET_COUNT_OR_TYPE : LUMBIXET_ACCEPTED;
}

/* Judges a whole report; the reader then stands where the entries start. */
static uint64_t judge_report(uint64_t profile, struct reader *reader, lumbixet_header *header)
{
    if (!known_profile(profile))
        return LUMBIXET_OTHER_PROFILE;
    uint64_t result = take_header(profile, reader, header);
    if (result)
        return result;
    size_t left = reader->length - reader->at, taken = header->entries * record_size(profile);
    if (left < taken)
        return LUMBIXET_ENDS;
    if (!entries_good(profile, reader->bytes + reader->at, header->entries))
        return LUMBIXET_ENTRY;
    return left > taken ? LUMBIXET_BYTES_BEHIND : LUMBIXET_ACCEPTED;
}

/* Whether a record comes below the one after it, by group and then object. */
static inline bool below_next(uint64_t group, uint64_t object, uint64_t next_group, uint64_t next_object)
{
    return group < next_group || (group == next_group && object < next_object);
}

/* From the last record down to the first one found; the order with the one before that is not looked at. */
static lumbixet_newest search(uint64_t profile, const uint8_t *records, size_t count)
{
    uint64_t next_group = UINT64_MAX, next_object = 0; /* of the record after; none has such a group */
    size_t size = record_size(profile);
    for (const uint8_t *at = records + count * size; at > records; at -= size) {
        uint64_t group = size == 24 ? load8(at - 24) : 0, object = load8(at - 16);
        if (group > LARGEST || !entry_good(at - 16) || !below_next(group, object, next_group, next_object))
            return (lumbixet_newest){.result = LUMBIXET_ENTRY};
        if (at[-8] == LUMBIXET_NOT_RECEIVED)
            return (lumbixet_newest){LUMBIXET_ACCEPTED, 1, group, object};
        next_group = group;
        next_object = object;
    }
    return (lumbixet_newest){0};
}

lumbixet_newest plain_newest_lost(uint64_t profile, const uint8_t *bytes, size_t length)
{
    if (!known_profile(profile))
        return (lumbixet_newest){.result = LUMBIXET_OTHER_PROFILE};
    struct reader reader = {bytes, length, 0};
    lumbixet_header header = {0};
    uint64_t result = take_header(profile, &reader, &header);
    if (result)
        return (lumbixet_newest){.result = result};
    size_t left = length - reader.at, taken = header.entries * record_size(profile);
    if (left != taken)
        return (lumbixet_newest){.result = left < taken ? LUMBIXET_ENDS : LUMBIXET_BYTES_BEHIND};
    return search(profile, bytes + reader.at, header.entries);
}

lumbixet_report plain_read_report(uint64_t profile, const uint8_t *bytes, size_t length)
{
    struct reader reader = {bytes, length, 0};
    lumbixet_report report = {0};
    report.result = judge_report(profile, &reader, &report.header);
    if (report.result)
        memset(&report.header, 0, sizeof report.header);
    return report;
}

lumbixet_entries plain_find_entries(uint64_t profile, const uint8_t *bytes, size_t length)
{
    struct reader reader = {bytes, length, 0};
    lumbixet_header header = {0};
    if (judge_report(profile, &reader, &header))
        return (lumbixet_entries){length, 0};
    return (lumbixet_entries){reader.at, length - reader.at};
}

lumbixet_entry plain_read_entry(uint64_t profile, const uint8_t *entries, size_t length, size_t index)
{
    if (!known_profile(profile))
        return (lumbixet_entry){.result = LUMBIXET_OTHER_PROFILE};
    size_t size = record_size(profile);
    if (index >= length / size)
        return (lumbixet_entry){.result = LUMBIXET_ENDS};
    const uint8_t *record = entries + index * size + size - 16;
    uint64_t group = size == 24 ? load8(record - 8) : 0;
    if (group > LARGEST || !entry_good(record))
        return (lumbixet_entry){.result = LUMBIXET_ENTRY};
    return (lumbixet_entry){LUMBIXET_ACCEPTED, group, load8(record), record[8], load4(record + 12)};
}

/* The number that a signed average is stored as; outside its range it is above the largest number. */
static inline uint64_t stored(int64_t n)
{
    return n < 0 ? (uint64_t)(-(n + 1)) * 2 + 1 : (uint64_t)n * 2;
}

/* Judges a header to be written: every number, then the sum, then the metrics. */
static uint64_t header_refusal(uint64_t profile, const lumbixet_header *h)
{
    const uint64_t most = most_metrics(profile);
    if (h->timestamp > LARGEST || h->interval > LARGEST || h->total > LARGEST || h->received > LARGEST ||
        h->late > LARGEST || h->lost > LARGEST || stored(h->average) > LARGEST || h->metrics > LARGEST)
        return LUMBIXET_TOO_LARGE;
    for (uint64_t i = 0; i < h->metrics && i < most; i++)
        if (h->kinds[i] > LARGEST || h->values[i] > LARGEST)
            return LUMBIXET_TOO_LARGE;
    if (h->total != h->received + h->late + h->lost)
        return LUMBIXET_SUM;
    if (h->metrics > most)
        return LUMBIXET_COUNT_OR_TYPE;
    for (uint64_t i = 0; i < h->metrics; i++)
        if (!good_type(profile, h->kinds[i]) || (i && h->kinds[i] <= h->kinds[i - 1]))
            return LUMBIXET_COUNT_OR_TYPE;
    return LUMBIXET_ACCEPTED;
}

static uint64_t records_refusal(uint64_t profile, const uint8_t *records, size_t length)
{
    size_t size = record_size(profile);
    if (length % size)
        return LUMBIXET_ENTRY;
    if (length / size > MOST_GIVEN)
        return LUMBIXET_COUNT_OR_TYPE;
    return entries_good(profile, records, length / size) ? LUMBIXET_ACCEPTED : LUMBIXET_ENTRY;
}

/* How many bytes a header takes that was judged, up to before the entry count. */
static inline size_t header_width(const lumbixet_header *h)
{
    size_t bytes = width(h->timestamp) + width(h->interval) + width(h->total) + width(h->received) + width(h->late) +
                   width(h->lost) + width(stored(h->average)) + width(h->metrics);
    for (uint64_t i = 0; i < h->metrics; i++)
        bytes += width(h->kinds[i]) + width(h->values[i]);
    return bytes;
}

/* Stores as much of a header, and answers the place behind it. */
static inline uint8_t *store_header(uint8_t *buffer, const lumbixet_header *h)
{
    uint8_t *p = store(store(store(buffer, h->timestamp), h->interval), h->total);
    p = store(store(store(p, h->received), h->late), h->lost);
    p = store(store(p, stored(h->average)), h->metrics);
    for (uint64_t i = 0; i < h->metrics; i++)
        p = store(store(p, h->kinds[i]), h->values[i]);
    return p;
}

/* How many of so many records of a size fit behind a header of so many bytes: from 64 on the count takes two. */
static inline size_t fitting(size_t size, size_t given, size_t room)
{
    size_t kept = room / size;
    if (kept > 63)
        kept = (room - 1) / size;
    return kept < given ? kept : given;
}

lumbixet_written plain_write_report(uint64_t profile, uint8_t *buffer, size_t length, lumbixet_header header,
                                    const uint8_t *records, size_t records_length, uint64_t maximum)
{
    uint64_t result = known_profile(profile) ? header_refusal(profile, &header) : LUMBIXET_OTHER_PROFILE;
    if (!result && maximum > MOST_ENTRIES)
        result = LUMBIXET_COUNT_OR_TYPE;
    if (!result)
        result = records_refusal(profile, records, records_length);
    if (result)
        return (lumbixet_written){.result = result};
    size_t head = header_width(&header);
    if (length <= head)
        return (lumbixet_written){.result = LUMBIXET_NO_ROOM};
    size_t size = record_size(profile), given = records_length / size;
    size_t kept = fitting(size, given < maximum ? given : maximum, length - head - 1);
    uint8_t *p = store(store_header(buffer, &header), kept);
    memcpy(p, records + records_length - kept * size, kept * size);
    return (lumbixet_written){LUMBIXET_ACCEPTED, (size_t)(p - buffer) + kept * size, kept};
}
