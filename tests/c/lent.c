/* Holds the calls on a lent record to those by value, byte by byte: the answer, the record, the buffer, and the memory
 * around both. Records are grown from openings, and some are spoiled in one word; each refusal that a call can give must
 * have been seen. */
#include "same.h"

enum { RECORDS = 400, CALLS = 300, RESULTS = 20 };

/* Words around a lent record, and bytes around a lent buffer of at most so many. */
enum { AROUND = 4, MARGIN = 16, ROOM = 80 };

SIZE(lumbixet_wrote_lent, 16);
AT(lumbixet_wrote_lent, length, 8);

/* A record with other memory on both sides. */
struct lending {
    uint64_t before[AROUND];
    lumbixet_receiver record;
    uint64_t behind[AROUND];
};

enum { PACKET, TIMER, WRITE, FORMS };
static const char *const names[FORMS] = {"packet", "timer", "write"};
static uint64_t results[FORMS][RESULTS];

static uint64_t state = 14;

/* The next pseudo-random number (splitmix64), and one below a limit. */
static uint64_t draw(void)
{
    uint64_t z = state += UINT64_C(0x9e3779b97f4a7c15);
    z = (z ^ z >> 30) * UINT64_C(0xbf58476d1ce4e5b9);
    z = (z ^ z >> 27) * UINT64_C(0x94d049bb133111eb);
    return z ^ z >> 31;
}

static uint64_t below(uint64_t limit)
{
    return draw() % limit;
}

/* Now and then one that is too large. */
static uint64_t time_near(const lumbixet_receiver *r)
{
    uint64_t odd = below(40);
    if (odd == 0)
        return LUMBIXET_LARGEST + below(3);
    return (odd < 8 ? r->pending_first + r->delay - 1 : r->arrived) + below(odd < 8 ? 3 : 900);
}

static void compare(int form, uint64_t result, uint64_t wanted, const struct lending *lent, const lumbixet_receiver *next)
{
    struct lending all;
    memset(&all, 0x5a, sizeof all);
    all.record = *next;
    SAME(result, wanted);
    same_bytes(names[form], lent, &all, sizeof all);
    if (wanted < RESULTS)
        results[form][wanted]++;
}

static lumbixet_receiver packet(const lumbixet_receiver *r, struct lending *lent)
{
    uint64_t kind = below(16);
    uint64_t up = below(3), down = below(kind < 2 ? 1100 : 6);
    uint64_t number = kind == 2 ? LUMBIXET_LARGEST + below(3) : kind < 6 ? r->end - down : r->end + up;
    uint64_t time = time_near(r);
    bool eliciting = below(8) != 0;
    uint64_t ecn = below(8) ? LUMBIXET_ECN_ECT0 : below(256);
    lumbixet_answer by_value = lumbixet_packet(*r, number, time, eliciting, ecn);
    uint64_t result = lumbixet_packet_lent(&lent->record, number, time, eliciting, ecn);
    compare(PACKET, result, by_value.result, lent, &by_value.next);
    return by_value.next;
}

static lumbixet_receiver timer(const lumbixet_receiver *r, struct lending *lent)
{
    uint64_t time = time_near(r);
    lumbixet_answer by_value = lumbixet_timer(*r, time);
    uint64_t result = lumbixet_timer_lent(&lent->record, time);
    compare(TIMER, result, by_value.result, lent, &by_value.next);
    return by_value.next;
}

static lumbixet_receiver write(const lumbixet_receiver *r, struct lending *lent)
{
    uint8_t one[ROOM + 2 * MARGIN], other[ROOM + 2 * MARGIN];
    memset(one, 0xa5, sizeof one);
    memset(other, 0xa5, sizeof other);
    uint64_t time = time_near(r);
    bool counts = below(2);
    size_t room = below(2) ? ROOM : below(30);
    lumbixet_wrote by_value = lumbixet_write(*r, time, counts, one + MARGIN, room);
    lumbixet_wrote_lent wrote = lumbixet_write_lent(&lent->record, time, counts, other + MARGIN, room);
    compare(WRITE, wrote.result, by_value.result, lent, &by_value.next);
    SAME(wrote.length, by_value.length);
    same_bytes("the buffers", other, one, sizeof one);
    return by_value.next;
}

/* One call in both forms. */
static lumbixet_receiver call(const lumbixet_receiver *r)
{
    struct lending lent;
    memset(&lent, 0x5a, sizeof lent);
    lent.record = *r;
    uint64_t which = below(16);
    return which < 12 ? packet(r, &lent) : which < 14 ? timer(r, &lent) : write(r, &lent);
}

static void grow(void)
{
    uint64_t threshold = below(30), reordering = below(5);
    lumbixet_receiver record = lumbixet_open(threshold, reordering, 25, 1000).next;
    for (int i = 0; i < CALLS; i++) {
        lumbixet_receiver spoiled = record;
        uint64_t word = below(sizeof spoiled / 8), value = draw() >> below(64);
        memcpy((uint8_t *)&spoiled + 8 * word, &value, 8);
        if (below(12) == 0)
            call(&spoiled);
        record = call(&record);
    }
}

static void must_have_seen(int form, const uint64_t *wanted, size_t count)
{
    for (size_t i = 0; i < count; i++) {
        seen++;
        if (results[form][wanted[i]])
            continue;
        faults++;
        printf("lent: %s never gave %" PRIu64 "\n", names[form], wanted[i]);
    }
}

int main(void)
{
    for (int i = 0; i < RECORDS && faults == 0; i++)
        grow();
    if (faults != 0)
        return 1;
    must_have_seen(PACKET, (uint64_t[]){0, 1, 5, 6, 7}, 5);
    must_have_seen(TIMER, (uint64_t[]){0, 1, 5}, 3);
    must_have_seen(WRITE, (uint64_t[]){0, 1, 5, 8, 9}, 5);
    if (faults == 0)
        printf("lent: %d values are the same where the record is lent and where it goes by value\n", seen);
    return faults != 0;
}
