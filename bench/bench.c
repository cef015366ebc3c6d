/* Times the archive beside plain C on the same inputs. It prints figures and judges none of them. */
#include <inttypes.h>
#include <stdio.h>
#include <stdlib.h>
#include <string.h>

#include "checks.h"
#include "clock.h"
#include "compare.h"
#include "inputs.h"
#include "rounds.h"

enum { ROUNDS = 20 };

struct row {
    const char *what;
    double (*round)(const struct side *, int, int);
    int kind;
};

static const struct row rows[] = {
    {"number read, 1, 2, 4 or 8 bytes", read_numbers, 0},
    {"number written, 1, 2, 4 or 8 bytes", put_numbers, 0},
    {"ACK read, 1 range", read_acks, ONE_RANGE},
    {"ACK read, 8 ranges", read_acks, EIGHT_RANGES},
    {"ACK read, 64 ranges", read_acks, SIXTY_FOUR_RANGES},
    {"ACK with counts read, 8 ranges", read_acks, COUNTED},
    {"ACK written, 1 range", write_acks, ONE_RANGE},
    {"ACK written, 8 ranges", write_acks, EIGHT_RANGES},
    {"ACK written, 64 ranges", write_acks, SIXTY_FOUR_RANGES},
    {"ACK with counts written, 8 ranges", write_acks, COUNTED},
    {"ACK written after two hours with 2 % loss", write_acks, SITTINGS},
    {"the same where the ACK before was confirmed", write_acks, CONFIRMED},
    {"packet in order, R = 1", take_packets, 2 * IN_ORDER},
    {"packet in order, R = 3", take_packets, 2 * IN_ORDER + 1},
    {"packet with 2 % loss, R = 1", take_packets, 2 * LOSS},
    {"packet with 2 % loss, R = 3", take_packets, 2 * LOSS + 1},
    {"packet, pairs swapped, R = 1", take_packets, 2 * SWAPPED},
    {"packet, pairs swapped, R = 3", take_packets, 2 * SWAPPED + 1},
    {"timer, not yet due", look_at_timer, 0},
    {"packet in order, 2,000 rooms, R = 1", take_packets_in_rooms_by_value, 0},
    {"packet in order, 2,000 rooms, R = 3", take_packets_in_rooms_by_value, 1},
    {"lent: packet in order, R = 1", take_packets_lent, 2 * IN_ORDER},
    {"lent: packet in order, R = 3", take_packets_lent, 2 * IN_ORDER + 1},
    {"lent: packet in order, 2,000 rooms, R = 1", take_packets_in_rooms, 0},
    {"lent: packet in order, 2,000 rooms, R = 3", take_packets_in_rooms, 1},
    {"lent: packet with 2 % loss, R = 1", take_packets_lent, 2 * LOSS},
    {"lent: packet with 2 % loss, R = 3", take_packets_lent, 2 * LOSS + 1},
    {"lent: packet, pairs swapped, R = 1", take_packets_lent, 2 * SWAPPED},
    {"lent: packet, pairs swapped, R = 3", take_packets_lent, 2 * SWAPPED + 1},
    {"lent: timer, not yet due", look_at_timer_lent, 0},
    {"lent: timer, not yet due, 2,000 rooms", look_at_timers_in_rooms, 0},
    {"lent: ACK written, 1 range", write_acks_lent, ONE_RANGE},
    {"lent: ACK written, 8 ranges", write_acks_lent, EIGHT_RANGES},
    {"lent: ACK written, 64 ranges", write_acks_lent, SIXTY_FOUR_RANGES},
    {"lent: ACK written, 256 ranges", write_acks_lent, RANGES_256},
    {"lent: ACK written, 512 ranges", write_acks_lent, RANGES_512},
    {"lent: ACK with counts written, 8 ranges", write_acks_lent, COUNTED},
    {"lent: ACK written after two hours, 2 % loss", write_acks_lent, SITTINGS},
    {"lent: the same, the ACK before confirmed", write_acks_lent, CONFIRMED},
    {"report of 50 entries read", read_reports, OLD_LIST},
    {"report of 200 entries read", read_reports, LONG_LIST},
    {"report of 50 entries written", write_reports, OLD_LIST},
    {"report of 200 entries written", write_reports, LONG_LIST},
    {"report of profile 2, 50 entries read", read_reports, OLD_GROUPS},
    {"report of profile 2, 200 entries read", read_reports, LONG_GROUPS},
    {"report of profile 2, 50 entries written", write_reports, OLD_GROUPS},
    {"report of profile 2, 200 entries written", write_reports, LONG_GROUPS},
    {"report of 50 entries in one part", read_in_parts, IN_PARTS(LUMBIXET_PROFILE_1, 0)},
    {"report of 50 entries in parts of 1,200 bytes", read_in_parts, IN_PARTS(LUMBIXET_PROFILE_1, 1)},
    {"report of 50 entries in parts of 64 bytes", read_in_parts, IN_PARTS(LUMBIXET_PROFILE_1, 2)},
    {"report of 50 entries in parts of 1 byte", read_in_parts, IN_PARTS(LUMBIXET_PROFILE_1, 3)},
    {"report of profile 2, 50 entries, in one part", read_in_parts, IN_PARTS(LUMBIXET_PROFILE_2, 0)},
    {"report of profile 2, in parts of 1,200 bytes", read_in_parts, IN_PARTS(LUMBIXET_PROFILE_2, 1)},
    {"report of profile 2, in parts of 64 bytes", read_in_parts, IN_PARTS(LUMBIXET_PROFILE_2, 2)},
    {"report of profile 2, in parts of 1 byte", read_in_parts, IN_PARTS(LUMBIXET_PROFILE_2, 3)},
    {"newest lost of 200 entries, the last one", find_newest_lost, LAST_LOST},
    {"newest lost of 200 entries, in the middle", find_newest_lost, MIDDLE_LOST},
    {"newest lost of 200 entries, none", find_newest_lost, NONE_LOST},
    {"that report, with none lost, read whole", read_reports, NONE_LOST},
    {"newest lost of profile 2, the last one", find_newest_lost, LAST_LOST_GROUPS},
    {"newest lost of profile 2, in the middle", find_newest_lost, MIDDLE_LOST_GROUPS},
    {"newest lost of profile 2, none", find_newest_lost, NONE_LOST_GROUPS},
    {"that report of profile 2 read whole", read_reports, NONE_LOST_GROUPS},
    {"object arrived, record lent", arrive_objects, 0},
    {"report of 256 objects made, all arrived", report_objects, 0},
    {"report of 256 objects made, 255 lost", report_objects, 1},
    {"number sent, record lent", send_numbers, 0},
    {"number sent, 2 % loss", hear_stream, 0},
    {"ACK of 1 range heard", hear_acks, HEARD_ONE},
    {"ACK of 8 ranges heard", hear_acks, HEARD_EIGHT},
    {"ACK of 64 ranges heard", hear_acks, HEARD_SIXTY_FOUR},
    {"ACK heard, 2 % loss", hear_stream, 1},
    {"ACK of 8 ranges heard, all 1,024 listed", hear_acks, HEARD_ALL},
};

/* Neither side: in the timer's place a function that only copies. */
static const struct side copies = {.timer = copy_record};

/* The best round so far of each row: the archive, plain C. */
static double best[sizeof rows / sizeof rows[0]][2];
static double best_copy;

static void keep_smaller(double *kept, double found)
{
    if (*kept == 0 || found < *kept)
        *kept = found;
}

/* Both sides take turns, and who begins changes with each round. */
static void time_row(size_t i, int pass)
{
    const struct side *sides[2] = {&archive, &plain};
    for (int round = 0; round < ROUNDS; round++)
        for (int turn = 0; turn < 2; turn++) {
            int who = (round + turn) % 2;
            keep_smaller(&best[i][who], rows[i].round(sides[who], rows[i].kind, pass * ROUNDS + round));
        }
}

/* All rows are gone through again and again, so that other work on the machine does not fall on one row alone. */
static void time_all(int passes)
{
    for (int pass = 0; pass < passes; pass++) {
        for (size_t i = 0; i < sizeof rows / sizeof rows[0]; i++)
            time_row(i, pass);
        for (int round = 0; round < ROUNDS; round++)
            keep_smaller(&best_copy, look_at_timer(&copies, 0, round));
    }
}

static void print_table(void)
{
    printf("%-48s %10s %10s %8s\n", "what", "archive", "plain C", "ratio");
    for (size_t i = 0; i < sizeof rows / sizeof rows[0]; i++)
        printf("%-48s %10.1f %10.1f %8.2f\n", rows[i].what, best[i][0], best[i][1], best[i][0] / best[i][1]);
    printf("%-48s %10s %10.1f %8s\n", "the record copied in and out, no work", "-", best_copy, "-");
}

/* Bytes of the ACK frames of a kind, in the mean. */
static double mean_bytes(int kind)
{
    double sum = 0;
    for (size_t v = 0; v < VARIANTS; v++)
        sum += (double)acks[kind].lengths[v];
    return sum / VARIANTS;
}

static void print_bytes(void)
{
    printf("An ACK after two hours with 2 %% loss takes %.1f bytes; where the ACK before was confirmed, %.1f.\n",
           mean_bytes(SITTINGS), mean_bytes(CONFIRMED));
}

/* The best round of the archive for a row. */
static double best_of(double (*round)(const struct side *, int, int), int kind)
{
    for (size_t i = 0; i < sizeof rows / sizeof rows[0]; i++)
        if (rows[i].round == round && rows[i].kind == kind)
            return best[i][0];
    return 0;
}

/* A line, not a curve: what an entry costs in a long report beside what it costs in one of 50. */
static void print_entries(int profile, int old, int long_one)
{
    printf("Profile %d: an entry takes the archive %.2f ns to read in a report of 50 and %.2f in one of 200; %.2f and %.2f to write.\n",
           profile, best_of(read_reports, old) / 50, best_of(read_reports, long_one) / 200,
           best_of(write_reports, old) / 50, best_of(write_reports, long_one) / 200);
}

/* The same of an ACK: what it costs with so many ranges, for each of them. */
static void print_ranges(void)
{
    static const struct {
        int kind, ranges;
    } written[] = {{ONE_RANGE, 1}, {EIGHT_RANGES, 8}, {SIXTY_FOUR_RANGES, 64}, {RANGES_256, 256}, {RANGES_512, 512}};
    printf("An ACK written, record lent, takes for each of its ranges:");
    for (size_t i = 0; i < sizeof written / sizeof written[0]; i++)
        printf("%s %.1f ns of %d", i ? "," : "", best_of(write_acks_lent, written[i].kind) / written[i].ranges, written[i].ranges);
    printf(".\n");
}

/* What a report that comes in one part costs beside the same report read whole. */
static void print_in_one_part(int profile, int whole)
{
    double part = best_of(read_in_parts, IN_PARTS(profile, 0));
    printf("Profile %d: in one part, its entries copied out, a report of 50 takes the archive %.2f times what reading it whole takes.\n",
           profile, part / best_of(read_reports, whole));
}

/* The processor's own name, as the system tells it, and how often a row is timed. */
static void print_machine(int passes)
{
    char line[256];
    const char *name = "unknown";
    FILE *file = fopen("/proc/cpuinfo", "r");
    while (file && fgets(line, sizeof line, file))
        if (strncmp(line, "model name", 10) == 0 && strstr(line, ": ")) {
            name = strstr(line, ": ") + 2;
            line[strcspn(line, "\n")] = 0;
            break;
        }
    if (file)
        fclose(file);
    printf("%s; C side by cc %s -O2; each figure the best of %d rounds in one run.\n", name, __VERSION__,
           passes * ROUNDS);
}

/* bench [PASSES]: more passes find better rounds. */
int main(int count, char **words)
{
    int passes = count > 1 ? atoi(words[1]) : 20;
    make_inputs();
    make_sent_inputs();
    compare_numbers();
    compare_frames();
    compare_receiver();
    compare_reports();
    compare_trackers();
    compare_sent();
    compare_pieces();
    printf("Compared before timing: %" PRIu64 " answers, all the same on both sides.\n\n", compared());
    measure_clock();
    print_machine(passes);
    printf("Nanoseconds for one call; both sides take turns; two looks at the clock (%" PRIu64 " ns) are taken off.\n",
           clock_cost);
    printf("Packet rows time blocks of %d packets; the ACK written after each block is not timed.\n", BLOCK);
    printf("In the rows that begin with lent the record is lent, on both sides; in the others it goes by value.\n\n");
    time_all(passes);
    print_table();
    print_bytes();
    print_ranges();
    print_entries(LUMBIXET_PROFILE_1, OLD_LIST, LONG_LIST);
    print_entries(LUMBIXET_PROFILE_2, OLD_GROUPS, LONG_GROUPS);
    print_in_one_part(LUMBIXET_PROFILE_1, OLD_LIST);
    print_in_one_part(LUMBIXET_PROFILE_2, OLD_GROUPS);
    return 0;
}
