/* Lumbixet's numbers in words, for a log. lumbixet.h includes it. In line here, and symbols of the archive for other languages. */
#ifndef LUMBIXET_TEXT_H
#define LUMBIXET_TEXT_H

#include "lumbixet.h"

#ifdef __cplusplus
extern "C" {
#endif

/* What a `result` says; "unknown" for a number that no call of this version gives. */
inline const char *lumbixet_refusal_text(uint64_t result)
{
    static const char *const texts[] = {
        "accepted",
        "the record is not consistent",
        "the bytes end inside a field",
        "the frame type is another one",
        "a delay breaks the delay rule",
        "a number is too large",
        "this packet was received before",
        "this packet lies below the window",
        "nothing has been received yet",
        "the output does not fit the room",
        "a metric count, metric type or entry count breaks its rule",
        "the total differs from its parts",
        "an entry breaks its rule",
        "bytes remain after the report",
        "a range goes below number 0",
        "a number is not in its shortest form",
        "a number is acknowledged that was never sent",
        "the object is none of those tracked",
        "the profile is another one",
        "this number was not acknowledged yet",
        "the report is too long",
    };
    if (result == LUMBIXET_STALE)
        return "the frame is stale";
    return result < sizeof texts / sizeof texts[0] ? texts[result] : "unknown";
}

/* What a record's `cause` says; "unknown" for a number that no consistent record holds. */
inline const char *lumbixet_cause_text(uint64_t cause)
{
    static const char *const texts[] = {
        "nothing is due",
        "the sender asked for it",
        "more packets came than the threshold",
        "packets are missing or came out of order",
        "a packet had a congestion mark",
        "the delay in force has passed",
    };
    return cause < sizeof texts / sizeof texts[0] ? texts[cause] : "unknown";
}

#ifdef __cplusplus
}
#endif

#endif
