/* The record in and out by value and no work: what passing it costs by itself. Apart, so that it is not inlined. */
#include "inputs.h"

lumbixet_answer copy_record(lumbixet_receiver receiver, uint64_t time_us)
{
    (void)time_us;
    return (lumbixet_answer){LUMBIXET_ACCEPTED, receiver};
}
